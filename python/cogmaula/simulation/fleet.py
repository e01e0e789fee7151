"""Many devices of one kind at once: a fleet bids for all its devices by an array, which costs a fraction of one device after another."""

from __future__ import annotations

from collections.abc import Sequence
from datetime import datetime
from typing import TYPE_CHECKING, Any, Protocol, runtime_checkable

if TYPE_CHECKING:
    from numpy.typing import NDArray


@runtime_checkable
class Fleet(Protocol):
    """Devices whose states, bids and powers are arrays. A state is what a `Device` has as one."""

    names: Sequence[str]
    # The state of each device at the start, float64 [devices].
    states: Any

    def bids(self, now: datetime, states: NDArray[Any], prices: NDArray[Any]) -> NDArray[Any]:
        """What each device would take at each price from this moment on, in whole watts: [devices, prices], below 0 to give.

        No row rises with the price.
        """

    def step(self, now: datetime, states: NDArray[Any], powers: NDArray[Any], minutes: float) -> NDArray[Any]:
        """The states after so many minutes in which each device takes so many watts, from this moment on."""
