"""A device that bids by its kind and the state that is read of it. The agent of its node, a proved program, makes the bid."""

from __future__ import annotations

from datetime import datetime

from ..live.messages.frames import Stated
from ..live.device.device_kinds import DeviceKind
from ..simulation import Bid


class StatedDevice:
    """A device of a kind, with the newest state that was read, in the unit of the kind. See `cogmaula.simulation.Device`."""

    def __init__(self, kind: DeviceKind) -> None:
        """Takes the kind. The state is 0 before the first reading."""
        self.name = kind.kind
        self.kind = kind
        self.state = 0.0
        # Of which a state in % is a share.
        self.capacity = float(kind.members().get("capacity", 1.0))

    def bid(self, now: datetime) -> Bid:
        """See Device. A reading that no device of the kind may have counts as the nearest that one may."""
        return Stated(self.kind, self.kind.nearest_state(self.state))

    def step(self, power: int, minutes: float) -> None:
        """See Device. Its state is read, so it changes nothing."""
