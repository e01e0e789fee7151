"""A device's newest bid that its parent refused as too much: the bid before it counts, and the agent has to know its offer."""

from __future__ import annotations

from collections.abc import Callable

from ...logs import NodeLog
from ..messages.frames import DeviceResume, Leave, Offer
from .offers import Offers


class RefusedBid:
    """The refusals of one device in one session.

    An agent that comes back knows the offer of its newest bid alone. If that was refused, the agent drops each price, since these answer
    the bid before. Then the offer of that bid is made anew, or the device leaves if nobody knows it.
    """

    def __init__(self, offers: Offers, answer: Callable[[str], None], log: NodeLog) -> None:
        """Takes the offers of the device, a call that tells its control why an offer is not taken, and a log."""
        self._offers = offers
        self._answer = answer
        self._log = log
        # The numbers of the bid that was refused last, and of the bid that the price was for which the agent dropped last.
        self._number = self._dropped = 0

    def refuse(self, number: int, why: str, newest: DeviceResume, before: DeviceResume | None) -> None:
        """Takes that the newest bid, of this number, was refused. `before` has the offer that counted before it, None if nobody knows it."""
        self._number = number
        self._answer(f"bid {number} is {why}: the one before counts")
        self._mend(newest, before)

    def dropped(self, number: int, newest: DeviceResume, before: DeviceResume | None) -> None:
        """Takes that the agent dropped a price for its bid of this number."""
        self._dropped = number
        self._mend(newest, before)

    def offer_before(self, before: DeviceResume, kept: DeviceResume | None) -> DeviceResume | None:
        """The offer that counts if a bid behind this one is refused: this one, or the one kept before it if this one was refused itself."""
        return kept if self._number == before.last else before

    def _mend(self, newest: DeviceResume, before: DeviceResume | None) -> None:
        if self._number != newest.last or not 0 < self._dropped < newest.last or self._offers.has_wanted:
            return
        self._dropped = 0
        if before is not None and before.demands != newest.demands:
            self._log.warning(f"bid {newest.last} was refused, and no price for bid {before.last} is taken any more: its offer is made anew")
            self._offers.want(Offer(before.demands), self._offers.references.get(before.last))
        else:
            self._log.warning(f"bid {newest.last} was refused, and the offer before it is not known: the device leaves")
            self._answer(f"bid {newest.last} was refused, and the offer before it is not known: the device leaves until the next offer")
            self._offers.want(Leave())
