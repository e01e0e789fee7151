"""The Prices of the parent as a node feeds them to its service: only the newest, and only if it is new."""

from __future__ import annotations

from ..messages.frames import Price
from ..children.pricing import is_of_same_power

# How many clearings' times are remembered.
TIMES = 64


class PriceFeed:
    """What one node has heard of its parent's prices in one session. Times are seconds of a clock that only rises."""

    def __init__(self) -> None:
        """No price was heard yet."""
        self._newest: Price | None = None
        # The one that the service was fed last, when that was, and whether the service took it.
        self._fed: Price | None = None
        self._fed_at = 0.0
        self._is_taken = True
        # When each clearing was, by its index.
        self.times: dict[int, str] = {}

    def hear(self, price: Price, moment: str) -> None:
        """Takes a Price, unless a newer one came. `moment` is when its clearing was (RFC 3339), "" if that was not told."""
        if self._newest is not None and price.index < self._newest.index:
            return
        self.times[price.index] = moment
        while len(self.times) > TIMES:
            del self.times[min(self.times)]
        self._newest = price

    def due(self, now: float, heartbeat: float) -> Price | None:
        """The Price that the service has to be fed now, None if there is none. It counts as fed.

        A Price that gives the same power as the one before is not new, and waits for one heartbeat.
        """
        price = self._newest
        if price is None or not self._is_due(price, now, heartbeat):
            return None
        self._fed, self._fed_at, self._is_taken = price, now, True
        return price

    def _is_due(self, price: Price, now: float, heartbeat: float) -> bool:
        before = self._fed
        if before is None or not self._is_taken or not is_of_same_power(before, price):
            return price != before
        return price.index > before.index and now >= self._fed_at + heartbeat

    def not_taken(self, number: int, index: int) -> None:
        """Notes that the service did not take a Price: the next one is new, whatever it says."""
        if self._fed is not None and (self._fed.number, self._fed.index) == (number, index):
            self._is_taken = False

    def starts(self) -> None:
        """Notes that the service starts, and was fed none."""
        self._fed = None
