"""A strategy of solar power that can be limited: it gives what the sun allows from a price on, and nothing below that."""

from __future__ import annotations

from datetime import datetime

from cogmaula.simulation import Bid


class CurtailedSolar:
    """Gives `state` watts, which the sun allows now, at each price of `least_price` or more."""

    def __init__(self, name: str, least_price: int) -> None:
        """Takes the name, and the least price at which it gives."""
        self.name, self.least_price = name, least_price
        self.state = 0.0

    def bid(self, now: datetime) -> Bid:
        """The watts that it would give, below 0."""
        gives = -int(max(self.state, 0))
        return [(self.least_price, 0), (self.least_price, gives)] if gives else 0

    def step(self, power: int, minutes: float) -> None:
        """What the sun allows is read, so a power changes nothing."""
