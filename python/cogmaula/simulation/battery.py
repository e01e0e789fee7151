"""A home battery that bids in proportion to its charge."""

from __future__ import annotations

from dataclasses import dataclass
from datetime import datetime

from .device import Bid, between, require_prices


@dataclass
class Battery:
    """A battery with limits of power, losses and a reserve.

    It buys below a middle price and sells above it, each in proportion to the distance. The middle is at the dear end of its prices if
    it has its reserve alone, and at the cheap end if it is full.

    capacity:          what it holds, in watt-hours
    charge, discharge: the greatest powers at its terminals, in watts
    prices:            at the first it charges with all its power, at the second it discharges so
    energy:            what it holds at the start, in watt-hours: its state
    efficiency:        the share of a charge that comes back; half of the loss is on each way, as factors
    reserve:           watt-hours that it does not sell
    interval:          minutes for which its bid has to hold: it offers no more than fits into them
    """

    name: str
    capacity: float
    charge: float
    discharge: float
    prices: tuple[int, int]
    energy: float
    efficiency: float = 1.0
    reserve: float = 0.0
    interval: float = 15.0

    def __post_init__(self) -> None:
        """Raises ValueError for what no battery has."""
        require_prices(self.name, self.prices)
        if not (0 <= self.reserve < self.capacity and 0 <= self.energy <= self.capacity):
            raise ValueError(f"{self.name}: reserve and energy lie from 0 to the capacity, {self.capacity} Wh, the reserve below it")
        if not (0 < self.efficiency <= 1 and self.charge >= 0 and self.discharge >= 0 and self.interval > 0):
            raise ValueError(f"{self.name}: an efficiency of 0 to 1, powers of 0 or more and an interval above 0 are due")

    @property
    def state(self) -> float:
        """What it holds, in watt-hours."""
        return self.energy

    @property
    def _way(self) -> float:
        """The share that is left on each way, in and out."""
        return float(self.efficiency**0.5)

    def bid(self, now: datetime) -> Bid:
        """See Device. Between the ends of its prices and the middle its power lies on straight lines."""
        hours = self.interval / 60
        takes = min(self.charge, (self.capacity - self.energy) / self._way / hours)
        gives = min(self.discharge, max(0.0, self.energy - self.reserve) * self._way / hours)
        fullness = (self.energy - self.reserve) / (self.capacity - self.reserve)
        cheap, dear = self.prices
        return [(cheap, int(takes)), (between(self.prices, 1 - fullness), 0), (dear, -int(gives))]

    def step(self, power: int, minutes: float) -> None:
        """See Device. A battery that is full or empty stays so."""
        inside = power * self._way if power > 0 else power / self._way
        self.energy = min(max(self.energy + inside * minutes / 60, 0.0), self.capacity)
