"""An electric vehicle that has to be charged when it departs."""

from __future__ import annotations

from dataclasses import dataclass, field
from datetime import datetime, time, timedelta

from ..moments import minutes_between
from .clocked import Clocked
from .device import Bid, between, require_prices, up_to


@dataclass(kw_only=True)
class Vehicle(Clocked):
    """A vehicle that arrives each day, and departs the next time that the clock says so.

    It pays more the less time is left: at every price if it would be too late when its bid has held.

    power:    the greatest power of its charger, in watts
    arrival, departure: times of the day; it is there from the first up to the second, over midnight too
    needed:   the energy that it needs at each departure, in watt-hours, when it arrives
    prices:   what it pays at most if it has all the time, and if it has none
    interval: minutes for which its bid has to hold
    missing:  the energy that it still needs, in watt-hours: its state. At the start 0, so that the first arrival sets it
    unmet:    what was missing at its departures, in all, in watt-hours
    """

    name: str
    power: float
    arrival: time
    departure: time
    needed: float
    prices: tuple[int, int]
    interval: float = 15.0
    missing: float = 0.0
    unmet: float = field(default=0.0, init=False)
    _leaves: datetime | None = field(default=None, init=False, repr=False)

    def __post_init__(self) -> None:
        """Raises ValueError for what no vehicle has."""
        require_prices(self.name, self.prices)
        if self.arrival == self.departure or not (self.power > 0 and self.needed >= 0 and self.missing >= 0 and self.interval > 0):
            raise ValueError(f"{self.name}: a departure apart from the arrival, a power and an interval above 0 and energies of 0 or more are due")

    @property
    def state(self) -> float:
        """The energy that it still needs, in watt-hours; 0 if it is away."""
        return self.missing

    @property
    def is_there(self) -> bool:
        """Whether it is at its charger."""
        return self._leaves is not None

    def bid(self, now: datetime) -> Bid:
        """See Device."""
        self._is_at(now)
        self._comes_or_goes(now)
        if self._leaves is None or not self.missing:
            return 0
        takes = int(min(self.power, self.missing * 60 / self.interval))
        due, left = self.missing / self.power, minutes_between(now, self._leaves) / 60
        # Once its bid has held it would be too late.
        is_last = due > left - self.interval / 60
        return takes if is_last else up_to(between(self.prices, due / left), takes)

    def step(self, power: int, minutes: float) -> None:
        """See Device."""
        if self._leaves is not None:
            self.missing = max(0.0, self.missing - power * minutes / 60)
        self._passes(minutes)

    def _comes_or_goes(self, now: datetime) -> None:
        """Departs and arrives, by the clock."""
        if self._leaves is not None and minutes_between(now, self._leaves) <= 0:
            self.unmet += self.missing
            self.missing, self._leaves = 0.0, None
        if self._leaves is None and (leaves := self._end_of_stay(now)) is not None:
            self._leaves = leaves
            self.missing = self.missing or self.needed

    def _end_of_stay(self, now: datetime) -> datetime | None:
        """When it departs if it is there at a moment, else None. Of an hour that a clock shows twice the first counts."""
        nights = 1 if self.departure < self.arrival else 0
        for late in range(nights + 1):
            day = now.date() - timedelta(days=late)
            arrives = datetime.combine(day, self.arrival, now.tzinfo)
            leaves = datetime.combine(day + timedelta(days=nights), self.departure, now.tzinfo)
            if minutes_between(arrives, now) >= 0 and minutes_between(now, leaves) > 0:
                return leaves
        return None
