"""Devices that do what they are given: a load and a roof their power at every price, and a manual device its bid."""

from __future__ import annotations

from collections.abc import Callable
from dataclasses import dataclass
from datetime import datetime

from .clocked import Clocked
from .device import Bid
from .profiles import Profile


@dataclass(kw_only=True)
class _Given(Clocked):
    """A device with a given power in watts, rounded to whole ones. Its state is that power."""

    name: str
    power: Profile
    state: float = 0.0

    def bid(self, now: datetime) -> Bid:
        """See Device."""
        self._is_at(now)
        self.state = round(self._given(self.power))
        return int(self.state)

    def step(self, power: int, minutes: float) -> None:
        """See Device. It changes nothing but the moment."""
        self._passes(minutes)


@dataclass(kw_only=True)
class Load(_Given):
    """Takes the given power."""


@dataclass(kw_only=True)
class Solar(_Given):
    """Delivers the given power, a positive number; wind and all else that delivers what it has is written so too."""

    def bid(self, now: datetime) -> Bid:
        """See Device."""
        super().bid(now)
        return -int(self.state)


@dataclass
class Manual:
    """A device that makes the bid that it is given, such as the connection to a supplier who sells at one price and buys at another.

    offer: the bid; or a function that gives that of a moment, such as the price of an exchange for the hour
    """

    name: str
    offer: Bid | Callable[[datetime], Bid]
    state: float = 0.0

    def bid(self, now: datetime) -> Bid:
        """See Device."""
        return self.offer(now) if callable(self.offer) else self.offer

    def step(self, power: int, minutes: float) -> None:
        """See Device. It changes nothing."""
