"""The moment that a model is at, and the temperature of one body of heat as it passes."""

from __future__ import annotations

from dataclasses import dataclass, field
from datetime import datetime
from math import exp

from ..moments import later
from .profiles import Held, Profile, held_of

# What a litre of water takes to become a degree warmer, in watt-hours.
WATER = 1.163


@dataclass
class Clocked:
    """A model that knows its moment: that of its last bid, moved on by each step."""

    _now: datetime | None = field(default=None, init=False, repr=False, compare=False)
    _tables: dict[int, tuple[Profile, Held]] = field(default_factory=dict, init=False, repr=False, compare=False)

    def _is_at(self, now: datetime) -> None:
        self._now = now

    def _passes(self, minutes: float) -> None:
        if self._now is not None:
            self._now = later(self._now, minutes)

    def _given(self, profile: Profile) -> float:
        """What a profile has at the model's moment. Raises ValueError if the model has no moment yet and the profile needs it."""
        if isinstance(profile, float | int):
            return profile
        if self._now is None:
            raise ValueError("the model knows no moment yet: call bid before step")
        if callable(profile):
            return profile(self._now)
        # A series is looked at once, and kept, so that no other one gets its number.
        if id(profile) not in self._tables:
            self._tables[id(profile)] = profile, held_of(profile)
        return self._tables[id(profile)][1](self._now)


def temperature_after(temperature: float, towards: float, constant: float, minutes: float) -> float:
    """The temperature of a body that moves towards another one, after so many minutes.

    constant: the hours in which the distance falls to 1/e: what the body keeps for a degree, divided by what it loses for one
    """
    return towards + (temperature - towards) * exp(-minutes / 60 / constant)
