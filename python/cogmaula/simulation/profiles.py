"""What a model is given from outside over time, such as the weather or what a house draws: a number, a function of the moment, or a
series of pandas with the times as its index."""

from __future__ import annotations

from collections.abc import Callable, Sequence
from dataclasses import dataclass
from datetime import datetime
from math import isfinite
from typing import TYPE_CHECKING, Any, Union

from ..moments import later, minutes_between, zone_of

if TYPE_CHECKING:
    from pandas import Series

# The greatest share of an energy that whole watts may change: those of kilowatts change more.
MOST_ROUNDED = 0.05

# A number; a function of the moment; or a series whose values each hold until the next, of pandas, which need not be there.
if TYPE_CHECKING:
    Profile = Union[float, Callable[[datetime], float], Series]
else:
    Profile = float | Callable[[datetime], float]


def is_series(profile: object) -> bool:
    """Whether this is a series of pandas, which need not be there."""
    return hasattr(profile, "index") and hasattr(profile, "to_numpy")


@dataclass(frozen=True)
class Held:
    """Values that each hold for so many minutes, one behind another from a start on, as a measured table has them.

    start:   when the first value begins; with a zone if the moments of the simulation have one, and whatever their zone is
    repeats: whether the values begin again behind the last, as those of a typical day, and so go by the clock of the start's zone: on the
             day of a switch an hour is left out or comes twice. Else the first holds before the start, and the last behind the end
    """

    start: datetime
    minutes: float
    values: Sequence[float]
    repeats: bool = False

    def __post_init__(self) -> None:
        """Raises ValueError if there is no value, or it holds for no time."""
        if not len(self.values) or not self.minutes > 0:
            raise ValueError(f"{len(self.values)} values of {self.minutes} minutes: give one or more, each above 0 minutes")

    def __call__(self, now: datetime) -> float:
        """The value that holds at a moment. Raises ValueError if only one of it and the start has a zone."""
        if self.repeats:
            return float(self.values[int(self._by_the_clock(now) // self.minutes) % len(self.values)])
        at = int(minutes_between(self.start, now) // self.minutes)
        return float(self.values[min(max(at, 0), len(self.values) - 1)])

    def _by_the_clock(self, now: datetime) -> float:
        """The minutes from the start on, as the clock of its zone counts them."""
        zone = self.start.tzinfo
        if zone is None or now.tzinfo is None:
            return minutes_between(self.start, now)
        return minutes_between(self.start.replace(tzinfo=None), now.astimezone(zone).replace(tzinfo=None))


def held_of(series: Any) -> Held:
    """A series as values that each hold until the next; the last holds as long as the others.

    Raises ValueError with the time if the index has no times, a row comes twice, or rows are not equally far apart.
    """
    times = list(series.index)
    if not times or not all(hasattr(time, "to_pydatetime") for time in times):
        raise ValueError("a series without rows, or whose index has no times: give it a DatetimeIndex")
    apart = (times[1] - times[0]).total_seconds() / 60 if len(times) > 1 else 60.0
    for before, time in zip(times, times[1:]):
        if time == before:
            raise ValueError(f"{time.isoformat()} twice: keep one row of each time")
        if (time - before).total_seconds() / 60 != apart or apart < 0:
            raise ValueError(f"a gap at {before.isoformat()}: the next row is of {time.isoformat()}, and rows are {apart:g} minutes apart")
    first = times[0].to_pydatetime()
    try:
        first = first if times[0].tzinfo is None else first.astimezone(zone_of(str(times[0].tzinfo)))
    except ValueError:
        pass
    return Held(first, apart, series.to_numpy(dtype=float).tolist())


def fault_in(profile: object, begin: datetime, end: datetime) -> str | None:
    """What is wrong with a table between two moments, with the time, in the zone of the first; None if nothing is, or it is no table."""
    try:
        table = held_of(profile) if is_series(profile) else profile
        return _gap_in(table, begin, end) if isinstance(table, Held) else None
    except ValueError as fault:
        return str(fault)


def kilowatts_in(profile: object) -> str | None:
    """Why a series is likely in kilowatts: whole watts would change its energy by more than a twentieth. None if it is not."""
    if not is_series(profile):
        return None
    powers = [abs(power) for power in held_of(profile).values]
    if sum(abs(power - round(power)) for power in powers) <= MOST_ROUNDED * sum(powers):
        return None
    at = max(range(len(powers)), key=lambda place: abs(powers[place] - round(powers[place])))
    return f"{powers[at]:g} at {profile.index[at].isoformat()}: are these kilowatts? Give watts"  # type: ignore[attr-defined]


def _gap_in(table: Held, begin: datetime, end: datetime) -> str | None:
    """The first value of a table between two moments that is no number."""
    first, last = (minutes_between(table.start, moment) // table.minutes for moment in (begin, end))
    many = len(table.values)
    rows = range(many) if table.repeats else range(min(max(int(first), 0), many - 1), min(max(int(last), 0), many - 1) + 1)
    for at in rows:
        if not isfinite(table.values[at]):
            time = later(table.start, at * table.minutes)
            time = time if begin.tzinfo is None else time.astimezone(begin.tzinfo)
            return f"{table.values[at]} at {time.isoformat()}"
    return None
