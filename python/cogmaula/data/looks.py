"""What the columns of a table look like: their energy, least and most, and what is likely wrong with a unit or a kind."""

from __future__ import annotations

from collections.abc import Iterable, Iterator, Sequence
from dataclasses import dataclass

from .recipe import Table
from .tables import Measured

# A house below or above these watts in the mean has likely another unit.
FEW_WATTS, MANY_WATTS = 50, 50_000
# A load that is 0 in more than this share of a day's rows or more is likely solar.
MANY_ZEROS = 1 / 3
DAY = 1440


@dataclass(frozen=True)
class Look:
    """A column: the device's name, its energy in kWh, its least, mean and most watts, and the share of its rows that are 0."""

    name: str
    kind: str
    kwh: float
    least: int
    mean: float
    most: int
    zeros: float
    warning: str | None


def looks_of(tables: Iterable[tuple[Table, Measured]], minutes: int) -> list[Look]:
    """What each column looks like. A row lasts so many minutes."""
    return [
        look_of(table.name_of(name), table.kind, powers, minutes)
        for table, table_data in tables
        for name, powers in zip(table_data.columns, table_data.powers)
    ]


def look_of(name: str, kind: str, powers: Sequence[int], minutes: int) -> Look:
    """What a column looks like."""
    mean, zeros = sum(powers) / len(powers), powers.count(0) / len(powers)
    warning = warning_of(kind, powers, mean, zeros, minutes)
    return Look(name, kind, sum(powers) * minutes / 60_000, min(powers), mean, max(powers), zeros, warning)


def warning_of(kind: str, powers: Sequence[int], mean: float, zeros: float, minutes: int) -> str | None:
    """What is likely wrong with a column, or None."""
    is_day = len(powers) * minutes >= DAY
    if is_day and len(set(powers)) > len(powers) // 2 and all(a <= b for a, b in zip(powers, powers[1:])):
        return "it never falls: is it the count of a meter? A table has the power or the energy of each interval"
    if mean > MANY_WATTS:
        return f"its mean is {mean:,.0f} W, above {MANY_WATTS:,}: is the unit too large, or is it more than a house?"
    if kind == "load" and mean < FEW_WATTS:
        return f"its mean is {mean:,.1f} W, below {FEW_WATTS}: is the unit kW?"
    if kind == "solar" and is_day and max(powers) < FEW_WATTS:
        return f"it is at most {max(powers):,} W: is the unit kW?"
    if kind == "load" and is_day and zeros > MANY_ZEROS:
        return f"it is 0 in {zeros:.0%} of its rows: is it solar?"
    if kind == "solar" and is_day and zeros == 0:
        return "it is never 0, not even at night: is it a load?"
    return None


def lines_of(looks: Sequence[Look]) -> Iterator[str]:
    """The columns as the lines of a text, with a head."""
    wide = max(len(look.name) for look in looks)
    yield f"{'device':<{wide}}  kind        kWh    least W     mean W     most W  zero"
    for look in looks:
        yield f"{look.name:<{wide}}  {look.kind:<5} {look.kwh:>9,.1f} {look.least:>10,} {look.mean:>10,.0f} {look.most:>10,} {look.zeros:>5.0%}"
