"""Tables of measured powers: a row for each interval, a column for each device, in whole watts."""

from __future__ import annotations

from collections.abc import Sequence
from dataclasses import dataclass, field
from datetime import datetime, timedelta
from decimal import ROUND_HALF_EVEN, Decimal
from fractions import Fraction
from zoneinfo import ZoneInfo

from ..schema import limits_of
from .faults import TableFault
from .recipe import Table
from .sheets import number_of, read_rows, spaced

# More digits than this before the decimal sign are far beyond what the market takes.
MOST_DIGITS = 15


@dataclass(frozen=True)
class Measured:
    """What a table measured: `powers[c][r]` is the mean power of column `c` over the interval of row `r`, in whole watts.

    `times[r]` is when that interval begins: in UTC if the table's times have a zone or an offset.
    `told` has a line for each thing that was filled in or left out.
    """

    columns: tuple[str, ...]
    times: tuple[datetime, ...]
    powers: tuple[tuple[int, ...], ...]
    told: tuple[str, ...] = field(default=(), compare=False)

    def between(self, begin: datetime | None, end: datetime | None) -> Measured:
        """The rows from `begin` on and before `end`; None sets no limit."""
        rows = [at for at, time in enumerate(self.times) if (begin is None or begin <= time) and (end is None or time < end)]
        powers = tuple(tuple(column[at] for at in rows) for column in self.powers)
        return Measured(self.columns, tuple(self.times[row] for row in rows), powers, self.told)

    def resampled(self, name: str, minutes: int, wanted: int) -> Measured:
        """The means over intervals of `wanted` minutes of rows of `minutes`, in whole watts, halves to even.

        One number is a multiple of the other. Rows at the end that fill no interval are left out, which is told.
        """
        if wanted <= minutes:
            parts = minutes // wanted
            times = [time + timedelta(minutes=wanted * at) for time in self.times for at in range(parts)]
            return Measured(self.columns, tuple(times), tuple(tuple(power for power in column for _ in range(parts)) for column in self.powers), self.told)
        rows = wanted // minutes
        whole = len(self.times) // rows
        told = [f"{name}: {rows} rows make a tick of {wanted} minutes, by their mean"]
        if rest := len(self.times) - whole * rows:
            told.append(f"{name}: the last {counted(rest, 'row')} fill no tick and are left out")
        powers = tuple(tuple(round(Fraction(sum(column[at * rows : (at + 1) * rows]), rows)) for at in range(whole)) for column in self.powers)
        return Measured(self.columns, self.times[: whole * rows : rows], powers, (*self.told, *told))


def read_table(table: Table, minutes: int, zone: ZoneInfo | None = None, missing: str | None = None) -> Measured:
    """Reads a table whose rows are so many minutes apart.

    zone:    of the times without an offset; None if their clock is never changed
    missing: what an empty cell and a row that is not there count as: `hold` for the value before, `zero`, or None for a fault

    Numbers are read as decimals and become whole watts, halves to even. Raises TableFault with the place if a time or a number cannot be
    read, a row comes twice, something is missing that may not be, or a power is negative or too large; OSError if the file cannot be
    read.
    """
    rows = read_rows(table, zone)
    order = spaced(table, rows, minutes, missing is not None, zone)
    powers = [
        [power_of(table, f"{table.file}:{line}: column {name}", cell, minutes, missing) for name, cell in zip(rows.names, cells)]
        for line, cells in zip(rows.lines, rows.cells)
    ]
    columns = tuple(
        filled(table, name, [None if row is None else powers[row][at] for row in order], missing) for at, name in enumerate(rows.names)
    )
    begin, step = rows.times[0], timedelta(minutes=minutes)
    times = tuple(begin + step * at for at in range(len(order)))
    return Measured(rows.names, times, columns, tuple(told_of(table, order, powers, missing)))


def told_of(table: Table, order: Sequence[int | None], powers: Sequence[Sequence[int | None]], missing: str | None) -> list[str]:
    """The line that tells how much is missing, if anything is."""
    rows, cells = sum(row is None for row in order), sum(power is None for row in powers for power in row)
    if not rows and not cells:
        return []
    how = "0 W" if missing == "zero" else "the value before"
    return [f"{table.file.name}: {counted(rows, 'row')} and {counted(cells, 'cell')} are missing and count as {how}"]


def counted(number: int, what: str) -> str:
    """So many of something, in words."""
    return f"{number} {what}" if number == 1 else f"{number:,} {what}s"


def filled(table: Table, name: str, powers: Sequence[int | None], missing: str | None) -> tuple[int, ...]:
    """The powers of a column, with what is missing filled in."""
    found: list[int] = []
    for power in powers:
        if power is None and missing == "hold" and not found:
            raise TableFault(f"{table.file}: column {name} begins with an empty cell, which no value comes before: fill it, or begin later")
        found.append(power if power is not None else 0 if missing == "zero" else found[-1])
    return tuple(found)


def power_of(table: Table, place: str, cell: str, minutes: int, missing: str | None) -> int | None:
    """The power that a cell says, in whole watts; None if it may be missing and is."""
    number = number_of(table, place, cell)
    if number is None:
        if missing is None:
            what = f"the cell has no value but {cell.strip()!r}" if cell.strip() else "the cell is empty"
            raise TableFault(f'{place}: {what}: fill it, or write missing = "hold" or "zero" into the recipe')
        return None
    if number < 0:
        other = "solar" if table.kind == "load" else "load"
        raise TableFault(f"{place}: {cell.strip()} is below 0: a table of {table.kind} has what is "
                         f"{'taken' if table.kind == 'load' else 'delivered'}, so put the rest into a table of {other}")
    most = limits_of(table.kind, "start")[1]
    watts = watts_of(table, number, minutes) if number.adjusted() < MOST_DIGITS else most + 1
    if watts > most:
        raise TableFault(f"{place}: {cell.strip()} {table.unit} are more than {most:,} W, the most of a device: is the unit right?")
    return watts


def watts_of(table: Table, number: Decimal, minutes: int) -> int:
    """A number in the table's unit as whole watts, halves to even."""
    watts = number * (1000 if table.unit.startswith("k") else 1)
    if table.unit.endswith("h"):
        watts = watts * 60 / minutes
    return int(watts.to_integral_value(rounding=ROUND_HALF_EVEN))
