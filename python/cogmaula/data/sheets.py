"""Sheets of comma-separated values: their rows, the times of these, and the numbers in their cells, read exactly."""

from __future__ import annotations

import csv
import re
from collections.abc import Sequence
from dataclasses import dataclass
from datetime import UTC, datetime, timedelta
from decimal import Decimal
from zoneinfo import ZoneInfo

from .faults import TableFault
from .recipe import Sheet

# What programs write into a cell that has no value.
EMPTY = {"", "nan", "na", "n/a", "null", "none"}
# A number of ASCII digits, with . for the decimal sign.
NUMBER = re.compile(r"[+-]?(\d+(\.\d*)?|\.\d+)([eE][+-]?\d{1,3})?", re.ASCII)
# The most characters of a number.
MOST_CHARACTERS = 60


@dataclass(frozen=True)
class Rows:
    """The rows of a sheet. `lines[r]` is the line of row `r` in the file, `cells[r]` are its cells behind the time.

    times: when each interval begins; in UTC if the times have a zone or an offset
    """

    names: tuple[str, ...]
    lines: tuple[int, ...]
    times: tuple[datetime, ...]
    cells: tuple[tuple[str, ...], ...]


def read_rows(sheet: Sheet, zone: ZoneInfo | None) -> Rows:
    """The rows of a sheet, whose first column has the time at which an interval begins, as 2026-06-21T00:15.

    zone: of the times without an offset; None if their clock is never changed

    Raises TableFault with the place if there is no row, a row has too many or too few cells, a column has no name or comes twice, or a
    time cannot be read; OSError if the file cannot be read.
    """
    try:
        with sheet.file.open(encoding="utf-8-sig", newline="") as text:
            reader = csv.reader(text, delimiter=sheet.delimiter, strict=True)
            rows = [(reader.line_num, row) for row in reader if row]
    except (UnicodeDecodeError, csv.Error) as fault:
        raise TableFault(f"{sheet.file}: this is no table: {fault}") from None
    if len(rows) < 2:
        raise TableFault(f"{sheet.file}: the table has no rows: it needs a line of names and a line for each interval")
    names = names_of(sheet, rows[0][1])
    for line, row in rows[1:]:
        if len(row) != len(names) + 1:
            raise TableFault(f"{sheet.file}:{line}: the line has {len(row)} cells, and the first line has {len(names) + 1}")
    times = times_of(sheet, [(line, row[0]) for line, row in rows[1:]], zone)
    return Rows(tuple(names), tuple(row[0] for row in rows[1:]), tuple(times), tuple(tuple(row[1][1:]) for row in rows[1:]))


def names_of(sheet: Sheet, cells: Sequence[str]) -> list[str]:
    """The names of the columns behind that of the time."""
    names = [cell.strip() for cell in cells[1:]]
    if not names:
        raise TableFault(f"{sheet.file}:1: the table has no column beside the time: is the delimiter {sheet.delimiter!r}?")
    for at, name in enumerate(names, 2):
        if not name or name in names[: at - 2]:
            told = f"is called {name!r} as an earlier one is" if name else "has no name"
            raise TableFault(f"{sheet.file}:1: column {at} {told}")
    return names


def times_of(sheet: Sheet, cells: Sequence[tuple[int, str]], zone: ZoneInfo | None) -> list[datetime]:
    """The times of the cells, each with its line; in UTC if they have a zone or an offset."""
    times: list[datetime] = []
    for line, cell in cells:
        place = f"{sheet.file}:{line}"
        try:
            time = datetime.fromisoformat(cell.strip())
        except ValueError:
            raise TableFault(f"{place}: {cell!r} is no time: write it as 2026-06-21T00:15") from None
        if time.tzinfo is not None:
            time = time.astimezone(UTC)
        elif zone is not None:
            time = in_zone(place, time, zone, times[-1] if times else None)
        if times and (time.tzinfo is None) != (times[-1].tzinfo is None):
            raise TableFault(f"{place}: {cell!r} has an offset and the line before has none, or the other way round")
        times.append(time)
    return times


def in_zone(place: str, local: datetime, zone: ZoneInfo, before: datetime | None) -> datetime:
    """The moment, in UTC, of a local time. If the clock shows it twice, it is the first that lies behind the row before."""
    first, second = (local.replace(tzinfo=zone, fold=fold).astimezone(UTC) for fold in (0, 1))
    if first.astimezone(zone).replace(tzinfo=None) != local:
        told = f"{local.isoformat()} is on no clock of {zone.key}: summer time begins there"
        raise TableFault(f"{place}: {told}. Write the times with offsets, or take timezone out of the recipe if no clock was changed")
    return first if before is None or first > before else second


def number_of(sheet: Sheet, place: str, cell: str) -> Decimal | None:
    """The number of a cell, None if it has no value. Raises TableFault with the place for all else."""
    text = cell.strip()
    if text.lower() in EMPTY:
        return None
    point = text if sheet.decimal == "." else text.replace(".", "?").replace(sheet.decimal, ".")
    if len(point) > MOST_CHARACTERS or not NUMBER.fullmatch(point):
        shown = text if len(text) <= MOST_CHARACTERS else f"{text[:MOST_CHARACTERS]}.."
        raise TableFault(f"{place}: {shown!r} is no number with the decimal sign {sheet.decimal!r}")
    return Decimal(point)


def spaced(sheet: Sheet, rows: Rows, minutes: int, may_miss: bool, zone: ZoneInfo | None) -> list[int | None]:
    """For each interval from the first row to the last which row it has, None if the row is missing.

    Raises TableFault if a row is not so many minutes after the one before; if rows may be missing, not a multiple of that.
    """
    found: list[int | None] = [0]
    step = timedelta(minutes=minutes)
    for at, (before, time) in enumerate(zip(rows.times, rows.times[1:]), 1):
        steps, rest = divmod(time - before, step)
        if rest or steps < 1 or (steps > 1 and not may_miss):
            due, place = before + step, f"{sheet.file}:{rows.lines[at]}"
            told = f"the row is of {shown(time, zone)}, and {shown(due, zone)} is due"
            raise TableFault(f"{place}: {told}: rows are {minutes} minutes apart, none missing and none twice{remedy(time, due)}")
        found += [*[None] * (steps - 1), at]
    return found


def shown(time: datetime, zone: ZoneInfo | None) -> str:
    """A time of a row in words, in the zone of the recipe."""
    return (time if zone is None or time.tzinfo is None else time.astimezone(zone)).isoformat()


def remedy(time: datetime, due: datetime) -> str:
    """What to do about a row that comes too early or too late."""
    if time.tzinfo is None and abs(time - due) <= timedelta(hours=1) and time.month in (3, 4, 10, 11) and time.hour <= 4:
        return '. Was the clock changed there? Then write timezone = "Europe/Berlin", or another one, into the recipe'
    return '. Or write missing = "hold" or "zero" into the recipe' if time > due else ""
