"""Moments of a run: what a user may give for its start, and how minutes are added to it.

Minutes pass in UTC and are shown in the zone of the start. So an hour after 02:00 of a clock that is put back it is 02:00 again.
"""

from __future__ import annotations

import re
from datetime import UTC, date, datetime, time, timedelta
from zoneinfo import ZoneInfo

# A moment with the name of its zone behind it, as RFC 9557 writes it.
ZONED = re.compile(r"(.+)\[([^]]+)\]")


def moment_of(start: date | datetime | None, default: datetime) -> datetime:
    """The moment that a start names: a date is its midnight. Raises TypeError for all else, such as a text."""
    if start is None:
        return default
    if isinstance(start, datetime):
        return start
    if isinstance(start, date):
        return datetime.combine(start, time())
    raise TypeError(f"start is {start!r}: a datetime or a date is due")


def later(start: datetime, minutes: float) -> datetime:
    """The moment so many minutes after the start, in its zone. A moment without a zone has a clock that is never changed."""
    if start.tzinfo is None:
        return start + timedelta(minutes=minutes)
    return (start.astimezone(UTC) + timedelta(minutes=minutes)).astimezone(start.tzinfo)


def minutes_between(begin: datetime, end: datetime) -> float:
    """The minutes that pass from one moment to another, below 0 if the second comes first.

    Two moments of one zone are not subtracted as they are: Python would count what the clock shows, and so an hour too many or too
    few over a switch. Raises ValueError if only one of them has a zone.
    """
    if (begin.tzinfo is None) != (end.tzinfo is None):
        zoned, plain = (end, begin) if begin.tzinfo is None else (begin, end)
        raise ValueError(f"{zoned.isoformat()} has a zone and {plain.isoformat()} has none: give both a zone, or none")
    if begin.tzinfo is not None:
        begin, end = begin.astimezone(UTC), end.astimezone(UTC)
    return (end - begin) / timedelta(minutes=1)


# The minutes of a day of a clock that is not changed.
DAY = 1440


def clock_marks(start: datetime, width: int, last: float) -> list[float]:
    """When the clock of a start has moved on by so many minutes, again and again: the minutes that have passed then, above 0 and below a last.

    Whole days count from midnight, and all else from the start. So a day of a clock that is changed has 23 or 25 hours. What a
    clock leaves out has no mark, and of what it shows twice the first counts.
    """
    begin = start.replace(tzinfo=None)
    if width % DAY == 0:
        begin = datetime.combine(begin.date(), time())
    found, at = list[float](), 0
    # A clock is at most a day apart from one that is never changed.
    while (shown := begin + timedelta(minutes=width * at)) - begin < timedelta(minutes=last + 2 * DAY):
        moment = shown.replace(tzinfo=start.tzinfo)
        passed = minutes_between(start, moment)
        if 0 < passed < last and later(moment, 0).replace(tzinfo=None) == shown:
            found.append(passed)
        at += 1
    return found


def month_marks(start: datetime, last: float) -> list[float]:
    """The minutes that have passed, from 0 to a last, when a month of the start's clock begins."""
    found, year, month = list[float](), start.year, start.month
    while (passed := minutes_between(start, datetime(year, month, 1, tzinfo=start.tzinfo))) <= last:
        found += [passed] if passed >= 0 else []
        year, month = year + month // 12, month % 12 + 1
    return found


def zone_of(name: str) -> ZoneInfo:
    """The time zone of a name such as Europe/Berlin. Raises ValueError if there is none."""
    try:
        return ZoneInfo(name)
    except (OSError, ValueError, KeyError):
        raise ValueError(f"{name!r} is no time zone: write one as Europe/Berlin") from None


def zone_name(moment: datetime) -> str:
    """The zone of a moment: its name, else its offset, and an empty text if it has none."""
    if isinstance(moment.tzinfo, ZoneInfo):
        return str(moment.tzinfo)
    return f"{moment:%z}"


def read_moment(text: str) -> datetime:
    """The moment of a text: 2026-01-31, 2026-01-31T06:30, with an offset or with a zone, as 2026-01-31T06:30[Europe/Berlin].

    Raises ValueError.
    """
    zoned = ZONED.fullmatch(text)
    if zoned is None:
        return datetime.fromisoformat(text)
    moment, zone = datetime.fromisoformat(zoned[1]), zone_of(zoned[2])
    return moment.replace(tzinfo=zone) if moment.tzinfo is None else moment.astimezone(zone)


def written(moment: datetime) -> str:
    """The text of a moment that `read_moment` reads as the same one."""
    if isinstance(moment.tzinfo, ZoneInfo):
        return f"{moment.isoformat()}[{moment.tzinfo.key}]"
    return moment.isoformat()
