"""The page of a day of a live market, from the tables of its history: prices, powers, limits that were reached, and a bill."""

from __future__ import annotations

from dataclasses import dataclass
from datetime import UTC, datetime, timedelta
from fractions import Fraction
from typing import TYPE_CHECKING

from ..errors import NoPackage
from ..money import Currency

if TYPE_CHECKING:
    from ..history.span_course import Course, Price
    from ..history.database import Database

# Watts times milliseconds of a kilowatt-hour.
KILOWATT_HOUR = 3_600_000_000
# So many relays with limits have a figure, those whose limits were reached for longest first; the table has all.
MOST_FIGURES = 12
# A limit that a relay does not have, for a figure that shows those which are near its load.
FAR = 10**15


@dataclass(frozen=True)
class Day:
    """A day: its title, its begin and end in the zone of the user, what the history tells of it, and the unit of money."""

    title: str
    begin: datetime
    end: datetime
    course: Course
    currency: Currency

    def money(self, amount: int) -> Fraction:
        """An amount of an account in the unit of money."""
        return Fraction(amount, KILOWATT_HOUR) * self.currency.at_price_one

    def time(self, at: int) -> str:
        """The time of the day of a moment in milliseconds."""
        return f"{datetime.fromtimestamp(at / 1000, UTC).astimezone(self.begin.tzinfo):%H:%M:%S}"


@dataclass(frozen=True)
class SlotPrices:
    """The market's price over a slot: its mean over the time, the least and the greatest; None before there is a price."""

    mean: Fraction | None
    least: int | None
    greatest: int | None


def day_span(day: datetime) -> tuple[datetime, datetime]:
    """The begin and the end of the day that has this moment. A moment without a zone is of this machine's."""
    begin = day.replace(hour=0, minute=0, second=0, microsecond=0)
    return begin.astimezone() if begin.tzinfo is None else begin, _midnight_after(begin)


def _midnight_after(begin: datetime) -> datetime:
    end = begin + timedelta(days=1)
    return end.astimezone() if end.tzinfo is None else end


def day_of(
    database: Database, day: datetime, title: str | None = None, currency: Currency | None = None, *, by_measure: bool = False
) -> Day:
    """What a history tells of a day. Raises DatabaseLost."""
    # A history is of a live market, whose modules the page of a file does without.
    from ..history.span_course import course_of

    begin, end = day_span(day)
    span = round(begin.timestamp() * 1000), round(end.timestamp() * 1000)
    course = course_of(database, *span, by_measure=by_measure)
    return Day(title or f"The market on {begin:%Y-%m-%d}", begin, end, course, currency or Currency())


def prices_by_slot(course: Course) -> list[SlotPrices]:
    """The market's price over each slot. A price holds until the next clearing."""
    found, at, begin = [], 0, course.begin
    current: Price | None = None
    for end in course.ends:
        held: list[tuple[int, int]] = []
        since = begin
        while at < len(course.market) and course.market[at].at < end:
            change = course.market[at]
            if current is not None and change.at > since:
                held.append((current.price, change.at - since))
            since, current, at = max(since, change.at), change, at + 1
        if current is not None:
            held.append((current.price, end - since))
        found.append(_slot_prices([(price, time) for price, time in held if time > 0]))
        begin = end
    return found


def _slot_prices(held: list[tuple[int, int]]) -> SlotPrices:
    if not held:
        return SlotPrices(None, None, None)
    prices, time = [price for price, _ in held], sum(time for _, time in held)
    return SlotPrices(Fraction(sum(price * time for price, time in held), time), min(prices), max(prices))


def history_page(
    database: Database, day: datetime, title: str | None = None, currency: Currency | None = None, *, by_measure: bool = False
) -> str:
    """The page of a day of a history, in HTML that needs no script and no network.

    day:      a moment of the day; without a zone it is of this machine's
    title:    the page's title, by default the day
    currency: the unit of money, and what a kilowatt-hour costs at price 1; price units times kilowatt-hours if it is not given
    by_measure: bills go by what controls say that they measured, as far as they say so; else by bids and prices alone

    Raises DatabaseLost, and NoPackage without matplotlib.
    """
    try:
        from . import history_sections
    except ImportError:
        raise NoPackage("a report needs matplotlib: on Debian, apt-get install python3-matplotlib") from None
    return history_sections.page_of(day_of(database, day, title, currency, by_measure=by_measure))
