"""What a history tells of a span of time, such as a day: the energy of each device, and the price."""

from __future__ import annotations

from dataclasses import dataclass

from .database import Database
from .span_course import course_of

# Watts times milliseconds of a watt-hour.
WATT_HOUR = 3_600_000
# The watt-hours of each device between two moments by its measured powers, each of which holds until the next. The moments are given as the
# begin three times, and the end twice.
MEASURED = """
WITH held AS (
    SELECT device, power, at AS begins,
        lead(at, 1, CAST(? AS DOUBLE PRECISION)) OVER (PARTITION BY device ORDER BY at) AS ends
    FROM measured WHERE at < ?
), clipped AS (
    SELECT device, power, CASE WHEN begins < ? THEN ? ELSE begins END AS begins, ends FROM held WHERE ends > ?
)
SELECT device, sum(power * (ends - begins)) / 3600 FROM clipped GROUP BY device ORDER BY device
"""
# The clearings between two moments: how many, and the least, the mean and the greatest price.
PRICES = "SELECT count(*), min(price), avg(price), max(price) FROM clearings WHERE at >= ? AND at < ?"


@dataclass(frozen=True)
class Span:
    """What happened between two moments.

    clearings: how many; `least`, `mean` and `greatest` are their prices in price units, None without a clearing
    by_market:  the watt-hours of each device by the powers that the market set it, by bids and prices alone
    by_measure: the same by its measured powers, each of which holds until the next
    different:  how many times a device wrote of itself what bids and prices do not bear out
    """

    clearings: int
    least: int | None
    mean: float | None
    greatest: int | None
    by_market: dict[str, float]
    by_measure: dict[str, float]
    different: int


def span_of(database: Database, begin: float, end: float) -> Span:
    """What a history tells from one moment to another, in seconds since 1970. Raises DatabaseLost."""
    number, least, mean, greatest = database.read(PRICES, (begin, end))[0]
    measured = database.read(MEASURED, (end, end, begin, begin, begin))
    course = course_of(database, round(begin * 1000), round(end * 1000))
    by_market = {name: (account.taken - account.given) / WATT_HOUR for name, account in course.accounts.items()}
    by_measure = {str(device): float(hours) for device, hours in measured}
    return Span(int(number), least, None if mean is None else float(mean), greatest, by_market, by_measure, course.different)
