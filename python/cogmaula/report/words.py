"""Numbers, times and amounts of a report in words."""

from __future__ import annotations

from datetime import datetime
from fractions import Fraction

from ..moments import later
from ..money import Currency, energy
from .charts import number
from .cluster_report import Findings


def moment(found: Findings, at: int | datetime) -> str:
    """A time, or the time of so many minutes after the start: the hour, with the day if the run goes over a day."""
    time = at if isinstance(at, datetime) else later(found.run.start, at)
    minutes = found.run.cluster.minutes
    return f"{time:%H:%M}" if minutes <= 1440 else f"{time:%d %b %H:%M}" if minutes <= 366 * 1440 else f"{time:%d %b %Y %H:%M}"


def span_words(found: Findings, begin: int, end: int) -> str:
    """A span of time, each end in minutes after the start. The day is told once if both are in it."""
    first, last = later(found.run.start, begin), later(found.run.start, end)
    return f"{moment(found, begin)} to {last:%H:%M}" if first.date() == last.date() else f"{moment(found, begin)} to {moment(found, end)}"


def duration(minutes: int) -> str:
    """A number of minutes in hours and minutes, and in days if it is long."""
    hours, rest = divmod(minutes, 60)
    days, hours = divmod(hours, 24) if hours >= 96 else (0, hours)
    told = [f"{amount} {unit}" for amount, unit in ((days, "days"), (hours, "h"), (rest, "min")) if amount]
    return " ".join(told) or "0 min"


def count(many: int, word: str) -> str:
    """A number with its word."""
    return f"{number(many)} {word}{'' if many == 1 or word == 'more' else 's'}"


def kilowatt_hours(watt_minutes: int) -> str:
    """Watts times minutes in kilowatt-hours, rounded to a watt-hour."""
    return number(float(energy(watt_minutes)), 3)


def hours(kWh: float) -> str:
    """Kilowatt-hours, with a digit less the greater they are."""
    return number(kWh, 3 if abs(kWh) < 100 else 1 if abs(kWh) < 10_000 else 0)


def money(amount: Fraction | float) -> str:
    """An amount of money, with two digits behind the point."""
    return number(float(amount), 2)


def money_of(currency: Currency, amount: Fraction | float | None) -> str:
    """An amount with its unit."""
    return "unknown" if amount is None else f"{money(amount)} {currency.unit}"


def unit_of(currency: Currency) -> str:
    """The unit of a price on an axis or in a table: money for a megawatt-hour, or price units if the user named no currency."""
    return "price units" if currency == Currency() else f"{currency.unit}/MWh"


def in_unit(currency: Currency, price: float) -> float:
    """A price in the unit of `unit_of`."""
    return price if currency == Currency() else float(currency.at_price_one) * 1000 * price


def unit_price(currency: Currency, price: int) -> str:
    """A price in the unit of `unit_of`, as a table shows it: with two digits unless it is whole."""
    value = in_unit(currency, price)
    return number(value, 0 if currency == Currency() or abs(value - round(value)) < 0.005 else 2)


def price_words(currency: Currency, price: Fraction, digits: int = 0) -> str:
    """A price with its unit: in money with the price behind it, and in price units if the user named no currency."""
    plain = number(float(price), digits)
    return f"{plain} price units" if currency == Currency() else f"{number(float(currency.price(price)), 4)} {currency.unit}/kWh (price {plain})"
