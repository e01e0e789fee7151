"""Amounts of money and energies in the units that people read, from the whole numbers of the program."""

from __future__ import annotations

from dataclasses import dataclass
from decimal import Decimal
from fractions import Fraction

# So many watts times minutes are a kilowatt-hour.
WATT_MINUTES = 60_000
# What a number of money may be given as. A float counts as the decimal number that it prints as, so 0.1 is a tenth.
Rate = Fraction | Decimal | float | int | str


@dataclass(frozen=True)
class Currency:
    """A unit of money, and how much of it a kilowatt-hour costs at price 1."""

    unit: str = "price units \u00d7 kWh"
    at_price_one: Fraction = Fraction(1)

    def money(self, amount: int) -> Fraction:
        """An amount of the program in this unit: above 0 if it is paid."""
        return Fraction(amount, WATT_MINUTES) * self.at_price_one

    def price(self, price: Fraction) -> Fraction:
        """What a kilowatt-hour costs at a price."""
        return price * self.at_price_one


def rate_of(given: Rate) -> Fraction:
    """A rate as an exact number. Raises ValueError if it is not above 0 or no number."""
    try:
        found = Fraction(given) if isinstance(given, Fraction | Decimal) else Fraction(str(given))
    except (ValueError, OverflowError, ZeroDivisionError):
        raise ValueError(f"{given!r} is no number") from None
    if found <= 0:
        raise ValueError(f"{given!r} is not above 0")
    return found


def currency_of(unit: str | None, per_kwh: Rate | None) -> Currency:
    """The currency of these words, of which both or neither are given. Raises ValueError."""
    if (unit is None) != (per_kwh is None):
        raise ValueError("a currency and per_kwh go together: name the unit, and what a kilowatt-hour costs at price 1")
    return Currency() if unit is None or per_kwh is None else Currency(unit, rate_of(per_kwh))


def energy(watt_minutes: int) -> Fraction:
    """Watts times minutes in kilowatt-hours."""
    return Fraction(watt_minutes, WATT_MINUTES)


def decimal_of(number: Fraction) -> Decimal:
    """A fraction as a decimal number, rounded to the digits of the context."""
    return Decimal(number.numerator) / Decimal(number.denominator)
