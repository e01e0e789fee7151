"""Suppliers in a cluster: a manual device that sells to the cluster at one price, buys from it at another, and gets new prices."""

from __future__ import annotations

from collections.abc import Sequence
from dataclasses import dataclass
from datetime import datetime, timedelta
from decimal import ROUND_HALF_EVEN, Decimal
from zoneinfo import ZoneInfo

from ..cluster import Basis
from ..members import Points
from .faults import RecipeFault, TableFault
from .recipe import PRICE_UNITS, Connection, PriceTable, Recipe
from .sheets import number_of, read_rows, spaced
from .tables import counted


@dataclass(frozen=True)
class Supplier:
    """A manual device with its bid over each tick."""

    name: str
    parent: str
    points: tuple[Points, ...]


class Steps:
    """The steps of a basis, and how far prices were from them."""

    def __init__(self, basis: Basis) -> None:
        """Raises RecipeFault if the prices of the basis do not lie at equal whole distances."""
        if basis.steps < 2 or basis.min >= basis.max or (basis.max - basis.min) % (basis.steps - 1):
            raise RecipeFault("basis: choose at least 2 steps, min below max, and max - min divisible by steps - 1")
        self.basis = basis
        self.farthest = Decimal(0)
        self.outside = set[Decimal]()

    @property
    def width(self) -> int:
        """The distance of two steps, in price units."""
        return (self.basis.max - self.basis.min) // (self.basis.steps - 1)

    def nearest(self, price: Decimal) -> int:
        """The step with the nearest price, halves to even. A price outside the basis is held to its nearest end."""
        step = int(((price - self.basis.min) / self.width).to_integral_value(rounding=ROUND_HALF_EVEN))
        held = min(max(step, 0), self.basis.steps - 1)
        if self.basis.min <= price <= self.basis.max:
            self.farthest = max(self.farthest, abs(price - self.basis.price(held)))
        else:
            self.outside.add(price)
        return held

    def told(self, name: str, unit: str) -> list[str]:
        """The lines that tell how prices were rounded, if they were."""
        found = []
        if self.farthest:
            found.append(f"{name}: prices are rounded to the steps of the basis, {self.width} {unit} apart, by at most {self.farthest:f}")
        if self.outside:
            least, most = self.basis.min, self.basis.max
            found.append(f"{name}: {counted(len(self.outside), 'price')} outside {least} to {most} {unit} count as the nearest of both: widen the basis")
        return found


def supplier_points(basis: Basis, buy: int, sell: int, power: int) -> Points:
    """The bid of a supplier who sells at the step `buy` and buys at the step `sell`, as points of a price and watts.

    It delivers `power` from the step `buy` on, takes `power` below the step `sell`, and does nothing from there to below `buy`. The
    cluster therefore clears at `sell` if power is left over, and at `buy` if it is lacking.
    """
    pairs: list[tuple[int, int]] = []
    if sell > 0:
        pairs.append((sell - 1, power))
    if buy > sell:
        pairs += [(sell, 0), (buy - 1, 0)]
    return tuple((basis.price(step), watts) for step, watts in dict([*pairs, (buy, -power)]).items())


def connection_supplier(recipe: Recipe, connection: Connection, basis: Basis, times: Sequence[datetime], power: int) -> tuple[Supplier, list[str]]:
    """The supplier of a `[connection]`, and the lines that tell how its prices were rounded."""
    steps, points = Steps(basis), []
    for time in times:
        local = time if recipe.timezone is None else time.astimezone(recipe.timezone)
        prices = connection.prices_at(local.weekday(), local.time())
        buy, sell = map(steps.nearest, prices)
        points.append(supplier_points(basis, buy, sell, connection.power or power))
    return Supplier(connection.name, connection.parent, tuple(points)), steps.told(connection.name, recipe.unit)


def price_supplier(recipe: Recipe, prices: PriceTable, basis: Basis, times: Sequence[datetime], power: int) -> tuple[Supplier, list[str]]:
    """The supplier of a `[[price]]`, and the lines that tell how its prices were rounded.

    Raises TableFault if the series has no price of a tick, or changes within one.
    """
    steps = Steps(basis)
    factor = PRICE_UNITS[prices.unit] / PRICE_UNITS[recipe.unit]
    points = []
    for price in prices_over(prices, prices.minutes or recipe.minutes, recipe.timezone, times, recipe.tick):
        pair = steps.nearest((price + prices.markup) * factor), steps.nearest(price * factor)
        points.append(supplier_points(basis, *pair, prices.power or power))
    return Supplier(prices.device, prices.parent, tuple(points)), steps.told(prices.file.name, recipe.unit)


def prices_over(sheet: PriceTable, minutes: int, zone: ZoneInfo | None, times: Sequence[datetime], tick: int) -> list[Decimal]:
    """The price of the sheet at each of the times, in its own unit."""
    rows = read_rows(sheet, zone)
    spaced(sheet, rows, minutes, False, zone)
    if len(rows.names) != 1:
        raise TableFault(f"{sheet.file}:1: a series has the time and one column of prices, and here are {len(rows.names)}")
    if (rows.times[0].tzinfo is None) != (times[0].tzinfo is None):
        raise TableFault(f"{sheet.file}: its times or those of the tables have an offset, and the others have none: write a timezone into the recipe")
    found, begin, row = [], rows.times[0], timedelta(minutes=minutes)
    for time in times:
        at, late = divmod(time - begin, row)
        if not 0 <= at < len(rows.cells):
            raise TableFault(f"{sheet.file}: it has no price for {time.isoformat()}: its rows go from {begin.isoformat()} to {rows.times[-1].isoformat()}")
        if late + timedelta(minutes=tick) > row:
            raise TableFault(f"{sheet.file}: the price changes within the tick of {time.isoformat()}: write a shorter resample, or begin at a row")
        place = f"{sheet.file}:{rows.lines[at]}: column {rows.names[0]}"
        price = number_of(sheet, place, rows.cells[at][0])
        if price is None:
            raise TableFault(f"{place}: there is no price: fill it")
        found.append(price)
    return found
