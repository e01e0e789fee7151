"""Reads what a supplier bills from a file in TOML: the tariff, and the devices of each household."""

from __future__ import annotations

import tomllib
from collections.abc import Mapping
from dataclasses import dataclass
from decimal import Decimal
from pathlib import Path
from typing import TYPE_CHECKING, Any
from zoneinfo import ZoneInfo

from ..data_frames import pandas
from ..tariffs import Hours, Tariff, households
from .faults import RecipeFault, TableFault
from .recipe import PRICE_UNITS, PriceTable, Window, at_place, maps_of, refuse_words, text_of, typed, window_of
from .sheets import number_of, read_rows, spaced

if TYPE_CHECKING:
    from pandas import DataFrame, Series

SUPPLY_WORDS = {"currency", "buy", "sell", "fee", "vat", "time", "prices", "households"}
PRICES_WORDS = {"file", "unit", "minutes", "markup", "delimiter", "decimal"}
DAYS = {"all": tuple(range(7)), "weekdays": tuple(range(5)), "weekend": (5, 6)}
# What a price of 1 in a unit is in the currency by the kilowatt-hour.
PER_KWH = {unit: amount / 1000 for unit, amount in PRICE_UNITS.items()}
# The one household of a file that names none.
ALL_DEVICES = "all devices"


@dataclass(frozen=True)
class Supply:
    """What a supplier bills.

    tariff:     the prices, the fee and the VAT
    households: the devices of each household; empty if all devices are one household
    """

    tariff: Tariff
    households: Mapping[str, tuple[str, ...]]

    def bill(self, power: DataFrame, connection: str | None = None) -> DataFrame:
        """The bill of each household and month, as `Tariff.bill` has it.

        power:      watts, a column for each device, such as `run.series()`
        connection: the device that is the supplier itself, and belongs to no household

        Raises RecipeFault if a household has a device without a column, or a series of prices has other times than the powers.
        """
        members = self.households or {ALL_DEVICES: tuple(name for name in power.columns if name != connection)}
        for household, devices in members.items():
            for name in devices:
                if name not in power.columns:
                    raise RecipeFault(f"households: {household} has {name}, which is no device")
        try:
            return self.tariff.bill(households(power, members))
        except (TypeError, ValueError) as fault:
            raise RecipeFault(f"the prices do not fit the times of the run: {fault}") from None


def read_supply(path: str | Path, timezone: ZoneInfo | None = None) -> Supply:
    """Reads a file of a supplier. A series of prices is sought beside it.

    timezone: of the times in a series that have no offset; None if their clock is never changed

    Raises RecipeFault if the file is no TOML, lacks a word or has one that is unknown; TableFault if the series cannot be read; OSError if
    a file cannot be read. It needs pandas for a series.
    """
    path = Path(path)
    try:
        told = tomllib.loads(path.read_text(encoding="utf-8"), parse_float=Decimal)
    except (ValueError, RecursionError, ArithmeticError) as fault:
        raise RecipeFault(f"{path}: this is no TOML: {fault}") from None
    try:
        return supply_of(path, told, timezone)
    except RecipeFault as fault:
        raise RecipeFault(f"{path}: {fault}") from None


def supply_of(path: Path, told: Mapping[str, Any], timezone: ZoneInfo | None) -> Supply:
    """The supply that this TOML describes. Raises RecipeFault without the file's name."""
    due = {"currency"} if "prices" in told else {"currency", "buy", "sell"}
    at_place("the file", lambda: refuse_words(told, SUPPLY_WORDS, due))
    buy, sell = numbers_of(told, "buy", "sell")
    if "prices" in told:
        series, markup = at_place("prices", lambda: series_of(path, told["prices"], timezone))
        buy, sell = (series + markup if buy is None else buy), (series if sell is None else sell)
    fee, vat = (0.0 if value is None else value for value in numbers_of(told, "fee", "vat"))
    hours = tuple(at_place(f"time {at}", lambda: hours_of(window_of(members))) for at, members in enumerate(maps_of(told, "time"), 1))
    return Supply(Tariff(text_of("currency", told["currency"]), buy, sell, hours, fee, vat), households_of(told.get("households", {})))


def numbers_of(told: Mapping[str, Any], *words: str) -> list[float | None]:
    """The numbers of some words, None for each that is not there."""
    found: list[float | None] = []
    for word in words:
        value = told.get(word)
        if value is not None and (isinstance(value, bool) or not isinstance(value, int | Decimal) or not Decimal(value).is_finite()):
            raise RecipeFault(f"{word} is {value!r}: write a number")
        if word in ("fee", "vat") and value is not None and value < 0:
            raise RecipeFault(f"{word} is {value}: write a number that is not below 0")
        found.append(None if value is None else float(value))
    return found


def hours_of(window: Window) -> Hours:
    """The hours of a tariff that a window of a recipe is."""
    buy, sell = (None if price is None else float(price) for price in (window.buy, window.sell))
    return Hours(window.begin, window.end, buy, sell, DAYS[window.days])


def series_of(path: Path, told: Any, timezone: ZoneInfo | None) -> tuple[Series, float]:
    """The series of prices by the kilowatt-hour, over its times, and the markup on what is bought."""
    if not isinstance(told, dict):
        raise RecipeFault("it is no table: write [prices] with file and unit below it")
    refuse_words(told, PRICES_WORDS, {"file", "unit"})
    sheet = PriceTable(**typed({**told, "device": "supplier", "file": path.parent / text_of("file", told["file"])}))
    rows = read_rows(sheet, timezone)
    spaced(sheet, rows, sheet.minutes or 60, False, timezone)
    if len(rows.names) != 1:
        raise TableFault(f"{sheet.file}:1: a series has the time and one column of prices, and here are {len(rows.names)}")
    prices = []
    for line, cells in zip(rows.lines, rows.cells, strict=True):
        price = number_of(sheet, f"{sheet.file}:{line}", cells[0])
        if price is None:
            raise TableFault(f"{sheet.file}:{line}: there is no price: fill it")
        prices.append(float(price * PER_KWH[sheet.unit]))
    pd = pandas()
    return pd.Series(prices, index=pd.DatetimeIndex(rows.times)), float(sheet.markup * PER_KWH[sheet.unit])


def households_of(told: Any) -> dict[str, tuple[str, ...]]:
    """The devices of each household."""
    if not isinstance(told, dict):
        raise RecipeFault("households is no table: write [households] with the devices of each, such as house01 = [\"house01\", \"roof01\"]")
    found: dict[str, tuple[str, ...]] = {}
    owners: dict[str, str] = {}
    for household, devices in told.items():
        if not isinstance(devices, list) or not devices or not all(isinstance(name, str) for name in devices):
            raise RecipeFault(f"households: {household} is {devices!r}: write a list of its devices")
        for name in devices:
            if owners.setdefault(name, household) != household or devices.count(name) > 1:
                raise RecipeFault(f"households: {name} is named twice, in {owners[name]} and {household}")
        found[household] = tuple(devices)
    return found
