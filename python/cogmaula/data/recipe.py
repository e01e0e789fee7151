"""Recipes: what the columns of tables mean, as a short file in TOML."""

from __future__ import annotations

import json
import tomllib
from collections.abc import Callable, Mapping
from dataclasses import KW_ONLY, dataclass
from datetime import time
from decimal import Decimal
from pathlib import Path
from typing import Any, TypeVar
from zoneinfo import ZoneInfo

from ..moments import zone_of
from .faults import RecipeFault, WordsFault

T = TypeVar("T")
KINDS = ("load", "solar")
UNITS = ("W", "kW", "Wh", "kWh")
# The units of prices, and how many EUR/MWh each is.
PRICE_UNITS = {"EUR/MWh": Decimal(1), "ct/kWh": Decimal(10)}
MISSING = ("hold", "zero")
DAYS = ("all", "weekdays", "weekend")
MINUTES_OF_A_DAY = 1440


@dataclass(frozen=True)
class Sheet:
    """A file with a line of names and a line for each interval. `delimiter` is between cells, `decimal` is the decimal sign."""

    file: Path
    _: KW_ONLY
    delimiter: str = ","
    decimal: str = "."

    def __post_init__(self) -> None:
        """Raises RecipeFault if the signs cannot part cells and numbers."""
        if len(self.delimiter) != 1 or self.delimiter in '"\r\n':
            raise RecipeFault(f"delimiter is {self.delimiter!r}: write one sign, such as a comma, ; or a tab")
        if self.decimal not in (".", ",") or self.decimal == self.delimiter:
            raise RecipeFault(f"decimal is {self.decimal!r}: write . or , as the decimal sign, and another sign between cells")


@dataclass(frozen=True)
class Table(Sheet):
    """One table of a recipe: a column for each device, a row for each interval.

    `unit` is the unit of its numbers: W or kW for a mean power, Wh or kWh for the energy of an interval. `prefix` comes before the
    name of each column. `parents` has the parents of the columns that are not below `parent`.
    """

    kind: str
    unit: str = "W"
    parent: str = "auctioneer"
    parents: Mapping[str, str] | None = None
    prefix: str = ""

    def __post_init__(self) -> None:
        """Raises RecipeFault if the kind or the unit is not known."""
        super().__post_init__()
        one_of("kind", self.kind, KINDS)
        one_of("unit", self.unit, UNITS)

    def name_of(self, column: str) -> str:
        """The name of the device that this column measures."""
        return self.prefix + column

    def parent_of(self, column: str) -> str:
        """The node that the device of this column is below."""
        return (self.parents or {}).get(column, self.parent)


@dataclass(frozen=True)
class PriceTable(Sheet):
    """A series of prices, and the device that buys and sells at them.

    `unit` is that of the numbers. `minutes` is how long a price holds, None for the rows of the recipe. The device buys at the price and
    `markup`, which is in the same unit, and sells at the price. `power` is the most that it does, in watts; None is found.
    """

    device: str
    unit: str
    minutes: int | None = None
    markup: Decimal = Decimal(0)
    power: int | None = None
    parent: str = "auctioneer"

    def __post_init__(self) -> None:
        """Raises RecipeFault if the unit is not known, or one would sell at more than the price of buying."""
        super().__post_init__()
        one_of("unit", self.unit, tuple(PRICE_UNITS))
        if self.markup < 0:
            raise RecipeFault(f"markup is {self.markup}: one cannot sell at more than the price of buying")


@dataclass(frozen=True)
class Window:
    """A time of the day with prices of its own, from `begin` on and before `end`, over midnight if it ends earlier than it begins."""

    begin: time
    end: time
    buy: Decimal | None = None
    sell: Decimal | None = None
    days: str = "all"

    def holds(self, day: int, at: time) -> bool:
        """Whether it holds on this day of the week, 0 for Monday, at this time."""
        if not (self.begin <= at < self.end if self.begin < self.end else at >= self.begin or at < self.end):
            return False
        return self.days == "all" or (self.days == "weekend") == (day >= 5)


@dataclass(frozen=True)
class Connection:
    """The connection to a supplier: what a kilowatt-hour costs to buy and earns when sold, in the unit of the prices of the basis.

    The first of `windows` that holds counts. `power` is the most that it does, in watts; None is found.
    """

    buy: Decimal
    sell: Decimal
    name: str = "connection"
    parent: str = "auctioneer"
    power: int | None = None
    windows: tuple[Window, ...] = ()

    def __post_init__(self) -> None:
        """Raises RecipeFault if one would sell at more than the price of buying."""
        for window in (Window(time(), time()), *self.windows):
            if (self.buy if window.buy is None else window.buy) < (self.sell if window.sell is None else window.sell):
                raise RecipeFault("one cannot sell at more than the price of buying")

    def prices_at(self, day: int, at: time) -> tuple[Decimal, Decimal]:
        """The prices of buying and selling on a day of the week at a time."""
        found = next((window for window in self.windows if window.holds(day, at)), None)
        if found is None:
            return self.buy, self.sell
        return self.buy if found.buy is None else found.buy, self.sell if found.sell is None else found.sell


@dataclass(frozen=True)
class Recipe:
    """What makes a cluster file of tables: the minutes of a row, the prices, further nodes, and the tables.

    resample: the minutes of a tick, None for those of a row
    missing:  what an empty cell and a row that is not there count as: hold for the value before, zero, or None for a fault
    timezone: of the times that have no offset; None if their clock is never changed
    unit:     what a price of the basis is in
    """

    path: Path
    minutes: int
    basis: Mapping[str, Any]
    nodes: tuple[Mapping[str, Any], ...]
    tables: tuple[Table, ...]
    resample: int | None = None
    missing: str | None = None
    timezone: ZoneInfo | None = None
    unit: str = "ct/kWh"
    prices: tuple[PriceTable, ...] = ()
    connection: Connection | None = None

    @property
    def tick(self) -> int:
        """The minutes of a tick."""
        return self.resample or self.minutes


TABLE_WORDS = {"file", "kind", "unit", "parent", "parents", "prefix", "delimiter", "decimal"}
PRICE_WORDS = {"file", "device", "unit", "minutes", "markup", "power", "parent", "delimiter", "decimal"}
CONNECTION_WORDS = {"buy", "sell", "name", "parent", "power", "time"}
WINDOW_WORDS = {"from", "until", "buy", "sell", "days"}
RECIPE_WORDS = {"minutes", "basis", "node", "table", "resample", "missing", "timezone", "unit", "price", "connection"}
# What the words of a recipe are that are no texts.
NUMBERS, WHOLE, MAPS = {"buy", "sell", "markup"}, {"minutes", "power", "resample"}, {"parents"}


def read_recipe(path: str | Path) -> Recipe:
    """Reads a recipe. The files of its tables are sought beside it.

    Raises RecipeFault if the file is no TOML, lacks a word or has one that is unknown; OSError if it cannot be read.
    """
    path = Path(path)
    try:
        told = tomllib.loads(path.read_text(encoding="utf-8"), parse_float=Decimal)
    except (ValueError, RecursionError, ArithmeticError) as fault:
        raise RecipeFault(f"{path}: this is no TOML: {fault}") from None
    try:
        return recipe_of(path, told)
    except RecipeFault as fault:
        raise RecipeFault(f"{path}: {fault}") from None


def recipe_of(path: Path, told: Mapping[str, Any]) -> Recipe:
    """The recipe that this TOML describes. Raises RecipeFault without the file's name."""
    at_place("the recipe", lambda: refuse_words(told, RECIPE_WORDS, {"basis", "table"}))
    basis, minutes, resample = told["basis"], told.get("minutes", 15), told.get("resample")
    if not isinstance(basis, dict):
        raise RecipeFault("basis is no table: write [basis] with min, max and steps below it")
    minutes_of("minutes", minutes)
    if resample is not None:
        minutes_of("resample", resample)
        if resample % minutes and minutes % resample:
            raise RecipeFault(f"resample is {resample}, and a row has {minutes} minutes: write a multiple or a part of it")
    zone = told.get("timezone")
    try:
        timezone = None if zone is None else zone_of(zone)
    except (ValueError, TypeError):
        raise RecipeFault(f"timezone is {zone!r}: write a name such as Europe/Berlin") from None
    missing = told.get("missing")
    if missing is not None:
        one_of("missing", missing, MISSING)
    unit = told.get("unit", "ct/kWh")
    one_of("unit", unit, tuple(PRICE_UNITS))
    tables = tuple(at_place(f"table {at}", lambda: table_of(path, members)) for at, members in enumerate(maps_of(told, "table"), 1))
    prices = tuple(at_place(f"price {at}", lambda: price_of(path, members)) for at, members in enumerate(maps_of(told, "price"), 1))
    connection = at_place("connection", lambda: connection_of(told["connection"])) if "connection" in told else None
    nodes = tuple(at_place(f"node {at}", lambda: plain(members)) for at, members in enumerate(maps_of(told, "node"), 1))
    return Recipe(path, minutes, basis, nodes, tables, resample, missing, timezone, unit, prices, connection)


def at_place(place: str, make: Callable[[], T]) -> T:
    """What is made, with the place in front of a fault."""
    try:
        return make()
    except WordsFault as fault:
        raise RecipeFault(f"{place} {fault}") from None
    except RecipeFault as fault:
        raise RecipeFault(f"{place}: {fault}") from None


def table_of(path: Path, told: Mapping[str, Any]) -> Table:
    """The table that a recipe describes."""
    refuse_words(told, TABLE_WORDS, {"file", "kind"})
    return Table(**typed({**told, "file": path.parent / text_of("file", told["file"])}))


def price_of(path: Path, told: Mapping[str, Any]) -> PriceTable:
    """The series of prices that a recipe describes."""
    refuse_words(told, PRICE_WORDS, {"file", "device", "unit"})
    return PriceTable(**typed({**told, "file": path.parent / text_of("file", told["file"])}))


def connection_of(told: Any) -> Connection:
    """The connection that a recipe describes."""
    if not isinstance(told, dict):
        raise RecipeFault("it is no table: write [connection] with buy and sell below it")
    refuse_words(told, CONNECTION_WORDS, {"buy", "sell"})
    windows = tuple(at_place(f"time {at}", lambda: window_of(members)) for at, members in enumerate(maps_of(told, "time"), 1))
    return Connection(**typed({word: value for word, value in told.items() if word != "time"}), windows=windows)


def window_of(told: Mapping[str, Any]) -> Window:
    """The time of use that a recipe describes."""
    refuse_words(told, WINDOW_WORDS, {"from", "until"})
    others = typed({word: value for word, value in told.items() if word not in ("from", "until")})
    one_of("days", others.get("days", "all"), DAYS)
    return Window(clock_of("from", told["from"]), clock_of("until", told["until"]), **others)


def clock_of(word: str, told: Any) -> time:
    """A time of the day, as 22:00 in quotes or as TOML's own 22:00:00. 24:00 is midnight."""
    if isinstance(told, time):
        return told
    try:
        return time.fromisoformat("00:00" if told == "24:00" else told)
    except (ValueError, TypeError):
        raise RecipeFault(f"{word} is {told!r}: write a time such as \"22:00\"") from None


def typed(told: Mapping[str, Any]) -> dict[str, Any]:
    """The words with their values, each of which has the type of its word. Numbers become decimals."""
    found: dict[str, Any] = {}
    for word, value in told.items():
        if word in NUMBERS:
            if isinstance(value, bool) or not isinstance(value, int | Decimal) or not Decimal(value).is_finite():
                raise RecipeFault(f"{word} is {value!r}: write a number")
            found[word] = Decimal(value)
        elif word in WHOLE:
            found[word] = whole_of(word, value)
        elif word in MAPS:
            if not isinstance(value, dict) or not all(isinstance(word, str) for word in value.values()):
                raise RecipeFault(f"{word} is {value!r}: write a table of texts, such as {{house02 = \"feeder2\"}}")
            found[word] = value
        else:
            found[word] = value if word == "file" else text_of(word, value)
    return found


def plain(told: Mapping[str, Any]) -> dict[str, Any]:
    """A node with values that a cluster file can have."""
    try:
        found: dict[str, Any] = json.loads(json.dumps(told, default=as_float))
    except (TypeError, ValueError) as fault:
        raise RecipeFault(f"a value is none of a cluster file: {fault}") from None
    return found


def as_float(value: object) -> float:
    """A decimal as a number of JSON, which the program refuses by its own code. Raises TypeError for all else."""
    if isinstance(value, Decimal):
        return float(value)
    raise TypeError(f"{value!r} is no text, whole number or list")


def text_of(word: str, value: Any) -> str:
    """The text of a word."""
    if not isinstance(value, str):
        raise RecipeFault(f"{word} is {value!r}: write a text")
    return value


def whole_of(word: str, value: Any) -> int:
    """The whole number above 0 of a word."""
    if isinstance(value, bool) or not isinstance(value, int) or value < 1:
        raise RecipeFault(f"{word} is {value!r}: write a whole number above 0")
    return value


def minutes_of(word: str, value: Any) -> None:
    """Raises RecipeFault if these are no minutes of a row."""
    if whole_of(word, value) > MINUTES_OF_A_DAY:
        raise RecipeFault(f"{word} is {value}: a row lasts at most a day, {MINUTES_OF_A_DAY} minutes")


def one_of(word: str, value: Any, allowed: tuple[str, ...]) -> None:
    """Raises RecipeFault if a word has none of the values that are allowed."""
    if value not in allowed:
        raise RecipeFault(f"{word} is {value!r}: write one of {', '.join(allowed)}")


def maps_of(told: Mapping[str, Any], word: str) -> list[dict[str, Any]]:
    """The tables that a recipe has below [[word]]."""
    found = told.get(word, [])
    if not isinstance(found, list) or not all(isinstance(table, dict) for table in found):
        raise RecipeFault(f"{word} is no list of tables: write [[{word}]] above each")
    return found


def refuse_words(told: Mapping[str, Any], known: set[str], due: set[str]) -> None:
    """Raises RecipeFault if a word is missing or unknown."""
    for word in sorted(due - set(told)):
        raise WordsFault(f"has no {word}")
    for word in sorted(set(told) - known):
        raise WordsFault(f"has {word!r}, which is unknown: {', '.join(sorted(known))} are known")
