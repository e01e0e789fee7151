"""Why a device was told a power at a moment: its offer, the clearing, the price, and each node above, by a history.

All of it is what bids and prices say (docs/OPERATE.md, History): no power is worked out here but the sums
of what was bid. Powers are watts, prices price units, and times seconds since 1970.
"""

from __future__ import annotations

import json
from collections.abc import Iterator
from dataclasses import dataclass
from datetime import datetime, tzinfo
from typing import Any

from ..live.node.node_errors import BadSettings
from .database import Database
from .reader import Reader
from .told_powers import Places, places_of

# So many children that moved are named of each node.
MOST_MOVED = 5

SESSIONS = "SELECT session FROM sessions WHERE begun <= ? ORDER BY begun DESC"
PRICE_AT = (
    "SELECT clearing, number, step, price, at FROM prices WHERE session = ? AND parent = ?"
    " AND child = ? AND at <= ? ORDER BY clearing DESC LIMIT 1"
)
PRICE_OF = (
    "SELECT clearing, number, step, price, at FROM prices WHERE session = ? AND parent = ?"
    " AND child = ? AND clearing <= ? ORDER BY clearing DESC LIMIT 1"
)
BID = (
    "SELECT at, demands FROM bids"
    " WHERE session = ? AND parent = ? AND child = ? AND number = ?"
)
CHILDREN = "SELECT DISTINCT child FROM prices WHERE session = ? AND parent = ? ORDER BY child"
GONE = (
    "SELECT max(number) FROM bids WHERE session = ? AND parent = ? AND child = ?"
    " AND demands IS NULL AND at <= ?"
)
LAPSE = (
    "SELECT at, number, why FROM lapses WHERE session = ? AND parent = ? AND child = ? AND at <= ?"
    " ORDER BY at DESC LIMIT 1"
)
FALLBACK = (
    "SELECT since, power, why FROM fallbacks WHERE session = ? AND device = ? AND since <= ?"
    " ORDER BY since DESC LIMIT 1"
)
LIMITS = (
    "SELECT floor, ceiling FROM limits WHERE session = ? AND relay = ? AND at <= ?"
    " AND state IN ('kept', 'settings') ORDER BY at DESC LIMIT 1"
)


@dataclass(frozen=True)
class Answer:
    """A price that a node gave one child, and the child's bid that it answers.

    power: what the bid takes at the step, None if the history has not the bid
    """

    child: int
    clearing: int
    number: int
    step: int
    price: int
    at: float
    bid_at: float | None
    power: int | None


@dataclass(frozen=True)
class Moved:
    """A child of a node whose power an answer changed: its name, the power before, and the new one."""

    name: str
    before: int | None
    power: int | None


@dataclass(frozen=True)
class Level:
    """A node above the device, in the clearing that set the device's power.

    own:     the price that the node itself was given and its bid; None of the auctioneer
    step:    the step that it gave its children; `price` is that of the step
    total:   what its children's bids take together there, None if a bid is not known
    floor, ceiling: the limits by its newest state or answer before, None without
    moved:   the children whose power this clearing changed, the greatest change first
    children: how many children the total is over
    """

    name: str
    sort: str
    own: Answer | None
    step: int
    price: int
    total: int | None
    floor: int | None
    ceiling: int | None
    moved: tuple[Moved, ...]
    children: int


@dataclass(frozen=True)
class Why:
    """Why a device was told what it was told at a moment.

    told:     the answer that set its power
    levels:   the nodes above, from the nearest to the auctioneer
    lapse:    when it was let go since, and why; None if it was not
    fallback: since when it was told silence since, its fallback in watts, and why; None if it was not
    """

    device: str
    told: Answer
    levels: tuple[Level, ...]
    lapse: tuple[float, str] | None
    fallback: tuple[float, int, str] | None


class _Session:
    """Reads the bids and prices of one session."""

    def __init__(self, reader: Reader, places: Places, session: str) -> None:
        self._reader = reader
        self._places = places
        self._session = session
        self._names = {
            (place.parent, place.child): name for name, place in places.by_name.items()
        }

    def rows(self, name: str, query: str, *values: Any) -> list[tuple[Any, ...]]:
        """The rows of a query that begins with the session."""
        return self._reader.rows(name, query, self._session, *values)

    def answer(self, query: str, parent: str, child: int, until: float | int) -> Answer | None:
        """The newest price of a child up to a moment or a clearing, None without one."""
        found = self.rows("price", query, parent, child, until)
        if not found:
            return None
        clearing, number, step, price, at = found[0]
        bids = self.rows("bid", BID, parent, child, number)
        bid_at, demands = bids[0] if bids else (None, None)
        power = json.loads(demands)[step] if demands else None
        return Answer(child, clearing, number, step, price, at, bid_at, power)

    def name_of(self, parent: str, child: int) -> str:
        """The name of the node at a place."""
        return self._names.get((parent, child), f"child {child} of {parent}")

    def levels(self, device: str, told: Answer) -> Iterator[Level]:
        """The nodes above a device, by what they gave and were given up to the clearing of its price."""
        clearing, step, price, at = told.clearing, told.step, told.price, told.at
        for name in self._places.above(device):
            place = self._places.by_name.get(name)
            own = None
            if place is not None and place.parent is not None and place.child is not None:
                own = self.answer(PRICE_OF, place.parent, place.child, clearing)
            counted = list(self._counted(name, clearing, at))
            total = None
            if all(now.power is not None for now, _ in counted):
                total = sum(now.power or 0 for now, _ in counted)
            floor, ceiling = self._limits(name, at)
            yield Level(
                name, "node" if place is None else place.sort, own, step, price, total,
                floor, ceiling, self._moved(name, counted), len(counted),
            )
            if own is None:
                return
            step, price = own.step, own.price

    def _counted(self, parent: str, clearing: int, at: float) -> Iterator[tuple[Answer, Answer | None]]:
        """The answer of each child of a node up to a clearing, and the one before, without who left."""
        for (child,) in self.rows("children", CHILDREN, parent):
            now = self.answer(PRICE_OF, parent, child, clearing)
            if now is None:
                continue
            gone = self.rows("gone", GONE, parent, child, at)[0][0]
            lapse = self.rows("lapse", LAPSE, parent, child, at)
            if max(gone or 0, lapse[0][1] if lapse else 0) > now.number:
                continue
            yield now, self.answer(PRICE_OF, parent, child, now.clearing - 1)

    def _moved(self, parent: str, counted: list[tuple[Answer, Answer | None]]) -> tuple[Moved, ...]:
        moved = [
            Moved(self.name_of(parent, now.child), None if before is None else before.power, now.power)
            for now, before in counted
            if before is None or before.power != now.power
        ]
        return tuple(sorted(moved, key=lambda one: -abs((one.power or 0) - (one.before or 0))))

    def _limits(self, name: str, at: float) -> tuple[int | None, int | None]:
        given = self.rows("limits", LIMITS, name, at)
        if given:
            floor, ceiling = given[0]
            return floor, ceiling
        place = self._places.by_name.get(name)
        return (None, None) if place is None else (place.floor, place.ceiling)


def why(database: Database, device: str, moment: datetime) -> Why:
    """Why a device was told its power at a moment. Raises BadSettings if the history cannot say, and DatabaseLost."""
    at = moment.timestamp()
    reader = Reader(database)
    places = places_of(reader, round(at * 1000) + 1)
    place = places.by_name.get(device)
    if place is None or place.parent is None or place.child is None:
        raise BadSettings(f"the history has no device {device} before {moment.isoformat()}: look for a slip in its name")
    for (name,) in reader.rows("sessions", SESSIONS, at):
        session = _Session(reader, places, name)
        told = session.answer(PRICE_AT, place.parent, place.child, at)
        if told is None:
            continue
        lapse = session.rows("lapse", LAPSE, place.parent, place.child, at)
        since, power, silent = next(iter(session.rows("fallback", FALLBACK, device, at)), (0.0, 0, ""))
        return Why(
            device, told, tuple(session.levels(device, told)),
            (lapse[0][0], lapse[0][2]) if lapse and lapse[0][1] > told.number else None,
            (since, power, silent) if since > told.at else None,
        )
    raise BadSettings(f"{device} was told no price before {moment.isoformat()}: its first one is later, or the history began later")


def lines_of(found: Why, zone: tzinfo | None) -> Iterator[str]:
    """What a reader is told, a line each. Times are of this zone, and without one of this machine's."""

    def clock(at: float) -> str:
        return datetime.fromtimestamp(at).astimezone(zone).isoformat(sep=" ", timespec="milliseconds")

    told = found.told
    yield (
        f"{found.device} was told {_watts(told.power)} at {clock(told.at)}"
        f" by clearing {told.clearing}: price {told.price}, step {told.step}"
    )
    if told.bid_at is None:
        yield f"  its own bid {told.number} is not in the history"
    else:
        yield f"  its own bid {told.number} of {clock(told.bid_at)} takes {_watts(told.power)} at step {told.step}"
    if found.lapse is not None:
        yield f"  since {clock(found.lapse[0])} it is let go: {found.lapse[1]}"
    if found.fallback is not None:
        since, power, why_silent = found.fallback
        yield f"  since {clock(since)} it is told silence, with its fallback of {power} W: {why_silent}"
    for level in found.levels:
        yield from _lines_of_level(level)


def _lines_of_level(level: Level) -> Iterator[str]:
    limits = "" if level.floor is None and level.ceiling is None else f", limits {level.floor} to {level.ceiling} W"
    yield (
        f"{level.sort} {level.name}: its {level.children} children take {_watts(level.total)}"
        f" at price {level.price}, step {level.step}{limits}"
    )
    own = level.own
    if own is not None:
        yield f"  it was given price {own.price}, step {own.step}, for its bid {own.number}, which takes {_watts(own.power)} there"
        if own.step != level.step:
            yield f"  it settled for step {level.step} in place of {own.step}, to keep its limits"
    for moved in level.moved[:MOST_MOVED]:
        before = "had no price before" if moved.before is None else f"from {moved.before} W"
        yield f"  moved: {moved.name} {before} to {_watts(moved.power)}"
    if len(level.moved) > MOST_MOVED:
        yield f"  and {len(level.moved) - MOST_MOVED} more moved"


def _watts(power: int | None) -> str:
    return "a power that the history does not have" if power is None else f"{power} W"
