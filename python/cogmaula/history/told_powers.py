"""What the market told each device to take, by the frames of bids and prices alone.

A price answers one bid by its number, so the power is what that bid has at the price's step. The
topics of bids and prices name the place, a parent and a child number, by rights that the broker
keeps. A device's own word names it alone: its state says at which place it is. If two say so, or
none, the account is that of the place.
"""

from __future__ import annotations

from collections.abc import Iterable, Iterator
from dataclasses import dataclass, field
from typing import Any, NamedTuple

from .accounts import Event
from .reader import Reader, milliseconds

# How far a device's fallback may be from when a node above was away, in milliseconds.
APART = 300_000

PLACES = "SELECT node, sort, parent, child, floor, ceiling FROM states WHERE at < ? ORDER BY at"
PASSES = "SELECT 1 FROM prices WHERE session = ? AND parent = ? LIMIT 1"
SESSIONS = "SELECT session FROM sessions ORDER BY begun DESC"
# The prices of each place with the demand that each answers, without those that answer the same bid
# at the same step as the one before.
SET = """
SELECT told.at, told.parent, told.child, told.price, {demand}
FROM (
    SELECT at, session, parent, child, clearing, number, step, price,
        lag(session) OVER own AS session_before, lag(number) OVER own AS number_before,
        lag(step) OVER own AS step_before
    FROM prices WHERE at >= ? AND at < ?
    WINDOW own AS (PARTITION BY parent, child ORDER BY at, clearing)
) AS told LEFT JOIN bids ON bids.session = told.session AND bids.parent = told.parent
    AND bids.child = told.child AND bids.number = told.number
WHERE session_before IS NULL OR session_before <> told.session OR number_before <> told.number
    OR step_before <> told.step
ORDER BY told.at, told.clearing
"""
# The newest price of each place before a moment.
NEWEST = """
SELECT told.at, told.parent, told.child, told.price, {demand}
FROM (
    SELECT own.* FROM prices AS own JOIN (
        SELECT parent, child, max(at) AS at FROM prices WHERE at >= ? AND at < ?
        GROUP BY parent, child
    ) AS newest ON newest.parent = own.parent AND newest.child = own.child AND newest.at = own.at
) AS told LEFT JOIN bids ON bids.session = told.session AND bids.parent = told.parent
    AND bids.child = told.child AND bids.number = told.number
ORDER BY told.at, told.clearing
"""
GONE = "SELECT at, parent, child FROM bids WHERE demands IS NULL AND at >= ? AND at < ? ORDER BY at"
LAPSES = "SELECT at, parent, child FROM lapses WHERE at >= ? AND at < ? ORDER BY at"
FALLBACKS = (
    "SELECT since, device, power FROM fallbacks WHERE since >= ? AND since < ? ORDER BY since"
)
LIVES = "SELECT at, node, state, silent FROM states WHERE at >= ? AND at < ? ORDER BY at"


@dataclass(frozen=True)
class Place:
    """Where a node is, by its newest state: sort, parent, number there, and limits in watts."""

    sort: str
    parent: str | None
    child: int | None
    floor: int | None
    ceiling: int | None


Spot = tuple[str, int]


@dataclass(frozen=True)
class Places:
    """Who is where.

    by_name: each node by its own word, and each place without a name as a device
    owners:  the name of the account of a place, None of a relay's
    doubted: the places that several nodes say to have, each with their names
    """

    by_name: dict[str, Place]
    doubted: dict[Spot, list[str]] = field(default_factory=dict)
    owners: dict[Spot, str | None] = field(default_factory=dict)

    def account_of(self, parent: str, child: int) -> str | None:
        """The name of the account of a place, None of a relay's."""
        spot = parent, child
        if spot not in self.owners:
            self.owners[spot] = name = f"child {child} of {parent}"
            self.by_name[name] = Place("device", parent, child, None, None)
        return self.owners[spot]

    def above(self, name: str) -> Iterator[str]:
        """The nodes above one, from the nearest to the auctioneer."""
        seen = {name}
        while (
            (place := self.by_name.get(name)) is not None
            and place.parent is not None
            and place.parent not in seen
        ):
            name = place.parent
            seen.add(name)
            yield name


def places_of(reader: Reader, end: int) -> Places:
    """Who is where, by what was told before a moment.

    A relay is who passed a price down: no device has the right to.
    """
    rows = reader.rows("places", PLACES, end / 1000)
    by_name = {
        node: Place(sort, parent, child, floor, ceiling)
        for node, sort, parent, child, floor, ceiling in rows
        if sort is not None
    }
    sessions = [session for (session,) in reader.rows("sessions", SESSIONS)]
    found = Places(by_name)
    spots: dict[Spot, list[str]] = {}
    for name, place in by_name.items():
        if place.parent is not None and place.child is not None:
            spots.setdefault((place.parent, place.child), []).append(name)
    for spot, names in spots.items():
        if any(by_name[name].sort == "relay" and _passes(reader, sessions, name) for name in names):
            found.owners[spot] = None
        elif len(names) == 1:
            found.owners[spot] = names[0]
        if len(names) > 1:
            found.doubted[spot] = sorted(names)
    return found


def _passes(reader: Reader, sessions: Iterable[str], name: str) -> bool:
    """Whether a node has passed a price down."""
    return any(reader.rows("relays", PASSES, session, name) for session in sessions)


def powers_before(reader: Reader, places: Places, begin: int, back: int) -> list[Event]:
    """The newest power that was set each device in the milliseconds `back` before a moment."""
    return _set(
        places,
        reader.within("newest prices", NEWEST.format(demand=reader.demand), begin - back, begin),
    )


def powers_in(reader: Reader, places: Places, begin: int, end: int) -> list[Event]:
    """The powers that the market set between two moments, in the order of time."""
    return _set(places, reader.within("set powers", SET.format(demand=reader.demand), begin, end))


def _set(places: Places, rows: Iterable[tuple[Any, ...]]) -> list[Event]:
    found = []
    for at, parent, child, price, power in rows:
        name = places.account_of(parent, child)
        if name is not None:
            found.append(Event(milliseconds(at), name, "set", power, price))
    return found


class Away(NamedTuple):
    """That a node was down, or heard no heartbeat; `until` is None if it still is."""

    since: int
    until: int | None


def aways_of(reader: Reader, begin: int, end: int) -> dict[str, list[Away]]:
    """When each node was away, by its own state or its last will."""
    found: dict[str, list[Away]] = {}
    since: dict[str, int] = {}
    for at, node, state, silent in reader.within("lives", LIVES, begin, end):
        if state == "down" or silent is not None:
            since.setdefault(node, milliseconds(at if silent is None else min(at, silent)))
        elif node in since:
            found.setdefault(node, []).append(Away(since.pop(node), milliseconds(at)))
    for node, begun in since.items():
        found.setdefault(node, []).append(Away(begun, None))
    return found


def told_otherwise(
    reader: Reader, places: Places, begin: int, end: int
) -> tuple[list[Event], list[Event]]:
    """Lapses, leaves and fallbacks in the order of time; and fallbacks that the device alone tells.

    A fallback counts if a node above the device was away then, by the word of that node. It ends
    when that node is back.
    """
    spots = [
        (at, parent, child)
        for query in (LAPSES, GONE)
        for at, parent, child in reader.within("lapses", query, begin, end)
    ]
    events = [
        Event(milliseconds(at), name, "lapse", None, None)
        for at, parent, child in spots
        if (name := places.account_of(parent, child))
    ]
    aways, alone, known = aways_of(reader, begin, end), [], set(places.owners.values())
    for since, device, power in reader.within("fallbacks", FALLBACKS, begin, end):
        at = milliseconds(since)
        if device not in known:
            continue
        fallback = Event(at, device, "fallback", power, None)
        near = [
            away
            for node in places.above(device)
            for away in aways.get(node, [])
            if _is_near(away, at)
        ]
        if not near:
            alone.append(fallback)
            continue
        events.append(fallback)
        if all(away.until is not None for away in near):
            events.append(
                Event(max(at, *(away.until or 0 for away in near)), device, "back", None, None)
            )
    return sorted(events, key=lambda event: event.at), alone


def _is_near(away: Away, at: int) -> bool:
    return away.since - APART <= at and (away.until is None or at <= away.until + APART)
