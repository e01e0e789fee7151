"""The course of a span of a history, such as a day: prices, the accounts of devices, and the relays whose limits were reached."""

from __future__ import annotations

import logging
from bisect import bisect_left
from collections.abc import Sequence
from dataclasses import dataclass

from .accounts import MEASURED_HOLDS, SLOT, Account, Accounts, Event, SlotSums
from .database import Database
from .differences import Difference, Differences, setpoints_in
from .reader import Reader, milliseconds
from .told_powers import Place, Places, places_of, powers_before, powers_in, told_otherwise

log = logging.getLogger(__name__)

# How long before the span, in milliseconds, something may be told that still holds at its begin: at first an hour, at most a day.
LOOKS_BACK = (3_600_000, 86_400_000)

ALARMS = "SELECT at, node, alarm FROM states WHERE at >= ? AND at < ? AND alarm <> '' ORDER BY at, node"
# The price that each node gave its children by each clearing.
PASSED = (
    "SELECT min(at), parent, session, clearing, min(price) FROM prices WHERE at >= ? AND at < ?"
    " GROUP BY parent, session, clearing ORDER BY 1, session, clearing"
)
# The price that one node had by each clearing.
OWN = "SELECT clearing, price FROM prices WHERE session = ? AND parent = ? AND child = ? AND at >= ? AND at < ?"
MEASURED = "SELECT at, device, power FROM measured WHERE at >= ? AND at < ? ORDER BY at"
LIMITS = "SELECT at, relay, state, floor, ceiling, until, reference, why FROM limits WHERE at >= ? AND at < ? ORDER BY at, relay"


@dataclass(frozen=True)
class Price:
    """The price that a node passed down from a moment on."""

    at: int
    price: int


@dataclass(frozen=True)
class Relay:
    """A relay over the span.

    place:    where it is, with its limits
    loads:    what the devices below took less what they gave, in watts times milliseconds, in each slot
    ceiling_for, floor_for: for how many milliseconds it passed down a higher, and a lower, price than it had
    """

    place: Place
    loads: list[int]
    ceiling_for: int
    floor_for: int


@dataclass(frozen=True)
class LimitsAnswer:
    """What a relay answered about limits that it was given."""

    at: int
    relay: str
    state: str
    floor: int
    ceiling: int
    until: int | None
    reference: str | None
    why: str


@dataclass(frozen=True)
class Course:
    """What a history tells of a span.

    begin, end: milliseconds since 1970 in UTC
    ends:       the end of each slot; the last one may be shorter than others
    market:     the auctioneer's prices by the time of their clearings; the first one may be of before the span
    clearings:  how many clearings the span has
    places:     each node of the market, by name
    accounts:   of each device, by name
    energies:   what each device took less what it gave in each slot
    sums:       of all devices, of each slot
    relays:     by name
    answers:    about limits that were given
    alarms:     the moment, the node and the alarm
    differences: what devices wrote that the market does not bear out, the first of them, and `different` how many there are
    by_measure: whether accounts go by measured powers, as far as they are there
    """

    begin: int
    end: int
    ends: tuple[int, ...]
    market: tuple[Price, ...]
    clearings: int
    places: dict[str, Place]
    accounts: dict[str, Account]
    energies: dict[str, list[int]]
    sums: tuple[SlotSums, ...]
    relays: dict[str, Relay]
    answers: tuple[LimitsAnswer, ...]
    alarms: tuple[tuple[int, str, str], ...]
    differences: tuple[Difference, ...]
    different: int
    by_measure: bool


def course_of(database: Database, begin: int, end: int, *, by_measure: bool = False) -> Course:
    """The course from one moment to another, in milliseconds since 1970. Raises DatabaseLost.

    by_measure: devices are billed by what their controls say that they measured, as far as they say so; else by the market's frames alone
    """
    reader = Reader(database)
    places = places_of(reader, end)
    accounts, ends, differences = Accounts(begin), [], Differences(places)
    set_before = _before(reader, places, begin)
    others, alone = told_otherwise(reader, places, begin - LOOKS_BACK[-1], end)
    times = [event.at for event in others]
    measured = _measured(reader, begin - MEASURED_HOLDS, begin) if by_measure else []
    accounts.begin_with(_ordered(set_before, others[: bisect_left(times, begin)], measured))
    differences.begin_with(set_before)
    for at in range(begin, end, SLOT):
        ends.append(min(at + SLOT, end))
        told = powers_in(reader, places, at, ends[-1])
        measured = _measured(reader, at, ends[-1]) if by_measure else []
        accounts.slot(_ordered(told, others[bisect_left(times, at) : bisect_left(times, ends[-1])], measured), ends[-1])
        differences.slot(told, setpoints_in(reader, at, ends[-1]))
    differences.fallbacks(alone, begin, end)
    differences.rebids(reader, places, begin, end)
    differences.close()
    passed = _passed(reader, begin, end)
    energies = accounts.energies
    roots = [name for name, place in places.by_name.items() if place.sort == "auctioneer"]
    market = sorted((price for root in roots for price in passed.get(root, {}).values()), key=lambda price: price.at)
    relays = {
        name: _relay(reader, name, place, places, passed, energies, begin, end)
        for name, place in places.by_name.items()
        if place.sort == "relay" and places.owners.get((place.parent or "", place.child or 0), name) is None
    }
    answers = [
        LimitsAnswer(milliseconds(at), relay, state, floor, ceiling, None if until is None else milliseconds(until), reference, why)
        for at, relay, state, floor, ceiling, until, reference, why in reader.within("limits", LIMITS, begin, end)
    ]
    alarms = [(milliseconds(at), node, alarm) for at, node, alarm in reader.within("alarms", ALARMS, begin, end)]
    found = Course(
        begin, end, tuple(ends), (*_first_price(reader, roots, begin), *market), len(market), places.by_name, accounts.by_device, energies,
        tuple(accounts.sums), relays, tuple(answers), tuple(alarms), tuple(differences.found), differences.count, by_measure,
    )
    log.debug("queries: %s", ", ".join(f"{name} {seconds:.1f} s" for name, seconds in reader.took.items()))
    return found


def _before(reader: Reader, places: Places, begin: int) -> list[Event]:
    """The newest power that was set each device before the span."""
    known = {name for name in places.owners.values() if name is not None}
    found: list[Event] = []
    for back in LOOKS_BACK:
        found = powers_before(reader, places, begin, back)
        if known and known <= {event.device for event in found}:
            break
    return found


def _ordered(*parts: Sequence[Event]) -> list[Event]:
    """Events in the order of time."""
    return sorted((event for part in parts for event in part), key=lambda event: event.at)


def _measured(reader: Reader, begin: int, end: int) -> list[Event]:
    return [
        Event(milliseconds(at), device, "measured", power, None) for at, device, power in reader.within("measured", MEASURED, begin, end)
    ]


# Prices and relays.


def _passed(reader: Reader, begin: int, end: int) -> dict[str, dict[tuple[str, int], Price]]:
    """The prices that each node passed down, by session and clearing, in the order of time."""
    found: dict[str, dict[tuple[str, int], Price]] = {}
    for at, parent, session, clearing, price in reader.within("prices", PASSED, begin, end):
        found.setdefault(parent, {})[session, clearing] = Price(milliseconds(at), price)
    return found


def _first_price(reader: Reader, roots: Sequence[str], begin: int) -> list[Price]:
    """The auctioneer's newest price of before the span, none if a day before it has none."""
    query = "SELECT at, price FROM prices WHERE parent = ? AND at >= ? AND at < ? ORDER BY at DESC, clearing DESC LIMIT 1"
    rows = [row for root in roots for row in reader.within("first price", query, begin - LOOKS_BACK[-1], begin, root)]
    return [Price(milliseconds(at), price) for at, price in sorted(rows)[-1:]]


def _relay(
    reader: Reader,
    name: str,
    place: Place,
    places: Places,
    passed: dict[str, dict[tuple[str, int], Price]],
    energies: dict[str, list[int]],
    begin: int,
    end: int,
) -> Relay:
    """A relay over the span: its load, and for how long it passed down another price than it had."""
    own: dict[tuple[str, int], int] = {}
    prices = passed.get(name, {})
    for session in {session for session, _ in prices}:
        rows = reader.within("relays' own prices", OWN, begin, end, session, place.parent, place.child)
        own |= {(session, clearing): price for clearing, price in rows}
    above = below = 0
    following = [price.at for price in prices.values()][1:] + [end]
    for (key, price), until in zip(prices.items(), following, strict=False):
        had = own.get(key, price.price)
        above += until - price.at if price.price > had else 0
        below += until - price.at if price.price < had else 0
    slots = len(next(iter(energies.values()), []))
    members = [device for device in energies if name in places.above(device)]
    return Relay(place, [sum(energies[device][at] for device in members) for at in range(slots)], above, below)
