"""What devices wrote of themselves that the market's frames do not bear out."""

from __future__ import annotations

from collections.abc import Iterable
from dataclasses import dataclass
from operator import itemgetter

from .accounts import Event
from .database import DatabaseLost
from .reader import Reader, milliseconds
from .told_powers import Places

SETPOINTS = (
    "SELECT at, device, power, price FROM setpoints WHERE at >= ? AND at < ?"
    " ORDER BY at, clearing, number"
)
REBIDS = "SELECT at, parent, child, number FROM rebids WHERE at >= ? AND at < ? ORDER BY at"
# So many are kept; all are counted.
MOST = 1_000


@dataclass(frozen=True)
class Difference:
    """What a device wrote, beside what counts.

    told, due: watts; None if there is no power to tell; `due` also if the history has no price
    """

    at: int
    device: str
    what: str
    told: int | None
    due: int | None


class Differences:
    """Compares what devices wrote with the powers that the market set, in the order of time."""

    def __init__(self, places: Places) -> None:
        """Takes who is where."""
        self.found: list[Difference] = []
        self.count = 0
        self._set: dict[str, tuple[int | None, int | None]] = {}
        self._early: dict[str, Event] = {}
        for (parent, child), names in places.doubted.items():
            for name in names:
                self._add(
                    Difference(
                        0,
                        name,
                        f"says that it is child {child} of {parent}, as another does",
                        None,
                        None,
                    )
                )

    def begin_with(self, events: Iterable[Event]) -> None:
        """Takes the powers that were set before."""
        for event in events:
            if event.kind == "set":
                self._set[event.device] = event.power, event.price

    def slot(self, events: Iterable[Event], setpoints: Iterable[Event]) -> None:
        """Takes the powers that the market set in a slot, and the setpoints that devices wrote."""
        frames = [(event.at, False, event) for event in events if event.kind == "set"]
        written = [(event.at, True, event) for event in setpoints]
        for _, is_written, event in sorted(frames + written, key=itemgetter(0, 1)):
            if is_written:
                self._compare(event)
            else:
                self._take(event)

    def _take(self, event: Event) -> None:
        self._set[event.device] = event.power, event.price
        early = self._early.pop(event.device, None)
        if early is not None and early.power != event.power:
            self._add(Difference(early.at, early.device, "setpoint", early.power, None))

    def _compare(self, event: Event) -> None:
        if event.device not in self._set:
            # The history may have begun with a later price of the same power.
            self._early[event.device] = event
            return
        power, price = self._set[event.device]
        if (event.power, event.price) != (power, price):
            self._add(Difference(event.at, event.device, "setpoint", event.power, power))

    def fallbacks(self, alone: Iterable[Event], begin: int, end: int) -> None:
        """Takes the fallbacks that nothing but the device tells."""
        for event in alone:
            if begin <= event.at < end:
                self._add(
                    Difference(
                        event.at,
                        event.device,
                        "fallback while the nodes above were up",
                        event.power,
                        None,
                    )
                )

    def rebids(self, reader: Reader, places: Places, begin: int, end: int) -> None:
        """Takes the bids whose number had another bid before."""
        try:
            rows = reader.within("rebids", REBIDS, begin, end)
        except DatabaseLost:
            # A history of before has no such table.
            return
        for at, parent, child, number in rows:
            name = places.account_of(parent, child)
            if name is not None:
                self._add(
                    Difference(
                        milliseconds(at),
                        name,
                        f"two bids of number {number}, the first one counts",
                        None,
                        None,
                    )
                )

    def close(self) -> None:
        """Takes the end: a setpoint of a device that never got a price is one of these."""
        for early in self._early.values():
            self._add(Difference(early.at, early.device, "setpoint", early.power, None))
        self._early = {}
        self.found.sort(key=lambda difference: (difference.at, difference.device))

    def _add(self, difference: Difference) -> None:
        self.count += 1
        if len(self.found) < MOST:
            self.found.append(difference)


def setpoints_in(reader: Reader, begin: int, end: int) -> list[Event]:
    """What devices wrote as their setpoints between two moments."""
    return [
        Event(milliseconds(at), device, "set", power, price)
        for at, device, power, price in reader.within("setpoints", SETPOINTS, begin, end)
    ]
