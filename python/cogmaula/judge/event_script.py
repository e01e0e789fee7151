"""The offers of a session's devices as the script of a cluster file: each is one change of its device, or two.

A device that comes back with another offer joins with the one that it had, and then has the new one. These are two changes. A device
counts by two, and the odd numbers are its parent's: one that this gave is a change too, by which the device leaves. So numbers of
changes are others than those that the device counts itself, and each device has a table of which is which.
"""

from __future__ import annotations

from collections.abc import Iterable, Mapping
from dataclasses import dataclass, field

from ..members import Demand
from ..phases import Event, Join, Leave, State


@dataclass
class Device:
    """What a device did so far.

    start:   its first offer, in watts at each step, None if it made none
    offer:   the offer that it has in the script
    joined:  the number of the change by which it joined last
    members: by the number of a change, whether it is a member behind it
    numbers: by a number of its own or of its parent's, the number of the change that has the same bid
    last:    the greatest of these
    lapses:  the numbers that its parent gave, over the whole session
    """

    start: Demand | None = None
    offer: Demand | None = None
    joined: int = 0
    members: list[bool] = field(default_factory=lambda: [False])
    numbers: dict[int, int] = field(default_factory=lambda: {0: 0})
    last: int = 0
    lapses: frozenset[int] = frozenset()

    @property
    def count(self) -> int:
        """How many changes it made."""
        return len(self.members) - 1

    @property
    def is_member(self) -> bool:
        """Whether it is a member now."""
        return self.members[-1]

    def holds(self, number: int) -> bool:
        """Whether it takes a price that names this change: one of its membership now."""
        return self.is_member and number >= self.joined


class Script:
    """The events of a phase, in the order in which they were made."""

    def __init__(self, devices: Iterable[str], lapses: Mapping[str, Iterable[int]]) -> None:
        """Nobody has joined.

        lapses: of each device the numbers under which its parent lets it go
        """
        self.devices = {name: Device(lapses=frozenset(lapses.get(name, ()))) for name in devices}
        self.events: list[Event] = []

    def reaches(self, name: str, number: int) -> int:
        """A device goes on to a number that is none of its own offers and leavings, or up to the one before such a one.

        Under each number that its parent gave it leaves. If it gave itself a number of which nothing is sent, it was let go: it left
        under that, and will make its offer anew. Gives how many changes these are.
        """
        device, before = self.devices[name], len(self.events)
        for number_between in range(device.last + 1, number + 1):
            if number_between in device.lapses:
                self.leaves(name, number_between)
            elif number_between % 2 == 0 and device.is_member:
                self.leaves(name, number_between)
        return len(self.events) - before

    def offers(self, name: str, number: int, demands: Demand) -> int:
        """A device makes an offer under its next number. Gives how many changes these are."""
        device, before = self.devices[name], len(self.events)
        if not device.is_member:
            self._joins(name)
        if device.start is None:
            # What it joined with before, if it left at once, was this offer too: no number names it.
            device.start = device.offer = demands
        if device.offer != demands or before == len(self.events):
            self._add(device, State(name, demand=demands), True)
            device.offer = demands
        return self._numbered(device, number, before)

    def leaves(self, name: str, number: int) -> int:
        """A device leaves under a number, or says again that it is gone. Gives how many changes these are."""
        device, before = self.devices[name], len(self.events)
        if not device.is_member:
            # It counts on, and only a member leaves.
            self._joins(name)
        self._add(device, Leave(name), False)
        return self._numbered(device, number, before)

    def _joins(self, name: str) -> None:
        device = self.devices[name]
        self._add(device, Join(name), True)
        device.joined = device.count

    def _add(self, device: Device, event: Event, is_member: bool) -> None:
        self.events.append(event)
        device.members.append(is_member)

    def _numbered(self, device: Device, number: int, before: int) -> int:
        device.numbers[number], device.last = device.count, number
        return len(self.events) - before
