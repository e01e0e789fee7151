"""Follows the lines of a session in the order that was found, and makes the moves of the market that they stand for.

docs/NETWORK.md, "Why it holds", has the reasons. A number is made once its Resume is stored. A parent learns just before it
publishes, and only the numbers that its Resume has. Each due clearing is passed to a relay before the next one. So a restart,
a lost message and a price that comes again are no moves. Limits that a relay was given are numbers of a device below it that is
never a member.
"""

from __future__ import annotations

import itertools

from ..cluster import Basis
from ..program_limits import MOST_EVENTS
from ..live.messages.frames import (
    RESUMES,
    WRITES,
    AuctioneerResume,
    Bid,
    DeviceResume,
    Dropped,
    Price,
    RelayResume,
    ResumeGone,
    Setpoint,
    Sort,
    frame_of,
)
from ..live.node.recording import IN, OUT, STORED
from .event_script import Script
from .journal import Journal
from .lapsed_numbers import lapses_of
from .reading import Event, Start
from .session_tree import Market


class Following:
    """One session, of which all is recorded, and what its lines come to.

    script:  the changes of its devices, and journal the moves
    givers:  of each relay whose limits may change the name that the trace has for the place in which they are given
    bound:   of the first bid of which a step is outside the limits, its relay and its number, None without one
    """

    def __init__(self, market: Market) -> None:
        """Takes the tree. Calls of `visit` follow, with all lines of the session in their order."""
        self.market = market
        self.starts: dict[str, Start] = {name: node.first for name, node in market.nodes.items() if node.first is not None}
        root = next(name for name, start in self.starts.items() if start.parent is None)
        self.basis: Basis = self.starts[root].basis
        self.givers = {name: self._unused(name) for name, start in self.starts.items() if start.giver}
        devices = [*(name for name, start in self.starts.items() if start.sort == "device"), *self.givers.values()]
        self.script = Script(devices, lapses_of(market))
        parents = {name: start.parent for name, start in self.starts.items() if start.parent is not None}
        self.journal = Journal(parents | {giver: name for name, giver in self.givers.items()}, root)
        self.bound: tuple[str, int] | None = None
        # Of each node the demands of its bids, by number.
        self._bids: dict[str, dict[int, tuple[int, ...]]] = {name: {} for name in self.starts}
        # Of each node the Resume that waits to be stored, and of each device the step of each clearing that it was told.
        self._waits: dict[str, bytes] = {}
        self._steps: dict[str, dict[int, int]] = {name: {} for name in self.script.devices}

    def visit(self, name: str, event: Event) -> None:
        """Takes the next line."""
        # A cluster file has no more, and then nothing is followed any more.
        if len(self.script.events) > MOST_EVENTS:
            return
        if event.start is not None:
            self._waits.pop(name, None)
            if event.start.resume:
                self._keeps(name, event.start.resume)
        elif event.what == OUT:
            self._writes(name, event.frame)
        elif event.what == STORED:
            self._keeps(name, self._waits.pop(name))
        elif event.what == IN and event.frame[0] == Price.KIND:
            self._hears(name, event.frame)

    def _unused(self, name: str) -> str:
        """A name for the place in which a relay's limits are given, which no node has."""
        names = (f"{name[:20]}-limits{count or ''}" for count in itertools.count())
        return next(name for name in names if name not in self.starts)

    def _sort(self, name: str) -> Sort:
        return self.starts[name].sort

    def _writes(self, name: str, data: bytes) -> None:
        """A node handles a frame of its service."""
        if data[0] in RESUMES[self._sort(name)]:
            self._waits[name] = data
            return
        if data[0] not in (Bid.KIND, Setpoint.KIND, Dropped.KIND):
            return
        match frame_of(data, WRITES[self._sort(name)], self.basis.steps):
            case Bid() as frame:
                self._bids[name][frame.number] = frame.demands
            case Setpoint() as frame:
                self._takes(name, frame.number, frame.index, frame.step)
            case Dropped() as frame if self._sort(name) == "device":
                self._takes(name, frame.number, frame.index, self._steps[name][frame.index])

    def _hears(self, name: str, data: bytes) -> None:
        """A node is told a price. A relay is passed all that is due up to it, whether it takes this one or not."""
        price = frame_of(data, {Price.KIND: Price}, self.basis.steps)
        assert isinstance(price, Price)
        if self._sort(name) == "relay":
            self.journal.pass_due(name, price.index)
        else:
            self._steps[name][price.index] = price.step

    def _takes(self, name: str, number: int, index: int, step: int) -> None:
        """A device takes a price, or drops it. What it had already, before a restart, is no move."""
        device = self.script.devices[name]
        if index > self.journal.passed[name]:
            change = device.numbers[number]
            self.journal.pass_to_device(name, index, (self.basis.price(step), change) if device.holds(change) else None)

    def _keeps(self, name: str, data: bytes) -> None:
        """A Resume is stored. With a number above the newest it is a change, a bid or a clearing."""
        match frame_of(data, RESUMES[self._sort(name)], self.basis.steps):
            case DeviceResume() as resume if resume.last > self.script.devices[name].last:
                self._changes(name, self.script.reaches(name, resume.last - 1) + self.script.offers(name, resume.last, resume.demands))
            case ResumeGone() as resume if resume.last > self.script.devices[name].last:
                self._changes(name, self.script.reaches(name, resume.last - 1) + self.script.leaves(name, resume.last))
            case RelayResume() as resume if resume.last > self.journal.counts[name]:
                self._look_at_limits(name, resume)
                self._publishes(name, resume.numbers)
            case AuctioneerResume() as resume if resume.last > self.journal.counts[name]:
                self._publishes(name, resume.numbers)

    def _changes(self, name: str, count: int) -> None:
        for _ in range(count):
            self.journal.change(name)

    def _publishes(self, name: str, numbers: tuple[int, ...]) -> None:
        """A parent learns the numbers of its children that went into its next number, and publishes or clears."""
        for child, number in enumerate(numbers, 1):
            node = self._child(name, child) if number else None
            if node is not None:
                device = self.script.devices.get(node)
                if device is not None and number > device.last:
                    # A number of its parent's, or of the relay's limits.
                    self._changes(node, self.script.reaches(node, number - 1) + self.script.leaves(node, number))
                self.journal.learn(node, number if device is None else device.numbers[number])
        self.journal.publish(name)

    def _child(self, name: str, child: int) -> str | None:
        """The node of a parent's child, or the place of its limits."""
        return self.givers[name] if child == self.starts[name].giver else self.market.children.get((name, child))

    def _look_at_limits(self, name: str, resume: RelayResume) -> None:
        """Adds up what goes into a relay's bid, and notes if some step of it is outside the limits."""
        bids = [self._bids.get(self._child(name, child) or "", {}).get(number) for child, number in enumerate(resume.numbers, 1) if number]
        total = [sum(at) for at in zip(*(bid for bid in bids if bid is not None), strict=True)]
        if total and not resume.floor <= total[-1] <= total[0] <= resume.ceiling and self.bound is None:
            self.bound = name, resume.last
