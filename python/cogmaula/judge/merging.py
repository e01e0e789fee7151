"""Finds an order of all that was recorded in which each frame is sent before it is taken.

A frame that a node took from its parent or its child has to be among those that this node sent before, byte for byte. It may come
any number of times, late, in any order, or never. The order keeps that of each node; times count for nothing.

Whoever wants the order gives a `Visit`, which is called with each line in it.
"""

from __future__ import annotations

import hashlib
from collections import deque
from collections.abc import Callable, Generator, Mapping
from dataclasses import dataclass, field

from ..live.messages.frames import Bid, Expire, Gone, Old, Price, RelayResume
from ..live.node.recording import IN, OUT, STORED
from .frame_words import words_of_bytes
from .reading import Event, Recorded
from .recording_faults import Faulty
from .session_tree import Market

# What a node takes from a child, and from its parent.
FROM_CHILD, FROM_PARENT = {Bid.KIND, Gone.KIND}, {Price.KIND, Old.KIND}
LONGEST_KEY = 32
# A call with a node and its next line, in the order that was found.
Visit = Callable[[str, Event], None]


def _key(data: bytes) -> bytes:
    """What stands for a frame in memory: the frame, or if it is long its digest."""
    return data if len(data) <= LONGEST_KEY else b"#" + hashlib.blake2b(data, digest_size=LONGEST_KEY).digest()


class _NewBid:
    """The Bid of a relay's new number: it is stored with its Resume, and is sent if the two are."""

    def __init__(self) -> None:
        """No number was given."""
        self._stored = self._waits = 0
        self._key = b""

    def is_held(self, frame: bytes, key: bytes) -> bool:
        """Takes a frame that the relay handles, and says whether it is sent only once its Resume is stored."""
        if frame[0] == RelayResume.KIND:
            self._waits, self._key = int.from_bytes(frame[1:5], "big"), b""
        elif frame[0] == Bid.KIND and self._stored < self._waits == int.from_bytes(frame[3:7], "big"):
            self._key = key
            return True
        return False

    def stored(self) -> bytes:
        """Takes that the Resume is stored. Gives the key of the Bid that is sent by that, b"" for none."""
        key, self._key = self._key, b""
        self._stored, self._waits = max(self._stored, self._waits), 0
        return key

    def starts(self, resume: bytes) -> bytes:
        """Takes that the relay starts from a Resume, and gives what `stored` does: it may have been stored without a line."""
        number = int.from_bytes(resume[1:5], "big")
        key = self._key if number == self._waits else b""
        self._stored, self._waits, self._key = number, 0, b""
        return key


@dataclass
class _Walk:
    """How far a node has come. `event` is the next line, None at the end; `sent` has what it sent so far."""

    recorded: Recorded
    events: Generator[Event, None, None]
    event: Event | None = None
    sent: set[bytes] = field(default_factory=set)
    new_bid: _NewBid = field(default_factory=_NewBid)

    def sends(self, event: Event) -> bytes:
        """The key of what a line sends, b"" for nothing."""
        first = self.recorded.first
        is_relay = first is not None and first.sort == "relay"
        if event.what == OUT:
            key = _key(event.frame)
            return b"" if is_relay and self.new_bid.is_held(event.frame, key) else key
        if is_relay and event.start is not None:
            return self.new_bid.starts(event.start.resume)
        return self.new_bid.stored() if is_relay and event.what == STORED else b""


class Merge:
    """The search for an order in one market."""

    def __init__(self, market: Market, faulty: Mapping[str, Faulty], visit: Visit | None = None) -> None:
        """Takes the market, and of nodes what is wrong within their own recordings: there they stop.

        visit: is called with each line in the order that is found
        """
        self._market = market
        self._visit = visit
        self._faulty = dict(faulty)
        self._walks = {name: _Walk(one, one.events()) for name, one in market.nodes.items()}
        self._waiting: dict[tuple[str, bytes], list[str]] = {}
        # How many frames were taken from another node, and how many of them its recording lacks.
        self.taken = self.unmatched = 0

    def run(self) -> None:
        """Goes through all recordings. Raises the first Faulty at which no node can go on."""
        try:
            self._go_all()
        finally:
            for walk in self._walks.values():
                walk.events.close()

    def _go_all(self) -> None:
        going = deque(self._walks)
        for name in self._walks:
            self._read(name)
        while going:
            going.extend(self._go(going.popleft()))
        for name, walk in self._walks.items():
            if walk.event is not None and self._is_at_fault(name, walk.event):
                raise self._faulty[name]
        self._require_end()

    def _read(self, name: str) -> None:
        """Reads the next line of a node. A line that cannot be read is a place at which it stops."""
        walk = self._walks[name]
        try:
            walk.event = next(walk.events, None)
        except Faulty as error:
            self._faulty[name] = error
            walk.event = Event(error.fault.file, error.fault.line, "")

    def _go(self, name: str) -> list[str]:
        """Lets a node go as far as it can. Gives the nodes that waited for what it sent."""
        walk, woken = self._walks[name], list[str]()
        while walk.event is not None and not self._is_at_fault(name, walk.event):
            event = walk.event
            if key := walk.sends(event):
                walk.sent.add(key)
                woken += self._waiting.pop((name, key), [])
            if event.what == IN and self._is_waiting(name, event):
                self._waiting.setdefault((self._sender(name, event) or "", _key(event.frame)), []).append(name)
                break
            elif event.what == IN:
                self._count(name, event)
            if self._visit is not None:
                self._visit(name, event)
            self._read(name)
        return woken

    def _is_at_fault(self, name: str, event: Event) -> bool:
        fault = self._faulty[name].fault if name in self._faulty else None
        return fault is not None and (fault.file, fault.line) == (event.file, event.line)

    def _sender(self, name: str, event: Event) -> str | None:
        """The node that a frame was taken from: "" if that has no recording, None if the frame is of no other node."""
        if event.what != IN or not event.frame:
            return None
        if event.frame[0] in FROM_CHILD:
            return self._market.children.get((name, int.from_bytes(event.frame[1:3], "big")), "")
        if event.frame[0] in FROM_PARENT:
            first = self._walks[name].recorded.first
            parent = None if first is None else first.parent
            return parent if parent in self._walks else ""
        return None

    def _is_waiting(self, name: str, event: Event) -> bool:
        """Whether a frame was taken that its sender, whose recording is whole, has not yet sent."""
        sender = self._sender(name, event)
        if not sender or not self._market.is_known(sender):
            return False
        return _key(event.frame) not in self._walks[sender].sent

    def _count(self, name: str, event: Event) -> None:
        sender = self._sender(name, event)
        if sender is None:
            if event.frame[0] == Expire.KIND:
                self._require_child(name, event)
            return
        self.taken += 1
        if not sender or not self._market.is_known(sender):
            self.unmatched += 1
            if not sender and event.frame[0] in FROM_CHILD:
                self._require_child(name, event)

    def _require_child(self, name: str, event: Event) -> None:
        """Notes that the child of a frame has no recording, if so."""
        child = int.from_bytes(event.frame[1:3], "big")
        if (name, child) not in self._market.children:
            self._market.misses(f"child {child} of {name} has no recording")

    # Where no node can go on.

    def _require_end(self) -> None:
        """Raises Faulty if a node waits: for a frame that is never sent, or else for one that is sent only later."""
        waits = [(name, walk.event) for name, walk in self._walks.items() if walk.event is not None]
        late = None
        for name, event in waits:
            sender = self._sender(name, event)
            assert sender
            recorded = self._walks[name].recorded
            assert recorded.first is not None
            told = words_of_bytes(event.frame, recorded.first.sort, recorded.first.basis.steps)
            found = self._later(sender, event.frame)
            if found is None:
                raise recorded.fault(event, f"{told} is taken, and {sender} never sent just this")
            if late is None:
                where = f"{found.file}:{found.line}"
                why = f"{sender} sends it only at {where}, for which this has to be taken first"
                late = recorded.fault(event, f"{told} is taken, and {why}")
        if late is not None:
            raise late

    def _later(self, sender: str, frame: bytes) -> Event | None:
        """The first line at which a node sends a frame, None if it never does."""
        try:
            for event in self._walks[sender].recorded.events():
                if event.what == OUT and event.frame == frame:
                    return event
        except Faulty:
            # What is behind a line that cannot be read is not known.
            pass
        return None
