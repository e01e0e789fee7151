"""The market of a simulation: the proved program over its stream, and a proved relay for each group with limits.

So each price is that of the auction over the bids that were made, whatever the models do. docs/SERVE.md and docs/RELAY.md have the
frames.
"""

from __future__ import annotations

import struct
import subprocess
from collections.abc import Mapping, Sequence
from contextlib import ExitStack
from dataclasses import dataclass, field
from functools import cached_property
from types import TracebackType

from ..cluster import Basis
from ..live.messages.frames import CHILDREN, WRITES, Bid, Clear, Dropped, Fault, Hello, Price, RelayResume, Send, are_limits, is_basis, size_of
from ..program import Program, chosen, live_at, live_program
from .device import Demands
from .streams import LONGEST, PIECE, ROOM, Stream, open_live

# An answer Price of `serve`, with its kind; that of a relay begins alike. And what a Bid has before its demands.
PRICE, PRICE_KIND = struct.Struct(">BHIIH"), 5
BID = struct.Struct(">BHI")


@dataclass(frozen=True)
class Group:
    """Devices whose power together is held within limits, by a price of their own, as a limited concentrator has it.

    floor, ceiling: the least and the greatest watts that they take together
    devices:        their names
    """

    name: str
    floor: int
    ceiling: int
    devices: tuple[str, ...]

    def __post_init__(self) -> None:
        """Raises ValueError for limits that no relay has."""
        object.__setattr__(self, "devices", tuple(self.devices))
        if not are_limits(self.floor, self.ceiling):
            raise ValueError(f"the group {self.name} has limits {self.floor} to {self.ceiling}: a floor of at most 0 and a ceiling of at least 0 W are due")


class _Node(Stream):
    """A node of the market, with the newest bid of each of its children. What it reads waits until it is asked.

    A process takes so many bytes and no more. Before that it is started anew, and hears all bids again.
    """

    def __init__(self, what: str, basis: Basis) -> None:
        super().__init__(what)
        self._hello = Hello(basis.min, basis.max, basis.steps).to_bytes()
        self._bids: dict[int, bytes] = {}
        self.has_news = False
        self._begin(self._hello)

    def _begin(self, first: bytes) -> None:
        self.start()
        self._waiting = [first, *self._bids.values()]
        self._due = sum(map(len, self._waiting))

    def _again(self) -> bytes:
        """What a process is told first that takes the place of another one."""
        return self._hello

    @property
    def has_children(self) -> bool:
        """Whether a child has bid."""
        return bool(self._bids)

    def bid(self, child: int, frame: bytes) -> None:
        """Takes a bid of a child, whose number has risen."""
        if self._due + len(frame) > LONGEST - ROOM:
            self.close()
            self._begin(self._again())
        self._bids[child] = frame
        self._waiting.append(frame)
        self._due += len(frame)
        self.has_news = True

    def ask(self, frame: bytes) -> None:
        """Writes what waits and this frame, which asks for answers. Raises ProgramFault."""
        data, self._waiting = b"".join([*self._waiting, frame]), []
        self._due += len(frame)
        self.write(data)


class _Auctioneer(_Node):
    """The program `market serve`."""

    def __init__(self, program: Program, basis: Basis) -> None:
        self._program = program
        super().__init__("market serve", basis)

    def open(self) -> subprocess.Popen[bytes]:
        """See Stream."""
        self.index = 0
        return self._program.open("serve")

    def clear(self) -> int:
        """The step that all children have, once a bid is new. Raises ProgramFault."""
        self.ask(Clear().to_bytes())
        self.index += 1
        self.has_news = False
        told = self.read_all(len(self._bids) * PRICE.size)
        found = {(kind, index, step) for kind, _, _, index, step in PRICE.iter_unpack(told)}
        kind, index, step = found.pop()
        if found or (kind, index) != (PRICE_KIND, self.index):
            raise self.fault("it wrote no Price of this clearing")
        return int(step)


class _Relay(_Node):
    """The program `live relay` of a group. What it is asked for and what it answers are apart, so that all relays work side by side."""

    def __init__(self, group: Group, child: int, basis: Basis, live: str) -> None:
        self.child = child
        self._basis = basis
        self._words = [live, "relay", str(child), str(group.floor), str(group.ceiling)]
        self._sizes = {first: size_of(kind, basis.steps, first) for first, kind in WRITES["relay"].items()}
        self._number, self._resume, self._index = 0, b"", 0
        super().__init__(" ".join(self._words), basis)

    def open(self) -> subprocess.Popen[bytes]:
        """See Stream."""
        self._kept = b""
        return open_live(self._words)

    def _again(self) -> bytes:
        return self._hello + self._resume

    def _frame(self) -> bytes:
        """Its next frame. Raises ProgramFault."""
        while True:
            size = self._sizes.get(self._kept[0], 0) if self._kept else 1
            if size == 0 or (self._kept and self._kept[0] in (Fault.KIND, Dropped.KIND)):
                raise self.fault("it found a bad frame")
            if len(self._kept) >= size:
                frame, self._kept = self._kept[:size], self._kept[size:]
                return frame
            self._kept += self.read(PIECE)

    def ask_bid(self) -> None:
        """Asks for the bid of the group, once a bid in it is new."""
        self.has_news = False
        self.ask(Send().to_bytes())

    def announced(self) -> bytes:
        """The bid that was asked for. A relay that was started anew may first give its last bid again."""
        while True:
            frame = self._frame()
            if frame[0] == RelayResume.KIND:
                self._resume = frame
            elif frame[0] == Bid.KIND and (number := BID.unpack_from(frame)[2]) > self._number:
                self._number = number
                return frame

    def tell(self, step: int) -> None:
        """Tells it that the auctioneer has cleared at this step."""
        self._index += 1
        basis = self._basis
        self.ask(Price(self.child, self._number, self._index, step, basis.min, basis.max, basis.steps).to_bytes())

    def told(self) -> int:
        """The step that its devices have at the price that it was told."""
        steps = set[int]()
        while (frame := self._frame())[0] != RelayResume.KIND:
            if frame[0] == Price.KIND:
                steps.add(PRICE.unpack_from(frame)[4])
        self._resume = frame
        if len(steps) != 1:
            raise self.fault("it wrote no Price, or several")
        return steps.pop()


@dataclass(frozen=True)
class Cleared:
    """What a market came to: its step, and the step of each group. Devices of no group have the market's.

    inside: the group of each device that has bid, or None
    """

    step: int
    groups: Mapping[str, int]
    inside: Mapping[str, str | None] = field(repr=False)

    @cached_property
    def devices(self) -> Mapping[str, int]:
        """The step of each device that has bid."""
        return {name: self.step if group is None else self.groups[group] for name, group in self.inside.items()}


@dataclass(slots=True)
class _Child:
    """A device of a market: its place, the number of its last bid, and that bid as bytes."""

    group: str | None
    child: int
    number: int = 0
    data: bytes = field(default=b"", repr=False)


class Market:
    """The proved market of some devices, from its start to its end: `with Market(basis, names) as market`."""

    def __init__(
        self,
        basis: Basis,
        devices: Sequence[str],
        groups: Sequence[Group] = (),
        *,
        program: Program | None = None,
        live: str | None = None,
    ) -> None:
        """Starts it.

        devices: the names of all devices
        groups:  which of them are held within limits together; a device is in one group at most
        program: the proved program, by default the one that `Program.find()` finds
        live:    the program of the groups' relays, by default the one beside the program of the market

        Raises ValueError for a basis that no market has, and for names and groups that do not fit; NoProgram and ProgramFault.
        """
        if not is_basis(basis):
            raise ValueError(f"{basis}: a market has 2 to 1,000 steps from min to a greater max, and max - min is a multiple of steps - 1")
        self._basis = basis
        self._demands = struct.Struct(f">{basis.steps}i")
        self._children = _places(devices, groups)
        self._inside: dict[str, str | None] = {}
        self._is_changed = False
        self._cleared = Cleared(0, {group.name: 0 for group in groups}, {})
        self._stack = ExitStack()
        with ExitStack() as stack:
            self._auctioneer = _Auctioneer(chosen(program), basis)
            stack.callback(self._auctioneer.close)
            self._relays: dict[str, _Relay] = {}
            found = "" if not groups else live_at(live) if live else live_program(program)
            for child, group in enumerate(groups, 1):
                self._relays[group.name] = _Relay(group, child, basis, found)
                stack.callback(self._relays[group.name].close)
            self._stack = stack.pop_all()

    def __enter__(self) -> Market:
        return self

    def __exit__(self, kind: type[BaseException] | None, error: BaseException | None, trace: TracebackType | None) -> None:
        self.close()

    def close(self) -> None:
        """Ends its processes."""
        self._stack.close()

    def bid(self, device: str, demands: Demands | bytes) -> None:
        """Takes the demand of a device at each step, in watts, or as the bytes that a frame has. The same again is no new bid."""
        child = self._children[device]
        data = demands if isinstance(demands, bytes) else self._demands.pack(*demands)
        if data == child.data:
            return
        if not child.number:
            self._inside = {**self._inside, device: child.group}
        child.data, self._is_changed = data, True
        child.number += 1
        to = self._auctioneer if child.group is None else self._relays[child.group]
        to.bid(child.child, BID.pack(Bid.KIND, child.child, child.number) + data)

    def clear(self) -> Cleared:
        """Clears over the newest bids. Without a new one all is as before; without any the step is 0. Raises ProgramFault."""
        if not self._is_changed:
            return self._cleared
        self._is_changed = False
        asked = [relay for relay in self._relays.values() if relay.has_news]
        for relay in asked:
            relay.ask_bid()
        for relay in asked:
            self._auctioneer.bid(relay.child, relay.announced())
        step = self._auctioneer.clear()
        with_bids = {name: relay for name, relay in self._relays.items() if relay.has_children}
        for relay in with_bids.values():
            relay.tell(step)
        groups = dict.fromkeys(self._relays, step) | {name: relay.told() for name, relay in with_bids.items()}
        self._cleared = Cleared(step, groups, self._inside)
        return self._cleared


def _places(devices: Sequence[str], groups: Sequence[Group]) -> dict[str, _Child]:
    """The place of each device. Raises ValueError."""
    if len(set(devices)) != len(devices):
        raise ValueError("two devices have one name: give each its own")
    above: dict[str, str] = {}
    for group in groups:
        for name in group.devices:
            if name not in devices:
                raise ValueError(f"the group {group.name} has {name}, which is no device")
            if name in above:
                raise ValueError(f"{name} is in the groups {above[name]} and {group.name}: a device is in one group at most")
            above[name] = group.name
    if len({group.name for group in groups}) != len(groups) or any(not group.devices for group in groups):
        raise ValueError("each group has a name of its own and one device or more")
    # Groups are the first children of the auctioneer.
    counts: dict[str | None, int] = {None: len(groups)}
    found: dict[str, _Child] = {}
    for name in devices:
        group_name = above.get(name)
        counts[group_name] = counts.get(group_name, 0) + 1
        if counts[group_name] > CHILDREN:
            raise ValueError(f"{group_name or 'the market'} has more than {CHILDREN} children: put devices into groups")
        found[name] = _Child(group_name, counts[group_name])
    return found
