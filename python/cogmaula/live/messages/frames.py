"""The frames of docs/RELAY.md, to and from bytes.

Powers and demands are whole watts, prices are price units, and children count from 1. The last fields `least`, `greatest` and
`steps` of a frame are the basis of its market. A `Splitter` cuts a stream of bytes into frames. `frame_of` reads bytes that are one
frame. Which kinds may come is told by the frames that a node reads or writes: `READS` and `WRITES` have them by the sort of the node.
"""

from __future__ import annotations

import struct
from collections.abc import Callable, Iterator
from dataclasses import dataclass
from typing import Literal

from ...cluster import Basis
from .control_frames import MOST_POINTS, AnyOffer, Kind, Leave, Offer, Points, Setpoint, State, Stated, Wanted, frames_of
from ..node.node_errors import BadFrame
from .frame import (
    BASIS,
    CHILDREN,
    DEMANDS,
    LAST_NUMBER,
    MOST,
    NUMBERS,
    PAIRS,
    POINTS,
    Frame,
    are_limits,
    is_basis,
    item,
    require_basis,
    require_child,
    require_demands,
    require_even,
    require_limits,
)

# What is here by other modules.
__all__ = [
    "BASIS",
    "CHILDREN",
    "LAST_NUMBER",
    "MOST",
    "AnyOffer",
    "Frame",
    "Kind",
    "Leave",
    "Offer",
    "Points",
    "Setpoint",
    "State",
    "Stated",
    "Wanted",
    "are_limits",
    "frames_of",
    "is_basis",
    "require_demands",
]

Sort = Literal["relay", "auctioneer", "device"]
SORTS: tuple[Sort, ...] = ("auctioneer", "relay", "device")


@dataclass(frozen=True)
class Hello(Frame):
    """The basis: the least and the greatest price, and the number of steps."""

    KIND = 1
    FIELDS = "iiH"
    least: int
    greatest: int
    steps: int


@dataclass(frozen=True)
class Bid(Frame):
    """The bid of a child under a number above 0: its demand in watts at each step."""

    KIND = 2
    FIELDS = "HI"
    LIST = DEMANDS
    child: int
    number: int
    demands: tuple[int, ...]

    def require_right(self, steps: int) -> None:
        """Raises BadFrame if no parent takes the bid."""
        require_child(self.child, self.number)
        require_demands(self.demands, steps)


@dataclass(frozen=True)
class Gone(Frame):
    """A child bids no more, under a number of the same count as its bids."""

    KIND = 3
    FIELDS = "HI"
    child: int
    number: int

    def require_right(self, steps: int) -> None:
        """Raises BadFrame if no parent takes it."""
        require_child(self.child, self.number)


@dataclass(frozen=True)
class Clear(Frame):
    """Asks the auctioneer to clear."""

    KIND = 4


@dataclass(frozen=True)
class Price(Frame):
    """The clearing of this index answers the child's bid of this number by this step, of a market of this basis."""

    KIND = 23
    FIELDS = f"HIIH{BASIS}"
    child: int
    number: int
    index: int
    step: int
    least: int
    greatest: int
    steps: int

    @property
    def basis(self) -> Basis:
        """The basis of the market that cleared. A child of another basis does not take the price."""
        return Basis(self.least, self.greatest, self.steps)

    def require_right(self, steps: int) -> None:
        """Raises BadFrame if no child takes it."""
        require_child(self.child, self.number)
        require_basis(self.basis)
        if self.step >= self.steps:
            raise BadFrame(f"the step is {self.step}, and there are {self.steps}, from 0 on")


@dataclass(frozen=True)
class NotChanged(Frame):
    """Nothing counted since what was sent last."""

    KIND = 6


@dataclass(frozen=True)
class Old(Frame):
    """A bid's number was not above the one that is kept of the child. An odd one above it says that the device was let go."""

    KIND = 7
    FIELDS = "HI"
    child: int
    kept: int

    def require_right(self, steps: int) -> None:
        """Raises BadFrame if no child takes it."""
        require_child(self.child)


@dataclass(frozen=True)
class Fault(Frame):
    """The bytes from this offset on were no frame; the service has ended."""

    KIND = 8
    FIELDS = "Q"
    offset: int


@dataclass(frozen=True)
class Send(Frame):
    """Asks a relay for its bid."""

    KIND = 9


@dataclass(frozen=True)
class WindowFull(Frame):
    """Eight numbers are unanswered; a price has to come first."""

    KIND = 10


@dataclass(frozen=True)
class Dropped(Frame):
    """The price of this number and index was not taken."""

    KIND = 11
    FIELDS = "II"
    number: int
    index: int


@dataclass(frozen=True)
class NotCaughtUp(Frame):
    """Some child was not heard again since the restart."""

    KIND = 17


@dataclass(frozen=True)
class OutOfNumbers(Frame):
    """No number is left."""

    KIND = 18


@dataclass(frozen=True)
class Expire(Frame):
    """A parent lets this child, a device, go: it counts as gone under the odd number behind its newest bid."""

    KIND = 19
    FIELDS = "H"
    child: int

    def require_right(self, steps: int) -> None:
        """Raises BadFrame if no parent takes it."""
        require_child(self.child)


@dataclass(frozen=True)
class Limits(Frame):
    """The relay's limits in watts from its next bid on, under a number of their own count: 2, 4, 6, .."""

    KIND = 20
    FIELDS = "Iii"
    number: int
    floor: int
    ceiling: int

    def require_right(self, steps: int) -> None:
        """Raises BadFrame if no relay takes them."""
        require_even(self.number)
        require_limits(self.floor, self.ceiling)


@dataclass(frozen=True)
class Bound(Frame):
    """The least and the greatest demand in watts that a bid of this child may have."""

    KIND = 21
    FIELDS = "Hii"
    child: int
    least: int
    greatest: int

    def require_right(self, steps: int) -> None:
        """Raises BadFrame if no parent takes it."""
        require_child(self.child)
        require_limits(self.least, self.greatest)


@dataclass(frozen=True)
class TooMuch(Frame):
    """The bid of this number is outside the child's bound, and does not count."""

    KIND = 22
    FIELDS = "HI"
    child: int
    number: int


@dataclass(frozen=True)
class OtherBasis(Frame):
    """The price of this number and index is of another basis, and was not taken."""

    KIND = 24
    FIELDS = "II"
    number: int
    index: int


@dataclass(frozen=True)
class OutOfLimits(Frame):
    """No step of the sum that was bid under this number is within the relay's limits."""

    KIND = 27
    FIELDS = "I"
    number: int


class Resumed(Frame):
    """What a Resume of each sort has: its basis."""

    least: int
    greatest: int
    steps: int

    @property
    def basis(self) -> Basis:
        """The basis that the node's numbers are of."""
        return Basis(self.least, self.greatest, self.steps)


@dataclass(frozen=True)
class RelayResume(Resumed):
    """What a relay comes back with.

    last:     its last number, `answered` the one that its price answers, and `index` the index of that price
    lowest:   the floor and `highest` the ceiling of its arguments in watts, and `giver` the place in which limits are given, 0 without
    floor:    the floor and `ceiling` the ceiling of its newest bid, in watts
    numbers:  for each of 256 children the number in its last bid
    """

    KIND = 25
    FIELDS = f"III{BASIS}iiHii"
    LIST = NUMBERS
    last: int
    answered: int
    index: int
    least: int
    greatest: int
    steps: int
    lowest: int
    highest: int
    giver: int
    floor: int
    ceiling: int
    numbers: tuple[int, ...]

    @property
    def terms(self) -> tuple[int, int, int]:
        """FLOOR, CEILING and GIVER of the arguments that it is of, 0 without GIVER."""
        return self.lowest, self.highest, self.giver

    def require_right(self, steps: int) -> None:
        """Raises BadFrame if no relay takes it."""
        require_basis(self.basis)
        require_limits(self.lowest, self.highest)
        require_limits(self.floor, self.ceiling)
        if self.answered > self.last:
            raise BadFrame(f"the number answered, {self.answered}, is above the last, {self.last}")
        if self.giver > CHILDREN:
            raise BadFrame(f"the place of limits is {self.giver}, and not 1 to {CHILDREN}, or 0 without one")


@dataclass(frozen=True)
class AuctioneerResume(Resumed):
    """What the auctioneer comes back with: the index of its last clearing, and for each of 256 children the number in it."""

    KIND = 25
    FIELDS = f"I{BASIS}"
    LIST = NUMBERS
    index: int
    least: int
    greatest: int
    steps: int
    numbers: tuple[int, ...]

    @property
    def last(self) -> int:
        """The number that rises with each clearing, as `last` of a relay does with each bid."""
        return self.index

    def require_right(self, steps: int) -> None:
        """Raises BadFrame if no auctioneer takes it."""
        require_basis(self.basis)


@dataclass(frozen=True)
class DeviceResume(Resumed):
    """What a device's agent comes back with: its last number, the index of the price that it took, and its last offer in watts."""

    KIND = 25
    FIELDS = f"II{BASIS}"
    LIST = DEMANDS
    last: int
    index: int
    least: int
    greatest: int
    steps: int
    demands: tuple[int, ...]

    def require_right(self, steps: int) -> None:
        """Raises BadFrame if no agent takes it."""
        require_even(self.last)
        require_basis(self.basis)
        require_demands(self.demands, steps)


@dataclass(frozen=True)
class ResumeGone(Resumed):
    """What a device's agent without an offer comes back with: its last number, and the index of the price that it took."""

    KIND = 26
    FIELDS = f"II{BASIS}"
    last: int
    index: int
    least: int
    greatest: int
    steps: int

    def require_right(self, steps: int) -> None:
        """Raises BadFrame if no agent takes it."""
        if self.last:
            require_even(self.last)
        require_basis(self.basis)


Resume = RelayResume | AuctioneerResume | DeviceResume | ResumeGone

Kinds = dict[int, type[Frame]]


def _by_kind(*kinds: type[Frame]) -> Kinds:
    return {kind.KIND: kind for kind in kinds}


# The frames that a node of each sort reads, those that it writes, and those that it keeps for its restart, by their kinds.
READS: dict[Sort, Kinds] = {
    "relay": _by_kind(Hello, RelayResume, Bound, Limits, Bid, Gone, Expire, Send, Price, Old),
    "auctioneer": _by_kind(Hello, AuctioneerResume, Bound, Bid, Gone, Expire, Clear),
    "device": _by_kind(Hello, DeviceResume, ResumeGone, Offer, Kind, State, Leave, Price, Old)
    | dict.fromkeys(range(POINTS + 1, POINTS + MOST_POINTS + 1), Points),
}
_ANSWERS = (Price, Old, TooMuch, NotChanged, NotCaughtUp, OutOfNumbers, Fault)
WRITES: dict[Sort, Kinds] = {
    "relay": _by_kind(Bid, WindowFull, Dropped, OtherBasis, OutOfLimits, RelayResume, *_ANSWERS),
    "auctioneer": _by_kind(AuctioneerResume, *_ANSWERS),
    "device": _by_kind(Bid, Gone, Setpoint, WindowFull, Dropped, OtherBasis, OutOfNumbers, DeviceResume, ResumeGone, Fault),
}
RESUMES: dict[Sort, Kinds] = {
    "relay": _by_kind(RelayResume),
    "auctioneer": _by_kind(AuctioneerResume),
    "device": _by_kind(DeviceResume, ResumeGone),
}
# What a parent hears of a child, and a child of its parent.
BIDS, PRICES = _by_kind(Bid, Gone), _by_kind(Price, Old)
# The kinds of the first form that no node reads any more: Price, Resume and ResumeGone.
FIRST_FORM = (5, 12, 16)


def _form(kind: type[Frame], steps: int, first: int) -> tuple[struct.Struct, int]:
    """The format of a frame of this kind, with this first byte, in a market of so many steps, and how many items its list has."""
    length = {DEMANDS: steps, NUMBERS: CHILDREN, PAIRS: 2 * (first - POINTS)}.get(kind.LIST, 0)
    return struct.Struct(f">B{kind.FIELDS}{length}{item(kind.LIST)}"), length


def size_of(kind: type[Frame], steps: int, first: int = POINTS) -> int:
    """How many bytes a frame of this kind, with this first byte, has in a market of so many steps."""
    return _form(kind, steps, first)[0].size


def _made(kind: type[Frame], data: bytes, form: struct.Struct, length: int) -> Frame:
    """The frame of this kind that so many bytes are, by what `_form` gives. It keeps them."""
    fields = form.unpack(data)[1:]
    # The fields of a kind are those of its formats, and a list behind them.
    make: Callable[..., Frame] = kind
    fixed = len(fields) - length
    frame = make(*fields[:fixed], fields[fixed:]) if kind.LIST else make(*fields)
    frame.keep_bytes(data)
    return frame


def frame_of(data: bytes, kinds: Kinds, steps: int) -> Frame:
    """The right frame that these bytes are, one of these kinds. Raises BadFrame."""
    kind = kinds.get(data[0]) if data else None
    if not data:
        raise BadFrame("it is empty")
    if data[0] in FIRST_FORM and kind is None:
        raise BadFrame("it is a frame of the first form: install this version at the node that wrote it")
    if kind is None:
        raise BadFrame(f"it begins with the byte {data[0]}, which is no kind that may come here")
    form, length = _form(kind, steps, data[0])
    if len(data) != form.size:
        raise BadFrame(f"a {kind.__name__} has {form.size} bytes in a market of {steps} steps, and not {len(data)}")
    frame = _made(kind, data, form, length)
    frame.require_right(steps)
    return frame


class Splitter:
    """Cuts a stream of bytes into frames of these kinds. It keeps the bytes that belong to no whole frame yet."""

    def __init__(self, kinds: Kinds, steps: int) -> None:
        """Takes the kinds that may come, such as `WRITES[sort]`, and the steps of the market."""
        self.kinds = kinds
        self.steps = steps
        self.kept = b""
        # Of each first byte that has come its kind and form: frames of few kinds come by the thousand.
        self._forms: dict[int, tuple[type[Frame], struct.Struct, int]] = {}

    def _form_of(self, first: int) -> tuple[type[Frame], struct.Struct, int]:
        """The kind and the form of a frame with this first byte. Raises BadFrame."""
        kind = self.kinds.get(first)
        if kind is None:
            raise BadFrame(f"the byte {first} begins no frame that this node writes")
        found = self._forms[first] = (kind, *_form(kind, self.steps, first))
        return found

    def feed(self, piece: bytes) -> Iterator[Frame]:
        """The frames that a further piece ends, in their order. Raises BadFrame at a byte that begins no frame."""
        data, at = self.kept + piece, 0
        try:
            while at < len(data):
                kind, form, length = self._forms.get(data[at]) or self._form_of(data[at])
                end = at + form.size
                if end > len(data):
                    return
                frame, at = _made(kind, data[at:end], form, length), end
                yield frame
        finally:
            self.kept = data[at:]
