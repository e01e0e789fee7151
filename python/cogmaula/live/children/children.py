"""What a relay and an auctioneer keep of their children: the newest Bid or Gone of each. pricing.py has the prices for them."""

from __future__ import annotations

import hashlib
from collections.abc import Iterable
from dataclasses import dataclass, field
from enum import Enum, auto
from functools import cached_property

from ...logs import NodeLog
from ..broker.broker_link import Message
from ..node.node_errors import BadFrame
from ..messages.frames import BIDS, Bid, Gone, frame_of
from .jumps import most_of_child
from ..messages.messages import VERSION
from ..node.sessions import Session
from ..messages.topics import Topics

# The user properties of MQTT 5 that frames have: the session, the time, the version of their form. A bid also has the sort and the name
# of the node that sent it, and that of a device for how many seconds it holds.
SESSION, TIME, FORM, SORT, NODE, VALID = "session", "time", "version", "sort", "node", "valid"
# Those of a parent's Resume: which children are relays, which bids are in its newest sum, and of a relay the Bid of its last number.
RELAYS, BIDS_OF_SUM, OWN_BID = "relays", "bids", "bid"

# The most digits of a number of 32 bits.
LONGEST_NUMBER = 10


@dataclass(frozen=True)
class Heard:
    """A Bid or a Gone of a child.

    sort:   what the child is, and `node` its name, "" if it does not say
    valid:  for how many seconds it holds, 0 if it does not say
    is_new: whether it is another one than the newest before
    """

    frame: Bid | Gone
    sort: str
    node: str
    valid: float
    is_new: bool = field(default=True, compare=False)

    @cached_property
    def digest(self) -> str:
        """16 hexadecimal digits that no other bid has."""
        return digest_of(self.frame)

    @cached_property
    def word(self) -> str:
        """The child, the number of the bid, and its digest, as `words_of_asked` tells them."""
        return _word_of(self.frame.child, self.frame.number, self.digest)


class BidFault(Enum):
    """Why a message of a child is not taken."""

    OTHER_SESSION = auto()
    OTHER_VERSION = auto()
    NO_FRAME = auto()
    OTHER_CHILD = auto()
    ODD_NUMBER = auto()
    OLDER_NUMBER = auto()
    NUMBER_AGAIN = auto()
    NUMBER_FAR = auto()


class Children:
    """The children of one node in one session."""

    def __init__(self, node: str, topics: Topics, steps: int, log: NodeLog) -> None:
        """Takes the node's name, its topics, the steps of the market, and a log."""
        self._node = node
        self._topics = topics
        self._steps = steps
        self._log = log
        self._session: Session | None = None
        # The numbers that the newest Resume has of the children, and of those that gave one far beyond its last, that number.
        self._numbers: tuple[int, ...] = ()
        self.far: dict[int, int] = {}
        self._newest: dict[int, Heard] = {}
        # Of each child the one before, which counts again if the newest is too much.
        self._before: dict[int, Heard] = {}
        # Of each child the one with the greatest number, also if it is too much: no other one has this number, or one below.
        self._last: dict[int, Bid | Gone] = {}
        # What the service had been fed when it was asked for the sum that it makes now.
        self.asked: dict[int, Heard] = {}
        self._told: set[tuple[int, BidFault]] = set()
        # Of each child the number and the digest of the bid that was in the newest sum, if the broker alone has it.
        self._known: dict[int, tuple[int, str]] = {}

    def begin(self, session: Session, kept: Iterable[Heard] = (), known: str = "", numbers: tuple[int, ...] = ()) -> None:
        """Forgets all of an earlier session, and goes by what the disk has of this one.

        known:   what `words_of_asked` gave of the newest sum
        numbers: of all children, those in the newest Resume
        """
        self._session, self._numbers = session, numbers
        self.far.clear()
        self._known = _known_of(known)
        self._before.clear()
        self._told.clear()
        self._newest = {bid.frame.child: bid for bid in kept}
        self._last = {child: bid.frame for child, bid in self._newest.items()}
        self.asked = dict(self._newest)

    @property
    def newest(self) -> list[Bid | Gone]:
        """The newest Bid or Gone of each child that counts, in the order of the children."""
        return [self._newest[child].frame for child in sorted(self._newest)]

    @property
    def words_of_asked(self) -> str:
        """Of each child in the sum its number, that of its bid, and the digest of that. With these a relay that goes on elsewhere knows
        the bids of its sum, though their children alone have them."""
        told = {child: _word_of(child, *known) for child, known in self._known.items() if child not in self.asked}
        told |= {child: ask.word for child, ask in self.asked.items()}
        return " ".join([told[child] for child in sorted(told)])

    def asks(self) -> None:
        """Notes that the service is asked for a sum, of what it was fed."""
        self.asked = dict(self._newest)

    def number(self, child: int) -> int:
        """The newest number that was heard of a child, 0 without one."""
        return self._newest[child].frame.number if child in self._newest else 0

    def is_gone(self, child: int) -> bool:
        """Whether the newest that was heard of a child is that it has left."""
        heard = self._newest.get(child)
        return heard is not None and isinstance(heard.frame, Gone)

    def taken(self, child: int, message: Message, is_relay: bool) -> Heard | None:
        """What a message on the topic of a child's bids tells, or None if it is not to be taken.

        is_relay: whether the child is a relay; the odd numbers of a device are its parent's, and a bid under one could not be let go
        """
        if not message.payload:
            return None
        session, own = message.properties.get(SESSION, ""), "" if self._session is None else self._session.id
        if session != own:
            self._warn_once(child, BidFault.OTHER_SESSION, f"is of session {session or '(none)'} and not {own}: it is not taken")
            return None
        if message.properties.get(FORM) != str(VERSION):
            self._warn_once(child, BidFault.OTHER_VERSION, "comes from a node of another version: it is not taken. Install this version there")
            return None
        try:
            frame = frame_of(message.payload, BIDS, self._steps)
        except BadFrame as error:
            self._warn_once(child, BidFault.NO_FRAME, f"is no bid, and is not taken: {error}")
            return None
        if not isinstance(frame, Bid | Gone):
            return None
        if frame.child != child:
            self._warn_once(child, BidFault.OTHER_CHILD, f"names child {frame.child}, and is not taken")
            return None
        if frame.number % 2 and not is_relay:
            told = f"has the odd number {frame.number}, and those of a device are even: it is not taken"
            self._warn_once(child, BidFault.ODD_NUMBER, told)
            return None
        return self._numbered(child, frame, message)

    def _numbered(self, child: int, frame: Bid | Gone, message: Message) -> Heard | None:
        """The Bid or Gone of a message, or None if its number is not to be taken: a number is of one bid alone, and rises."""
        last = self._last.get(child)
        newest, digest = self._known.get(child, (0, "")) if last is None else (last.number, "")
        if frame.number < newest:
            told = f"has number {frame.number}, below its last, {newest}: the child came back with an older Resume"
            self._warn_once(child, BidFault.OLDER_NUMBER, told)
            return None
        if frame.number == newest and (frame != last if last is not None else digest_of(frame) != digest):
            self._warn_once(child, BidFault.NUMBER_AGAIN, f"has number {frame.number} once more with another bid: it is not taken, and the first counts")
            return None
        if self._is_far(child, frame.number, newest):
            return None
        heard = Heard(frame, *_sender(message), is_new=frame != last)
        if heard.is_new:
            if child in self._newest:
                self._before[child] = self._newest[child]
            self._newest[child] = heard
            self._last[child] = frame
            self.far.pop(child, None)
        return heard

    def _is_far(self, child: int, number: int, newest: int) -> bool:
        """Whether a number is one that the child cannot have come to, beyond the newest that was heard; 0 if none was."""
        counted = self._numbers[child - 1] if self._numbers else 0
        most = None if self._session is None else most_of_child(max(newest, counted), self._session)
        if most is None or number <= most:
            return False
        self.far[child] = number
        told = f"has number {number}, and at most {most} can be: it is not taken. Its login may be stolen"
        self._warn_once(child, BidFault.NUMBER_FAR, told)
        return True

    @property
    def alarm(self) -> str:
        """Which children gave a number far beyond their last, "" if none did."""
        told = [f"child {child} gave number {number}" for child, number in sorted(self.far.items())]
        return f"{', '.join(told)}, far beyond its last: its login may be stolen" if told else ""

    def too_much(self, child: int, number: int) -> None:
        """Notes that the service did not take the child's bid of this number: the one before it counts."""
        before = self._before.pop(child, None)
        if before is not None and before.frame.number == number:
            before = None
        for bids in (self._newest, self.asked):
            if child in bids and bids[child].frame.number == number:
                del bids[child]
                if before is not None:
                    bids[child] = before

    def lacking(self, numbers: tuple[int, ...]) -> list[int]:
        """The children that were not heard up to these numbers, those of the newest Resume."""
        return [child for child, number in enumerate(numbers, 1) if number > self.number(child)]

    def _warn_once(self, child: int, cause: BidFault, why: str) -> None:
        """Warns of what is wrong with a child's message, once in a session for each cause."""
        if (child, cause) not in self._told:
            self._told.add((child, cause))
            self._log.warning(f"{self._topics.bid(self._node, child)} {why}")


def digest_of(frame: Bid | Gone) -> str:
    """16 hexadecimal digits that no other bid has."""
    return hashlib.sha256(frame.to_bytes()).hexdigest()[:16]


def _word_of(child: int, number: int, digest: str) -> str:
    return f"{child}:{number}:{digest}"


def _known_of(words: str) -> dict[int, tuple[int, str]]:
    """Of each child the number and the digest that some words tell, which this node wrote."""
    found = {}
    for word in words.split():
        parts = word.split(":")
        if len(parts) == 3 and all(part.isdecimal() and len(part) <= LONGEST_NUMBER for part in parts[:2]):
            found[int(parts[0])] = int(parts[1]), parts[2]
    return found


def _sender(message: Message) -> tuple[str, str, float]:
    """The sort and the name of the node that sent a bid, and for how many seconds it holds."""
    told = message.properties
    try:
        valid = float(told.get(VALID, "0"))
    except ValueError:
        valid = 0.0
    return told.get(SORT, ""), told.get(NODE, ""), valid if 0 < valid < 1e9 else 0.0
