"""The messages of a market that are JSON: the basis, a node's state, a device's offers and its setpoints."""

from __future__ import annotations

import json
from dataclasses import dataclass, field, replace
from typing import Any, Literal

from ...cluster import Basis
from ..node.node_errors import BadFrame, BadMessage, BadSettings
from .frames import CHILDREN, SORTS, Leave, Offer, Points, Setpoint, Sort, Stated, Wanted
from ..device.device_kinds import DeviceKind
from ..node.sessions import Session, time_of
from ..node.market_times import Times

# The form of all messages and frames. Nodes of another version do not take part.
VERSION = 3

# What a control is told first in a later session.
NEW_SESSION = "new session"
# Why a node is down, as its last will says.
LOST = "the connection was lost"

# The greatest reference: each reader of JSON takes whole numbers up to it exactly.
LAST_REFERENCE = 9_007_199_254_740_991


def object_of(data: bytes, what: str) -> dict[str, Any]:
    """The JSON object that a message is. Raises BadMessage."""
    try:
        told = json.loads(data)
    except (ValueError, RecursionError):
        raise BadMessage(f"{what} is no JSON") from None
    if not isinstance(told, dict):
        raise BadMessage(f"{what} is no JSON object")
    return told


def _whole(told: dict[str, Any], name: str, what: str) -> int:
    value = told.get(name)
    if type(value) is not int:
        raise BadMessage(f"{what} has no whole number {name}")
    if not -LAST_REFERENCE <= value <= LAST_REFERENCE:
        raise BadMessage(f"{what} has a number {name} beyond {LAST_REFERENCE}")
    return value


def _text(told: dict[str, Any], name: str, what: str) -> str:
    value = told.get(name)
    if not isinstance(value, str):
        raise BadMessage(f"{what} has no text {name}")
    require_characters(value, f"{name} of {what}")
    return value


def require_characters(text: str, what: str) -> None:
    """Raises BadMessage if a text has half of a pair of UTF-16 or U+0000, which JSON may name: no file and no table holds them."""
    if "\0" in text or not text.isascii() and any("\ud800" <= char <= "\udfff" for char in text):
        raise BadMessage(f"{what} has a character that is none: U+0000, or half of a pair")


def _whole_or_none(told: dict[str, Any], name: str, what: str) -> int | None:
    return None if told.get(name) is None else _whole(told, name, what)


def _seconds(told: dict[str, Any], name: str, what: str) -> float:
    value = told.get(name)
    is_number = isinstance(value, int | float) and not isinstance(value, bool)
    if not is_number or not -LAST_REFERENCE <= told[name] <= LAST_REFERENCE:
        raise BadMessage(f"{what} has no number of seconds {name}")
    return float(told[name])


@dataclass(frozen=True)
class BasisMessage:
    """What the auctioneer publishes: the basis in price units, the session, the times of the market, and the version of its form."""

    basis: Basis
    session: Session
    times: Times = field(default_factory=Times)
    version: int = VERSION

    def to_bytes(self) -> bytes:
        """The message."""
        told = {"min": self.basis.min, "max": self.basis.max, "steps": self.basis.steps}
        return json.dumps(
            {**told, "session": self.session.id, "begun": self.session.begun, **vars(self.times), "version": self.version}
        ).encode()

    @staticmethod
    def of(data: bytes) -> BasisMessage:
        """The basis that a message tells. Raises BadMessage."""
        what = "the basis"
        told = object_of(data, what)
        basis = Basis(*(_whole(told, word, what) for word in ("min", "max", "steps")))
        session = Session(_text(told, "session", what), _text(told, "begun", what))
        version = version_of(told)
        if version != VERSION:
            # Earlier versions may have other members.
            return BasisMessage(basis, session, version=version)
        try:
            times = Times(*(_seconds(told, word, what) for word in ("validity", "heartbeat", "grace")))
        except BadSettings as error:
            raise BadMessage(f"{what} has other times: {error}") from None
        return BasisMessage(basis, session, times)


def version_of(told: dict[str, Any]) -> int:
    """The version of a message. The first form does not tell one."""
    version = told.get("version", 1)
    return version if type(version) is int else 1


@dataclass(frozen=True)
class StateMessage:
    """Whether a node's process is up.

    run:     16 hexadecimal digits that each start of the process draws anew
    starts:  how often the node has started, a count that rises from start to start whatever the clock says
    started: when the process started (RFC 3339, UTC)
    session: the id of the auctioneer's session that the node is in, "" before it knows one
    time:    when the state was told; of a last will, when the connection was made
    why:     in words, "" if there is nothing to say
    sort:    what the node is; None of a node of an earlier version, which tells nothing of what follows either
    parent:  the name of the node above, and `child` the own number there; None of the auctioneer
    floor:   the least power that a relay announces now, in watts, and `ceiling` the greatest; None without a limit
    alarm:   in words, what is wrong with a relay's limits, "" if there is nothing
    silent:  since when the node hears no heartbeat (RFC 3339), None if it does
    version: of the form of what the node writes
    lost:    whether the broker told it by the last will: only the connection was lost, and the process may live
    site:    the site in whose process the node runs, whose `run` is the node's; None of a process of its own
    build:   the version and the commit of the node's program, "" of an earlier one
    """

    state: Literal["up", "down"]
    run: str
    started: str
    session: str
    time: str
    why: str = ""
    sort: Sort | None = None
    parent: str | None = None
    child: int | None = None
    floor: int | None = None
    ceiling: int | None = None
    alarm: str = ""
    silent: str | None = None
    starts: int = 0
    version: int = VERSION
    lost: bool = False
    site: str | None = None
    build: str = ""

    @property
    def may_live(self) -> bool:
        """Whether the process may be there: it is up, or only its connection was lost."""
        return self.state == "up" or self.lost

    def to_bytes(self) -> bytes:
        """The message."""
        return json.dumps(dict(self.__dict__)).encode()

    @staticmethod
    def of(data: bytes) -> StateMessage:
        """The state that a message tells. Raises BadMessage."""
        what = "the state"
        told = object_of(data, what)
        if told.get("state") not in ("up", "down"):
            raise BadMessage("the state is neither up nor down")
        run, started, session, time, why = (_text(told, word, what) for word in ("run", "started", "session", "time", "why"))
        time_of(started)
        sort, parent = told.get("sort"), told.get("parent")
        if sort is not None and sort not in SORTS:
            raise BadMessage("the state has a sort that is no auctioneer, relay or device")
        if parent is not None:
            parent = _text(told, "parent", what)
        child, floor, ceiling = (_whole_or_none(told, word, what) for word in ("child", "floor", "ceiling"))
        if child is not None and not 1 <= child <= CHILDREN:
            raise BadMessage(f"the state has the child {child}, and not 1 to {CHILDREN}")
        alarm = _text(told, "alarm", what) if "alarm" in told else ""
        silent = None if told.get("silent") is None else _text(told, "silent", what)
        starts = _whole(told, "starts", what) if "starts" in told else 0
        site = None if told.get("site") is None else _text(told, "site", what)
        build = _text(told, "build", what) if "build" in told else ""
        more = (sort, parent, child, floor, ceiling, alarm, silent, starts, version_of(told), told.get("lost") is True, site, build)
        return StateMessage(told["state"], run, started, session, time, why, *more)


@dataclass(frozen=True)
class SiteMessage:
    """Whether the process of a site is up, and so each of its nodes: its one connection has one last will.

    run:     16 hexadecimal digits that each start of the process draws anew, and that the states of its nodes have too
    started: when the process started (RFC 3339, UTC)
    time:    when this was told; of a last will, when the connection was made
    why:     in words, "" if there is nothing to say
    lost:    whether the broker told it by the last will: only the connection was lost, and the process may live
    """

    state: Literal["up", "down"]
    run: str
    started: str
    time: str
    why: str = ""
    lost: bool = False

    def to_bytes(self) -> bytes:
        """The message."""
        return json.dumps(dict(self.__dict__)).encode()

    @staticmethod
    def of(data: bytes) -> SiteMessage:
        """What a message tells of a site. Raises BadMessage."""
        what = "the state of the site"
        told = object_of(data, what)
        if told.get("state") not in ("up", "down"):
            raise BadMessage(f"{what} is neither up nor down")
        run, started, time, why = (_text(told, word, what) for word in ("run", "started", "time", "why"))
        for moment in (started, time):
            time_of(moment)
        return SiteMessage(told["state"], run, started, time, why, told.get("lost") is True)

    def state_of(self, node: StateMessage) -> StateMessage:
        """The state of a node of the site: it is down if the process in which it told its own is."""
        if node.state == "down" or (self.state, self.run) == ("up", node.run):
            return node
        if self.run != node.run:
            return replace(node, state="down", why=f"the site {node.site} has started anew, and the node not yet", time=self.time)
        return replace(node, state="down", why=f"the site {node.site} is down: {self.why}", time=self.time, lost=self.lost)


@dataclass(frozen=True)
class OfferMessage:
    """What a device's control offers.

    frame:     what it wants of the agent, None if it names its kind alone
    time:      when that was (RFC 3339), None if the control does not say
    reference: a number of the control's own for the offer, None without one
    kind:      the kind of the device from now on, None if there is none
    """

    frame: Wanted | None
    time: str | None = None
    reference: int | None = None
    kind: DeviceKind | None = None

    @staticmethod
    def of(data: bytes, basis: Basis, kind: DeviceKind | None = None) -> OfferMessage:
        """The offer that a message tells over a basis, by a device of this kind, None as long as there is none.

        It is `{"power": [WATTS, ..]}`, `{"points": [[PRICE, WATTS], ..]}`, `{"state": NUMBER}` or `{"leave": true}`, each also with
        `"time"`. A message with `"kind"` and its parameters names the kind, and may have a state. All but a leave may have a
        `"reference"`. Raises BadMessage.
        """
        what = "the offer"
        told = object_of(data, what)
        time = told.pop("time", None)
        if time is not None:
            time_of(_text({"time": time}, "time", what))
        if told == {"leave": True}:
            return OfferMessage(Leave(), time, kind=kind)
        reference = told.pop("reference", None)
        if reference is not None:
            require_reference(reference, "the reference")
        wanted: Wanted | None
        try:
            if "kind" in told:
                kind = DeviceKind.of({name: value for name, value in told.items() if name != "state"})
                wanted = stated(told["state"], kind) if "state" in told else None
            else:
                wanted = _wanted(told, basis, kind)
        except BadFrame as error:
            raise BadMessage(f"the offer is no bid: {error}") from None
        return OfferMessage(wanted, time, reference, kind)


def members_of(wanted: Wanted) -> dict[str, Any]:
    """The members of the message that asks for it. A state is told with its kind."""
    match wanted:
        case Leave():
            return {"leave": True}
        case Offer():
            return {"power": wanted.demands}
        case Points():
            return {"points": wanted.points}
        case Stated():
            return {**wanted.kind.members(), "state": wanted.state}


_FORMS = '{"power": [WATTS, ..]}, {"points": [[PRICE, WATTS], ..]}, {"state": NUMBER} or {"leave": true}'


def _wanted(told: dict[str, Any], basis: Basis, kind: DeviceKind | None) -> Wanted:
    """What the one member of an offer says. Raises BadMessage and BadFrame."""
    if len(told) == 1 and isinstance(power := told.get("power"), list):
        if any(type(number) is not int for number in power):
            raise BadMessage("a power is no whole number of watts")
        offer = Offer(tuple(power))
        offer.require_right(basis.steps)
        return offer
    if len(told) == 1 and isinstance(pairs := told.get("points"), list):
        if any(not isinstance(pair, list) or [type(number) for number in pair] != [int, int] for pair in pairs):
            raise BadMessage("a point is no [PRICE, WATTS] of two whole numbers")
        points = Points.of([(price, power) for price, power in pairs])
        points.require_over(basis)
        return points
    if len(told) == 1 and "state" in told:
        return stated(told["state"], kind)
    raise BadMessage(f'an offer is {_FORMS}, and may have a "time"')


def stated(state: object, kind: DeviceKind | None) -> Stated:
    """An offer by a state. Raises BadMessage if no kind was named or the state is no whole number, and BadFrame if no device may have it."""
    if type(state) is not int:
        raise BadMessage(f"the state is {state!r}: give a whole number in the unit of the kind")
    if kind is None:
        raise BadMessage('a state is told, and no kind: give the settings a table [device], or say {"kind": "battery", ..} before')
    kind.require_state(state)
    return Stated(kind, state)


def require_reference(value: object, what: str) -> int:
    """The reference that a value is. Raises BadMessage if it is none."""
    if type(value) is not int or not 0 <= value <= LAST_REFERENCE:
        raise BadMessage(f"{what} is no whole number from 0 to {LAST_REFERENCE}")
    return value


@dataclass(frozen=True)
class SetpointMessage:
    """What a device is told to take.

    power:     in watts
    step:      the step of the clearing at the device, and `price` its price in price units
    bid:       the number of the offer that the power is of
    clearing:  the index of the clearing, and `time` when that was (RFC 3339), "" if that was not told
    until:     until when it holds (RFC 3339), None if that was not told, as of one that is stored
    holds:     for how many seconds it holds from when it was told, for a device without a clock; None if `until` is
    reference: the control's own number of the offer, None without one
    """

    power: int
    step: int
    price: int
    bid: int
    clearing: int
    time: str
    until: str | None = None
    reference: int | None = None
    holds: float | None = None

    @staticmethod
    def made_of(setpoint: Setpoint, basis: Basis, time: str, reference: int | None = None) -> SetpointMessage:
        """What is told of a Setpoint. `time` is when the market cleared, and `reference` that of the offer."""
        price = basis.price(setpoint.step)
        return SetpointMessage(setpoint.power, setpoint.step, price, setpoint.number, setpoint.index, time, reference=reference)

    @staticmethod
    def of(data: bytes) -> SetpointMessage:
        """The setpoint that a message tells. Raises BadMessage."""
        what = "the setpoint"
        told = object_of(data, what)
        power, step, price, bid, clearing = (_whole(told, word, what) for word in ("power", "step", "price", "bid", "clearing"))
        until = None if told.get("until") is None else _text(told, "until", what)
        reference = None if told.get("reference") is None else _whole(told, "reference", what)
        holds = None if told.get("holds") is None else _seconds(told, "holds", what)
        return SetpointMessage(power, step, price, bid, clearing, _text(told, "time", what), until, reference, holds)

    def to_object(self) -> dict[str, Any]:
        """The members of the message: those that are told."""
        told = dict(vars(self))
        last = {name: told.pop(name) for name in ("reference", "until", "holds")}
        return told | {name: value for name, value in last.items() if value is not None}

    def to_bytes(self) -> bytes:
        """The message."""
        return json.dumps(self.to_object()).encode()

    def is_same(self, other: SetpointMessage | None) -> bool:
        """Whether both are of one offer at one step, with one reference: what the control takes is the same."""
        return other is not None and replace(self, clearing=other.clearing, time=other.time, until=other.until, holds=other.holds) == other

    def with_reference(self, number: int, reference: int | None) -> SetpointMessage:
        """The same with another reference, if it answers the offer of this number."""
        return replace(self, reference=reference) if self.bid == number else self


@dataclass(frozen=True)
class SilentMessage:
    """What a device's control is told in place of a setpoint while the market is silent.

    since: when the newest heartbeat was heard (RFC 3339), or when the device was let go
    power: the fallback in watts
    why:   in words
    """

    since: str
    power: int
    why: str

    def to_object(self) -> dict[str, Any]:
        """The members of the message."""
        return {"market": "silent", **vars(self)}

    def to_bytes(self) -> bytes:
        """The message."""
        return json.dumps(self.to_object()).encode()

    @staticmethod
    def of(data: bytes) -> SilentMessage | None:
        """The silence that a message tells, None if it tells none. Raises BadMessage."""
        what = "the setpoint"
        told = object_of(data, what)
        if told.get("market") != "silent":
            return None
        return SilentMessage(_text(told, "since", what), _whole(told, "power", what), _text(told, "why", what))


@dataclass(frozen=True)
class LapseMessage:
    """That a parent has let a child go: under which number it counts as gone, why in words, and when (RFC 3339)."""

    number: int
    why: str
    time: str

    def to_bytes(self) -> bytes:
        """The message."""
        return json.dumps(dict(vars(self))).encode()

    @staticmethod
    def of(data: bytes) -> LapseMessage:
        """The lapse that a message tells. Raises BadMessage."""
        what = "the lapse"
        told = object_of(data, what)
        return LapseMessage(_whole(told, "number", what), _text(told, "why", what), _text(told, "time", what))


@dataclass(frozen=True)
class BackMessage:
    """That the market is back, as a control is told it: since when its heartbeat is heard (RFC 3339)."""

    since: str

    def to_object(self) -> dict[str, Any]:
        """The members of the message."""
        return {"market": "live", "since": self.since}

    def to_bytes(self) -> bytes:
        """The message."""
        return json.dumps(self.to_object()).encode()


@dataclass(frozen=True)
class NewSessionMessage:
    """That a new session has begun, as a control is told it: the setpoint before holds until it says, and none of it comes again."""

    session: Session

    def to_object(self) -> dict[str, Any]:
        """The members of the message."""
        return {"market": NEW_SESSION, "session": self.session.id, "begun": self.session.begun}

    def to_bytes(self) -> bytes:
        """The message."""
        return json.dumps(self.to_object()).encode()


# What the control of a device is told.
ControlMessage = SetpointMessage | SilentMessage | BackMessage | NewSessionMessage


def control_message_of(data: bytes) -> SetpointMessage | SilentMessage | None:
    """What a control is told at the topic of its setpoint, None for a new session without a setpoint. Raises BadMessage."""
    if object_of(data, "the setpoint").get("market") == NEW_SESSION:
        return None
    return SilentMessage.of(data) or SetpointMessage.of(data)
