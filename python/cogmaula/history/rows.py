"""What a message of a market says, as rows of the tables of its history."""

from __future__ import annotations

import json
import math
from collections.abc import Callable
from dataclasses import dataclass, field
from typing import Any

from ..live.broker.broker_link import Message
from ..live.children.children import SESSION, TIME
from ..live.node.node_errors import BadFrame, BadMessage
from ..live.messages.frames import BIDS, PRICES, Bid, Gone, Price, frame_of
from ..live.messages.messages import BasisMessage, LapseMessage, SetpointMessage, SilentMessage, SiteMessage, StateMessage, object_of, require_characters
from ..live.messages.price_table import PriceTable
from ..live.node.sessions import time_of
from ..live.messages.topics import Topics

# The bytes of a Bid before its demands, and those of each.
BID_HEAD, DEMAND = 7, 4
# The greatest number of a table.
LAST_WHOLE = 2**63 - 1
# The most watts of a measured power.
MOST_MEASURED = 10**12


@dataclass(frozen=True)
class Row:
    """A row of a table: its values by the names of columns."""

    table: str
    values: dict[str, Any] = field(default_factory=dict)


@dataclass(frozen=True)
class SiteDown:
    """That the process of a site is down: a row of `states` for each node that has told one of this run, like its newest one.

    at: when that was told, in seconds since 1970; None by the last will, whose time is that of the connection: then it is when this is kept
    """

    run: str
    at: float | None
    why: str


@dataclass(frozen=True)
class NodeLost:
    """That a node is down by its last will, whose time is that of the connection too: a row of `states` like its newest one of this run. If it
    has told none of that, the row has what the will says.

    will: the row of the will, without a time
    """

    will: Row

    @property
    def down(self) -> SiteDown:
        """That the process of the node is down."""
        return SiteDown(self.will.values["run"], None, self.will.values["why"])

    def row(self, now: float) -> Row:
        """The row of the will, kept at this time."""
        return Row(self.will.table, {**self.will.values, "at": now})


# What a message tells: rows as they are, and what makes rows by those that are there.
Told = Row | SiteDown | NodeLost


def rows_of(topics: Topics, message: Message) -> list[Told]:
    """The rows that a message tells; none if it clears its topic or is of no table. Raises BadMessage if it is not what its topic holds."""
    if not message.payload:
        return []
    try:
        found = _rows_of(topics, message)
    except BadFrame as error:
        raise BadMessage(str(error)) from None
    for row in found:
        _require_kept(row)
    return found


def _require_kept(told: Told) -> None:
    """Raises BadMessage if a table cannot hold a value: a text with what is no character, or a number that is none of 64 bits."""
    values = told.values if isinstance(told, Row) else told.will.values if isinstance(told, NodeLost) else vars(told)
    for name, value in values.items():
        if isinstance(value, str):
            require_characters(value, name)
        elif isinstance(value, int) and not -LAST_WHOLE - 1 <= value <= LAST_WHOLE:
            raise BadMessage(f"{name} is no number of 64 bits")
        elif isinstance(value, float) and not math.isfinite(value):
            raise BadMessage(f"{name} is no number")
        elif not isinstance(value, int | float | None):
            raise BadMessage(f"{name} is no text and no number")


def _rows_of(topics: Topics, message: Message) -> list[Told]:
    session = message.properties.get(SESSION, "")
    if message.topic == topics.basis:
        told = BasisMessage.of(message.payload)
        basis = {"least": told.basis.min, "greatest": told.basis.max, "steps": told.basis.steps}
        return [Row("sessions", {"session": told.session.id, "begun": _seconds(told.session.begun), **basis})]
    relay = message.topic.removeprefix(f"{topics.prefix}/").removesuffix("/limits/state")
    if topics.of(relay, "limits/state") == message.topic and "/" not in relay:
        return [_limits(session, relay, message)]
    parts = topics.parts_of(message.topic)
    if parts is None:
        return []
    node, word, child = parts
    if child is not None:
        return _of_child(session, node, word, child, message)
    if word == "prices":
        at = _seconds_or_none(message.properties.get(TIME))
        return [_price(session, node, price, at) for price in PriceTable.of(message.payload).prices()]
    if word == "site":
        site = SiteMessage.of(message.payload)
        return [] if site.state == "up" else [SiteDown(site.run, None if site.lost else _seconds(site.time), f"the site {node} is down: {site.why}")]
    read = _OF_NODE.get(word)
    return [] if read is None else [read(session, node, message)]


def _of_child(session: str, parent: str, word: str, child: int, message: Message) -> list[Told]:
    key: dict[str, Any] = {"session": session, "parent": parent, "child": child}
    at = _seconds_or_none(message.properties.get(TIME))
    if word == "lapsed":
        lapse = LapseMessage.of(message.payload)
        return [Row("lapses", {**key, "number": lapse.number, "at": _seconds(lapse.time), "why": lapse.why})]
    if word not in ("bid", "price"):
        return []
    steps = max(2, (len(message.payload) - BID_HEAD) // DEMAND)
    frame = frame_of(message.payload, BIDS if word == "bid" else PRICES, steps if word == "bid" else 1_000)
    told = getattr(frame, "child", child)
    if told != child:
        raise BadMessage(f"it names child {told}")
    if isinstance(frame, Bid | Gone):
        demands = json.dumps(frame.demands) if isinstance(frame, Bid) else None
        return [Row("bids", {**key, "number": frame.number, "at": at, "demands": demands})]
    return [_price(session, parent, frame, at)] if isinstance(frame, Price) else []


def _price(session: str, parent: str, price: Price, at: float | None) -> Row:
    key = {"session": session, "parent": parent, "child": price.child, "clearing": price.index}
    return Row("prices", {**key, "number": price.number, "step": price.step, "price": price.basis.price(price.step), "at": at})


def _state(_session: str, node: str, message: Message) -> Row | NodeLost:
    state = StateMessage.of(message.payload)
    place = {"sort": state.sort, "parent": state.parent, "child": state.child, "floor": state.floor, "ceiling": state.ceiling}
    more = {"alarm": state.alarm, "silent": _seconds_or_none(state.silent), "why": state.why, "session": state.session}
    values: dict[str, Any] = {"node": node, "run": state.run, "state": state.state, **place, **more}
    return NodeLost(Row("states", values)) if state.lost else Row("states", {**values, "at": _seconds(state.time)})


def _setpoint(session: str, device: str, message: Message) -> Row:
    silent = SilentMessage.of(message.payload)
    key = {"session": session, "device": device}
    if silent is not None:
        return Row("fallbacks", {**key, "since": _seconds(silent.since), "power": silent.power, "why": silent.why})
    setpoint = SetpointMessage.of(message.payload)
    numbers = {"clearing": setpoint.clearing, "number": setpoint.bid, "step": setpoint.step, "price": setpoint.price, "power": setpoint.power}
    return Row("setpoints", {**key, **numbers, "at": _seconds_or_none(setpoint.time)})


def _measured(_session: str, device: str, message: Message) -> Row:
    told = object_of(message.payload, "the measured power")
    power, time = told.get("power"), told.get("time")
    if type(power) is not int or not -MOST_MEASURED <= power <= MOST_MEASURED or not isinstance(time, str):
        raise BadMessage('a measured power is {"power": WATTS, "time": "2026-01-31T06:30:00Z"}')
    return Row("measured", {"device": device, "at": _seconds(time), "power": power})


_OF_NODE: dict[str, Callable[[str, str, Message], Row | NodeLost]] = {"state": _state, "setpoint": _setpoint, "measured": _measured}


def _limits(session: str, relay: str, message: Message) -> Row:
    what = "the answer about limits"
    told = object_of(message.payload, what)
    floor, ceiling, clearing, until = (told.get(word) for word in ("floor", "ceiling", "clearing", "until"))
    state, reference, why, time = (told.get(word) for word in ("state", "reference", "why", "time"))
    texts, wholes = (state, why, time), (floor, ceiling)
    if not all(isinstance(text, str) for text in texts) or not all(type(whole) is int for whole in wholes) or type(clearing) not in (int, type(None)):
        raise BadMessage(f"{what} lacks a member")
    limits = {"floor": floor, "ceiling": ceiling, "until": _seconds_or_none(until), "reference": reference, "clearing": clearing, "why": why}
    return Row("limits", {"session": session, "relay": relay, "at": _seconds(str(time)), "state": state, **limits})


def _seconds(text: str) -> float:
    """A time as seconds since 1970. Raises BadMessage."""
    return time_of(text).timestamp()


def _seconds_or_none(text: object) -> float | None:
    try:
        return _seconds(text) if isinstance(text, str) and text else None
    except BadMessage:
        return None
