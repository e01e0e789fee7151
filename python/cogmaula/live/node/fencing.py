"""Fences a relay that is down: in one life of its own, it lets all of its devices go, bids without them, and ends.

Until then its parent counts its newest sum, though its devices have fallen back. The life is an ordinary one of the relay: it begins with
the broker's Resume under a greater count of starts, gives Expire for each device, and bids under its own next number. It tells no heartbeat
and no price below. A process of before that still lives sees the greater count, and ends.
"""

from __future__ import annotations

import time
from dataclasses import replace
from datetime import datetime

from ..children.children import NODE, SORT
from .node_errors import BadFrame, BadMessage, LiveError
from ..messages.frames import BIDS, CHILDREN, Bid, frame_of
from ..messages.messages import BasisMessage, StateMessage
from .node import make_node
from ..broker.operating import Words
from .node_settings import BrokerSettings, Settings
from .silence import Heartbeat


def fence(broker: BrokerSettings, settings: Settings, seconds: float = 30.0) -> str:
    """Fences a relay, and says so in a line.

    broker:   of an operator, who reads the whole market
    settings: of the relay, with its own login and an empty folder of its state
    seconds:  for how long each step is waited for

    Raises LiveError if the relay is up, if its devices may still take something by its last heartbeat, if a relay below it counts
    something, or if it has not left in time.
    """
    topics, name = settings.topics, settings.name
    assert settings.parent is not None and settings.child is not None
    own = topics.bid(settings.parent, settings.child)
    heartbeats = [topics.of(node, "heartbeat") for node in (settings.parent, name)]
    with Words(broker, [topics.basis, topics.of(name, "state"), topics.bid(name, "+"), own, *heartbeats], 2 * seconds) as words:
        _require_down(words.newest(topics.of(name, "state"))[0], settings)
        basis, above, below = (words.newest(topic)[0] for topic in (topics.basis, *heartbeats))
        _require_silence(basis, above, below, name)
        _require_nothing_below(words, settings)
        _live_once(replace(settings, leave=True, page=None, record=None), seconds)
        words.wait(lambda: _takes_nothing(words.newest(own)[0], settings), f"{name} has left, and its bid at {settings.parent} is not that of nobody")
        bid = frame_of(words.newest(own)[0], BIDS, settings.basis.steps)
        assert isinstance(bid, Bid)
        return f"{name} is fenced: {settings.parent} counts nothing of it as of number {bid.number}. Start it again, and its devices are back"


def _require_down(payload: bytes, settings: Settings) -> None:
    """Raises LiveError unless the state of the relay says that it is down."""
    name = settings.name
    try:
        state = StateMessage.of(payload) if payload else None
    except BadMessage as error:
        raise LiveError(f"the state of {name} cannot be read: {error}") from None
    if state is None:
        raise LiveError(f"no node {name} is seen: look at the name and the prefix, and let this login read {settings.own_topic('state')}")
    if state.state == "up":
        raise LiveError(f"{name} is up since {state.started}: only a relay that is down is fenced")


def _require_silence(basis: bytes, above: bytes, below: bytes, name: str) -> None:
    """Raises LiveError unless the relay has passed on no heartbeat of the last `grace` seconds, both by the auctioneer's clock."""
    try:
        grace = BasisMessage.of(basis).times.grace
        newest, passed = (datetime.fromisoformat(Heartbeat.of(payload).time) if payload else None for payload in (above, below))
    except (BadMessage, ValueError) as error:
        raise LiveError(f"the basis or a heartbeat of the market cannot be read: {error}") from None
    if newest is None:
        raise LiveError(f"the market has no heartbeat above {name}: start the auctioneer first")
    silent = grace if passed is None else (newest - passed).total_seconds()
    if silent < grace:
        raise LiveError(f"{name} passed on a heartbeat {silent:.0f} s ago, and its devices may take by it: say it again once that is {grace:g} s ago")


def _require_nothing_below(words: Words, settings: Settings) -> None:
    """Raises LiveError if a relay below counts something: its sum cannot be let go."""
    for child in range(1, CHILDREN + 1):
        payload, properties, _ = words.newest(settings.topics.bid(settings.name, child))
        if payload and properties.get(SORT) == "relay" and not _takes_nothing(payload, settings):
            raise LiveError(f"child {child} of {settings.name}, {properties.get(NODE)}, is a relay that counts something: stop it, and fence it first")


def _takes_nothing(payload: bytes, settings: Settings) -> bool:
    """Whether a bid is of 0 W at each price."""
    try:
        frame = frame_of(payload, BIDS, settings.basis.steps) if payload else None
    except BadFrame:
        return False
    return isinstance(frame, Bid) and not any(frame.demands)


def _live_once(settings: Settings, seconds: float) -> None:
    """Runs the relay until it has left. Raises LiveError if it has not in time, and what `Node.run` raises."""
    end = time.monotonic() + seconds

    def turns() -> None:
        if time.monotonic() > end:
            serving = node.serving
            raise LiveError(f"{settings.name} has not left in {seconds:g} s: {serving.why_down or serving.alarm or 'the broker does not confirm its bid'}")

    node = make_node(settings, turns=turns)
    node.run()
