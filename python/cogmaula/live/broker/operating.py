"""What an operator says to a market at its broker: lets a device go, or gives limits to a relay. Each call waits for the answer."""

from __future__ import annotations

import json
import logging
import threading
import time
from collections.abc import Callable
from typing import Any

from ...logs import NodeLog
from .broker_link import Message
from ..children.children import SORT
from .connection import REFUSED, connect, new_client, paho, user_properties_of, words_of, words_of_refusal
from ..messages.frames import RESUMES, AuctioneerResume, RelayResume, frame_of
from ..node.node_errors import BadFrame, BadMessage, BadSettings, LiveError
from ..children.given_limits import LimitsMessage
from ..messages.messages import LapseMessage, StateMessage, object_of
from ..node.node_states import NodeStates
from ..node.node_settings import BrokerSettings
from ..messages.topics import Topics

TICK = 0.05
# The seconds without a retained message after which the broker has told all that it retains.
QUIET = 0.3


class Words:
    """A connection of an operator, which reads some topics, from `with` to its end. Raises LiveError if it cannot be made."""

    def __init__(self, settings: BrokerSettings, topics: list[str], seconds: float) -> None:
        """Takes the broker, the topics to read, and for how long each answer is waited for."""
        self._settings = settings
        self._topics = topics
        self._end = time.monotonic() + seconds
        self._lock = threading.Lock()
        # The newest message of each topic: its payload, its user properties, and whether the broker had kept it.
        self._newest: dict[str, tuple[bytes, dict[str, str], bool]] = {}
        # The newest message of each topic that came since and is no clearing: one that is cleared at once is not missed.
        self._told: dict[str, bytes] = {}
        # The topics that were cleared since.
        self._cleared: set[str] = set()
        self._log = NodeLog(logging.getLogger(__name__))
        self._words: list[str] = []
        self._ended = threading.Event()
        self._is_there = False
        self._came = 0.0

    def __enter__(self) -> Words:
        """Connects, and reads all that the broker retains."""
        settings = self._settings
        try:
            client = self._client = new_client(settings, "", self._ended, self._words, self._log)
            client.on_connect = lambda client, _data, _flags, code, _more: self._on_connect(client, code)
            client.on_message = lambda _it, _data, message: self._on_message(message)
            connect(client, settings)
        except (OSError, ValueError) as error:
            raise LiveError(f"{settings.address}: {words_of(error, settings)}") from None
        client.loop_start()
        self.wait(lambda: self._is_there and time.monotonic() > self._came + QUIET, "the broker does not answer")
        return self

    def __exit__(self, *_: object) -> None:
        """Ends the connection."""
        self._client.disconnect()
        self._client.loop_stop()

    def _on_connect(self, client: Any, code: Any) -> None:
        if code.value >= REFUSED:
            self._words.append(words_of_refusal(code, self._settings))
            self._ended.set()
            return
        client.subscribe([(topic, paho().SubscribeOptions(qos=1)) for topic in self._topics])
        self._came = time.monotonic()
        self._is_there = True

    def _on_message(self, message: Any) -> None:
        properties = user_properties_of(message)
        with self._lock:
            self._newest[message.topic] = bytes(message.payload), properties, bool(message.retain)
            if message.payload and not message.retain:
                self._told[message.topic] = bytes(message.payload)
            elif not message.payload:
                self._cleared.add(message.topic)
        self._came = time.monotonic()

    def also_read(self, topic: str) -> None:
        """Reads one more topic, and waits for what the broker retains of it."""
        self._client.subscribe([(topic, paho().SubscribeOptions(qos=1))])
        self._came = time.monotonic()
        self.wait(lambda: time.monotonic() > self._came + QUIET, "the broker does not answer")

    def newest(self, topic: str) -> tuple[bytes, dict[str, str], bool]:
        """The newest message of a topic: its payload, its user properties, and whether the broker had kept it."""
        with self._lock:
            return self._newest.get(topic, (b"", {}, True))

    def told(self, topic: str) -> bytes:
        """The newest message of a topic that the broker had not kept and that is no clearing, b"" if none came."""
        with self._lock:
            return self._told.get(topic, b"")

    def is_cleared(self, topic: str) -> bool:
        """Whether a clearing of a topic came."""
        with self._lock:
            return topic in self._cleared

    def publish(self, topic: str, payload: bytes, retain: bool) -> None:
        """Publishes a message."""
        self._client.publish(topic, payload, 1, retain)

    def wait(self, holds: Callable[[], bool], why: str) -> None:
        """Waits until something holds. Raises LiveError if it does not in time."""
        while not holds():
            if self._ended.is_set() or time.monotonic() > self._end:
                raise LiveError(f"{self._settings.address}: {self._words[0] if self._words else why}")
            time.sleep(TICK)


def _state_of(words: Words, topics: Topics, node: str) -> StateMessage | None:
    """The state of a node, as that of its site tells it too, None if none is seen. Raises BadMessage, and LiveError."""
    read: list[str] = []

    def also_read(topic: str) -> None:
        words.also_read(topic)
        read.append(topic)

    states, topic = NodeStates(topics, also_read), topics.of(node, "state")
    state = states.take(Message(topic, words.newest(topic)[0]))[node]
    for topic in read:
        state = states.take(Message(topic, words.newest(topic)[0])).get(node, state)
    return state


def _number_in(resume: bytes, state: StateMessage, child: int) -> int:
    """The number of a child in the newest sum of a parent, by its Resume at the broker; 0 without one that can be read."""
    try:
        frame = frame_of(resume, {} if state.sort is None else RESUMES[state.sort], 0)
    except BadFrame:
        return 0
    return frame.numbers[child - 1] if isinstance(frame, RelayResume | AuctioneerResume) else 0


def _require_up(words: Words, topics: Topics, node: str, sorts: tuple[str, ...]) -> StateMessage:
    """The state of a node. Raises LiveError unless it is one of these sorts, and up."""
    try:
        state = _state_of(words, topics, node)
    except BadMessage as error:
        raise LiveError(f"the state of {node} cannot be read: {error}") from None
    if state is None:
        raise LiveError(f"no node {node} is seen: look at the name and the prefix, and let this login read {topics.of(node, 'state')}")
    if state.sort not in sorts:
        raise LiveError(f"{node} is a {state.sort}, and no {' or '.join(sorts)}")
    if state.state != "up":
        raise LiveError(f"{node} is down ({state.why}): start it first")
    return state


def drop(broker: BrokerSettings, node: str, child: int, seconds: float = 10.0) -> str:
    """Lets child CHILD of a node go, and says so in a line. Raises LiveError if the node does not, and why."""
    topics = Topics(broker.prefix)
    bid, lapsed = topics.bid(node, child), topics.at(node, "lapsed", child)
    resume = topics.of(node, "resume")
    with Words(broker, [topics.of(node, "state"), bid, lapsed, resume], seconds) as words:
        state = _require_up(words, topics, node, ("relay", "auctioneer"))
        payload, properties, _ = words.newest(bid)
        if payload and properties.get(SORT) == "relay":
            raise LiveError(f"child {child} of {node} is a relay, which counts for all below it: let its devices go at it")
        words.publish(topics.at(node, "drop", child), b'{"drop": true}', False)
        words.wait(
            lambda: words.told(lapsed) != b"",
            f"{node} has not let child {child} go in {seconds:g} s: its log says why, or this login may not write {node}/drop",
        )
        told = LapseMessage.of(words.told(lapsed))

        def number() -> int:
            return _number_in(words.newest(resume)[0], state, child)

        # It is gone in a sum that has an odd number of it, and back in one with a greater number.
        words.wait(
            lambda: number() % 2 == 1 or number() > told.number,
            f"{node} has let child {child} go as of number {told.number}, and in {seconds:g} s it made no sum without it: read its state and log, "
            "and say it again",
        )
        return f"child {child} of {node} is let go as of number {told.number}: {told.why}"


def clear(broker: BrokerSettings, topic: str, seconds: float = 10.0) -> str:
    """Clears what the broker retains under a topic, also what no client can read, and says so in a line.

    Raises BadSettings if it is no topic of the market, and LiveError if it is not cleared.
    """
    if Topics(broker.prefix).longest(topic) == 0:
        raise BadSettings(f"{topic!r} is no topic of a market below {broker.prefix}/: docs/LIVE.md lists them")
    with Words(broker, [topic], seconds) as words:
        words.publish(topic, b"", True)
        late = f"{topic} is not cleared in {seconds:g} s: may this login read and write it?"
        words.wait(lambda: words.is_cleared(topic), late)
    return f"{topic} is cleared"


def forget_node(broker: BrokerSettings, name: str, parent: str, child: int, seconds: float = 10.0) -> None:
    """Clears a device's Resume, bid and setpoint at the broker, by its own login. Raises LiveError if it is up, and if that fails."""
    topics = Topics(broker.prefix)
    own = [topics.of(name, "resume"), topics.bid(parent, child), topics.of(name, "setpoint")]
    with Words(broker, [topics.of(name, "state"), *own], seconds) as words:
        try:
            state = _state_of(words, topics, name)
        except BadMessage:
            # Whoever had the login may have written anything.
            state = None
        if state is not None and state.state == "up":
            raise LiveError(f"{name} is up since {state.started}: stop it first")
        for topic in own:
            words.publish(topic, b"", True)
        words.wait(lambda: not any(words.newest(topic)[0] for topic in own), f"the broker has not cleared the Resume and the bid of {name}")


def give_limits(broker: BrokerSettings, node: str, limits: LimitsMessage, seconds: float = 10.0) -> str:
    """Gives limits to a relay, and says in a line from which clearing on setpoints keep them. Raises LiveError if they are refused."""
    LimitsMessage.of(limits.to_bytes())
    topics = Topics(broker.prefix)
    answer = topics.of(node, "limits/state")

    def told() -> dict[str, Any]:
        payload, _, retained = words.newest(answer)
        return {} if retained or not payload else object_of(payload, "the answer")

    with Words(broker, [topics.of(node, "state"), answer], seconds) as words:
        _require_up(words, topics, node, ("relay",))
        words.publish(topics.of(node, "limits"), limits.to_bytes(), True)
        late = f"{node} has not answered in {seconds:g} s: has it limits_from = true, and may this login write {topics.of(node, 'limits')}?"
        words.wait(lambda: bool(told()), late)
        try:
            words.wait(lambda: bool(told()["state"] != "waits"), "")
        except LiveError:
            return f"{node} has the limits, and no clearing has kept them yet: {json.dumps(told())}"
        if told()["state"] == "refused":
            raise LiveError(f"{node} refuses the limits: {told()['why']}")
        return f"{node}: {json.dumps(told())}"
