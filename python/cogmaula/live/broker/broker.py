"""A node's connection to an MQTT 5 broker: it waits for a broker that is away, and says in a line what is wrong.

Everything is published retained, with QoS 1. The newest message of each topic is kept, and published again on each new
connection. After it has subscribed, a connection publishes a marker and waits until it comes back: then the broker has handed
on all that it retains, and lets the node write and read its own topics.
"""

from __future__ import annotations

import threading
import time
from collections.abc import Callable, Iterable, Sequence
from typing import Any

from ...logs import NodeLog
from .broker_link import Arrived, Confirmed, Event, Message, Publication, Settled, message_of
from .connection import (
    FIRST_PAUSE,
    LONGEST_PAUSE,
    REFUSED,
    connect,
    keep_connected,
    new_client,
    paho,
    properties_of,
    words_of,
    words_of_end,
    words_of_refusal,
)
from ..node.node_settings import BrokerSettings
from ..messages.topics import Topics

# The seconds after which a message that did not come back is told.
PATIENCE = 10.0
# The most topics of which messages wait.
WAITING = 2_048
# The messages a second of one topic behind which it is read no more, and the seconds after which its newest message is read again.
FLOOD, REST = 200, 1.0
# The seconds without a flood after which the next one is told again.
CALM = 60.0
# The most topics whose wrong messages are told.
WRONG = 16


class Broker:
    """A connection to a broker, made anew as often as it is lost. See `Link` for its calls."""

    def __init__(
        self,
        settings: BrokerSettings,
        client_id: str,
        notify: Callable[[Event], None],
        log: NodeLog,
        pauses: tuple[float, float] = (FIRST_PAUSE, LONGEST_PAUSE),
        patience: float = PATIENCE,
    ) -> None:
        """Takes the settings, and calls for events and for lines. Raises NoPackage if paho is missing."""
        self._mqtt = paho()
        self.settings = settings
        self._client_id = client_id
        self._notify = notify
        self._log = log
        self._pauses = pauses
        self._patience = patience
        self._closing = threading.Event()
        # Of the node's thread alone.
        self._newest: dict[str, Publication] = {}
        self._unconfirmed: dict[str, tuple[object, int]] = {}
        self._sent: dict[tuple[object, int], str] = {}
        self._echoes: dict[str, float] = {}
        self._written: list[str] = []
        # The connection that has given back one of what this node alone writes, and reads these topics no more.
        self._shown: object = None
        # The properties that were made last, and for which: all prices of a clearing have the same.
        self._properties: Any = None
        self._properties_of: tuple[tuple[str, str], ...] = ()
        self._told: set[str] = set()
        # The topics whose floods are told, and when each was read no more last.
        self._floods: dict[str, float] = {}
        self._counted_at = 0.0
        self._topics_of_market = Topics(settings.prefix)
        # Of both threads; the locks are never held in a call of paho.
        self._lock = threading.Lock()
        self._inbox: dict[str, Message] = {}
        self._confirms: set[tuple[object, int]] = set()
        self._has_lost = self._was_lost = self._was_settled = False
        # How many messages of each topic came since the last count, and those that are read no more for a while, with who sent them.
        self._counts: dict[str, int] = {}
        self._rested: dict[str, tuple[float, str]] = {}
        self._wrong: set[str] = set()
        self._client: Any = None
        self._settled: Any = None
        self._marked: Publication | None = None
        self._marked_at = 0.0

    # The calls of a Link.

    def start(
        self, topics: Sequence[str], will: Callable[[], Publication], marker: Callable[[], Publication], written: Sequence[str] = ()
    ) -> None:
        """See Link."""
        self._prepare(topics, will, marker, written)
        self._thread = threading.Thread(target=self._run, daemon=True)
        self._thread.start()

    def _prepare(
        self, topics: Sequence[str], will: Callable[[], Publication], marker: Callable[[], Publication], written: Sequence[str]
    ) -> None:
        """Takes what `start` is given."""
        self._topics, self._will, self._marker = [*topics, *written], will, marker
        self._written = list(written)
        self._asked: dict[tuple[object, int], list[str]] = {}

    def also_read(self, topic: str) -> None:
        """See Link."""
        if topic not in self._topics:
            self._topics = [*self._topics, topic]
            if self._settled is not None:
                self._subscribe(self._settled, [topic])

    @property
    def is_settled(self) -> bool:
        """See Link."""
        return self._settled is not None

    def publish(self, publication: Publication) -> None:
        """See Link."""
        self._newest.pop(publication.topic, None)
        self._newest[publication.topic] = publication
        client = self._settled
        if client is None:
            # Nothing is confirmed before a connection has it.
            self._unconfirmed[publication.topic] = (None, 0)
        else:
            self._send(client, publication)

    def publish_all(self) -> None:
        """See Link."""
        client = self._settled
        self._sent.clear()
        self._echoes.clear()
        self._told.clear()
        with self._lock:
            # A new connection reads all topics.
            self._rested.clear()
        if client is not None:
            for publication in list(self._newest.values()):
                self._send(client, publication)

    def kept(self, topic: str) -> Publication | None:
        """See Link."""
        return self._newest.get(topic)

    def is_unconfirmed(self, topics: Iterable[str]) -> bool:
        """See Link."""
        self._take_confirms()
        return not self._unconfirmed.keys().isdisjoint(topics)

    def taken(self) -> list[Message]:
        """See Link."""
        with self._lock:
            found, self._inbox = list(self._inbox.values()), {}
        for message in found:
            kept = self._newest.get(message.topic)
            if message.topic in self._echoes and (not message.retained or (kept is not None and kept.payload == message.payload)):
                del self._echoes[message.topic]
                if not message.retained and self._is_written(message.topic):
                    self._read_no_more()
        return found

    @property
    def has_lost(self) -> bool:
        """See Link."""
        found, self._has_lost = self._has_lost, False
        return found

    def read_again(self) -> None:
        """See Link."""
        client = self._settled
        if client is not None:
            with self._lock:
                topics = [topic for topic in self._topics if topic not in self._written and topic not in self._rested]
            self._subscribe(client, topics)

    def tick(self) -> None:
        """See Link."""
        self._take_confirms()
        now = time.monotonic()
        self._take_floods(now)
        if self._client is not None and self._settled is None and now > self._marked_at + self._patience:
            self._say_no_echo(self._will().topic)
            self._mark(self._client)
        for topic, since in list(self._echoes.items()):
            if self._rested:
                # What comes back waits behind the flood.
                self._echoes[topic] = now
            elif now > since + self._patience:
                del self._echoes[topic]
                self._say_no_echo(topic)

    def close(self, last: Publication, seconds: float) -> None:
        """See Link."""
        end = time.monotonic() + seconds
        self.publish(last)
        # Half of the time is for the confirmation, and the other for what ends the connection.
        while self._settled is not None and self.is_unconfirmed([last.topic]) and time.monotonic() < end - seconds / 2:
            time.sleep(0.01)
        self._closing.set()
        client = self._client
        if client is not None:
            client.disconnect()
            self._thread.join(max(0.0, end - time.monotonic()))

    # Floods.

    def _take_floods(self, now: float) -> None:
        """Tells who floods, and lets the newest message of a topic come that was read no more for a while."""
        with self._lock:
            if now > self._counted_at + 1.0:
                self._counts, self._counted_at = {}, now
            rested = dict(self._rested)
            due = [topic for topic, (since, _) in rested.items() if now >= since + REST]
            for topic in due:
                del self._rested[topic]
                self._counts[topic] = 0
        for topic, (_, sender) in rested.items():
            if now > self._floods.get(topic, -CALM) + CALM:
                self._log.warning(f"{topic}: more than {FLOOD} messages a second come{sender and f' from {sender}'}: it is read once a second")
            self._floods[topic] = now
        if due and self._settled is not None:
            self._subscribe(self._settled, due)

    def count(self, client: Any, topic: str) -> None:
        """Counts a message that was dropped before it was read. It is of a flood as well as others are."""
        self._is_flood(client, topic, "")

    def _is_flood(self, client: Any, topic: str, sender: str) -> bool:
        """Counts a message, and reads its topic no more for a while if there are too many. What this node writes is not counted."""
        with self._lock:
            if topic in self._rested:
                return True
            count = self._counts[topic] = self._counts.get(topic, 0) + 1
            if count <= FLOOD or topic in self._newest or topic not in self._topics:
                return False
            self._rested[topic] = time.monotonic(), sender
        client.unsubscribe(topic)
        return False

    # Publishing.

    def _take_confirms(self) -> None:
        if not self._confirms:
            return
        with self._lock:
            found, self._confirms = self._confirms, set()
        for packet in found:
            topic = self._sent.pop(packet, "")
            if self._unconfirmed.get(topic) == packet:
                del self._unconfirmed[topic]

    def _send(self, client: Any, publication: Publication) -> None:
        told = client.publish(publication.topic, publication.payload, 1, True, self._properties_due(publication))
        self._unconfirmed[publication.topic] = (client, told.mid)
        self._sent[client, told.mid] = publication.topic
        # What clears a topic comes back to a reader too, as every message does.
        if self._shown is not client or not self._is_written(publication.topic):
            self._echoes.setdefault(publication.topic, time.monotonic())

    def _properties_due(self, publication: Publication) -> Any:
        """The properties of MQTT 5 for a publication. Those of the one before serve again if they are the same."""
        if self._properties_of != publication.properties:
            self._properties = properties_of("PUBLISH", UserProperty=list(publication.properties)) if publication.properties else None
            self._properties_of = publication.properties
        return self._properties

    def _is_written(self, topic: str) -> bool:
        """Whether this node alone writes the topic."""
        return any(topic.startswith(pattern[:-1]) if pattern.endswith("+") else topic == pattern for pattern in self._written)

    def _read_no_more(self) -> None:
        """Lets the broker give back no more of what this node alone writes."""
        client = self._settled
        if client is not None and self._shown is not client:
            self._shown = client
            client.unsubscribe(self._written)
            self._echoes = {topic: since for topic, since in self._echoes.items() if not self._is_written(topic)}

    def _mark(self, client: Any) -> None:
        """Publishes the marker."""
        marked = self._marker()
        self._marked, self._marked_at = marked, time.monotonic()
        client.publish(marked.topic, marked.payload, 1, True, properties_of("PUBLISH"))

    def _say_no_echo(self, topic: str) -> None:
        if topic not in self._told:
            self._told.add(topic)
            user = self.settings.user or "a node without a user"
            self._log.warning(
                f"{self.settings.address} does not give {topic} back: let {user} write and read this topic, in the broker's list of rights"
            )

    # One connection after the other, in a thread of its own.

    def _run(self) -> None:
        keep_connected(self._connection, self._closing, self._log, self.settings.address, self._pauses)

    def _connection(self) -> tuple[bool, str]:
        """Makes one connection, and waits for its end: whether it was there, and why it ended."""
        try:
            return self._worked_connection()
        finally:
            self._let_go()

    def _let_go(self) -> None:
        """Notes that a connection has ended."""
        self._client = self._settled = None
        self._was_lost = True

    def _worked_connection(self) -> tuple[bool, str]:
        ended = threading.Event()
        words: list[str] = []
        try:
            client = self._made(ended, words)
            connect(client, self.settings)
        except (OSError, ValueError) as error:
            return False, words_of(error, self.settings)
        client.loop_start()
        ended.wait()
        client.loop_stop()
        return self._client is client, words[0] if words else "the connection was lost"

    def _made(self, ended: threading.Event, words: list[str]) -> Any:
        """A client of paho. Raises OSError if a file cannot be read."""
        client = new_client(self.settings, self._client_id, ended, words, self._log, self.count)
        will = self._will()
        client.will_set(will.topic, will.payload, 1, True)
        client.on_connect = lambda client, _data, _flags, code, _more: self._on_connect(client, code, words)
        client.on_subscribe = lambda client, _data, mid, codes, _more: self._on_subscribe(client, mid, codes)
        client.on_message = lambda client, _data, message: self._on_message(client, message)
        client.on_publish = lambda client, _data, mid: self._on_publish(client, mid)
        client.on_disconnect = lambda _it, _data, code, _more: self._on_disconnect(code, ended, words)
        return client

    def _on_connect(self, client: Any, code: Any, words: list[str]) -> None:
        if code.value >= REFUSED:
            words.append(words_of_refusal(code, self.settings))
            return
        self._begin_on(client)

    def _begin_on(self, client: Any) -> None:
        """Reads all topics on a new connection, and publishes the marker."""
        self._marked_at = time.monotonic()
        self._client = client
        self._subscribe(client, self._topics)
        self._mark(client)

    def _subscribe(self, client: Any, topics: list[str]) -> None:
        options = self._mqtt.SubscribeOptions(qos=1)
        _, mid = client.subscribe([(topic, options) for topic in topics])
        with self._lock:
            self._asked[client, mid] = topics

    def _on_subscribe(self, client: Any, mid: int, codes: Any) -> None:
        with self._lock:
            topics = self._asked.pop((client, mid), [])
        for topic, code in zip(topics, codes, strict=False):
            if code.value >= REFUSED:
                self._log.warning(f"{self.settings.address} does not let {self.settings.user or 'this node'} read {topic} ({code})")

    def _on_message(self, client: Any, message: Any) -> None:
        if len(message.payload) > self._topics_of_market.longest(message.topic):
            self._say_wrong(message.topic, len(message.payload))
            return
        self._take_found(client, message_of(message))

    def _take_found(self, client: Any, found: Message) -> None:
        """Takes a message of a connection."""
        marked = self._marked
        if marked is not None and (found.topic, found.payload) == (marked.topic, marked.payload) and self._settled is None:
            self._settled = client
            if self._was_lost:
                self._was_lost = False
                self._say_connected(f"{self.settings.address}: connected{' again' if self._was_settled else ''}")
            self._was_settled = True
            self._notify(Settled())
            return
        if self._is_flood(client, found.topic, found.properties.get("node", "")[:64]):
            return
        with self._lock:
            is_first = not self._inbox
            if found.topic in self._inbox or len(self._inbox) < WAITING:
                self._inbox.pop(found.topic, None)
                self._inbox[found.topic] = found
            else:
                self._has_lost = True
        if is_first:
            self._notify(Arrived())

    def _say_connected(self, words: str) -> None:
        self._log.info(words)

    def _say_wrong(self, topic: str, count: int) -> None:
        """Says once that a message of a topic is none of a market."""
        if topic not in self._wrong and len(self._wrong) < WRONG:
            self._wrong.add(topic)
            self._log.warning(f"{topic[:200]}: a message of {count} bytes is not taken: it is no topic of a market, or too long for it")

    def _on_publish(self, client: Any, mid: int) -> None:
        with self._lock:
            is_first = not self._confirms
            self._confirms.add((client, mid))
        if is_first:
            self._notify(Confirmed())

    def _on_disconnect(self, code: Any, ended: threading.Event, words: list[str]) -> None:
        if not words:
            words.append(words_of_end(code, self._client is not None))
        ended.set()
