"""One connection to an MQTT 5 broker for many nodes of one process, moved by a loop.

Each node has a `SharedLink`, which is the same `Broker` as that of a node of its own, over its share of the connection. So each
publishes again, sees its own topics come back, and rests at a flood by itself. A topic that several nodes read, such as the heartbeat of
their parent, is subscribed once, and its messages go to all of them.
"""

from __future__ import annotations

import contextlib
import threading
from collections import deque
from collections.abc import Callable, Iterable, Sequence
from typing import Any

from ... import clock
from ...logs import NodeLog
from .broker import Broker
from .broker_link import Event, Message, Publication, message_of
from .connection import (
    FIRST_PAUSE,
    LONGEST_PAUSE,
    REFUSED,
    connect,
    new_client,
    paho,
    words_of,
    words_of_end,
    words_of_refusal,
)
from ..site.loop import READ, WRITE, Loop
from ..node.node_settings import BrokerSettings
from ..site.site_life import SiteLife
from ..messages.topics import Topics

# The most nodes that settle at once: a broker keeps few messages for a connection that has not taken them.
SETTLING = 32
# The seconds between looks at the keepalive of the connection.
LOOK = 1.0


class Share:
    """A node's share of one connection, in place of a client of paho."""

    def __init__(self, shared: SharedConnection, client: Any, link: SharedLink) -> None:
        self._shared = shared
        self._client = client
        self.link = link
        # What the node reads on this connection.
        self.topics: set[str] = set()

    def publish(self, topic: str, payload: bytes, qos: int, retain: bool, properties: Any) -> Any:
        """Publishes a message. Gives its number as paho does, in a member `mid`."""
        return self._shared.publish(self, self._client, (topic, payload, qos, retain, properties))

    def subscribe(self, topics: Sequence[tuple[str, Any]]) -> tuple[int, int]:
        """Reads topics. What is wrong with one is a line of the connection, so the number is of no subscription."""
        self._shared.subscribe(self, self._client, topics)
        return 0, 0

    def unsubscribe(self, topics: str | Sequence[str]) -> None:
        """Reads topics no more."""
        self._shared.unsubscribe(self, self._client, [topics] if isinstance(topics, str) else topics)


class SharedLink(Broker):
    """A node's connection that it shares with others. See `Link` for its calls."""

    def __init__(self, shared: SharedConnection, notify: Callable[[Event], None], log: NodeLog) -> None:
        """Takes the connection, a call for events, and the log of the node."""
        super().__init__(shared.settings, shared.client_id, notify, log)
        self._shared = shared

    def start(
        self, topics: Sequence[str], will: Callable[[], Publication], marker: Callable[[], Publication], written: Sequence[str] = ()
    ) -> None:
        """See Link. A connection has one last will: that of the site, which is the state of each node of it."""
        self._prepare(topics, will, marker, written)
        self._shared.join(self)

    def close(self, last: Publication, seconds: float) -> None:
        """See Link. It does not wait: the connection ends behind all that was published."""
        self.publish(last)
        self._shared.leave(self)

    def begin(self, share: Share) -> None:
        """Begins on a connection that is there."""
        self._begin_on(share)

    def lose(self) -> None:
        """Notes that the connection was lost."""
        self._let_go()

    def take(self, share: Share, message: Message) -> None:
        """Takes a message of the connection."""
        self._take_found(share, message)

    def confirm(self, share: Share, number: int) -> None:
        """Takes the confirmation of a publication."""
        self._on_publish(share, number)

    def _say_connected(self, words: str) -> None:
        """The connection says it once, for all."""


class SharedConnection:
    """The connection of a site. All calls are of the loop's thread."""

    def __init__(
        self,
        settings: BrokerSettings,
        client_id: str,
        loop: Loop,
        log: NodeLog,
        life: SiteLife,
        pauses: tuple[float, float] = (FIRST_PAUSE, LONGEST_PAUSE),
    ) -> None:
        """Takes the settings of the broker, the name of the connection, the loop, the log, what the site says of itself, and the pauses between tries.

        pauses: in seconds, the first and the longest; each is twice the one before

        Raises NoPackage if paho is missing.
        """
        self._mqtt = paho()
        self.settings = settings
        self.client_id = client_id
        self._loop = loop
        self._log = log
        self._life = life
        self._pauses = pauses
        self._topics_of_market = Topics(settings.prefix)
        self._links: dict[SharedLink, Share | None] = {}
        self._starting: deque[SharedLink] = deque()
        self._settling: set[SharedLink] = set()
        # The nodes that read a topic, or a pattern without its + at the end, and the newest message of each topic.
        self._readers: dict[str, dict[SharedLink, None]] = {}
        self._newest: dict[str, Message] = {}
        self._subscribed: set[str] = set()
        # Whose publication a number is, None of the site itself, and of which topics a subscription.
        self._owners: dict[int, Share | None] = {}
        self._asked: dict[int, list[str]] = {}
        self._client: Any = None
        self._connecting: threading.Thread | None = None
        self._made: tuple[Any, str] | None = None
        self._is_there = self._was_there = False
        self._words: list[str] = []
        self._file = -1
        self._pause, self._try_at, self._looked = pauses[0], 0.0, 0.0

    # The nodes.

    def link(self, notify: Callable[[Event], None], log: NodeLog) -> SharedLink:
        """A node's connection, as `make_link` of Node."""
        return SharedLink(self, notify, log)

    def join(self, link: SharedLink) -> None:
        """Lets a node begin, as soon as the connection is there and few others are about to."""
        self._links[link] = None
        self._starting.append(link)

    def leave(self, link: SharedLink) -> None:
        """Lets a node read nothing more."""
        share = self._links.pop(link, None)
        self._settling.discard(link)
        if link in self._starting:
            self._starting.remove(link)
        if share is not None and self._client is not None:
            self.unsubscribe(share, self._client, list(share.topics))

    def say_down(self, why: str) -> None:
        """Tells the broker that the site ends, if the connection is there."""
        if self._client is not None and self._is_there:
            self._say(self._client, self._life.ends(why))

    @property
    def is_there(self) -> bool:
        """Whether the connection is there."""
        return self._is_there

    @property
    def unconfirmed(self) -> int:
        """How many publications the broker has not confirmed on this connection."""
        return len(self._owners)

    # For the shares.

    def publish(self, share: Share, client: Any, told: tuple[str, bytes, int, bool, Any]) -> Any:
        """Publishes for a node. What is published on a connection that was lost is not confirmed: its node publishes it again."""
        info = client.publish(*told)
        if client is self._client:
            self._owners[info.mid] = share
            self._watch()
        return info

    def subscribe(self, share: Share, client: Any, topics: Iterable[tuple[str, Any]]) -> None:
        """Reads topics for a node, and hands it what is known of those that others read already."""
        fresh = []
        for topic, options in topics:
            readers = self._readers.setdefault(topic.removesuffix("+"), {})
            readers[share.link] = None
            share.topics.add(topic)
            if topic not in self._subscribed or next(iter(readers)) is share.link:
                fresh.append((topic, options))
            elif (known := self._newest.get(topic)) is not None:
                share.link.take(share, _retained(known))
        if fresh and client is self._client:
            self._subscribed.update(topic for topic, _ in fresh)
            _, number = client.subscribe(fresh)
            self._asked[number] = [topic for topic, _ in fresh]
            self._watch()

    def unsubscribe(self, share: Share, client: Any, topics: Iterable[str]) -> None:
        """Reads topics no more for a node, and none that nobody reads."""
        gone = []
        for topic in topics:
            readers = self._readers.get(topic.removesuffix("+"), {})
            readers.pop(share.link, None)
            share.topics.discard(topic)
            if not readers and topic in self._subscribed:
                self._subscribed.discard(topic)
                self._newest.pop(topic, None)
                gone.append(topic)
        if gone and client is self._client:
            client.unsubscribe(gone)
            self._watch()

    # The connection.

    def tick(self, now: float) -> None:
        """Connects anew if it is time, and lets nodes begin. To be called after each turn of the loop."""
        if self._made is not None:
            (client, why), self._made, self._connecting = self._made, None, None
            if why:
                self._lost(why, now)
            else:
                self._take_up(client)
        if self._client is None:
            if self._connecting is None and now >= self._try_at:
                self._connecting = threading.Thread(target=self._connect, daemon=True)
                self._connecting.start()
            return
        if now >= self._looked + LOOK:
            self._looked = now
            self._client.loop_misc()
        self._life.tick(now)
        if self._is_there:
            self._settling = {link for link in self._settling if not link.is_settled}
            while self._starting and len(self._settling) < SETTLING:
                link = self._starting.popleft()
                share = self._links[link] = Share(self, self._client, link)
                self._settling.add(link)
                link.begin(share)
        if self._client is not None and self._words:
            self._lost(self._words[0], now)

    def _connect(self) -> None:
        """Makes a client and connects it, in a thread of its own: the nodes go on meanwhile."""
        try:
            client = new_client(self.settings, self.client_id, threading.Event(), [], self._log, self._on_dropped)
            will = self._life.will()
            client.will_set(will.topic, will.payload, 1, True)
            connect(client, self.settings)
            self._made = client, ""
        except (OSError, ValueError) as error:
            self._made = None, words_of(error, self.settings)
        self._loop.wake()

    def _take_up(self, client: Any) -> None:
        """Goes on with a client that has connected and waits for the broker's answer."""
        self._client = client
        self._words.clear()
        client.on_connect = lambda _it, _data, _flags, code, _more: self._on_connect(code)
        client.on_subscribe = lambda _it, _data, number, codes, _more: self._on_subscribe(number, codes)
        client.on_message = lambda _it, _data, message: self._on_message(message)
        client.on_publish = lambda _it, _data, number: self._on_publish(number)
        client.on_socket_close = lambda _it, _data, _socket: self._let_file_go()
        # With this call paho writes in `_move` alone, and not in `publish`: TLS raises what is a lost connection, and no node may end by that.
        client.on_socket_register_write = lambda _it, _data, _socket: self._watch()
        client.on_disconnect = lambda _it, _data, code, _more: self._words.append(words_of_end(code, self._is_there))
        self._file = client.socket().fileno()
        self._loop.watch(self._file, READ | WRITE, self._move)

    def _watch(self) -> None:
        """Lets the loop call once the socket takes more, if something waits to be written."""
        if self._client is not None and self._file >= 0:
            self._loop.watch(self._file, READ | WRITE if self._client.want_write() else READ, self._move)

    def _move(self, events: int) -> None:
        """Moves bytes, and makes the calls of what came."""
        client = self._client
        try:
            if events & WRITE:
                client.loop_write()
            if events & READ:
                client.loop_read()
                # TLS may have decoded more than was read.
                while (socket := client.socket()) is not None and getattr(socket, "pending", lambda: 0)():
                    client.loop_read()
        except OSError as error:
            # paho 1 does not catch what TLS raises.
            self._words.append(words_of(error, self.settings))
        if client.socket() is None and not self._words:
            self._words.append("the connection was lost")
        if self._words:
            self._lost(self._words[0], clock.now())
        else:
            self._watch()

    def _let_file_go(self) -> None:
        """Lets the loop watch the socket no more, before it is closed: another file may have its number then."""
        if self._file >= 0:
            self._loop.unwatch(self._file)
            self._file = -1

    def _lost(self, why: str, now: float) -> None:
        """Notes that the connection has ended, or was not made."""
        client, self._client = self._client, None
        self._let_file_go()
        if client is not None and (socket := client.socket()) is not None:
            socket.close()
        self._pause = self._pauses[0] if self._is_there else self._pause
        self._is_there = False
        self._words.clear()
        self._readers.clear()
        self._newest.clear()
        self._owners.clear()
        self._asked.clear()
        self._subscribed.clear()
        self._settling.clear()
        self._starting = deque(self._links)
        for link in self._links:
            self._links[link] = None
            link.lose()
        self._log.warning(f"{self.settings.address}: {why}. The next try is in {self._pause:g} s")
        self._try_at = now + self._pause
        self._pause = min(2 * self._pause, self._pauses[1])

    def close(self) -> None:
        """Ends the connection."""
        client = self._client
        if client is not None:
            self._let_file_go()
            self._client = None
            with contextlib.suppress(OSError):
                client.disconnect()
                client.loop_write()

    # What comes.

    def _on_connect(self, code: Any) -> None:
        if code.value >= REFUSED:
            self._words.append(words_of_refusal(code, self.settings))
            return
        self._is_there = True
        self._log.info(f"{self.settings.address}: connected{' again' if self._was_there else ''}")
        self._was_there = True
        # The site is up before each of its nodes.
        self._client.subscribe([(self._life.topic, self._mqtt.SubscribeOptions(qos=1))])
        self._say(self._client, self._life.begins(clock.now()))

    def _say(self, client: Any, told: Publication) -> None:
        """Publishes for the site itself."""
        self._owners[client.publish(told.topic, told.payload, 1, True).mid] = None
        self._watch()

    def _on_subscribe(self, number: int, codes: Any) -> None:
        for topic, code in zip(self._asked.pop(number, []), codes, strict=False):
            if code.value >= REFUSED:
                self._log.warning(f"{self.settings.address} does not let {self.settings.user or 'this site'} read {topic} ({code})")

    def _on_message(self, message: Any) -> None:
        longest = self._topics_of_market.longest(message.topic)
        if len(message.payload) > longest:
            log = self._log.of_stranger(message.topic)
            log.warning(f"{message.topic[:200]}: a message of {len(message.payload)} bytes is not taken: at most {longest} are")
            return
        found = message_of(message)
        if found.topic == self._life.topic:
            self._life.hear(found)
        if found.payload and found.topic in self._subscribed:
            self._newest[found.topic] = found
        else:
            self._newest.pop(found.topic, None)
        for link, share in self._readers_of(found.topic):
            link.take(share, found)

    def _on_dropped(self, _client: Any, topic: str) -> None:
        """Counts a message that was dropped, for each node that reads its topic."""
        for link, share in self._readers_of(topic):
            link.count(share, topic)

    def _readers_of(self, topic: str) -> list[tuple[SharedLink, Share]]:
        """The nodes that read a topic, each with its share of the connection."""
        readers = self._readers.get(topic, {}), self._readers.get(f"{topic.rpartition('/')[0]}/", {})
        links = [link for them in readers for link in them]
        return [(link, share) for link in links if (share := self._links.get(link)) is not None]

    def _on_publish(self, number: int) -> None:
        share = self._owners.pop(number, None)
        if share is not None:
            share.link.confirm(share, number)


def _retained(message: Message) -> Message:
    """A message as the broker has it for who reads its topic later."""
    return Message(message.topic, message.payload, message.properties, True, message.expiry)
