"""What carries the messages of nodes that run in one process: what a broker is for nodes on different machines.

    exchange = Exchange()
    Node(settings, control, log, exchange.link)

Everything is retained, and the newest message of a topic alone counts. All calls may come from any thread. A publication is
confirmed as soon as `publish` returns: then the exchange has it, and each reader finds it at its next look. What is in the
exchange ends with the process, so each node goes on from its own disk.
"""

from __future__ import annotations

import threading
from collections.abc import Callable, Iterable, Sequence

from ..live.broker.broker_link import Arrived, Event, Message, Publication, Settled
from ..logs import NodeLog

# Takes each message that is published, in the thread that publishes it. Messages of one topic come in their order.
Watch = Callable[[Message], None]


class Exchange:
    """The topics of a market in one process."""

    def __init__(self) -> None:
        """Has no topic yet."""
        self._lock = threading.Lock()
        self._retained: dict[str, Message] = {}
        # The links that read a topic, or all topics of one level more if it ends with +.
        self._readers: dict[str, list[ExchangeLink]] = {}
        self._watches: list[Watch] = []

    def messages(self) -> dict[str, Message]:
        """The newest message of each topic that is not cleared."""
        with self._lock:
            return dict(self._retained)

    def message(self, topic: str) -> Message | None:
        """The newest message of one topic, None if it is cleared or was never published."""
        with self._lock:
            return self._retained.get(topic)

    def watch(self, take: Watch) -> None:
        """Calls `take` with each message from now on. It has to return at once, since the node that publishes waits for it."""
        with self._lock:
            self._watches = [*self._watches, take]

    def link(self, notify: Callable[[Event], None], _log: NodeLog) -> ExchangeLink:
        """A node's connection, as `make_link` of Node."""
        return ExchangeLink(self, notify)

    # For the links.

    def join(self, link: ExchangeLink, topics: Sequence[str]) -> None:
        """Lets a link read these topics, and hands it what is retained of them."""
        with self._lock:
            fresh = {topic: True for topic in topics if link not in self._readers.get(topic, [])}
            for topic in fresh:
                self._readers.setdefault(topic, []).append(link)
            for topic, message in self._retained.items():
                if topic in fresh or f"{topic.rpartition('/')[0]}/+" in fresh:
                    link.put(Message(topic, message.payload, message.properties, retained=True))

    def leave(self, link: ExchangeLink) -> None:
        """Lets a link read nothing more."""
        with self._lock:
            for topic, links in list(self._readers.items()):
                if link in links:
                    links.remove(link)
                if not links:
                    del self._readers[topic]

    def publish(self, publication: Publication) -> None:
        """Retains a publication, or clears its topic if it is empty, and hands it to all that read the topic."""
        message = Message(publication.topic, publication.payload, dict(publication.properties))
        with self._lock:
            if message.payload:
                self._retained[message.topic] = message
            else:
                self._retained.pop(message.topic, None)
            for link in self._readers_of(message.topic):
                link.put(message)
            watches = self._watches
        for take in watches:
            take(message)

    def _readers_of(self, topic: str) -> list[ExchangeLink]:
        above = topic.rpartition("/")[0]
        return self._readers.get(topic, []) + self._readers.get(f"{above}/+", [])


class ExchangeLink:
    """A node's connection to an exchange. See `Link` of the live market for its calls."""

    def __init__(self, exchange: Exchange, notify: Callable[[Event], None]) -> None:
        """Takes the exchange, and a call for events."""
        self._exchange = exchange
        self._notify = notify
        self._settled = False
        self._newest: dict[str, Publication] = {}
        self._lock = threading.Lock()
        self._inbox: dict[str, Message] = {}

    def start(
        self, topics: Sequence[str], will: Callable[[], Publication], marker: Callable[[], Publication], written: Sequence[str] = ()
    ) -> None:
        """See Link. The last will is never due: a node of this process always closes its link."""
        self._exchange.join(self, [*topics, *written])
        self._exchange.publish(marker())
        self._settled = True
        self._notify(Settled())

    def also_read(self, topic: str) -> None:
        """See Link."""
        self._exchange.join(self, [topic])

    @property
    def is_settled(self) -> bool:
        """See Link."""
        return self._settled

    def publish(self, publication: Publication) -> None:
        """See Link."""
        self._newest[publication.topic] = publication
        self._exchange.publish(publication)

    def publish_all(self) -> None:
        """See Link."""
        for publication in list(self._newest.values()):
            self._exchange.publish(publication)

    def kept(self, topic: str) -> Publication | None:
        """See Link."""
        return self._newest.get(topic)

    def is_unconfirmed(self, topics: Iterable[str]) -> bool:
        """See Link. The exchange has all that was published."""
        return False

    def taken(self) -> list[Message]:
        """See Link."""
        with self._lock:
            found, self._inbox = list(self._inbox.values()), {}
        return found

    @property
    def has_lost(self) -> bool:
        """See Link. The newest message of each topic is there."""
        return False

    def read_again(self) -> None:
        """See Link. There is nothing that did not come."""

    def tick(self) -> None:
        """See Link. There is nothing to say: what is published always comes back."""

    def close(self, last: Publication, seconds: float) -> None:
        """See Link."""
        self._exchange.leave(self)
        self._exchange.publish(last)

    def put(self, message: Message) -> None:
        """Takes a message of the exchange, from any thread."""
        with self._lock:
            is_first = not self._inbox
            self._inbox.pop(message.topic, None)
            self._inbox[message.topic] = message
        if is_first:
            self._notify(Arrived())
