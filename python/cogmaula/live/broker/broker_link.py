"""What a node needs of its connection to a broker, and what goes over it: publications, messages and events."""

from __future__ import annotations

from collections.abc import Callable, Iterable, Sequence
from dataclasses import dataclass, field
from typing import Any, Protocol

from .connection import user_properties_of


@dataclass(frozen=True)
class Publication:
    """A message for a topic. An empty payload clears the topic."""

    topic: str
    payload: bytes
    properties: tuple[tuple[str, str], ...] = ()


@dataclass(frozen=True)
class Message:
    """A message that came.

    retained: whether the broker had kept it, so that its age is not known
    expiry:   the seconds for which it still holds, None without an end
    """

    topic: str
    payload: bytes
    properties: dict[str, str] = field(default_factory=dict)
    retained: bool = False
    expiry: int | None = None


def message_of(message: Any) -> Message:
    """A message of paho."""
    expiry = getattr(message.properties, "MessageExpiryInterval", None)
    return Message(message.topic, bytes(message.payload), user_properties_of(message), bool(message.retain), expiry)


@dataclass(frozen=True)
class Settled:
    """A connection is there, and all that the broker retains has come."""


@dataclass(frozen=True)
class Arrived:
    """Messages wait for `taken`."""


@dataclass(frozen=True)
class Confirmed:
    """The broker has confirmed a publication."""


Event = Settled | Arrived | Confirmed


class Link(Protocol):
    """What a node needs of its connection. All calls are of the node's one thread."""

    def start(
        self, topics: Sequence[str], will: Callable[[], Publication], marker: Callable[[], Publication], written: Sequence[str] = ()
    ) -> None:
        """Connects, now and again, and reads these topics. The last will and the marker are made anew for each connection.

        written: topics, or patterns with + at their ends, that this node alone writes. They are read too: what the broker retains, and then
                 at least up to the first message that comes back, which shows that the node may write them
        """

    def also_read(self, topic: str) -> None:
        """Reads one more topic from now on, on each connection."""

    @property
    def is_settled(self) -> bool:
        """Whether a connection is there, and all that the broker retains has come."""

    def publish(self, publication: Publication) -> None:
        """Publishes, now or once the connection is settled. Only the newest of a topic is kept."""

    def publish_all(self) -> None:
        """Publishes the newest of each topic, after Settled."""

    def kept(self, topic: str) -> Publication | None:
        """The newest that was published under a topic."""

    def is_unconfirmed(self, topics: Iterable[str]) -> bool:
        """Whether the broker has not yet confirmed the newest of one of these topics."""

    def taken(self) -> list[Message]:
        """The messages that came, the newest alone of each topic, in the order in which they came."""

    @property
    def has_lost(self) -> bool:
        """Whether a message was dropped since this was asked last."""

    def read_again(self) -> None:
        """Lets all that is retained come again, but for what this node alone writes."""

    def tick(self) -> None:
        """Says what did not come back for long. To be called a few times a second."""

    def close(self, last: Publication, seconds: float) -> None:
        """Publishes this last and ends the connection, within so many seconds."""
