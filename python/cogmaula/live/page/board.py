"""The newest messages of a market, which one thread takes and another shows."""

from __future__ import annotations

import threading
from collections.abc import Callable, Iterable

from ...logs import NodeLog
from ..broker.broker_link import Message
from ..node.sessions import now_text

# The most topics that are kept, and the most bytes of their messages together.
MOST_TOPICS, MOST_BYTES = 100_000, 67_108_864


class Board:
    """The newest message of each topic. All calls may come from any thread.

    After a connection was lost, what is there stays. Once the broker has told all that it retains, what it no longer has goes.
    """

    def __init__(self, log: NodeLog, most: int = MOST_TOPICS, bytes_at_most: int = MOST_BYTES) -> None:
        """Takes a log, the most topics that are kept, and the most bytes."""
        self._log = log
        self._most = most
        self._bytes_at_most = bytes_at_most
        self._bytes = 0
        self._lock = threading.Lock()
        # Of each topic the message, and how many connections had been lost when it came.
        self._kept: dict[str, tuple[Message, int]] = {}
        self._losses = 0
        self._lost_since: str | None = now_text()
        self._is_full_told = False
        # Is called after each change, by the thread that made it.
        self.on_change: Callable[[], None] = lambda: None

    def take(self, messages: Iterable[Message]) -> None:
        """Takes messages that came. An empty payload clears its topic."""
        is_full = False
        with self._lock:
            for message in messages:
                before = self._kept.get(message.topic)
                more = _size(message) - (_size(before[0]) if before is not None else 0)
                if not message.payload:
                    if self._kept.pop(message.topic, None) is not None:
                        self._bytes += more - _size(message)
                elif self._bytes + more <= self._bytes_at_most and (before is not None or len(self._kept) < self._most):
                    self._kept[message.topic] = message, self._losses
                    self._bytes += more
                else:
                    is_full = True
            is_news, self._is_full_told = is_full and not self._is_full_told, is_full or self._is_full_told
        if is_news:
            self._log.warning(f"the page keeps {self._most} topics and {self._bytes_at_most} bytes, and shows no further ones")
        self.on_change()

    def lost(self) -> None:
        """The connection was lost, or is not there yet."""
        with self._lock:
            if self._lost_since is not None:
                return
            self._lost_since = now_text()
            self._losses += 1
        self.on_change()

    def settled(self) -> None:
        """A connection is there, and the broker has told all that it retains."""
        with self._lock:
            if self._lost_since is None:
                return
            self._lost_since = None
            self._kept = {topic: entry for topic, entry in self._kept.items() if entry[1] == self._losses}
            self._bytes = sum(_size(message) for message, _ in self._kept.values())
        self.on_change()

    @property
    def is_connected(self) -> bool:
        """Whether a connection is there that has told all that the broker retains."""
        return self._lost_since is None

    def copy(self) -> tuple[dict[str, Message], str | None]:
        """The messages, and since when there is no connection, None if one is there."""
        with self._lock:
            return {topic: message for topic, (message, _) in self._kept.items()}, self._lost_since


def _size(message: Message) -> int:
    """The bytes of a message."""
    return len(message.topic) + len(message.payload) + sum(len(name) + len(value) for name, value in message.properties.items())
