"""Which topics a history reads: all of the market by patterns, and those of a word one by one while one of them is flooded.

A pattern has no exceptions. So while `house/measured` is flooded, `+/measured` gives way to the topics of all others that are
known: the broker queues the flood for this reader no more. After a while the pattern comes back, and with it what is retained.
"""

from __future__ import annotations

import threading
from collections.abc import Iterable
from typing import Any

from ..live.broker.connection import paho

# The messages a second of one topic that are a flood, and the seconds for which it is read no more.
FLOOD, REST = 200, 60.0
# The most topics that are known, and the most that one packet names.
KNOWN, PIECE = 100_000, 200


class Readings:
    """The subscriptions of one reader. `counts` is called by the thread of a connection, and `tick` by another one."""

    def __init__(self, prefix: str, kinds: Iterable[str]) -> None:
        """Takes the prefix of the market, and the patterns below it."""
        self._options = paho().SubscribeOptions(qos=1)
        self._patterns = [f"{prefix}/{kind}" for kind in kinds]
        self._lock = threading.Lock()
        # The topics that came by each pattern, how many of each came within a second, and since when that is.
        self._known: dict[str, dict[str, None]] = {pattern: {} for pattern in self._patterns}
        self._counts: dict[str, int] = {}
        self._counted_at = 0.0
        # Of each pattern that has given way the topics that are flooded, and when it comes back.
        self._flooded: dict[str, set[str]] = {}
        self._back_at: dict[str, float] = {}

    def begin(self, client: Any) -> None:
        """Reads all patterns on a new connection. What an earlier one read by single topics goes."""
        with self._lock:
            gone = [topic for pattern in self._flooded for topic in self._known[pattern]]
            self._flooded.clear()
            self._back_at.clear()
        self._read(client, self._patterns)
        self._read_no_more(client, gone)

    def counts(self, client: Any, topic: str, is_retained: bool, now: float) -> bool:
        """Counts a message, and says whether its topic is flooded. The first time its pattern gives way."""
        pattern = next((one for one in self._patterns if _matches(one, topic)), None)
        if pattern is None:
            return False
        with self._lock:
            known = self._known[pattern]
            is_new = topic not in known and len(known) < KNOWN
            if is_new:
                known[topic] = None
            flooded = self._flooded.get(pattern)
            if now > self._counted_at + 1.0:
                self._counts, self._counted_at = {}, now
            count = self._counts[topic] = self._counts.get(topic, 0) + (0 if is_retained else 1)
            is_flood = count > FLOOD or (flooded is not None and topic in flooded)
            if not is_flood or (flooded is not None and topic in flooded):
                return is_flood
            self._flooded.setdefault(pattern, set()).add(topic)
            is_first = pattern not in self._back_at
            self._back_at.setdefault(pattern, now + REST)
            others = [one for one in known if one not in self._flooded[pattern]] if is_first else []
        self._read(client, others)
        self._read_no_more(client, [pattern] if is_first else [topic])
        return True

    def tick(self, client: Any, now: float) -> None:
        """Lets patterns come back that have given way for long enough."""
        with self._lock:
            due = [pattern for pattern, at in self._back_at.items() if now >= at]
            gone = [topic for pattern in due for topic in self._known[pattern]]
            for pattern in due:
                del self._back_at[pattern], self._flooded[pattern]
        if due:
            self._read(client, due)
            self._read_no_more(client, [topic for topic in gone if topic not in due])

    def _read(self, client: Any, topics: list[str]) -> None:
        for at in range(0, len(topics), PIECE):
            client.subscribe([(topic, self._options) for topic in topics[at : at + PIECE]])

    @staticmethod
    def _read_no_more(client: Any, topics: list[str]) -> None:
        for at in range(0, len(topics), PIECE):
            client.unsubscribe(topics[at : at + PIECE])


def _matches(pattern: str, topic: str) -> bool:
    """Whether a topic is of a pattern in which a + stands for one level."""
    levels, words = pattern.split("/"), topic.split("/")
    return len(levels) == len(words) and all(level in ("+", word) for level, word in zip(levels, words, strict=True))
