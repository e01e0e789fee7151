"""What waits to be kept: a bounded queue in which each member of the market has a turn, and how often each topic may add to it."""

from __future__ import annotations

import threading
from collections import deque
from collections.abc import Hashable
from typing import Generic, TypeVar

from ..live.messages.topics import OF_CHILDREN, Topics

# The messages of a topic that are kept at once, and how many a second after that. A node writes few:
# a device its state, bid and setpoint at a clearing, and a control what it measures each second.
BURST, RATE = 200.0, 20.0
# The most topics whose rates are known.
TOPICS = 100_000

Item = TypeVar("Item")


def member_of(topics: Topics, topic: str) -> str:
    """Who writes a topic, in a word: a child of a node its bids, a control what it measures, a node the rest."""
    parts = topics.parts_of(topic)
    if parts is None:
        return topic.removesuffix("/limits/state")
    node, word, child = parts
    if word in OF_CHILDREN and word == "bid":
        return f"{node}/bid/{child}"
    return f"{node}/measured" if word == "measured" else node


class TopicRates:
    """How many messages of each topic may still be kept. All calls are of one thread; times are seconds."""

    def __init__(self, burst: float = BURST, rate: float = RATE) -> None:
        """Takes how many are kept at once, and how many a second."""
        self._burst, self._rate = burst, rate
        # Of each topic how many are left, and when that was so.
        self._left: dict[str, tuple[float, float]] = {}

    def takes(self, topic: str, now: float) -> bool:
        """Whether a message of a topic that comes now is kept."""
        if topic not in self._left and len(self._left) >= TOPICS:
            self._left.clear()
        left, at = self._left.get(topic, (self._burst, now))
        left = min(self._burst, left + (now - at) * self._rate)
        self._left[topic] = max(0.0, left - 1.0), now
        return left >= 1.0


class FairQueue(Generic[Item]):
    """A queue that gives its members turns. All calls may come from any thread."""

    def __init__(self, most: int) -> None:
        """Takes how many items wait at most."""
        self._most = most
        self._count = 0
        self._by_member: dict[Hashable, deque[Item]] = {}
        self._changed = threading.Condition()
        self._is_closed = False

    def put(self, member: Hashable, item: Item) -> Item | None:
        """Adds an item of a member. If too many wait, gives the newest of the member with most, which is dropped."""
        with self._changed:
            self._by_member.setdefault(member, deque()).append(item)
            self._count += 1
            self._changed.notify()
            if self._count <= self._most:
                return None
            longest = max(self._by_member, key=lambda name: len(self._by_member[name]))
            self._count -= 1
            return self._by_member[longest].pop()

    def take(self, most: int, seconds: float) -> list[Item]:
        """Up to so many items, one of each member in turn, once there are some or after so many seconds."""
        with self._changed:
            if not self._count and not self._is_closed:
                self._changed.wait(seconds)
            found: list[Item] = []
            while self._count and len(found) < most:
                for name in list(self._by_member):
                    waiting = self._by_member[name]
                    if waiting and len(found) < most:
                        found.append(waiting.popleft())
                        self._count -= 1
                    if not waiting:
                        del self._by_member[name]
            return found

    def close(self) -> None:
        """Lets nobody wait any more."""
        with self._changed:
            self._is_closed = True
            self._changed.notify_all()
