"""One agent: the control of its node. What it offers comes from its connection, and what it is told goes there.

The calls of a control come from the node's thread, and all others from the thread of the hub's loop.
"""

from __future__ import annotations

import asyncio
import threading
from collections.abc import Callable
from typing import Protocol

from ..live.messages.messages import ControlMessage
from ..logs import NodeLog
from .agent_messages import LEAVE_OFFER, update_of
from .node_thread import Running


class Listener(Protocol):
    """An agent's connection, as the agent sees it."""

    def has_news(self) -> None:
        """Notes that the newest priceUpdate is another one, or that there is one now."""

    def end(self, why: str) -> None:
        """Tells the agent why, and ends the connection."""


class Agent:
    """One agent of the market, connected or not."""

    def __init__(self, name: str, child: int, gone: float, loop: asyncio.AbstractEventLoop) -> None:
        """Takes its name, its child number, the seconds after which it leaves if it is disconnected, and the hub's loop."""
        self.name = name
        self.child = child
        self._gone = gone
        self._loop = loop
        self.running: Running | None = None
        # The newest priceUpdate, None if the agent has no bid that was answered.
        self.newest: bytes | None = None
        self._listener: Listener | None = None
        self._timer: asyncio.TimerHandle | None = None
        # Of both threads: the node's call for offers, and the newest offer if the node has not started yet.
        self._lock = threading.Lock()
        self._notify: Callable[[bytes], None] | None = None
        self._waiting: bytes | None = None

    # The calls of a Control.

    def start(self, notify: Callable[[bytes], None], _log: NodeLog) -> None:
        """See Control."""
        with self._lock:
            self._notify = notify
            waiting, self._waiting = self._waiting, None
        if waiting is not None:
            notify(waiting)

    def write(self, told: ControlMessage) -> None:
        """See Control. Of several that the agent did not read, the newest counts."""
        self.newest = update_of(told)
        self._loop.call_soon_threadsafe(self._has_news)

    def forget(self) -> None:
        """Forgets the newest priceUpdate, since the device has left. It comes from the node's thread too."""
        self.newest = None

    # The node.

    def lose_node(self) -> None:
        """Notes that the node has ended: what the agent offers waits for another one."""
        with self._lock:
            self._notify = None

    def offer(self, data: bytes) -> None:
        """Hands an offer to the node, now or once it starts."""
        with self._lock:
            notify = self._notify
            if notify is None:
                self._waiting = data
        if notify is not None:
            notify(data)

    def measures(self, line: bytes) -> None:
        """Hands to the node what the agent says of its device's power. Without a node it is dropped."""
        with self._lock:
            notify = self._notify
        if notify is not None:
            notify(line)

    # The connection.

    def _has_news(self) -> None:
        if self._listener is not None:
            self._listener.has_news()

    def connect(self, listener: Listener) -> None:
        """Takes a connection of the agent, and ends the one that it has."""
        self.end(f"another connection of {self.name} has begun: this one ends")
        if self._timer is not None:
            self._timer.cancel()
        self._listener = listener
        listener.has_news()

    def disconnect(self, listener: Listener) -> None:
        """Notes that a connection has ended. If it was not replaced, the agent has a while to come back."""
        if self._listener is listener:
            self._listener = None
            self.wait()

    def wait(self) -> None:
        """Lets the agent leave the market, unless it connects within its time."""
        if self._timer is not None:
            self._timer.cancel()
        self._timer = self._loop.call_later(self._gone, self.offer, LEAVE_OFFER)

    def end(self, why: str) -> None:
        """Ends the connection, if there is one, and tells it why."""
        if self._listener is not None:
            self._listener.end(why)
