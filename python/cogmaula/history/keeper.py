"""A connection that keeps what a market's broker tells: each message is in the database before it is confirmed to the broker.

The broker keeps the session of this login for a day. So a process that is killed at any moment, or away for a while, is told
again what it did not confirm; and what it is told again has its row already.

This thread reads, and another one writes (writer.py): a slow database holds no reading up. Of a topic few messages a second are
kept, so no member takes the place of others. One that floods is read no more for a while, and nor is it queued at the broker.
"""

from __future__ import annotations

import contextlib
import logging
import threading
import time
from typing import Any

from ..live.broker.broker_link import Message
from ..live.broker.connection import (
    FIRST_PAUSE,
    LONGEST_PAUSE,
    REFUSED,
    LateConfirms,
    connect,
    keep_connected,
    new_client,
    paho,
    user_properties_of,
    words_of,
    words_of_end,
    words_of_refusal,
)
from ..live.node.node_settings import BrokerSettings
from ..live.broker.rights import KEPT
from ..live.messages.topics import Topics
from ..logs import NodeLog
from .database import Database
from .readings import Readings
from .waiting import TopicRates, member_of
from .writer import Arrival, Writer

# For how many seconds the broker keeps what it could not tell, and how many messages it hands on that are not confirmed.
SESSION_SECONDS, UNCONFIRMED = 86_400, 1_000
TICK = 0.05
# The seconds that the last batch may take.
LAST_SECONDS = 10.0


class Keeper:
    """Keeps the history of one market, from `run` to `stop`."""

    def __init__(
        self,
        settings: BrokerSettings,
        database: Database,
        log: NodeLog | None = None,
        pauses: tuple[float, float] = (FIRST_PAUSE, LONGEST_PAUSE),
    ) -> None:
        """Takes the broker with a login that reads, an open database, and a log, by default that of this module.

        Raises NoPackage if paho is missing.
        """
        paho()
        self._settings = settings
        self._topics = Topics(settings.prefix)
        self._log = log or NodeLog(logging.getLogger(__name__))
        self._pauses = pauses
        self._closing = threading.Event()
        self._is_there = False
        self._rates = TopicRates()
        self._readings = Readings(settings.prefix, KEPT)
        self._confirms: LateConfirms | None = None
        self._writer = Writer(self._topics, database, self._log, self._confirm, pauses)

    @property
    def kept(self) -> int:
        """How many messages have been kept."""
        return self._writer.kept

    def run(self) -> None:
        """Keeps all that comes, over lost connections, until `stop` is called."""
        self._writer.start()
        keep_connected(self._connection, self._closing, self._log, self._settings.address, self._pauses)
        self._writer.stop(LAST_SECONDS)

    def stop(self) -> None:
        """Ends `run`, from any thread or from the handler of a signal."""
        self._closing.set()

    def _connection(self) -> tuple[bool, str]:
        """Makes one connection, and waits for its end: whether it was there, and why it ended."""
        settings, ended = self._settings, threading.Event()
        words: list[str] = []
        self._is_there = False
        try:
            user = settings.user or "history"
            client_id = f"cogmaula.{settings.prefix.replace('/', '.')}.{user}"
            client = new_client(settings, client_id, ended, words, self._log, self._on_dropped)
            self._confirms = LateConfirms(client)
            client.on_connect = lambda client, _data, _flags, code, _more: self._on_connect(client, code, words)
            client.on_message = lambda client, _data, message: self._on_message(client, message)
            client.on_disconnect = lambda _it, _data, code, _more: words.append(words_of_end(code, self._is_there))
            connect(client, settings, SESSION_SECONDS, UNCONFIRMED)
        except (OSError, ValueError) as error:
            return False, words_of(error, settings)
        client.loop_start()
        while not ended.wait(TICK):
            if self._is_there:
                self._readings.tick(client, time.monotonic())
            if self._closing.is_set():
                client.disconnect()
                ended.wait(1)
                break
        client.loop_stop()
        if (socket := client.socket()) is not None:
            socket.close()
        return self._is_there, words[0] if words else "the connection was lost"

    def _on_connect(self, client: Any, code: Any, words: list[str]) -> None:
        if code.value >= REFUSED:
            words.append(words_of_refusal(code, self._settings))
            return
        self._is_there = True
        self._readings.begin(client)

    def _on_message(self, client: Any, message: Any) -> None:
        """Lets a message wait to be written, unless too many of its topic came, or too much waits."""
        topic, now = message.topic, time.monotonic()
        properties = user_properties_of(message)
        arrival = Arrival(Message(topic, bytes(message.payload), properties, bool(message.retain)), client, message.mid)
        is_flood = self._readings.counts(client, topic, bool(message.retain), now)
        if len(message.payload) > self._topics.longest(topic) or not self._rates.takes(topic, now):
            dropped: Arrival | None = arrival
        else:
            dropped = self._writer.queue.put(member_of(self._topics, topic), arrival)
        if dropped is not None:
            self._confirm(dropped)
            name = dropped.message.topic
            more = " It is read again after a while" if is_flood else ""
            self._log.of_stranger(name).warning(f"{name}: a message is not kept: too many come, or it is too long.{more}")

    def _on_dropped(self, client: Any, topic: str) -> None:
        """Counts a message that was dropped before it was read."""
        self._readings.counts(client, topic, False, time.monotonic())

    def _confirm(self, arrival: Arrival) -> None:
        """Confirms a message to the broker, if the connection by which it came is there."""
        confirms = self._confirms
        if confirms is not None and confirms.client is arrival.connection:
            with contextlib.suppress(OSError, ValueError):
                confirms.confirm(arrival.number)
