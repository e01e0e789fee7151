"""A connection that reads a whole market at an MQTT 5 broker, for a page. It publishes nothing, and has no last will."""

from __future__ import annotations

import threading
import time
from typing import Any

from ...logs import NodeLog
from ..page.board import Board
from .broker import FLOOD
from .broker_link import Message
from .connection import (
    FIRST_PAUSE,
    LONGEST_PAUSE,
    REFUSED,
    connect,
    keep_connected,
    new_client,
    paho,
    user_properties_of,
    words_of,
    words_of_end,
    words_of_refusal,
)
from .rights import SHOWN
from ..node.node_settings import BrokerSettings
from ..messages.topics import Topics

# The seconds without a retained message after which the broker has told all that it retains of a topic.
QUIET = 0.3
TICK = 0.05
# The seconds for which the topics of one word are read no more after a flood of one of them.
REST = 60.0


class Reader:
    """Keeps a board up to date. It reads what `view_of` reads, and neither offers nor Resumes."""

    def __init__(
        self,
        settings: BrokerSettings,
        client_id: str,
        board: Board,
        log: NodeLog,
        pauses: tuple[float, float] = (FIRST_PAUSE, LONGEST_PAUSE),
    ) -> None:
        """Takes the settings with the login that reads, the board, and a call for lines. Raises NoPackage if paho is missing."""
        self._options = paho().SubscribeOptions(qos=1)
        self.settings = settings
        self._topics_of_market = Topics(settings.prefix)
        self._client_id = client_id
        self._board = board
        self._log = log
        self._pauses = pauses
        self._closing = threading.Event()
        self._is_there = False
        self._came_at = self._counted_at = 0.0
        # How many messages of each topic came within a second, and since when topics are read no more for a while.
        self._counts: dict[str, int] = {}
        self._rested: dict[str, float] = {}
        self._thread = threading.Thread(target=self._run, daemon=True)

    def start(self) -> None:
        """Connects, now and again, in a thread of its own."""
        self._thread.start()

    def close(self, seconds: float) -> None:
        """Ends the connection, within so many seconds."""
        self._closing.set()
        self._thread.join(seconds)

    @property
    def topics(self) -> list[str]:
        """The topics that are read, one after the other: a broker keeps few messages for a client that has not taken them."""
        return [f"{self.settings.prefix}/{kind}" for kind in SHOWN]

    def _run(self) -> None:
        keep_connected(self._connection, self._closing, self._log, self.settings.address, self._pauses)

    def _connection(self) -> tuple[bool, str]:
        """Makes one connection, and waits for its end: whether it was there, and why it ended."""
        ended = threading.Event()
        words: list[str] = []
        self._is_there = False
        try:
            client = new_client(self.settings, self._client_id, ended, words, self._log, self._count)
            client.on_connect = lambda _it, _data, _flags, code, _more: self._on_connect(code, words)
            client.on_subscribe = lambda _it, _data, _mid, codes, _more: self._on_subscribe(codes)
            client.on_message = lambda client, _data, message: self._on_message(client, message)
            client.on_disconnect = lambda _it, _data, code, _more: self._on_disconnect(code, ended, words)
            connect(client, self.settings)
        except (OSError, ValueError) as error:
            return False, words_of(error, self.settings)
        client.loop_start()
        self._read(client, ended)
        client.loop_stop()
        self._board.lost()
        return self._is_there, words[0] if words else "the connection was lost"

    def _read(self, client: Any, ended: threading.Event) -> None:
        """Reads one topic after the other, and then all that comes, until the connection ends or is to end."""
        waiting, is_settled = self.topics, False
        self._rested.clear()
        while not ended.wait(TICK):
            for topic in [topic for topic, since in list(self._rested.items()) if time.monotonic() > since + REST]:
                del self._rested[topic]
                client.subscribe([(topic, self._options)])
            if self._closing.is_set():
                client.disconnect()
                ended.wait(1)
                return
            if is_settled or not self._is_there or time.monotonic() < self._came_at + QUIET:
                continue
            if waiting:
                self._came_at = time.monotonic()
                client.subscribe([(waiting.pop(0), self._options)])
            else:
                is_settled = True
                self._board.settled()

    def _on_connect(self, code: Any, words: list[str]) -> None:
        if code.value >= REFUSED:
            words.append(words_of_refusal(code, self.settings))
            return
        self._is_there = True

    def _on_subscribe(self, codes: Any) -> None:
        self._came_at = time.monotonic()
        for code in codes:
            if code.value >= REFUSED:
                self._log.warning(f"{self.settings.address} does not let {self.settings.user or 'the page'} read {self.settings.prefix}/# ({code})")

    def _on_message(self, client: Any, message: Any) -> None:
        if message.retain:
            self._came_at = time.monotonic()
        else:
            self._count(client, message.topic)
        if len(message.payload) <= self._topics_of_market.longest(message.topic):
            self._board.take([Message(message.topic, bytes(message.payload), user_properties_of(message), bool(message.retain))])

    def _count(self, client: Any, topic: str) -> None:
        """Counts a message, and reads all topics of its word no more for a while if one of them is flooded."""
        now = time.monotonic()
        if now > self._counted_at + 1.0:
            self._counts, self._counted_at = {}, now
        self._counts[topic] = self._counts.get(topic, 0) + 1
        parts = self._topics_of_market.parts_of(topic)
        if self._counts[topic] <= FLOOD or parts is None:
            return
        word = f"{self.settings.prefix}/+/{parts[1]}" + ("" if parts[2] is None else "/+")
        if word not in self._rested:
            self._rested[word] = now
            self._log.warning(f"{topic}: more than {FLOOD} messages a second come: {word} is not read for {REST:g} s")
            client.unsubscribe(word)

    def _on_disconnect(self, code: Any, ended: threading.Event, words: list[str]) -> None:
        if not words:
            words.append(words_of_end(code, self._is_there))
        ended.set()
