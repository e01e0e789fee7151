"""The loop of a history's database: it writes what waits, a batch at a time, and says which messages are kept."""

from __future__ import annotations

import threading
import time
from collections.abc import Callable, Sequence
from dataclasses import dataclass
from typing import Any

from ..live.broker.broker_link import Message
from ..live.node.node_errors import BadMessage
from ..live.messages.topics import Topics
from ..logs import NodeLog
from .database import BadRow, Database, DatabaseLost
from .rows import Told, rows_of
from .waiting import FairQueue

# The most messages of one transaction, and the most that wait for the database.
BATCH, WAITING = 500, 10_000
# The seconds between looks at whether it is to end.
TICK = 0.2


@dataclass(frozen=True)
class Arrival:
    """A message, and the number of its packet on the connection by which it came."""

    message: Message
    connection: Any
    number: int


class Writer:
    """Writes messages to a database in a thread of its own, from `start` to `stop`."""

    def __init__(
        self,
        topics: Topics,
        database: Database,
        log: NodeLog,
        confirm: Callable[[Arrival], None],
        pauses: tuple[float, float],
    ) -> None:
        """Takes the topics of the market, an open database, a log, and a call for each message that need not come again.

        pauses: the seconds between tries of a database that is away, the first and the longest
        """
        self._topics = topics
        self._database = database
        self._log = log
        self._confirm = confirm
        self._pauses = pauses
        self._closing = threading.Event()
        self.queue: FairQueue[Arrival] = FairQueue(WAITING)
        # How many messages have been kept.
        self.kept = 0
        self._thread = threading.Thread(target=self._run, daemon=True)

    def start(self) -> None:
        """Writes from now on."""
        self._thread.start()

    def stop(self, seconds: float) -> None:
        """Ends behind the batch that is written, within so many seconds. What waits is not confirmed, and comes again."""
        self._closing.set()
        self.queue.close()
        self._thread.join(seconds)

    def _run(self) -> None:
        while not self._closing.is_set():
            batch = self.queue.take(BATCH, TICK)
            if batch:
                self._keep(batch)
        self._database.close()

    def _keep(self, batch: Sequence[Arrival]) -> None:
        """Writes a batch, once the database is there. A message whose rows it refuses is dropped with a line."""
        rows = [self._rows_of(arrival) for arrival in batch]
        pause = self._pauses[0]
        while not self._closing.is_set():
            try:
                self._put(batch, rows)
                return
            except DatabaseLost as error:
                self._log.warning(f"{error}. The next try is in {pause:g} s")
            self._closing.wait(pause)
            pause = min(2 * pause, self._pauses[1])
            self._open()

    def _open(self) -> None:
        """Connects anew. If that fails too, the next row says so."""
        try:
            self._database.open()
        except DatabaseLost:
            pass

    def _put(self, batch: Sequence[Arrival], rows: Sequence[list[Told]]) -> None:
        """Writes all rows at once, or each message's by themselves if one is refused. Raises DatabaseLost."""
        try:
            self._database.put([row for them in rows for row in them])
        except BadRow:
            for arrival, them in zip(batch, rows, strict=True):
                try:
                    self._database.put(them)
                except BadRow as error:
                    self._say(arrival, str(error))
        self.kept += len(batch)
        for arrival in batch:
            self._confirm(arrival)

    def _rows_of(self, arrival: Arrival) -> list[Told]:
        """The rows of a message, none if it is none of its topic."""
        try:
            return rows_of(self._topics, arrival.message)
        except BadMessage as error:
            self._say(arrival, str(error))
        except Exception as error:  # noqa: BLE001 - one message takes no other from the history
            self._say(arrival, f"{type(error).__name__}: {error}")
        return []

    def _say(self, arrival: Arrival, why: str) -> None:
        topic = arrival.message.topic
        self._log.of_stranger(topic).warning(f"{topic} is not kept: {why}")
