"""The hub's log. Of the lines that others cause as often as they like, one of a kind is written at once, and the rest are counted."""

from __future__ import annotations

import threading
import time
from dataclasses import dataclass

from ..logs import NodeLog

# The seconds within which lines of a kind are counted, and the most kinds that are remembered.
WHILE, KINDS = 60.0, 1_024


@dataclass
class _Kind:
    """Lines of one kind: when the last was written, the level and the text of the newest, and how many came since."""

    at: float
    level: int
    newest: str
    count: int = 0


class Lines:
    """Writes lines to a log. The calls may come from any thread; times are seconds of a clock that only rises."""

    def __init__(self, log: NodeLog) -> None:
        """Takes the log."""
        self.log = log
        self._kinds: dict[object, _Kind] = {}
        self._lock = threading.Lock()

    def log_seldom(self, level: int, kind: object, text: str, now: float | None = None) -> None:
        """Writes a line, unless one of its kind was written a short while ago. Then it is counted. A kind is a key of a dictionary."""
        moment = time.monotonic() if now is None else now
        with self._lock:
            known = self._kinds.get(kind)
            if known is not None or len(self._kinds) >= KINDS:
                # What is of no kind that is remembered counts as one kind.
                known = known or self._kinds.setdefault(None, _Kind(moment, level, text))
                known.level, known.newest, known.count = level, text, known.count + 1
                return
            self._kinds[kind] = _Kind(moment, level, text)
        self.log.log(level, text)

    def tick(self, now: float | None = None) -> None:
        """Writes how many lines were counted, of each kind whose while is over. To be called by a clock, and with infinity at the end."""
        moment = time.monotonic() if now is None else now
        due = []
        with self._lock:
            for kind, known in list(self._kinds.items()):
                if moment < known.at + WHILE:
                    continue
                if known.count:
                    due.append((known.level, f"{known.newest} (the last of {known.count} such lines since the one before)"))
                    self._kinds[kind] = _Kind(moment, known.level, known.newest)
                else:
                    del self._kinds[kind]
        for level, text in due:
            self.log.log(level, text)
