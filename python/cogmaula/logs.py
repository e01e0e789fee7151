"""The log of what lives: nodes, hubs, agents and pages. Its records name their node, and a command shows them at standard error.

Each module writes to a logger below `cogmaula`. A program that runs a node in its own process sets up `logging` as for any
library: the record's `node` is the name of the node that it is about, "" if it is about none. Levels: `info` for what goes as it
should, such as a new session or a connection that is there again; `warning` for what is not taken, or lacks, or is tried again;
`error` for what needs a person.
"""

from __future__ import annotations

import logging
import os
import sys
import threading
import time
from collections.abc import Mapping, MutableMapping
from typing import Any, TextIO

# The logger above all of this package.
PACKAGE = "cogmaula"
# The priorities of syslog, by the least level that has them.
PRIORITIES = ((logging.CRITICAL, 2), (logging.ERROR, 3), (logging.WARNING, 4), (logging.INFO, 6), (logging.NOTSET, 7))
# The lines that one stranger may cause at once, the seconds after which it may cause one more, and how many strangers are told apart.
BURST, BETWEEN, STRANGERS = 5, 60.0, 1_024
# The most characters of a line that a stranger causes.
LONGEST = 1_000


class Allowances:
    """How many lines each stranger may still cause: by its name, such as the topic that it writes. All calls may come from any thread."""

    def __init__(self) -> None:
        """Has heard of nobody."""
        self._lock = threading.Lock()
        # Of each stranger the lines left, when that was so, and how many were left out since its last line.
        self._of: dict[str, tuple[float, float, int]] = {}

    def takes(self, stranger: str, now: float) -> int | None:
        """Whether a line of a stranger is to be written: how many of its lines before it were left out, or None if it is left out.

        now: seconds of a clock that only rises
        """
        with self._lock:
            # Those behind the most that are told apart are one.
            name = stranger if stranger in self._of or len(self._of) < STRANGERS else ""
            left, at, count = self._of.get(name, (float(BURST), now, 0))
            left = min(float(BURST), left + (now - at) / BETWEEN)
            if left < 1:
                self._of[name] = left, now, count + 1
                return None
            self._of[name] = left - 1, now, 0
            return count


class NodeLog(logging.LoggerAdapter[logging.Logger]):
    """A log whose records carry the name of a node, and the name of a part of it, such as its page, before the text."""

    def __init__(self, logger: logging.Logger, node: str = "", part: str = "", allowances: Allowances | None = None) -> None:
        """Takes the logger of the module, the node that the records are about, "" for none, the part, and what strangers may still cause."""
        super().__init__(logger, {"node": node})
        self._node = node
        self._part = part
        self._allowances = Allowances() if allowances is None else allowances

    def process(self, msg: Any, kwargs: MutableMapping[str, Any]) -> tuple[Any, MutableMapping[str, Any]]:
        """The text with the part before it, and the node as a member of the record."""
        return (f"{self._part}: {msg}" if self._part else msg), {**kwargs, "extra": self.extra}

    def of_node(self, node: str) -> NodeLog:
        """The same log for lines about this node."""
        return NodeLog(self.logger, node, self._part, self._allowances)

    def of_part(self, part: str) -> NodeLog:
        """The same log for lines of a part."""
        return NodeLog(self.logger, self._node, part, self._allowances)

    def of_changes(self) -> NodeLog:
        """The same log, which leaves a line out that is the one before once more."""
        return _ChangesLog(self.logger, self._node, self._part, self._allowances)

    def of_stranger(self, stranger: str) -> NodeLog:
        """The same log for lines that somebody else causes, by a name such as the topic of the message.

        `BURST` lines of one stranger are written at once, then one each `BETWEEN` seconds. The next line says how many were left out.
        """
        return _StrangerLog(self.logger, self._node, self._part, self._allowances, stranger)


class _ChangesLog(NodeLog):
    """A log of a state that is looked at again and again: only what changes is written."""

    _written = ""

    def log(self, level: int, msg: object, *args: object, **kwargs: Any) -> None:
        """Writes a record, unless the one before had the same text."""
        if msg != self._written:
            self._written = str(msg)
            super().log(level, msg, *args, **kwargs)


class _StrangerLog(NodeLog):
    """A log of what one stranger causes."""

    def __init__(self, logger: logging.Logger, node: str, part: str, allowances: Allowances, stranger: str) -> None:
        super().__init__(logger, node, part, allowances)
        self._stranger = f"{node} {stranger}"

    def log(self, level: int, msg: object, *args: object, **kwargs: Any) -> None:
        """Writes a record, cut, unless the stranger has caused too many."""
        left_out = self._allowances.takes(self._stranger, time.monotonic())
        if left_out is not None:
            text = str(msg)
            cut = text if len(text) <= LONGEST else f"{text[:LONGEST]}.."
            more = f" ({left_out} lines before it were left out)" if left_out else ""
            super().log(level, f"{cut}{more}", *args, **kwargs)


def printable(text: str) -> str:
    """A text in which each character that ends a line, turns its direction or is not to be seen stands by its number."""
    if text.isprintable():
        return text
    return "".join(char if char.isprintable() else char.encode("unicode_escape").decode() for char in text)


class LineFormatter(logging.Formatter):
    """Writes a record as a line: who writes, the node if it is another one, and the text. With priorities for systemd, if asked for.

    A text may be a stranger's. So what is not printable in it is escaped, and it cannot begin another line.
    """

    def __init__(self, writer: str, own: str = "", *, with_priorities: bool = False) -> None:
        """Takes who writes, such as "cogmaula hub", "" for nobody, and the name of the node that is not named in each line."""
        super().__init__()
        self._start = f"{writer}: " if writer else ""
        self._own = own
        self._with_priorities = with_priorities

    def format(self, record: logging.LogRecord) -> str:
        """The line, or lines if the record has an exception."""
        node = getattr(record, "node", "")
        lines = f"{self._start}{f'{node}: ' if node and node != self._own else ''}{super().format(record)}".split("\n")
        prefix = prefix_of(record.levelno) if self._with_priorities else ""
        return "\n".join(f"{prefix}{printable(line)}" for line in lines)

    def formatMessage(self, record: logging.LogRecord) -> str:  # noqa: N802 - the name is the library's
        """The text of a record, in one line."""
        return printable(super().formatMessage(record))


class StandardError(logging.StreamHandler[TextIO]):
    """Writes each record to what is standard error at that time."""

    def __init__(self) -> None:
        super().__init__(sys.stderr)

    def emit(self, record: logging.LogRecord) -> None:
        """Writes a record, in one piece."""
        # Not by setStream, which flushes the stream of before: that may be closed.
        self.stream = sys.stderr
        super().emit(record)


def prefix_of(level: int) -> str:
    """The priority of a level as systemd reads it at the start of a line, `<4>` for a warning: sd-daemon(3)."""
    return f"<{next(priority for least, priority in PRIORITIES if level >= least)}>"


def is_journal(environment: Mapping[str, str], descriptor: int = 2) -> bool:
    """Whether the journal of systemd reads this descriptor: JOURNAL_STREAM then has the device and the inode of its stream, systemd.exec(5)."""
    try:
        found = os.fstat(descriptor)
    except OSError:
        return False
    return environment.get("JOURNAL_STREAM", "") == f"{found.st_dev}:{found.st_ino}"


def show(writer: str, own: str = "", environment: Mapping[str, str] = os.environ) -> None:
    """Shows the lines of the package at standard error from now on, for the command that writes. The last call counts."""
    logger = logging.getLogger(PACKAGE)
    for handler in [handler for handler in logger.handlers if isinstance(handler, StandardError)]:
        logger.removeHandler(handler)
    handler = StandardError()
    handler.setFormatter(LineFormatter(writer, own, with_priorities=is_journal(environment)))
    logger.addHandler(handler)
    logger.setLevel(logging.INFO)
