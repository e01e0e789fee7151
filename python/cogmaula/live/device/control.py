"""The control of a device at standard input and standard output: JSON lines of offers come in, and of setpoints go out."""

from __future__ import annotations

import os
import queue
import threading
from collections.abc import Callable
from typing import Protocol

from ...logs import NodeLog
from ..messages.messages import ControlMessage

# The longest line taken, in bytes, and the most lines that wait to be written.
LONGEST, WAITING = 32_768, 1_000
PIECE = 65_536


class Control(Protocol):
    """What offers powers for a device and is told its setpoints."""

    def start(self, notify: Callable[[bytes], None], log: NodeLog) -> None:
        """Calls `notify` with each offer from now on, from any thread, and tells the log what is wrong."""

    def write(self, told: ControlMessage) -> None:
        """Takes what the control is told, such as a setpoint, and does not wait."""


class StandardControl:
    """Reads offers at standard input, and writes setpoints at standard output. Its input may end: offers may also come by a topic."""

    def __init__(self, reads: int = 0, writes: int = 1) -> None:
        """Takes the numbers of the two open files."""
        self._reads = reads
        self._writes = writes
        self._lines: queue.Queue[bytes] = queue.Queue(WAITING)

    def start(self, notify: Callable[[bytes], None], log: NodeLog) -> None:
        """See Control."""
        self._notify, self._log = notify, log
        for work in (self._read_all, self._write_all):
            threading.Thread(target=work, daemon=True).start()

    def write(self, told: ControlMessage) -> None:
        """See Control."""
        try:
            self._lines.put_nowait(told.to_bytes())
        except queue.Full:
            self._log.warning(f"a setpoint is not written: {WAITING} wait, since nobody reads standard output")

    def _read_all(self) -> None:
        kept = b""
        try:
            # Not by a buffered file: its lock would be held at the end of the process.
            while piece := os.read(self._reads, PIECE):
                *lines, kept = (kept + piece).split(b"\n")
                for line in lines:
                    if line.strip():
                        self._notify(line)
                if len(kept) > LONGEST:
                    self._log.warning(f"a line of standard input is above {LONGEST} bytes, and is dropped")
                    kept = b""
        except OSError as error:
            self._log.warning(f"standard input cannot be read: {error.strerror}")
        if kept.strip():
            self._notify(kept)

    def _write_all(self) -> None:
        try:
            while True:
                line = self._lines.get() + b"\n"
                while line:
                    line = line[os.write(self._writes, line) :]
        except OSError as error:
            self._log.warning(f"standard output cannot be written, {error.strerror}: setpoints go to the topic alone")
