"""Progress of long work, on standard error: on a terminal one line that is written over, else a line now and then."""

from __future__ import annotations

import sys
import time
from collections.abc import Iterable, Iterator
from types import TracebackType
from typing import TextIO, TypeVar

T = TypeVar("T")
# The seconds between two lines, on a terminal and elsewhere.
BETWEEN = {True: 0.1, False: 10.0}


class Progress:
    """Tells how much of `total` is done. Use it as a context, and call `step` for each part.

    It writes nothing before the first seconds have passed, so that short work stays silent.
    """

    def __init__(self, what: str, total: int, stream: TextIO | None = None, quiet: bool = False) -> None:
        self.what = what
        self.total = total
        self.done = 0
        self._stream = stream or sys.stderr
        self._on_terminal = self._stream.isatty()
        self._quiet = quiet
        self._begun = self._last = time.monotonic()
        self._wrote = False

    def __enter__(self) -> Progress:
        return self

    def step(self, parts: int = 1) -> None:
        """So many more parts are done."""
        self.done += parts
        now = time.monotonic()
        if now - self._last >= BETWEEN[self._on_terminal]:
            self._last = now
            self._tell(now)

    def _tell(self, now: float) -> None:
        if self._quiet:
            return
        share = self.done / self.total if self.total else 1.0
        left = (now - self._begun) * (1 - share) / share if share else 0.0
        line = f"{self.what}: {self.done} of {self.total}, {share:.0%}, about {left:.0f} s to go"
        self._stream.write(f"\r{line}\x1b[K" if self._on_terminal else f"{line}\n")
        self._stream.flush()
        self._wrote = True

    def __exit__(self, kind: type[BaseException] | None, error: BaseException | None, trace: TracebackType | None) -> None:
        if self._wrote and self._on_terminal:
            self._stream.write("\r\x1b[K")
            self._stream.flush()


def tracked(parts: Iterable[T], what: str, total: int, quiet: bool = False) -> Iterator[T]:
    """The parts, with progress told as they are taken."""
    with Progress(what, total, quiet=quiet) as progress:
        for part in parts:
            yield part
            progress.step()
