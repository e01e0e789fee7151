"""Gives the memory of connections that have ended back to the system.

What Python keeps of a connection by TLS are rings of objects, which it looks for seldom, and the C library keeps what was freed.
"""

from __future__ import annotations

import contextlib
import ctypes
import gc
import time

# How many connections have to end before it is worth while, and the least seconds between two times.
ENDED, BETWEEN = 64, 5.0


class Memory:
    """When memory was given back last. Times are seconds of a clock that only rises."""

    def __init__(self) -> None:
        self._ended = 0
        self._at = 0.0

    def look(self, ended: int, now: float | None = None) -> bool:
        """Gives memory back if many more connections have ended by now, and says whether it did. `ended` is their count."""
        moment = time.monotonic() if now is None else now
        if ended < self._ended + ENDED or moment < self._at + BETWEEN:
            return False
        self._ended, self._at = ended, moment
        gc.collect()
        with contextlib.suppress(AttributeError, OSError):
            # It is a call of the GNU C library alone.
            ctypes.CDLL(None).malloc_trim(0)
        return True
