"""Compresses files that have ended, one after the other, in a thread of the process. What fails leaves the file as it is."""

from __future__ import annotations

import gzip
import os
import queue
import shutil
import threading
from pathlib import Path

# What a compressed file's name ends with, and that of one that is being made.
ENDING, FRESH = ".gz", ".fresh"
# The bytes that are compressed at a time, and how thoroughly: more takes long and gains little.
PIECE, LEVEL = 1_048_576, 6


def compress(path: Path) -> None:
    """Replaces a file by a compressed one of its name and `.gz`, safely: at each moment one of the two is whole.

    Raises OSError, and then the file is as it was. A file that is gone by then leaves nothing.
    """
    made = path.with_name(path.name + ENDING)
    fresh = path.with_name(made.name + FRESH)
    try:
        with (
            open(os.open(path, os.O_RDONLY | os.O_NOFOLLOW | os.O_CLOEXEC), "rb") as source,
            open(os.open(fresh, os.O_WRONLY | os.O_CREAT | os.O_TRUNC | os.O_NOFOLLOW | os.O_CLOEXEC, 0o600), "wb") as target,
        ):
            with gzip.GzipFile("", "wb", LEVEL, target, mtime=0) as packed:
                shutil.copyfileobj(source, packed, PIECE)
            target.flush()
            os.fsync(target.fileno())
        os.replace(fresh, made)
    finally:
        fresh.unlink(missing_ok=True)
    folder = os.open(path.parent, os.O_RDONLY | os.O_DIRECTORY)
    try:
        os.fsync(folder)
    finally:
        os.close(folder)
    try:
        path.unlink()
    except FileNotFoundError:
        # It was taken away while this worked, and so is what was made of it.
        made.unlink(missing_ok=True)


class _Worker:
    """The thread of the process that compresses, once there is something."""

    def __init__(self) -> None:
        self._paths: queue.SimpleQueue[Path] = queue.SimpleQueue()
        self._lock = threading.Lock()
        self._known: set[Path] = set()
        self._thread: threading.Thread | None = None

    def take(self, path: Path) -> None:
        """Takes a file, unless it waits already."""
        with self._lock:
            if path in self._known:
                return
            self._known.add(path)
            if self._thread is None or not self._thread.is_alive():
                self._thread = threading.Thread(target=self._work, name="compress", daemon=True)
                self._thread.start()
        self._paths.put(path)

    def _work(self) -> None:
        while True:
            path = self._paths.get()
            try:
                compress(path)
            except OSError:
                # The file stays as it is, and counts. It is tried again when the next one ends.
                pass
            with self._lock:
                self._known.discard(path)

    @property
    def is_idle(self) -> bool:
        """Whether all that was taken is done."""
        with self._lock:
            return not self._known


_WORKER = _Worker()


def compress_later(path: Path) -> None:
    """Lets a file be compressed by the thread of this process. A file that is not yet done when the process ends stays as it is."""
    _WORKER.take(path.absolute())


def is_idle() -> bool:
    """Whether all files that were to be compressed are."""
    return _WORKER.is_idle
