"""A loop that watches open files and calls whoever waits for them. A site has one for all of its nodes."""

from __future__ import annotations

import selectors
import socket
from collections.abc import Callable

READ, WRITE = selectors.EVENT_READ, selectors.EVENT_WRITE


class Loop:
    """Watches files. All calls but `wake` are of one thread."""

    def __init__(self) -> None:
        """Watches nothing yet."""
        self._selector = selectors.DefaultSelector()
        self._reads, self._writes = socket.socketpair()
        for end in (self._reads, self._writes):
            end.setblocking(False)
        self.watch(self._reads.fileno(), READ, lambda _: self._awake())

    def watch(self, file: int, events: int, call: Callable[[int], None]) -> None:
        """Calls `call` with READ, WRITE or both, each time that an open file may be read or written. It takes the place of an earlier call."""
        if file in self._selector.get_map():
            self._selector.modify(file, events, call)
        else:
            self._selector.register(file, events, call)

    def unwatch(self, file: int) -> None:
        """Watches a file no more. It has to be called before the file is closed."""
        if file in self._selector.get_map():
            self._selector.unregister(file)

    def wake(self) -> None:
        """Lets `turn` return at once, from any thread or from the handler of a signal."""
        try:
            self._writes.send(b"\0")
        except OSError:
            # As many as fit are on their way, or the loop is closed.
            pass

    def _awake(self) -> None:
        try:
            while self._reads.recv(4_096):
                pass
        except BlockingIOError:
            pass

    def turn(self, seconds: float) -> None:
        """Waits for files, at most so many seconds, and makes the calls that are due."""
        for key, events in self._selector.select(seconds):
            # A call before this one may have let the file go.
            if self._selector.get_map().get(key.fd) == key:
                key.data(events)

    def close(self) -> None:
        """Watches nothing more."""
        self._selector.close()
        self._reads.close()
        self._writes.close()
