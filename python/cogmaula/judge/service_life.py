"""One life of a service, run again: the program `live` is fed what was recorded, and its frames are taken as they come."""

from __future__ import annotations

import os
import select
import subprocess
from collections.abc import Iterator

from ..live.node.node_errors import LiveError
from ..live.messages.frames import WRITES, Hello, size_of
from .reading import Start

PIECE = 65_536
# Input waits up to so many bytes before it is written, if no answer is asked for.
WAITING = 1_048_576
# How the line begins that the program writes to arguments that are no command, and no frame does.
USAGE_LINE = b"usage: live "
# The seconds in which the program has to end behind the end of its input.
LAST_SECONDS = 600.0


class Late(Exception):
    """The program answered only once its input ended: it may have been too slow, and nothing is known."""


class Running:
    """A process of `live`, from a recorded start on. It is written to and read from in turn, so a life may have any length.

    A frame that does not come within `patience` seconds is asked for by the end of the input: then the program answers all that
    it was fed, and ends. So it is sure that there is no further answer. If there is one, more patience is needed.
    """

    def __init__(self, live: str, start: Start, patience: float) -> None:
        """Starts the process, for Hello and the Resume. Raises LiveError if it cannot be started."""
        self._kinds, self._steps, self._patience = WRITES[start.sort], start.basis.steps, patience
        self.live = live
        try:
            self._process = subprocess.Popen([live, *start.arguments], stdin=subprocess.PIPE, stdout=subprocess.PIPE, bufsize=0)
        except OSError as error:
            raise LiveError(f"{live} cannot be started: {error.strerror}. Give the program live by --live") from None
        assert self._process.stdin is not None
        assert self._process.stdout is not None
        self._in, self._out = self._process.stdin, self._process.stdout
        os.set_blocking(self._in.fileno(), False)
        self._poll = select.poll()
        self._poll.register(self._out, select.POLLIN)
        self._due, self._came = bytearray(), bytearray()
        self._is_over = self._is_ending = False
        self.feed(Hello(start.basis.min, start.basis.max, start.basis.steps).to_bytes() + start.resume)

    def feed(self, data: bytes) -> None:
        """Feeds bytes, at once or together with later ones."""
        self._due += data
        if len(self._due) > WAITING:
            self._move(0)

    def frame(self) -> bytes | None:
        """The next frame of the program, None if it has no further answer to what it was fed. Raises Late, and LiveError."""
        is_ending = self._is_ending
        while (size := self._size()) is None and not self._is_over:
            if self._move(LAST_SECONDS if self._is_ending else self._patience):
                continue
            if self._is_ending:
                raise LiveError(f"{self.live} does not end behind its input: look at the machine, or give another one by --live")
            self._is_ending = True
        if size is not None and self._is_ending and not is_ending:
            raise Late
        return None if size is None else self._cut(size)

    def finish(self) -> Iterator[bytes]:
        """Ends the input, and gives all further frames."""
        self._is_ending = True
        while (data := self.frame()) is not None:
            yield data

    def status(self) -> int:
        """The exit status, behind `finish` or a frame that is None."""
        return self._process.wait()

    def close(self) -> None:
        """Ends the process."""
        self._process.kill()
        self._process.wait()
        self._in.close()
        self._out.close()

    def _size(self) -> int | None:
        """The length of the frame that has come, None if none has come as a whole."""
        if not self._came:
            return None
        kind = self._kinds.get(self._came[0])
        if kind is None and USAGE_LINE.startswith(bytes(self._came[: len(USAGE_LINE)])):
            # Its arguments are no command, which its status says too.
            return None
        if kind is None:
            why = f"the byte {self._came[0]}, which begins no frame: is it the program live of this version?"
            raise LiveError(f"{self.live} wrote {why}")
        size = size_of(kind, self._steps)
        return size if len(self._came) >= size else None

    def _cut(self, size: int) -> bytes:
        data = bytes(self._came[:size])
        del self._came[:size]
        return data

    def _move(self, seconds: float) -> bool:
        """Writes and reads what goes, and waits for that so many seconds. Says whether something moved."""
        moved = self._write()
        if self._due:
            self._poll.register(self._in, select.POLLOUT)
        for file, _ in self._poll.poll(0 if moved and not self._due else seconds * 1_000):
            if file == self._out.fileno():
                piece = os.read(file, PIECE)
                self._came += piece
                self._is_over = not piece
            moved = True
        if self._due:
            self._poll.unregister(self._in)
        return moved

    def _write(self) -> bool:
        """Writes of the input what goes, and ends it if it is to end. Says whether something went."""
        count = len(self._due)
        try:
            while self._due:
                del self._due[: os.write(self._in.fileno(), self._due[:PIECE])]
        except BlockingIOError:
            pass
        except BrokenPipeError:
            # The program has ended, and reads no more.
            self._due.clear()
        if self._is_ending and not self._due and not self._in.closed:
            self._in.close()
            return True
        return len(self._due) < count
