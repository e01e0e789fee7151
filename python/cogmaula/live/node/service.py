"""A process of the program `live`: frames go in and out, and its end is noticed at once.

What happens is told by a call of `notify`: frames came, or the process has ended. `Service` has two threads that move the bytes, so that
neither side waits for the other. `PolledService` has none: a loop tells it when its pipes are ready.
"""

from __future__ import annotations

import os
import queue
import signal
import subprocess
import threading
from collections.abc import Callable, Sequence
from dataclasses import dataclass
from typing import Protocol

from ...cluster import Basis
from .node_errors import BadFrame, LiveError
from ..messages.frames import WRITES, Frame, Hello, Sort, Splitter
from ..site.loop import READ, WRITE, Loop
from .statuses import STATUSES

# The bytes that are read at once, and the most frames that are written at once.
PIECE, PIECES = 65_536, 512
# The seconds in which a process ends that has closed its output.
PATIENCE = 1.0


@dataclass(frozen=True)
class Came:
    """Frames that the service wrote, in their order."""

    service: ServiceProcess
    frames: tuple[Frame, ...]


@dataclass(frozen=True)
class Ended:
    """The service has ended, and why, in words."""

    service: ServiceProcess
    why: str


Notify = Callable[[Came | Ended], None]


class MakeService(Protocol):
    """Starts a service. See `ServiceProcess`."""

    def __call__(self, command: Sequence[str], sort: Sort, basis: Basis, resume: bytes, notify: Notify) -> ServiceProcess:
        """Starts the process, and writes Hello and then the Resume, if it is not empty. Raises LiveError."""


class ServiceProcess:
    """One process of `live`, from its start to its end: what it is, whoever moves its bytes."""

    def __init__(self, command: Sequence[str], sort: Sort, basis: Basis, notify: Notify) -> None:
        """Starts the process.

        command: the program and its arguments, such as `["live", "device", "2"]`
        Raises LiveError if it cannot be started.
        """
        self.sort = sort
        self._splitter = Splitter(WRITES[sort], basis.steps)
        self._notify = notify
        try:
            # Signals of a terminal are for the node alone, which ends the service itself. The files of this process are not inherited,
            # so none has to be closed.
            self._process = subprocess.Popen(
                command, stdin=subprocess.PIPE, stdout=subprocess.PIPE, bufsize=0, start_new_session=True, close_fds=False
            )
        except OSError as error:
            raise LiveError(f"{command[0]} cannot be started: {error.strerror}. Give the program live by --live") from None

    @property
    def pid(self) -> int:
        """The number of the process."""
        return self._process.pid

    def feed(self, data: bytes) -> None:
        """Sends the bytes of frames. It never waits; what comes behind the end of the process is lost."""
        raise NotImplementedError

    def kill(self) -> None:
        """Ends the process at once."""
        try:
            self._process.send_signal(signal.SIGKILL)
        except ProcessLookupError:
            pass

    def close(self, seconds: float = 0.5) -> None:
        """Ends its input, waits so many seconds for its end, and kills it then."""
        raise NotImplementedError

    def _wait(self, seconds: float) -> int:
        """Waits for the end of the process, and kills it after so many seconds. Gives its status."""
        try:
            return self._process.wait(seconds)
        except subprocess.TimeoutExpired:
            self.kill()
            return self._process.wait()

    def _take(self, piece: bytes) -> str:
        """Tells the frames that a piece of what the process wrote ends. Gives why the process is killed, "" if all is right."""
        frames: list[Frame] = []
        why = ""
        try:
            for frame in self._splitter.feed(piece):
                frames.append(frame)
        except BadFrame as error:
            why = f"what it wrote is no frame: {error}. Is it the program live of this version?"
            self.kill()
        if frames:
            self._notify(Came(self, tuple(frames)))
        return why


class Service(ServiceProcess):
    """A process of `live` whose bytes are moved by two threads. `notify` is called from them."""

    def __init__(self, command: Sequence[str], sort: Sort, basis: Basis, resume: bytes, notify: Notify) -> None:
        """See MakeService."""
        super().__init__(command, sort, basis, notify)
        self._out: queue.SimpleQueue[bytes | None] = queue.SimpleQueue()
        self.feed(Hello(basis.min, basis.max, basis.steps).to_bytes() + resume)
        for work in (self._write_all, self._read_all):
            threading.Thread(target=work, daemon=True).start()

    def feed(self, data: bytes) -> None:
        """See ServiceProcess."""
        self._out.put(data)

    def close(self, seconds: float = 0.5) -> None:
        """See ServiceProcess."""
        self._out.put(None)
        self._wait(seconds)

    def _write_all(self) -> None:
        assert self._process.stdin is not None
        with self._process.stdin as pipe:
            try:
                while (data := self._next_piece()) is not None:
                    while data:
                        data = data[os.write(pipe.fileno(), data) :]
            except OSError:
                # The reading thread finds the end, and tells it.
                pass

    def _next_piece(self) -> bytes | None:
        """Waits for bytes that are to be written, and gives all that wait in one piece. None at the end."""
        piece = self._out.get()
        if piece is None:
            return None
        pieces = [piece]
        while len(pieces) < PIECES:
            try:
                following = self._out.get_nowait()
            except queue.Empty:
                break
            if following is None:
                # The end comes behind these.
                self._out.put(None)
                break
            pieces.append(following)
        return b"".join(pieces)

    def _read_all(self) -> None:
        assert self._process.stdout is not None
        why = ""
        with self._process.stdout as pipe:
            while not why and (piece := os.read(pipe.fileno(), PIECE)):
                why = self._take(piece)
        self._out.put(None)
        status = self._process.wait()
        self._notify(Ended(self, why or _words_of(status)))


class PolledService(ServiceProcess):
    """A process of `live` whose bytes a loop moves. `notify` is called in the loop's thread, as are all calls here."""

    def __init__(self, loop: Loop, command: Sequence[str], sort: Sort, basis: Basis, resume: bytes, notify: Notify) -> None:
        """See MakeService. The loop watches the pipes of the process."""
        super().__init__(command, sort, basis, notify)
        assert self._process.stdin is not None
        assert self._process.stdout is not None
        self._loop = loop
        self._in, self._out = self._process.stdin, self._process.stdout
        self._waiting = bytearray()
        self._has_ended = False
        for pipe in (self._in, self._out):
            os.set_blocking(pipe.fileno(), False)
        loop.watch(self._out.fileno(), READ, lambda _: self._read())
        self.feed(Hello(basis.min, basis.max, basis.steps).to_bytes() + resume)

    def feed(self, data: bytes) -> None:
        """See ServiceProcess."""
        if not self._has_ended:
            is_first = not self._waiting
            self._waiting += data
            if is_first:
                self._write()

    def close(self, seconds: float = 0.5) -> None:
        """See ServiceProcess."""
        if not self._has_ended:
            self._end()
            self._wait(seconds)

    def _write(self) -> None:
        """Writes what the pipe takes, and lets the loop call again for the rest."""
        file = self._in.fileno()
        try:
            while self._waiting:
                del self._waiting[: os.write(file, self._waiting)]
            self._loop.unwatch(file)
        except BlockingIOError:
            self._loop.watch(file, WRITE, lambda _: self._write())
        except OSError:
            # What it wrote last is still to be read, and then its end is found.
            self._waiting.clear()
            self._loop.unwatch(file)

    def _read(self) -> None:
        """Takes what the process wrote, or its end."""
        try:
            piece = os.read(self._out.fileno(), PIECE)
        except BlockingIOError:
            return
        why = self._take(piece) if piece else ""
        if (why or not piece) and not self._has_ended:
            self._end()
            # A process that has closed its output has nothing more to do.
            self._notify(Ended(self, why or _words_of(self._wait(PATIENCE))))

    def _end(self) -> None:
        """Lets go of the pipes."""
        self._has_ended = True
        self._waiting.clear()
        for pipe in (self._in, self._out):
            self._loop.unwatch(pipe.fileno())
            pipe.close()


def _words_of(status: int) -> str:
    """What an exit status means, in words."""
    if status < 0:
        return f"a signal ended it: {signal.Signals(-status).name}"
    return f"status {status}: {STATUSES.get(status, 'no status of live')}"
