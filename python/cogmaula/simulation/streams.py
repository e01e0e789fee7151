"""A proved program of a simulation: a process that reads frames and writes frames."""

from __future__ import annotations

import fcntl
import os
import subprocess
from collections.abc import Sequence
from contextlib import suppress

from ..errors import ProgramFault

# The most bytes that a process takes, and what is left of them for frames that ask.
LONGEST, ROOM = 1_073_741_824, 4_096
# The seconds in which a process ends whose input has ended, and the bytes that are read of it at once.
LAST_SECONDS, PIECE = 5.0, 65_536
# The bytes that a pipe to it holds, if the system gives as many; and what `fcntl` is asked for.
PIPE, F_SETPIPE_SZ = 1 << 20, 1031


class Stream:
    """A process that reads frames and writes frames, and may be started anew."""

    def __init__(self, what: str) -> None:
        """Takes the words by which errors name it. `start` is called before all else."""
        self._what = what

    def open(self) -> subprocess.Popen[bytes]:
        """Starts a process. Raises NoProgram and ProgramFault."""
        raise NotImplementedError

    def start(self) -> None:
        """Has a new process from now on. Raises NoProgram and ProgramFault."""
        self._process = self.open()
        for end in (self._process.stdin, self._process.stdout):
            # A tick of many devices then goes through at once.
            with suppress(OSError):
                fcntl.fcntl(end, F_SETPIPE_SZ, PIPE)  # type: ignore[arg-type]

    def write(self, data: bytes) -> None:
        """Writes at once. Raises ProgramFault."""
        assert self._process.stdin is not None
        try:
            self._process.stdin.write(data)
            self._process.stdin.flush()
        except OSError:
            raise self.fault("it reads no more") from None

    def read(self, size: int) -> bytes:
        """The next bytes, at least one and at most so many. Raises ProgramFault at the end."""
        assert self._process.stdout is not None
        found = os.read(self._process.stdout.fileno(), size)
        if not found:
            raise self.fault("its answers end")
        return found

    def read_all(self, size: int) -> bytes:
        """The next bytes, just so many. Raises ProgramFault if fewer come."""
        found = b""
        while len(found) < size:
            found += self.read(size - len(found))
        return found

    def fault(self, why: str) -> ProgramFault:
        """The error of what it does, with its status if it has ended."""
        try:
            return ProgramFault(f"{self._what}: {why}, and its status is {self._process.wait(LAST_SECONDS)}")
        except subprocess.TimeoutExpired:
            return ProgramFault(f"{self._what}: {why}")

    def close(self) -> None:
        """Ends its input, and waits for its end."""
        for end in (self._process.stdin, self._process.stdout):
            if end is not None:
                with suppress(OSError):
                    end.close()
        try:
            self._process.wait(LAST_SECONDS)
        except subprocess.TimeoutExpired:
            self._process.kill()
            self._process.wait()


def open_live(words: Sequence[str]) -> subprocess.Popen[bytes]:
    """A process of the program `live` by these words, of which the first is its path. Raises ProgramFault."""
    try:
        return subprocess.Popen(words, stdin=subprocess.PIPE, stdout=subprocess.PIPE)
    except OSError as error:
        raise ProgramFault(f"{words[0]} cannot be started: {error.strerror}") from None
