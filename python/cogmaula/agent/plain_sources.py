"""Values by HTTP, by a command, and in a table of CSV."""

from __future__ import annotations

import csv
import math
import subprocess
import time
import urllib.error
import urllib.request
from dataclasses import dataclass
from pathlib import Path

from ..live.node.node_errors import BadSettings
from .device_values import NoReading, NotWritten, Place, number_in, require_pointer, text_with

# The most bytes of an answer.
LONGEST = 65_536


def _require_timeout(seconds: float) -> None:
    if not 0 < seconds <= 60:
        raise BadSettings(f"the timeout is {seconds:g}: give up to 60 seconds")


@dataclass(frozen=True, kw_only=True)
class HttpPlace(Place):
    """An address of HTTP or HTTPS. It is read by GET.

    pointer: a JSON pointer to the value in the answer
    method:  how it is written, and `body` with what, VALUE standing for the number; VALUE in the address too
    """

    url: str
    pointer: str = ""
    method: str = "PUT"
    body: str = "VALUE"
    timeout: float = 5.0

    def __post_init__(self) -> None:
        """Raises BadSettings."""
        super().__post_init__()
        require_pointer(self.pointer)
        _require_timeout(self.timeout)
        if not self.url.startswith(("http://", "https://")):
            raise BadSettings(f"the url is {self.url!r}: give one of http or https")


class Http:
    """A value at an address."""

    def __init__(self, place: HttpPlace) -> None:
        """Takes the place."""
        self.place = place

    def _asked(self, request: urllib.request.Request | str) -> bytes:
        """The answer. Raises OSError and ValueError."""
        with urllib.request.urlopen(request, timeout=self.place.timeout) as answer:
            return bytes(answer.read(LONGEST))

    def read(self) -> float:
        """What the answer has. Raises NoReading."""
        try:
            return number_in(self._asked(self.place.url), self.place.pointer)
        except (OSError, ValueError, NoReading) as error:
            raise NoReading(f"{self.place.url}: {error}") from None

    def write(self, number: float) -> None:
        """Sends the number. Raises NotWritten."""
        place = self.place
        headers = {"Content-Type": "application/json"}
        try:
            self._asked(urllib.request.Request(text_with(place.url, number), text_with(place.body, number).encode(), headers, method=place.method))
        except (OSError, ValueError) as error:
            raise NotWritten(f"{place.url}: {error}") from None

    def close(self) -> None:
        """There is no connection."""


@dataclass(frozen=True, kw_only=True)
class CommandPlace(Place):
    """A command, with its words. What it prints is the value, or JSON in which `pointer` finds it. To write, VALUE is the number."""

    command: tuple[str, ...]
    pointer: str = ""
    timeout: float = 5.0

    def __post_init__(self) -> None:
        """Raises BadSettings."""
        super().__post_init__()
        require_pointer(self.pointer)
        _require_timeout(self.timeout)
        if isinstance(self.command, str) or not self.command or not all(isinstance(word, str) for word in self.command):
            raise BadSettings('the command is no list of words: write ["my_meter", "--soc"]')
        object.__setattr__(self, "command", tuple(self.command))


class Command:
    """A value by a command."""

    def __init__(self, place: CommandPlace) -> None:
        """Takes the place."""
        self.place = place

    def _ran(self, words: list[str]) -> bytes:
        """What the command prints. Raises OSError if it cannot be started, is too slow or fails."""
        try:
            done = subprocess.run(words, capture_output=True, timeout=self.place.timeout, check=False, stdin=subprocess.DEVNULL)
        except subprocess.TimeoutExpired:
            raise OSError(f"it did not end within {self.place.timeout:g} s") from None
        if done.returncode:
            raise OSError(f"its status is {done.returncode}")
        return done.stdout

    def read(self) -> float:
        """What it prints. Raises NoReading."""
        try:
            return number_in(self._ran(list(self.place.command)), self.place.pointer)
        except (OSError, NoReading) as error:
            raise NoReading(f"{self.place.command[0]}: {error}") from None

    def write(self, number: float) -> None:
        """Runs it with the number. Raises NotWritten."""
        try:
            self._ran([text_with(word, number) for word in self.place.command])
        except OSError as error:
            raise NotWritten(f"{self.place.command[0]}: {error}") from None

    def close(self) -> None:
        """It has ended."""


@dataclass(frozen=True, kw_only=True)
class CsvPlace(Place):
    """A table, to try without a device. The rows hold for `seconds` each, again from the first behind the last.

    To write, a line with the seconds since the start and the number is appended.
    """

    file: str
    column: str = ""
    seconds: float = 60.0

    def __post_init__(self) -> None:
        """Raises BadSettings."""
        super().__post_init__()
        if not 0 < self.seconds < math.inf:
            raise BadSettings(f"a row holds for {self.seconds} seconds: give more than 0")


class Csv:
    """A value in a table."""

    def __init__(self, place: CsvPlace) -> None:
        """Takes the place. Nothing is read yet."""
        self.place = place
        self._begun = time.monotonic()

    def read(self) -> float:
        """What the row of now has. Raises NoReading."""
        place = self.place
        try:
            with open(place.file, newline="") as file:
                cells = [row[place.column] for row in csv.DictReader(file)]
            return float(cells[int((time.monotonic() - self._begun) // place.seconds) % len(cells)])
        except (OSError, KeyError, ValueError, TypeError, ZeroDivisionError) as error:
            raise NoReading(f"{place.file}, column {place.column}: {error!r}") from None

    def write(self, number: float) -> None:
        """Appends the number. Raises NotWritten."""
        try:
            with Path(self.place.file).open("a") as file:
                file.write(f"{time.monotonic() - self._begun:.1f},{number}\n")
        except OSError as error:
            raise NotWritten(f"{self.place.file}: {error.strerror}") from None

    def close(self) -> None:
        """It is closed."""
