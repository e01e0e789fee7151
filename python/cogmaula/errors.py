"""What can go wrong in a call on the proved program, each cause an exception of its own."""

from __future__ import annotations

import sys
from dataclasses import dataclass
from typing import Literal

from .refusals import WORDS

What = Literal["document", "basis", "node", "phase", "event", "line", "frame"]


class MarketError(Exception):
    """The base of all errors of this package."""


class NoProgram(MarketError):
    """No proved program is at hand. The message says where it was looked for, and what to do."""


class NoPackage(MarketError):
    """A call needs a Python package that is not installed. The message names it, and Debian's package of it."""

    @classmethod
    def lacking(cls, need: str, debian: str) -> NoPackage:
        """The error that the Python that runs this lacks a package. `need` names the package, and `debian` is Debian's."""
        return cls(f"{need}, which {sys.executable} does not have. Debian's {debian} is for /usr/bin/python3")


class Unreadable(MarketError):
    """A text is no cluster file that a `Cluster` can hold. `explain` says more of such a file."""

    def __init__(self, path: str, why: str) -> None:
        super().__init__(f"{path}: {why}" if path else why)
        self.path = path
        self.why = why

    def __reduce__(self) -> tuple[type[Unreadable], tuple[str, str]]:
        return type(self), (self.path, self.why)


@dataclass(frozen=True)
class Place:
    """Where a refused input is wrong, as the program tells it. All numbers count from 1.

    `numbers` has the node's number, the phase's, the phase's and the event's, or the line's. It is empty for the document and
    the basis. Of a frame of `serve` it has the offset, in bytes from 0.
    """

    what: What
    numbers: tuple[int, ...] = ()

    def __str__(self) -> str:
        return " ".join([self.what, *map(str, self.numbers)])

    @property
    def path(self) -> str:
        """The place as a path into the file, such as `nodes[1]` or `phases[0].events[2]`: these count from 0."""
        below = [number - 1 for number in self.numbers]
        match self.what:
            case "basis":
                return "basis"
            case "node":
                return f"nodes[{below[0]}]"
            case "phase":
                return f"phases[{below[0]}]"
            case "event":
                return f"phases[{below[0]}].events[{below[1]}]"
            case _:
                return ""


class Refused(MarketError):
    """The program refused the input (status 5). The message has its answer, what the code means, and what to do.

    `answer` is the program's line: `refused CODE PLACE`, with the item of a bid behind it for codes 17 and 18.
    """

    def __init__(self, code: int, place: Place, item: int | None = None) -> None:
        self.answer = f"refused {code} {place}" + ("" if item is None else f" item {item}")
        super().__init__(": ".join([self.answer, *("; ".join(words) for words in [WORDS.get(code)] if words)]))
        self.code = code
        self.place = place
        self.item = item

    def __reduce__(self) -> tuple[type[Refused], tuple[int, Place, int | None]]:
        return type(self), (self.code, self.place, self.item)


class TooLong(MarketError):
    """The input is longer than the command takes (status 4). `limit` is the most bytes that it takes."""

    def __init__(self, limit: int) -> None:
        super().__init__(f"the input is too long: the command takes at most {limit} bytes")
        self.limit = limit

    def __reduce__(self) -> tuple[type[TooLong], tuple[int]]:
        return type(self), (self.limit,)


class Invalid(MarketError):
    """A trace is none of a run of its cluster file (status 1 of `check`). `line` counts from 1 behind the file."""

    def __init__(self, line: int) -> None:
        super().__init__(f"the trace is not one of this file: its line {line} is wrong, unterminated or missing")
        self.line = line

    def __reduce__(self) -> tuple[type[Invalid], tuple[int]]:
        return type(self), (self.line,)


class OutOfMemory(MarketError):
    """An allocation of the program failed (status 7): nothing was written."""


class ProgramFault(MarketError):
    """The program ended in a way that no call of this package gives cause for, such as by a signal."""
