"""Reads the recordings of a folder: which nodes and sessions are there, in which files, and line by line what was done.

A file is read as it is judged, so its length does not matter. One whose name ends with .gz is compressed. docs/JUDGE.md has the lines.
"""

from __future__ import annotations

import gzip
import json
import os
import re
import zlib
from collections.abc import Generator, Iterator
from dataclasses import dataclass, field, replace
from pathlib import Path
from typing import Any

from ..cluster import Basis
from ..live.node.compressing import ENDING
from ..live.node.node_errors import BadMessage
from ..live.messages.frames import SORTS, Sort
from ..live.node.recording import END, IN, OUT, START, STORED, SUFFIX
from ..live.node.sessions import Session
from .recording_faults import Fault, Faulty, NoRecording

_NAME = re.compile(r"([A-Za-z0-9_-]{1,64})\.([0-9a-f]{16})\.([0-9]{6,})\.frames(\.gz)?")
_HEX = re.compile(r"(?:[0-9a-f]{2})+")
# The members of an `out` of several frames, and of each other line, behind `at` and `what` in their order.
SEVERAL = ["frames"]
MEMBERS: dict[str, list[str]] = {
    START: ["node", "sort", "arguments", "parent", "child", "min", "max", "steps", "session", "begun", "resume"],
    IN: ["frame"],
    OUT: ["frame"],
    STORED: [],
    END: ["why"],
}


@dataclass(frozen=True)
class Start:
    """What a service was started with: its arguments behind the program's name, and its Resume, empty without one."""

    node: str
    sort: Sort
    arguments: tuple[str, ...]
    parent: str | None
    child: int | None
    basis: Basis
    session: Session
    resume: bytes

    @property
    def giver(self) -> int:
        """The place among a relay's own children in which its limits are given, 0 if there is none."""
        given = self.arguments[4:5] if self.sort == "relay" else ()
        return int(given[0]) if given and given[0].isdecimal() else 0


@dataclass(frozen=True, slots=True)
class Event:
    """A line, or a frame of one: where it is, what it tells, and the frame of an `in` or `out`, or what a `start` says.

    is_late: of a start, whether what was before it is not there
    """

    file: str
    line: int
    what: str
    frame: bytes = b""
    start: Start | None = None
    is_late: bool = False


@dataclass
class Recorded:
    """The recording of one node in one session.

    gaps:    the numbers of the files in front of which one is not there
    lacking: in words, what of it is not there, "" if it is whole
    begin:   its first start, None if there is none
    """

    node: str
    session: str
    files: list[tuple[int, Path]] = field(default_factory=list)
    gaps: set[int] = field(default_factory=set)
    lacking: str = ""
    begin: Event | None = None

    @property
    def first(self) -> Start | None:
        """What its service was started with first."""
        return None if self.begin is None else self.begin.start

    def fault(self, event: Event, why: str) -> Faulty:
        """The error that a line is wrong."""
        return Faulty(Fault(self.node, event.file, event.line, why))

    def events(self) -> Generator[Event, None, None]:
        """What the lines tell. Behind a file that is not there they are left out, up to the next start.

        Raises Faulty at a line that is none, and OSError.
        """
        has_begun = is_lost = False
        torn: Event | None = None
        for number, path in self.files:
            if number in self.gaps:
                is_lost, torn = True, None
            for event in self._events_in(path):
                if event.what == "":
                    torn = event
                elif event.start is not None:
                    is_late = is_lost or (not has_begun and event.start.resume != b"")
                    has_begun, is_lost, torn = True, False, None
                    yield replace(event, is_late=is_late)
                elif torn is not None:
                    raise self.fault(torn, "the line has no end, and the life of the service goes on behind it")
                elif not is_lost and not has_begun:
                    raise self.fault(event, "a recording begins with a start, and this is none")
                elif not is_lost:
                    yield event

    def _events_in(self, path: Path) -> Iterator[Event]:
        """What the lines of a file tell. A part of a line at its end is an event without a word."""
        for number, line in self._lines_in(path):
            if not line.endswith(b"\n"):
                yield Event(path.name, number, "")
                return
            events = events_of(line, path.name, number)
            if not events:
                raise self.fault(Event(path.name, number, ""), "it is no line of a recording")
            for event in events:
                if event.start is not None and (event.start.node, event.start.session.id) != (self.node, self.session):
                    raise self.fault(event, "it is of another node or session than its file's name says")
                yield event

    def _lines_in(self, path: Path) -> Iterator[tuple[int, bytes]]:
        """The lines of a file, each with its number. Raises Faulty if what is compressed is damaged, and OSError."""
        number = 0
        try:
            with gzip.open(path, "rb") if path.suffix == ENDING else open(path, "rb") as lines:
                for number, line in enumerate(lines, 1):
                    yield number, line
        except (gzip.BadGzipFile, EOFError, zlib.error) as error:
            raise self.fault(Event(path.name, number + 1, ""), f"the compressed file is damaged from here on: {error}") from None


def events_of(line: bytes, file: str, number: int) -> list[Event]:
    """What a line tells, one behind the other; nothing if it is no line of a recording."""
    try:
        told = json.loads(line)
    except (ValueError, RecursionError):
        return []
    if not isinstance(told, dict) or list(told)[:2] != ["at", "what"]:
        return []
    what, members = told["what"], list(told)[2:]
    if not isinstance(what, str) or not isinstance(told["at"], str) or (members != MEMBERS.get(what) and (what, members) != (OUT, SEVERAL)):
        return []
    if what in (IN, OUT):
        several = told["frames"] if members == SEVERAL else [told["frame"]]
        found = [_bytes_of(text) for text in several] if isinstance(several, list) else [None]
        return [Event(file, number, what, data) for data in found if data is not None] if None not in found else []
    if what == START:
        start = _start_of(told)
        return [] if start is None else [Event(file, number, what, start=start)]
    return [Event(file, number, what)]


def _bytes_of(text: object) -> bytes | None:
    return bytes.fromhex(text) if isinstance(text, str) and _HEX.fullmatch(text) else None


def _start_of(told: dict[str, Any]) -> Start | None:
    """What a line of a start says, None if a member is of another form."""
    resume = b"" if told["resume"] is None else _bytes_of(told["resume"])
    arguments = told["arguments"]
    is_right = (
        resume is not None
        and told["sort"] in SORTS
        and isinstance(arguments, list)
        and all(isinstance(text, str) for text in [told["node"], told["session"], told["begun"], *arguments])
        and all(type(told[word]) is int for word in ("min", "max", "steps"))
        and (isinstance(told["parent"], str) and type(told["child"]) is int or told["parent"] is told["child"] is None)
    )
    if not is_right or resume is None:
        return None
    try:
        session = Session(told["session"], told["begun"])
    except BadMessage:
        return None
    basis = Basis(told["min"], told["max"], told["steps"])
    return Start(told["node"], told["sort"], tuple(arguments), told["parent"], told["child"], basis, session, resume)


def recordings_in(folder: str | os.PathLike[str]) -> list[Recorded]:
    """The recordings of a folder, by session and node.

    Raises NoRecording if there is none, Faulty if one has no right beginning, and OSError.
    """
    if not Path(folder).is_dir():
        raise NoRecording(f"{folder} is no folder: give the one that has the recordings of all nodes")
    found: dict[tuple[str, str], Recorded] = {}
    numbers: dict[str, list[int]] = {}
    seen: set[str] = set()
    # Of a file that is there twice the one that is not compressed counts, which is first.
    for path in sorted(Path(folder).iterdir()):
        name = _NAME.fullmatch(path.name)
        if name:
            one = found.setdefault((name[2], name[1]), Recorded(name[1], name[2]))
            if path.name.removesuffix(ENDING) in seen:
                continue
            seen.add(path.name)
            one.files.append((int(name[3]), path))
            numbers.setdefault(name[1], []).append(int(name[3]))
    if not found:
        raise NoRecording(f"{folder} has no recording, which is a file NODE.SESSION.NUMBER{SUFFIX}")
    for one in found.values():
        one.files.sort()
        there = {0, *numbers[one.node]}
        one.gaps = {number for number, _ in one.files if number - 1 not in there}
        one.begin = next(one.events(), None)
        one.lacking = _lacking(one)
    return [found[order] for order in sorted(found)]


def _lacking(one: Recorded) -> str:
    """What of a recording is not there, in words, "" if it is whole."""
    if one.gaps:
        return f"its file {min(one.gaps) - 1:06} is not there"
    if one.begin is None:
        return "no service was started"
    return "it begins with a Resume, so the begin of the session is not there" if one.begin.is_late else ""
