"""A node's Resume on disk: one file for each session of the auctioneer, replaced as a whole, checked when it is read.

A file has a line that says what it is, the SHA-256 of that and of all behind it, a line of JSON, and the bytes of the Resume or ResumeGone.
The JSON has

- of each node its name, its sort, the session and the basis of the Resume, when it was stored, and the frame's length in bytes;
- of a device the newest setpoint, the references of its offers, and until when the newest offer holds;
- of a parent which children are relays, which were let go, and the limits that it was given last;
- of a relay the Bid of its Resume's last number: the two are of one write.

Beside these files is the count of the node's starts.
"""

from __future__ import annotations

import fcntl
import hashlib
import json
import os
import time
from collections.abc import Mapping
from dataclasses import dataclass, field
from pathlib import Path

from ...cluster import Basis
from .node_errors import BadMessage, BadStore
from ..messages.frames import Sort
from ..messages.messages import VERSION, SetpointMessage
from .safely import Folder
from .sessions import Session, time_of

# The first line of a file, by the version of the form that its Resume has.
FIRST_LINES = {version: f"cogmaula resume {version}".encode() for version in range(1, VERSION + 1)}
SUFFIX = ".resume"
# The digits of a count of starts, at most.
LONGEST_COUNT = 16


@dataclass(frozen=True)
class Given:
    """Limits that a relay was given.

    number:    theirs: 2, 4, 6, .. in a session, each given once
    floor:     in watts, and `ceiling`
    until:     until when they hold (RFC 3339), None without an end
    reference: a word of the one who gave them, None without one
    """

    number: int
    floor: int
    ceiling: int
    until: str | None = None
    reference: str | None = None


@dataclass(frozen=True)
class Stored:
    """A Resume that was read.

    frame:    the bytes of the Resume or ResumeGone, empty if the node has given none in this session
    time:     when it was stored (RFC 3339, UTC)
    setpoint: the newest setpoint of a device, without until when it holds, None without one
    references: the control's own number of each offer that a setpoint may still answer, by the offer's number
    lapsed:     of a parent, the number under which each child that was let go counts as gone
    relays:     of a parent, the children that are relays
    given:      of a relay, the limits that it was given last, None if it was given none in this session
    offer:      of a device, the digest of the newest offer at its topic, "" without one
    until:      of a device, until when its newest offer holds (RFC 3339), "" without an end
    bid:        of a relay, the bytes of the Bid of the Resume's last number, b"" if an earlier version stored the Resume
    before:     of a device, the bytes of the Resume of the offer that counts if the newest is refused, b"" without one
    version:    of the form of the Resume
    """

    session: Session
    basis: Basis
    frame: bytes
    time: str
    setpoint: SetpointMessage | None = None
    references: Mapping[int, int] = field(default_factory=dict)
    lapsed: Mapping[int, int] = field(default_factory=dict)
    relays: tuple[int, ...] = ()
    given: Given | None = None
    offer: str = ""
    until: str = ""
    bid: bytes = b""
    before: bytes = b""
    version: int = VERSION


class Store:
    """The folder of one node's Resumes. One process alone has it at a time."""

    def __init__(self, folder: str | os.PathLike[str], node: str, sort: Sort) -> None:
        """Makes the folder if it is missing, and takes it. Raises BadStore if another process has it or others may enter it, and OSError."""
        self.folder = Path(folder)
        self.files = Folder(folder)
        self.node = node
        self.sort = sort
        # How often something was made safe, and the seconds that this took in all.
        self.saves, self.seconds = 0, 0.0
        try:
            self._lock = self.files.open("lock", os.O_RDWR | os.O_CREAT)
        except (BadStore, OSError):
            self.files.close()
            raise
        try:
            fcntl.flock(self._lock, fcntl.LOCK_EX | fcntl.LOCK_NB)
        except OSError:
            self.close()
            raise BadStore(f"{self.folder} is in use by another process: end it first, since a node runs once") from None

    def close(self) -> None:
        """Lets go of the folder."""
        os.close(self._lock)
        self.files.close()

    def path(self, session: Session) -> Path:
        """The file of a session."""
        return self.folder / _name_of(session)

    def save(self, stored: Stored) -> None:
        """Replaces the session's file, safely: once this returns, a crash of the machine leaves the new Resume. Raises OSError."""
        began = time.monotonic()
        self.files.replace(_name_of(stored.session), self._bytes_of(stored))
        self.saves += 1
        self.seconds += time.monotonic() - began

    def next_start(self, known: int = 0) -> int:
        """The count of the node's starts from now on, above those that are stored and known elsewhere. It is stored. Raises OSError."""
        text = self.files.read("starts") or b""
        starts = max(known, int(text) if text.isdigit() and len(text) < LONGEST_COUNT else 0) + 1
        self.files.replace("starts", str(starts).encode())
        return starts

    def load(self, session: Session) -> Stored | None:
        """The Resume of a session, or None if there is no file. Raises BadStore if it is damaged, and OSError."""
        return self._read(_name_of(session))

    def newest(self) -> Stored | None:
        """The Resume of the newest session, or None if there is no file. Raises BadStore and OSError."""
        named = [self._read(name) for name in self.files.names() if name.endswith(SUFFIX)]
        found = [stored for stored in named if stored is not None]
        return max(found, key=lambda stored: stored.session.order) if found else None

    def _bytes_of(self, stored: Stored) -> bytes:
        told = {
            "node": self.node,
            "sort": self.sort,
            "session": stored.session.id,
            "begun": stored.session.begun,
            "min": stored.basis.min,
            "max": stored.basis.max,
            "steps": stored.basis.steps,
            "time": stored.time,
            "length": len(stored.frame),
            "setpoint": "" if stored.setpoint is None else stored.setpoint.to_bytes().decode(),
            "references": dict(stored.references),
            "lapsed": dict(stored.lapsed),
            "relays": stored.relays,
            "given": None if stored.given is None else vars(stored.given),
            "offer": stored.offer,
            "until": stored.until,
            "bid": stored.bid.hex(),
            "before": stored.before.hex(),
        }
        behind = json.dumps(told).encode() + b"\n" + stored.frame
        first = FIRST_LINES[VERSION] + b"\n"
        return first + hashlib.sha256(first + behind).hexdigest().encode() + b"\n" + behind

    def _read(self, name: str) -> Stored | None:
        path, data = self.folder / name, self.files.read(name)
        if data is None:
            return None
        first, checksum, behind = (data.split(b"\n", 2) + [b"", b""])[:3]
        line, _, frame = behind.partition(b"\n")
        damaged = BadStore(f"{path} is damaged: bring it back as it was, or move it away, and the broker's copy counts")
        version = {line: version for version, line in FIRST_LINES.items()}.get(first)
        # The checksum of earlier versions is of what is behind it alone.
        summed = first + b"\n" + behind if version == VERSION else behind
        if version is None or checksum != hashlib.sha256(summed).hexdigest().encode():
            raise damaged
        try:
            told = json.loads(line)
            session = Session(str(told["session"]), str(told["begun"]))
            basis = Basis(int(told["min"]), int(told["max"]), int(told["steps"]))
            length, node, sort, time = (told[word] for word in ("length", "node", "sort", "time"))
            is_told = version == VERSION and bool(told["setpoint"])
            setpoint = SetpointMessage.of(str(told["setpoint"]).encode()) if is_told else None
            # Files of earlier versions lack some.
            references, lapsed = ({int(number): int(clearing) for number, clearing in told.get(name, {}).items()} for name in ("references", "lapsed"))
            relays = tuple(int(number) for number in told.get("relays", ()))
            given = None if told.get("given") is None else Given(**told["given"])
            offer, until = str(told.get("offer", "")), str(told.get("until", ""))
            if until:
                time_of(until)
            bid, before = (bytes.fromhex(str(told.get(word, ""))) for word in ("bid", "before"))
        except (ValueError, KeyError, IndexError, TypeError, AttributeError, BadMessage):
            raise damaged from None
        if length != len(frame):
            raise damaged
        if (node, sort) != (self.node, self.sort):
            raise BadStore(f"{path} is of the {sort} {node}, and this is the {self.sort} {self.node}: give another folder")
        return Stored(session, basis, frame, str(time), setpoint, references, lapsed, relays, given, offer, until, bid, before, version)


def _name_of(session: Session) -> str:
    """The name of the file of a session."""
    return f"{session.id}{SUFFIX}"
