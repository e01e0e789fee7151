"""What a node records: each frame that its service was fed or wrote, in files of JSON lines. docs/JUDGE.md has the lines.

Lines of JSON take twice the bytes of frames, and an auditor reads them without our programs. The prices of a clearing are one line: a line
each took five times as long, and twice the bytes.

A line is written before what it tells of is done, by one write, so that a killed process leaves whole lines and at most a part of
the last. All lines are safe on disk before a Resume is stored: a recording holds all that a stored Resume stands on. A file that has
ended is compressed in a thread of its own.
"""

from __future__ import annotations

import json
import os
from collections.abc import Sequence
from datetime import datetime, timezone
from pathlib import Path

from .compressing import ENDING, compress_later
from ..messages.frames import Frame
from .node_settings import Settings
from .store import Stored

SUFFIX = ".frames"
START, IN, OUT, STORED, END = "start", "in", "out", "stored", "end"


def numbered_files(folder: Path, node: str) -> list[tuple[int, Path]]:
    """The files of a node in a folder, each with its number, in the order of the numbers. A number may have two: one is compressed."""
    found = []
    for path in folder.glob(f"{node}.*{SUFFIX}*"):
        below = path.name.removesuffix(ENDING).split(".")
        if len(below) == 4 and below[2].isdecimal() and f".{below[3]}" == SUFFIX:
            found.append((int(below[2]), path))
    return sorted(found)


class Recording:
    """The recording of one node, of this process. Without a folder in the settings nothing is recorded.

    Each call raises OSError if a line cannot be written or made safe, and then the node has to end. Behind that no call writes.
    """

    def __init__(self, settings: Settings) -> None:
        """Takes the settings of the node. The first line of a session begins a file."""
        self._settings = settings
        self._folder = None if settings.record is None else Path(settings.record)
        self._file: int | None = None
        self._session = ""
        self._size = 0
        self._lives = self._is_broken = False

    # What the node does.

    def starts(self, stored: Stored) -> None:
        """Records that the service starts from what is stored."""
        settings, session = self._settings, stored.session
        if session.id != self._session:
            self.close()
            self._session = session.id
        self._lives = True
        self._write(
            START,
            node=settings.name,
            sort=settings.sort,
            arguments=settings.command[1:],
            parent=settings.parent,
            child=settings.child,
            min=settings.basis.min,
            max=settings.basis.max,
            steps=settings.basis.steps,
            session=session.id,
            begun=session.begun,
            resume=stored.frame.hex() or None,
        )

    def fed(self, data: bytes) -> None:
        """Records a frame that is fed to the service now."""
        self._write(IN, frame=data.hex())

    def wrote(self, frames: Sequence[Frame]) -> None:
        """Records frames of the service that are handled now, one behind the other. Several are one line."""
        if self._folder is None:
            return
        told = [frame.to_bytes().hex() for frame in frames]
        if len(told) == 1:
            self._write(OUT, frame=told[0])
        else:
            self._write(OUT, frames=told)

    def make_safe(self) -> None:
        """Waits until all lines are safe on disk."""
        if self._file is not None and not self._is_broken:
            self._is_broken = True
            os.fsync(self._file)
            self._is_broken = False

    def stored(self) -> None:
        """Records that the Resume of the newest frame is safe on disk."""
        self._write(STORED)

    def ends(self, why: str) -> None:
        """Records that the service has ended, if it had started."""
        if self._lives:
            self._lives = False
            self._write(END, why=why)

    def close(self) -> None:
        """Ends the file. The next line begins another, and then all before it are compressed."""
        try:
            self.make_safe()
        finally:
            file, self._file = self._file, None
            if file is not None:
                os.close(file)

    # Files.

    def _write(self, what: str, **members: object) -> None:
        if self._folder is None or self._is_broken:
            return
        at = datetime.now(timezone.utc).isoformat(timespec="microseconds").replace("+00:00", "Z")
        line = json.dumps({"at": at, "what": what, **members}).encode() + b"\n"
        if self._file is not None and self._size + len(line) > self._settings.record_size:
            self.close()
        # A write that fails may leave a part of a line, and nothing may come behind it.
        self._is_broken = True
        if self._file is None:
            self._open(self._folder)
        assert self._file is not None
        rest = line
        while rest:
            rest = rest[os.write(self._file, rest) :]
        self._size += len(line)
        self._is_broken = False

    def _open(self, folder: Path) -> None:
        """Begins the next file, and removes the oldest if there are more than are to be kept."""
        folder.mkdir(mode=0o700, parents=True, exist_ok=True)
        files = numbered_files(folder, self._settings.name)
        number = files[-1][0] + 1 if files else 1
        path = folder / f"{self._settings.name}.{self._session}.{number:06}{SUFFIX}"
        self._file = os.open(path, os.O_WRONLY | os.O_CREAT | os.O_EXCL | os.O_APPEND | os.O_CLOEXEC, 0o600)
        self._size = 0
        kept = self._settings.record_files
        numbers = sorted({file for file, _ in files})
        dropped = [] if kept is None else numbers[: max(0, len(numbers) + 1 - kept)]
        for file, old in files:
            if file in dropped:
                old.unlink(missing_ok=True)
            elif old.suffix != ENDING:
                compress_later(old)
        opened = os.open(folder, os.O_RDONLY | os.O_DIRECTORY)
        try:
            os.fsync(opened)
        finally:
            os.close(opened)
