"""The bids of a parent's children on its own disk: those of its newest sum, so that a restart needs no child to tell its bid again.

There is one file for each session. A line is a checksum and the JSON of one bid; of a child the last line counts. New lines go to the
end of the file, and are safe on disk before the Resume that has their numbers is stored. A line that a crash cut off ends the file.
"""

from __future__ import annotations

import hashlib
import json
import os
from collections.abc import Mapping

from .children import Heard
from ..node.node_errors import BadFrame
from ..messages.frames import BIDS, Bid, Gone, frame_of
from ..node.safely import Folder, with_path
from ..node.sessions import Session

SUFFIX = ".bids"
# A file is written anew once it has so many lines more than twice its children.
SPARE = 512


class BidLog:
    """The file of one session. Each call raises OSError if the disk does not take what is due, and then the node has to end."""

    def __init__(self, folder: Folder, steps: int) -> None:
        """Takes the folder of the node's Resume, and the steps of the market."""
        self._folder = folder
        self._steps = steps
        # The name of the session's file, "" before a session.
        self._name = ""
        self._file: int | None = None
        self._lines = 0
        # What the file has of each child.
        self._written: dict[int, Heard] = {}

    def begin(self, session: Session) -> list[Heard]:
        """Goes by the file of a session, and gives the bid that it has of each child."""
        self.close()
        self._name = f"{session.id}{SUFFIX}"
        self._written = {}
        data = self._folder.read(self._name)
        if data is not None:
            for line in data.splitlines(keepends=True):
                heard = self._read(line)
                if heard is None:
                    break
                self._written[heard.frame.child] = heard
            self._write_anew()
        return [self._written[child] for child in sorted(self._written)]

    def make_safe(self, bids: Mapping[int, Heard]) -> None:
        """Adds those of these bids that are not in the file, and returns once they are safe on disk."""
        written = self._written
        # Nearly all are those that were added before, and to see that takes no look into them.
        fresh = {child: bid for child, bid in bids.items() if (known := written.get(child)) is not bid and known != bid}
        if not fresh or not self._name:
            return
        self._written |= fresh
        if self._file is None or self._lines + len(fresh) > 2 * len(self._written) + SPARE:
            self._write_anew()
            return
        with with_path(self._folder.path / self._name):
            rest = b"".join(map(_line_of, fresh.values()))
            while rest:
                rest = rest[os.write(self._file, rest) :]
            os.fdatasync(self._file)
        self._lines += len(fresh)

    def close(self) -> None:
        """Lets go of the file."""
        file, self._file, self._name = self._file, None, ""
        if file is not None:
            os.close(file)

    def _write_anew(self) -> None:
        """Replaces the file by one with a line for each child, and opens it for more."""
        if self._file is not None:
            os.close(self._file)
            self._file = None
        self._folder.replace(self._name, b"".join(map(_line_of, self._written.values())))
        self._file = self._folder.open(self._name, os.O_WRONLY | os.O_APPEND)
        self._lines = len(self._written)

    def _read(self, line: bytes) -> Heard | None:
        """The bid of a line, None if it is cut off or damaged."""
        checksum, _, behind = line.partition(b" ")
        if not line.endswith(b"\n") or checksum != _checksum_of(behind[:-1]):
            return None
        try:
            told = json.loads(behind)
            frame = frame_of(bytes.fromhex(told["frame"]), BIDS, self._steps)
            assert isinstance(frame, Bid | Gone)
            return Heard(frame, str(told["sort"]), str(told["node"]), float(told["valid"]))
        except (BadFrame, ValueError, KeyError, TypeError):
            return None


def _checksum_of(text: bytes) -> bytes:
    return hashlib.sha256(text).hexdigest().encode()


def _line_of(heard: Heard) -> bytes:
    told = {"sort": heard.sort, "node": heard.node, "valid": heard.valid, "frame": heard.frame.to_bytes().hex()}
    text = json.dumps(told).encode()
    return _checksum_of(text) + b" " + text + b"\n"
