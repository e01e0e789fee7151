"""The file of tokens: a line an agent, `AGENT CHILD SHA256-OF-TOKEN`. A blank line, or one that begins with #, does not count.

A token is drawn from 256 random bits. The file has its SHA-256 alone, from which nobody gets it back. Only its owner can read it, who
is the owner of its folder: so a hub that runs as a user of its own can read a file in its own folder, whoever draws the tokens. A
credential of the unit would be a copy from its start, and each new agent would need a new start.
"""

from __future__ import annotations

import fcntl
import hashlib
import hmac
import os
import re
import secrets
import time
from collections import deque
from collections.abc import Callable, Iterator, Mapping
from contextlib import contextmanager
from dataclasses import dataclass
from pathlib import Path

from ..live.node.node_errors import BadSettings
from ..live.messages.frames import CHILDREN
from ..live.messages.topics import require_name

_CHILD = re.compile(r"[1-9][0-9]{0,2}")
_HASH = re.compile(r"[0-9a-f]{64}")
TOKEN_BYTES = 32
# The most failed logins of one address within so many seconds, and the most addresses that are remembered.
FAILED, WITHIN, ADDRESSES = 8, 1.0, 4_096


@dataclass(frozen=True)
class Entry:
    """An agent that may log in: its name, its child number at the auctioneer, and the SHA-256 of its token in hexadecimal."""

    agent: str
    child: int
    hash: str

    def takes(self, token: str) -> bool:
        """Whether this is the agent's token. It takes the same time for each wrong one."""
        return hmac.compare_digest(hash_of(token), self.hash)

    def to_line(self) -> str:
        """The entry as a line of the file."""
        return f"{self.agent} {self.child} {self.hash}\n"


Entries = Mapping[str, Entry]


def hash_of(token: str) -> str:
    """The SHA-256 of a token, in hexadecimal. A token that is no text of Unicode has one too."""
    return hashlib.sha256(token.encode(errors="surrogatepass")).hexdigest()


def entries_of(text: str, name: str) -> dict[str, Entry]:
    """The entries of a file of this name, by agent. Raises BadSettings, which names the line."""
    found: dict[str, Entry] = {}
    children: dict[int, str] = {}
    for number, line in enumerate(text.splitlines(), 1):
        words = line.split()
        if not words or words[0].startswith("#"):
            continue
        where = f"{name} line {number}"
        if len(words) != 3:
            raise BadSettings(f"{where} has {len(words)} words: write AGENT CHILD SHA256-OF-TOKEN")
        require_name(words[0], f"{where}: the agent")
        child = child_of(words[1], where)
        if not _HASH.fullmatch(words[2]):
            raise BadSettings(f"{where}: the last word is no SHA-256, which has 64 hexadecimal digits: use --new-token")
        if words[0] in found:
            raise BadSettings(f"{where}: {words[0]} has a line already: take one out")
        if child in children:
            raise BadSettings(f"{where}: child {child} is {children[child]}'s already: give another number")
        found[words[0]] = Entry(words[0], child, words[2])
        children[child] = words[0]
    return found


def child_of(text: str, where: str) -> int:
    """The child number that a text is. Raises BadSettings."""
    if not _CHILD.fullmatch(text) or int(text) > CHILDREN:
        raise BadSettings(f"{where}: the child is {text!r}: give 1 to {CHILDREN}")
    return int(text)


class TokenFile:
    """The file of tokens, which is read again when it changes."""

    def __init__(self, path: str | os.PathLike[str]) -> None:
        """Takes the path. Nothing is read yet."""
        self.path = Path(path)
        self._mark: tuple[int, ...] | None = None

    def changed(self) -> dict[str, Entry] | None:
        """The entries if the file is another than at the last call, else None. Raises BadSettings and OSError."""
        found = os.stat(self.path)
        mark = (found.st_ino, found.st_size, found.st_mtime_ns)
        if mark == self._mark:
            return None
        # What is wrong is told once, and not again until the file changes.
        self._mark = mark
        return self.read()

    def read(self) -> dict[str, Entry]:
        """The entries now. Raises BadSettings and OSError."""
        try:
            return entries_of(self.path.read_text(), str(self.path))
        except UnicodeDecodeError:
            raise BadSettings(f"{self.path} is no text") from None

    def add(self, agent: str, child: int) -> str:
        """Draws a token for an agent. See `draw`."""
        return self.draw({agent: child})[agent]

    def draw(self, children: Mapping[str, int], keep: Callable[[Mapping[str, str]], object] | None = None) -> dict[str, str]:
        """Draws a token for each of these agents, and writes its line: a new one, or in place of its own. Gives the tokens by agent.

        children: the child number of each
        keep:     is called with the tokens before they count; if it raises, none does

        Raises BadSettings if a child number is another agent's, or an agent has another number, and OSError.
        """
        tokens = {child: secrets.token_urlsafe(TOKEN_BYTES) for child in children}
        with self._alone():
            text = self.path.read_text() if self.path.exists() else ""
            entries = entries_of(text, str(self.path))
            numbers = {entry.child: entry.agent for entry in entries.values()}
            for agent, child in children.items():
                before = entries.get(agent)
                if before is not None and before.child != child:
                    raise BadSettings(f"{agent} is child {before.child} in {self.path}: give that number")
                if numbers.setdefault(child, agent) != agent:
                    raise BadSettings(f"child {child} is {numbers[child]}'s in {self.path}: give another number")
            if keep is not None:
                keep(tokens)
            self._replace(_with_lines(text, {child_name: Entry(child_name, child, hash_of(tokens[child_name])) for child_name, child in children.items()}))
        return tokens

    @contextmanager
    def _alone(self) -> Iterator[None]:
        """Lets one process alone write the file, in a folder that is made if it is missing."""
        self.path.parent.mkdir(mode=0o700, parents=True, exist_ok=True)
        folder = os.open(self.path.parent, os.O_RDONLY | os.O_DIRECTORY)
        try:
            fcntl.flock(folder, fcntl.LOCK_EX)
            yield
        finally:
            os.close(folder)

    def _replace(self, text: str) -> None:
        """Replaces the file as a whole, and safely. It keeps its owner and its rights; a new one has those of its folder's owner alone."""
        fresh = self.path.with_name(f"{self.path.name}.fresh")
        is_new = not self.path.exists()
        found = os.stat(self.path.parent if is_new else self.path)
        fresh.unlink(missing_ok=True)
        with open(os.open(fresh, os.O_WRONLY | os.O_CREAT | os.O_EXCL | os.O_CLOEXEC, 0o600), "w") as file:
            if not is_new or os.geteuid() == 0:
                os.fchown(file.fileno(), found.st_uid, found.st_gid)
            os.fchmod(file.fileno(), 0o600 if is_new else found.st_mode & 0o777)
            file.write(text)
            file.flush()
            os.fsync(file.fileno())
        os.replace(fresh, self.path)
        folder = os.open(self.path.parent, os.O_RDONLY | os.O_DIRECTORY)
        try:
            os.fsync(folder)
        finally:
            os.close(folder)


def _with_lines(text: str, entries: Entries) -> str:
    """The text of a file with the line of each of these agents: in place of its own, or behind all others."""
    left = dict(entries)
    lines = []
    for line in text.splitlines():
        entry = left.pop(line.split()[0], None) if line.split() else None
        lines.append(line if entry is None else entry.to_line().rstrip("\n"))
    lines += [entry.to_line().rstrip("\n") for entry in left.values()]
    return "".join(f"{line}\n" for line in lines)


def children_in(text: str, name: str) -> dict[str, int]:
    """The child number of each agent that a text names, a line an agent: AGENT CHILD. Raises BadSettings, which names the line."""
    found: dict[str, int] = {}
    for number, line in enumerate(text.splitlines(), 1):
        words = line.split()
        if not words or words[0].startswith("#"):
            continue
        where = f"{name} line {number}"
        if len(words) != 2:
            raise BadSettings(f"{where} has {len(words)} words: write AGENT CHILD")
        if require_name(words[0], f"{where}: the agent") in found:
            raise BadSettings(f"{where}: {words[0]} has a line already: take one out")
        found[words[0]] = child_of(words[1], where)
    return found


def write_token(folder: Path, agent: str, token: str) -> Path:
    """Writes an agent's token into a folder as AGENT.token, which its owner alone can read. Gives the path. Raises OSError."""
    folder.mkdir(mode=0o700, parents=True, exist_ok=True)
    path = folder / f"{agent}.token"
    fresh = folder / f"{agent}.token.fresh"
    fresh.unlink(missing_ok=True)
    with open(os.open(fresh, os.O_WRONLY | os.O_CREAT | os.O_EXCL | os.O_CLOEXEC, 0o600), "w") as file:
        file.write(f"{token}\n")
    os.replace(fresh, path)
    return path


class FailedLogins:
    """How many logins of each address failed a short while ago. Times are seconds of a clock that only rises."""

    def __init__(self) -> None:
        """Remembers none yet."""
        self._times: dict[str, deque[float]] = {}

    def note(self, address: str, now: float | None = None) -> None:
        """Notes a failed login of an address."""
        moment = time.monotonic() if now is None else now
        self._times.setdefault(address, deque(maxlen=FAILED)).append(moment)
        if len(self._times) > ADDRESSES:
            self._times = {address: times for address, times in self._times.items() if times[-1] > moment - WITHIN}

    def are_too_many(self, address: str, now: float | None = None) -> bool:
        """Whether no further login of this address is looked at now."""
        moment = time.monotonic() if now is None else now
        times = self._times.get(address, deque())
        return len(times) == FAILED and times[0] > moment - WITHIN
