"""The proved program: where it is found, how it is run, and what its statuses and lines mean.

A `Program` is only ever one that was proved: the installed command, whose installer takes no other, or the program of a
checkout whose stamp says that it was proved from the sources of today, there or by the gate elsewhere. Nothing here can tell
whether a program that is named by a path was proved: who names it has to know. `live_program` finds the program `live` of the nodes.
"""

from __future__ import annotations

import os
import re
import shutil
import subprocess
from collections.abc import Callable
from contextlib import nullcontext
from dataclasses import dataclass, field
from functools import cache
from pathlib import Path
from typing import NoReturn

from . import processors
from .errors import Invalid, MarketError, NoProgram, OutOfMemory, Place, ProgramFault, Refused, TooLong, What

VARIABLE, LIVE_VARIABLE = "COGMAULA_MARKET", "COGMAULA_LIVE"
# Where a checkout has its program: proved here, or prebuilt.
PLACES = ("crates/{0}/out/{0}", "prebuilt/x86_64-linux/{0}")
# The folder of a release's programs in `prebuilt`.
HERE = "x86_64-linux"
REFUSED = re.compile(rb"refused (\d+) (document|basis|node|phase|event|line)((?: \d+)*?)(?: item (\d+))?\n")
TOO_LONG = re.compile(rb"too long, more than (\d+) bytes\n")
INVALID = re.compile(rb"invalid line (\d+)\n")
FAULT_FRAME = 8
# The commands whose threads take turns under one lock, and so take least time on one processor.
TAKING_TURNS = ("run", "trace", "bill", "ask", "check")


@dataclass(frozen=True)
class Program:
    """The proved program `market`.

    path:  the file that is run
    found: in words, where it comes from
    mark:  the file's number, size and time of change when it was found proved; a changed file is not run
    """

    path: str
    found: str
    mark: tuple[int, int, int] = field(repr=False)

    @staticmethod
    def find(path: str | os.PathLike[str] | None = None) -> Program:
        """The proved program, looked for in this order:

        1. `path`, if it is given;
        2. the path in the environment variable COGMAULA_MARKET;
        3. the installed command `market` on the PATH;
        4. the checkout that this package lies in.

        A path is that of the installed command, of a checkout or its script, of the program itself, or of a folder that has it.

        Raises NoProgram if none is proved there.
        """
        named = path if path is not None else os.environ.get(VARIABLE) or None
        if named is not None:
            return _named(Path(named).absolute())
        looked: list[str] = []
        for look in (_on_path, _beside_package):
            try:
                return look()
            except NoProgram as error:
                looked.append(str(error))
        raise NoProgram(
            f"no proved program is at hand: {'; '.join(looked)}. Install market, prove a checkout by ./market prove, "
            f"or name the program by --program or {VARIABLE}"
        )

    def answer(self, command: str, data: bytes, timeout: float | None = None) -> bytes:
        """What the program writes with status 0 for this command with this standard input.

        command: run, trace, bill, free, ask, check or serve
        data:    the whole standard input
        timeout: the seconds after which the program is ended, or None

        Raises Refused, TooLong, Invalid, OutOfMemory or ProgramFault, each by its status, and NoProgram if the file changed.
        """
        with self._started(command, with_faults=True) as running:
            try:
                text, said = running.communicate(data, timeout)
            except subprocess.TimeoutExpired:
                running.kill()
                raise ProgramFault(f"{command} did not end within {timeout} seconds") from None
            except BaseException:
                running.kill()
                raise
        if running.returncode != 0:
            _raise_for(command, running.returncode, text, said)
        return text

    def open(self, command: str) -> subprocess.Popen[bytes]:
        """Starts the program for a command that answers as its input comes, such as serve, with pipes to both.

        Raises NoProgram if the file changed, and ProgramFault if it cannot be started.
        """
        return self._started(command)

    def _started(self, command: str, *, with_faults: bool = False) -> subprocess.Popen[bytes]:
        """The program, started for a command, with pipes to its input and output, and if they are wanted also to its standard error."""
        self._require_same()
        faults = subprocess.PIPE if with_faults else None
        try:
            with processors.on_one() if command in TAKING_TURNS else nullcontext():
                return subprocess.Popen([self.path, command], stdin=subprocess.PIPE, stdout=subprocess.PIPE, stderr=faults)
        except OSError as error:
            raise ProgramFault(f"{self.path} cannot be started: {error.strerror}") from None

    def _require_same(self) -> None:
        if _mark_of(self.path) != self.mark:
            raise NoProgram(f"{self.path} changed since it was found proved: look for it again")


def _raise_for(command: str, status: int, text: bytes, said: bytes) -> NoReturn:
    """Raises the error of a status other than 0."""
    error: MarketError | None = None
    match status:
        case 1 if found := INVALID.fullmatch(text):
            error = Invalid(int(found[1]))
        case 4 if found := TOO_LONG.fullmatch(text):
            error = TooLong(int(found[1]))
        case 5 if command == "serve" and len(text) >= 9 and text[-9] == FAULT_FRAME:
            error = Refused(24, Place("frame", (int.from_bytes(text[-8:], "big"),)))
        case 5 if found := REFUSED.fullmatch(text):
            error = refusal_of(found)
        case 7:
            error = OutOfMemory(f"{command} lacked memory: raise its limit, end other programs, or split the cluster")
    if error is None:
        words = said.decode(errors="replace").strip() or text[:200].decode(errors="replace").strip()
        how = f"was ended by signal {-status}" if status < 0 else f"ended with status {status}"
        error = ProgramFault(f"{command} {how}{': ' if words else ''}{words}")
    raise error


def refusal_of(found: re.Match[bytes]) -> Refused:
    """The refusal that the line of a match of REFUSED tells."""
    what: What = found[2].decode()  # type: ignore[assignment]
    numbers = tuple(map(int, found[3].split()))
    return Refused(int(found[1]), Place(what, numbers), None if found[4] is None else int(found[4]))


def _mark_of(path: str) -> tuple[int, int, int]:
    """The file's number, size and time of change, or zeros where there is none."""
    try:
        told = os.stat(path)
    except OSError:
        return 0, 0, 0
    return told.st_ino, told.st_size, told.st_ctime_ns


def _made(path: Path, found: str) -> Program:
    """The program at this path."""
    if not os.access(path, os.X_OK) or not path.is_file():
        raise NoProgram(f"{path} is no program")
    return Program(str(path), found, _mark_of(str(path)))


def _is_checkout(folder: Path) -> bool:
    """Whether a folder is a checkout of the program's sources."""
    return all((folder / word).is_file() for word in ("market", "crates.txt", "script/program.sh"))


def _checkout_of(path: Path) -> Path | None:
    """The checkout that a path names: itself, its script, or one of its programs; None if it is no checkout's."""
    if _is_checkout(path):
        return path
    real = path.resolve()
    if _is_checkout(real) or (_is_checkout(real.parent) and real.name == "market"):
        return real if _is_checkout(real) else real.parent
    for place in PLACES:
        for name in ("market", "live"):
            inner = Path(place.format(name))
            above = real.parents[len(inner.parts) - 1] if len(real.parts) > len(inner.parts) else None
            if above is not None and real == above / inner and _is_checkout(above):
                return above
    return None


def _named(path: Path) -> Program:
    """The program that a user's path names: a checkout, an installed command, a program, or a folder that has one."""
    if not path.exists():
        raise NoProgram(f"{path} does not exist")
    checkout = _checkout_of(path)
    if checkout is not None:
        return _of_checkout(checkout)
    if path.is_dir():
        for place in (path / "market", path / HERE / "market"):
            if place.is_file():
                return _named(place)
        raise NoProgram(f"{path} is no program: a folder without market, and no checkout")
    real = path.resolve()
    return _installed(real) or _made(real, f"named as {path}")


def _of_checkout(folder: Path, name: str = "market") -> Program:
    """The program of a checkout, which says itself whether it was proved from the sources of today, and where it is."""
    told = subprocess.run([str(folder / "market"), "version", "--porcelain"], capture_output=True, text=True, check=False).stdout
    for line in told.splitlines():
        if line.count("\t") == 3:
            its_name, _, place, words = line.split("\t")
            if its_name == name and place:
                return _made(Path(place), f"the checkout {folder}: {words}")
            if its_name == name:
                raise NoProgram(f"{folder}: {words}")
    raise NoProgram(f"{folder}: its script market does not answer")


def _installed(script: Path) -> Program | None:
    """The program behind an installed command, or None if the file is no such command."""
    try:
        text = script.read_text()
    except (OSError, UnicodeDecodeError):
        return None
    below = re.search(r'^program="\$root(/[^"]+)"$', text, re.M)
    place = re.search(r'^root="\$\{folder%"([^"]+)"\}"$', text, re.M)
    if not below or not place or "installed=yes" not in text:
        return None
    folder = str(script.parent)
    root = folder.removesuffix(place[1])
    return _made(Path(("" if root == folder else root) + below[1]), f"the installed command {script}")


def _on_path() -> Program:
    """The program of the installed command `market` on the PATH."""
    found = shutil.which("market")
    if found is None:
        raise NoProgram("no command market is on the PATH")
    script = Path(found).resolve()
    if _is_checkout(script.parent):
        return _of_checkout(script.parent)
    program = _installed(script)
    if program is None:
        raise NoProgram(f"{found} is no installed market")
    return program


def _beside_package() -> Program:
    """The program of the checkout that this package lies in."""
    folder = Path(__file__).resolve().parents[2]
    if not _is_checkout(folder):
        raise NoProgram("the package lies in no checkout")
    return _of_checkout(folder)


def live_program(program: Program | None = None) -> str:
    """The program `live`, looked for in this order:

    1. the path in the environment variable COGMAULA_LIVE;
    2. `live` on the PATH;
    3. beside this program `market`, or beside that of COGMAULA_MARKET, or beside the installed command;
    4. the checkout that this package lies in.

    A path is that of the program, of a checkout or of a folder that has it. Raises NoProgram, which says where it looked.
    """
    named = os.environ.get(LIVE_VARIABLE)
    if named:
        return live_at(named)
    if found := shutil.which("live"):
        return found
    looked = ["no command live is on the PATH"]
    looks: list[Callable[[], str]] = [_market_named, lambda: _on_path().path, _own_checkout]
    # What answers as a program may have no path.
    if (beside := getattr(program, "path", None)) is not None:
        looks.insert(0, lambda: str(beside))
    for look in looks:
        try:
            return _live_beside(Path(look()))
        except NoProgram as error:
            looked.append(str(error))
    told = "; ".join(dict.fromkeys(looked))
    raise NoProgram(f"no program live is at hand: {told}. Install market, prove it by ./market prove live, or name it by --live or {LIVE_VARIABLE}")


def live_at(path: str) -> str:
    """The program `live` that a path names: the program, a checkout or a folder that has it. Raises NoProgram.

    A path that is no folder is left as it is, since it may be a command on the PATH.
    """
    return _live_beside(Path(path).absolute()) if Path(path).is_dir() else path


def _market_named() -> str:
    """The path in COGMAULA_MARKET."""
    named = os.environ.get(VARIABLE)
    if not named:
        raise NoProgram(f"{VARIABLE} is not set")
    return named


def _own_checkout() -> str:
    """The checkout that this package lies in."""
    folder = Path(__file__).resolve().parents[2]
    if not _is_checkout(folder):
        raise NoProgram("the package lies in no checkout")
    return str(folder)


def _live_beside(path: Path) -> str:
    """The program `live` of a checkout, or beside a program `market` or an installed command. Raises NoProgram."""
    if not path.exists():
        raise NoProgram(f"{path} does not exist")
    checkout = _checkout_of(path)
    if checkout is not None:
        return _of_checkout(checkout, "live").path
    real = path.resolve()
    installed = None if real.is_dir() else _installed(real)
    places = [folder / "live" for folder in ([real, real / HERE] if real.is_dir() else [Path(installed.path if installed else real).parent])]
    for place in places:
        if place.is_file() and os.access(place, os.X_OK):
            return str(place)
    raise NoProgram(f"there is no {places[0]}")


def live_command() -> str:
    """The program that `live_program` finds; the name `live` if there is none, which then cannot be started."""
    try:
        return live_program()
    except NoProgram:
        return "live"


@cache
def found_program() -> Program:
    """The program that `Program.find()` finds, looked for once in a process."""
    return Program.find()


def chosen(program: Program | None) -> Program:
    """The program that a caller gave, or what answers as one, or the one that is found. Raises TypeError for a path, and NoProgram."""
    if program is None:
        return found_program()
    if not hasattr(program, "answer"):
        raise TypeError(f"program is {program!r}: write Program.find({program!r})")
    return program
