"""The commands of the program as calls: run, trace, bill, ask and check.

Each takes a cluster as a `Cluster`, the path of its file, or the bytes of the file. Each raises what `Program.answer` raises,
above all Refused, and Unreadable or OSError for what cannot be read.
"""

from __future__ import annotations

from collections.abc import Iterable
from dataclasses import dataclass
from datetime import date, datetime

from .cluster import Cluster, Source, bytes_of
from .errors import ProgramFault
from .data_frames import START
from .members import whole
from .moments import moment_of
from .program import Program, chosen
from .runs import Run
from .texts import Answers, Bill, Move, answers_of, bill_of, lines_of, moves_of


def _cluster_of(source: Source, data: bytes) -> Cluster:
    return source if isinstance(source, Cluster) else Cluster.from_json(data)


def cluster_in(source: Source) -> Cluster:
    """The cluster that a source names. Raises Unreadable and OSError."""
    return source if isinstance(source, Cluster) else Cluster.from_json(bytes_of(source))


def start_of(source: Source) -> datetime:
    """When a run of a source begins if it is not told otherwise."""
    return (source.start if isinstance(source, Cluster) else None) or START


def run(source: Source, *, start: date | None = None, program: Program | None = None) -> Run:
    """Runs a cluster.

    start:   the moment before the first phase, or a date for its midnight; if it is not given that of the cluster, or else 2000-01-01 00:00
    program: the proved program; by default the one that `Program.find()` finds

    Raises TypeError before anything is run if `start` or `program` is of another type.
    """
    program, moment, data = chosen(program), moment_of(start, start_of(source)), bytes_of(source)
    text = program.answer("run", data)
    return Run(_cluster_of(source, data), text, moment, program)


@dataclass(frozen=True)
class Trace:
    """A trace: the report of a run, and each of its moves in the order in which the threads made them.

    file: the bytes of the cluster file
    text: the trace as the program wrote it
    """

    file: bytes
    text: bytes
    run: Run
    moves: tuple[Move, ...]


def trace(source: Source, *, start: date | None = None, program: Program | None = None) -> Trace:
    """Runs a cluster and keeps every move. `start` and `program` are as for `run`."""
    program, moment, data = chosen(program), moment_of(start, start_of(source)), bytes_of(source)
    text = program.answer("trace", data)
    moves = moves_of(text)[1]
    report = text[: text.index(b"\n", text.index(b"end phases ")) + 1]
    return Trace(data, text, Run(_cluster_of(source, data), report, moment, program), moves)


def bill(source: Source, *, program: Program | None = None) -> Bill:
    """What each device and the grid paid, took and gave over the ticks of a run. `accounts` of a Run is the same as a frame."""
    return bill_of(chosen(program).answer("bill", bytes_of(source)))


def envelope(file: bytes, rest: bytes) -> bytes:
    """The input of `ask` and `check`: the file behind a line with its number of bytes, and the rest."""
    return b"%d\n%b%b" % (len(file), file, rest)


def ask(source: Source, targets: Iterable[int], *, program: Program | None = None) -> Answers:
    """At which price the cluster would take so many watts more at the end of its run, for each target.

    targets: watts, at most 100,000; positive asks the cluster to take more, negative to deliver more

    Refused has the code 25 and the line of the target if one is too large or there are too many.
    """
    rest = "".join(f"{whole('a target', target)}\n" for target in targets).encode()
    return answers_of(chosen(program).answer("ask", envelope(bytes_of(source), rest)))


def check(source: Source, text: bytes, *, program: Program | None = None) -> int:
    """The number of moves of a trace that is one of a run of the cluster, whoever wrote it.

    Raises Invalid with the bad line if it is none, and Refused if the cluster is.
    """
    lines = lines_of(chosen(program).answer("check", envelope(bytes_of(source), text)))
    match lines:
        case [["valid", "moves", moves]]:
            return int(moves)
    raise ProgramFault(f"check wrote {lines!r}, which this package does not know")
