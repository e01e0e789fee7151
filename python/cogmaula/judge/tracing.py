"""Makes of recordings a cluster file and a trace of it, and lets the proved program `market` judge the trace.

    from cogmaula.judge import judge_and_trace

    verdict, traced = judge_and_trace("recordings", "street")

What is made is only an order and numbers. The program makes the report at the head of the trace, and `check` decides.
"""

from __future__ import annotations

import os
from dataclasses import asdict, dataclass
from pathlib import Path
from typing import Any

from ..calls import check
from ..cluster import Cluster
from ..errors import Invalid, TooLong
from ..program import Program, found_program
from ..texts import report_of
from .cluster_file import cluster_of
from .following import Following
from .judging import judge
from .merging import Visit
from .recording_faults import NoTrace
from .session_tree import Market
from .settling import settle
from .verdict import Verdict


@dataclass(frozen=True)
class Traced:
    """The files that were written.

    cluster:  the path of the cluster file, and trace that of the trace
    moves:    how many moves the trace has
    settling: the first line of the trace whose move is not of the recording, counted from 1
    """

    cluster: str
    trace: str
    moves: int
    settling: int

    def members(self) -> dict[str, Any]:
        """The files as an object of JSON."""
        return asdict(self)

    def text(self) -> str:
        """The files in a line."""
        return f"trace {self.trace} of {self.cluster} moves {self.moves} settling from line {self.settling}\n"


def judge_and_trace(
    folder: str | os.PathLike[str], prefix: str | os.PathLike[str], live: str = "live", program: Program | None = None
) -> tuple[Verdict, Traced | None]:
    """Judges the recordings of a folder. If they are valid, writes PREFIX.json and PREFIX.trace, which `market check` takes.

    program: the proved program `market`; by default the one that `Program.find()` finds

    Gives no files if the verdict is another. Raises NoTrace if the session has no cluster file, or if `check` refuses the trace;
    and what `judge` raises, NoProgram and OSError.
    """
    program = program or found_program()
    followed: list[Following] = []

    def follow(market: Market) -> Visit | None:
        if market.missing:
            return None
        followed.append(Following(market))
        return followed[-1].visit

    verdict = judge(folder, live, follow)
    if verdict.verdict != "valid":
        return verdict, None
    if len(followed) != 1:
        told = "no trace is written: a cluster file has the market of one session"
        raise NoTrace(f"{told}, and the recordings are of {len(followed)}: give the files of one alone")
    return verdict, _written(followed[0], prefix, program)


def trace_of(following: Following, cluster: Cluster, report: bytes) -> tuple[bytes, int, int]:
    """The trace of a session, how many moves it has, and its first line whose move is not of the recording.

    report: the text of `market run` for the cluster
    """
    end = report_of(report).ends[-1]
    prices = {None: end.price} | {group.name: group.price for group in end.groups}
    moves = following.journal.lines
    recorded = len(moves)
    settle(following.journal, following.script, {name: prices[group] for name, group in cluster.groups().items()})
    text = report + "".join(f"{line}\n" for line in [*moves, f"moves {len(moves)}"]).encode()
    return text, len(moves), report.count(b"\n") + recorded + 1


def _written(following: Following, prefix: str | os.PathLike[str], program: Program) -> Traced:
    """Writes both files, and has the trace judged."""
    cluster = cluster_of(following)
    try:
        report = program.answer("run", cluster.to_bytes())
    except TooLong as error:
        told = f"the cluster file would have {len(cluster.to_bytes())} bytes"
        raise NoTrace(f"no trace is written: {told}, and the program takes at most {error.limit}") from None
    text, moves, settling = trace_of(following, cluster, report)
    traced = Traced(f"{os.fspath(prefix)}.json", f"{os.fspath(prefix)}.trace", moves, settling)
    cluster.save(traced.cluster)
    Path(traced.trace).write_bytes(text)
    try:
        check(cluster, text, program=program)
    except Invalid as error:
        told = f"{traced.trace}: line {error.line} is wrong or missing, so the trace is not legal"
        raise NoTrace(f"{told}, though the recordings are valid: report this, with them") from None
    return traced
