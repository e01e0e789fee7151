"""Studies: many clusters run over the processors of a machine, or over machines by Dask, with results exact and in order."""

from __future__ import annotations

import hashlib
import os
import signal
from collections.abc import Callable, Iterable, Iterator, Mapping, Sequence
from dataclasses import dataclass, fields, is_dataclass
from pathlib import Path
from typing import TYPE_CHECKING, Any, Generic, Literal, TypeVar

from . import data_frames
from .cluster import Cluster, Source, bytes_of
from .figures import Figures
from .money import Rate
from .processors import count, dealt, end_with, keep_to_one
from .program import Program, found_program
from .progress import tracked
from .whole import whole_run

if TYPE_CHECKING:
    from pandas import DataFrame

T = TypeVar("T")
# What a study does with each cluster: it is given the bytes of the file and the program. It has to be a function of a module, so that
# another process finds it by its name.
Work = Callable[[bytes, Program], T]
# What an error of one cluster does: its outcome has it as its fault, or it ends the study.
OnError = Literal["keep", "raise"]


@dataclass(frozen=True)
class Summary:
    """What a study tells of a run, in whole numbers.

    phases, changes, minutes: of the run
    lowest_price, highest_price: over the ends of all phases, in price units
    price_minutes: the sum of the price times the minutes over all ticks; divided by `minutes` it is the mean price
    taken_Wmin, given_Wmin: of all devices, in watts times minutes
    amount: what all devices paid, in price units times watts times minutes
    grid_taken_Wmin, grid_given_Wmin: what the devices left over, and what they lacked
    ends_outside, minutes_outside: at how many ends a limited group was outside its limits, and for how long, summed over the groups
    """

    phases: int
    changes: int
    minutes: int
    lowest_price: int
    highest_price: int
    price_minutes: int
    taken_Wmin: int
    given_Wmin: int
    amount: int
    grid_taken_Wmin: int
    grid_given_Wmin: int
    ends_outside: int
    minutes_outside: int


@dataclass(frozen=True)
class Outcome(Generic[T]):
    """What came of one cluster of a study.

    name:   the path of its file, or its place among the clusters, from 1
    digest: the SHA-256 of its file
    result: what the work gave; None if it failed
    fault:  why it failed: the refusal or the error in words, else an empty text
    """

    name: str
    digest: str
    result: T | None
    fault: str


def summary(file: bytes, program: Program) -> Summary:
    """Runs a cluster file of any length and sums up what came of it. Raises what `run` and `chain` raise."""
    cluster = Cluster.from_json(file)
    done = whole_run(cluster, program=program)
    paid = done.bill
    prices = [end.price for end in done.ends]
    limits = {node.name: (getattr(node, "floor"), getattr(node, "ceiling")) for node in cluster.nodes if node.kind == "limited"}
    outside = [
        minutes
        for end, minutes in zip(done.ends, done.durations, strict=True)
        for group in end.groups
        if not limits[group.name][0] <= group.total <= limits[group.name][1]
    ]
    devices = paid.devices.values()
    return Summary(
        phases=len(done.ends),
        changes=done.changes,
        minutes=paid.minutes,
        lowest_price=min(prices, default=0),
        highest_price=max(prices, default=0),
        price_minutes=sum(price * length for price, length in zip(prices, done.durations, strict=True)),
        taken_Wmin=sum(account.taken for account in devices),
        given_Wmin=sum(account.given for account in devices),
        amount=sum(account.amount for account in devices),
        grid_taken_Wmin=paid.grid.taken,
        grid_given_Wmin=paid.grid.given,
        ends_outside=len(outside),
        minutes_outside=sum(outside),
    )


def figures(
    file: bytes, program: Program, connection: str | None = None, currency: str | None = None, per_kwh: Rate | None = None
) -> Figures:
    """Runs a cluster file of any length and finds its figures: work for a study, with the words of `Run.figures` by `functools.partial`."""
    return whole_run(Cluster.from_json(file), program=program).figures(connection, currency=currency, per_kwh=per_kwh)


@dataclass(frozen=True)
class _Job(Generic[T]):
    """One cluster and what is done with it, as another process is told."""

    name: str
    source: str | bytes
    work: Work[T]
    program: Program | str | None
    on_error: OnError = "keep"

    def __call__(self) -> Outcome[T]:
        """Does the work. An error is the fault of the outcome, unless it is to end the study."""
        digest = ""
        try:
            file = bytes_of(self.source)
            digest = hashlib.sha256(file).hexdigest()
            return Outcome(self.name, digest, self.work(file, program_of(self.program)), "")
        except Exception as error:
            if self.on_error == "raise":
                raise
            return Outcome(self.name, digest, None, f"{type(error).__name__}: {error}")


def program_of(named: Program | str | None) -> Program:
    """The program that a job is done with."""
    if isinstance(named, Program):
        return named
    return found_program() if named is None else Program.find(named)


def _do(job: Callable[[], Outcome[T]]) -> Outcome[T]:
    """Does a job: a function of this module, so that other processes find it."""
    return job()


def study(
    sources: Iterable[Source] | Mapping[str, Source],
    work: Work[T] = summary,  # type: ignore[assignment]
    *,
    processes: int | None = None,
    client: Any = None,
    program: Program | str | None = None,
    on_error: OnError = "keep",
    quiet: bool = True,
) -> list[Outcome[T]]:
    """Does the same work with many clusters, and gives an outcome for each, in their order. The arguments are those of `outcomes_of`."""
    found = outcomes_of(sources, work, processes=processes, client=client, program=program, on_error=on_error, quiet=quiet)
    return list(found)


def outcomes_of(
    sources: Iterable[Source] | Mapping[str, Source],
    work: Work[T] = summary,  # type: ignore[assignment]
    *,
    processes: int | None = None,
    client: Any = None,
    program: Program | str | None = None,
    on_error: OnError = "keep",
    quiet: bool = True,
) -> Iterator[Outcome[T]]:
    """Does the same work with many clusters, and gives the outcome of each as soon as it and those before it are known.

    sources:   clusters, paths of their files, or bytes of files; or a mapping that names them, such as that of `vary`
    work:      what is done with each: a function of a module that takes the bytes of the file and the program
    processes: how many processes share the work; as many as the machine has processors if it is not given
    client:    a `distributed.Client`: its workers share the work, on whatever machines they are. They are sent the files, and
               need this package and a proved program. `processes` counts for nothing then
    program:   the proved program of this machine, or a path, which each worker looks up on its own machine. If it is not given,
               each process finds one
    on_error:  `keep`: a cluster that is refused or cannot be read, and one with which the work raises any other exception, has an outcome
               with its fault, and ends nothing. `raise`: the first such error ends the study
    quiet:     whether no progress is told on standard error

    Results do not depend on the number of processes or machines.
    """
    named = sources.items() if isinstance(sources, Mapping) else ((None, source) for source in sources)
    is_far = client is not None
    jobs = [_job_of(name or str(at), source, work, program, on_error, is_far, name) for at, (name, source) in enumerate(named, 1)]
    outcomes = by_client(client, jobs) if is_far else by_processes(processes or count(), jobs)
    yield from tracked(outcomes, "study", len(jobs), quiet)


def _job_of(
    name: str, source: Source, work: Work[T], program: Program | str | None, on_error: OnError, is_far: bool, given: str | None
) -> _Job[T]:
    """The job of a source. A far worker cannot read a file of this machine, so it is sent the bytes."""
    if isinstance(source, Cluster | bytes):
        return _Job(name, bytes_of(source), work, program, on_error)
    path = os.fspath(source)
    return _Job(given or path, _read(path) if is_far else path, work, program, on_error)


def _read(path: str) -> str | bytes:
    """The bytes of a file; its path if it cannot be read, so that the job tells the fault."""
    try:
        return Path(path).read_bytes()
    except OSError:
        return path


def by_processes(processes: int, jobs: Sequence[Callable[[], Outcome[T]]]) -> Iterator[Outcome[T]]:
    """The outcome of each job, in order, by processes of this machine, each on a processor of its own. A single job is done here."""
    if len(jobs) < 2:
        yield from map(_do, jobs)
        return
    # They take long to load, and all other commands do without them.
    import multiprocessing
    from concurrent.futures import ProcessPoolExecutor

    queue: Any = multiprocessing.SimpleQueue()
    with ProcessPoolExecutor(processes, initializer=_begin_worker, initargs=(dealt(queue, processes), os.getpid())) as pool:
        try:
            # A few jobs go at once, since handing one over takes about a tenth of a millisecond.
            yield from pool.map(_do, jobs, chunksize=max(1, min(16, len(jobs) // (8 * processes))))
        except BaseException:
            # What has not begun is left out, so that an interrupted study ends soon.
            pool.shutdown(wait=False, cancel_futures=True)
            raise


def _begin_worker(queue: Any, parent: int) -> None:
    """Begins a process of the study: it keeps to one processor, leaves an interrupt from the keyboard to the study itself, and ends with it."""
    end_with(parent)
    keep_to_one(queue)
    signal.signal(signal.SIGINT, signal.SIG_IGN)


def by_client(client: Any, jobs: Sequence[Callable[[], Outcome[T]]]) -> Iterator[Outcome[T]]:
    """The outcome of each job, in order, by the workers of a Dask client."""
    for future in client.map(_do, jobs, pure=False):
        yield future.result()


def frame_of(outcomes: Iterable[Outcome[Any]]) -> DataFrame:
    """The outcomes as a data frame, which needs pandas: a row for each, by its name, with its digest, its fault and its result.

    A result that is a data class has a column for each of its members, and any other one the column `result`.
    """
    rows = [
        {
            "name": outcome.name,
            "sha256": outcome.digest,
            "fault": outcome.fault,
            **(_members(outcome.result) if is_dataclass(outcome.result) else {} if outcome.result is None else {"result": outcome.result}),
        }
        for outcome in outcomes
    ]
    return data_frames.pandas().DataFrame(rows, columns=None if rows else ["name", "sha256", "fault"]).set_index("name")


def _members(result: Any) -> dict[str, Any]:
    """The members of a result, by their names."""
    return {field.name: getattr(result, field.name) for field in fields(result)}
