"""Sweeps: many simulations over the processors of a machine, or over machines by Dask, in order, and resumed where they were left."""

from __future__ import annotations

import hashlib
import json
import os
import pickle
from collections.abc import Callable, Iterable, Iterator, Mapping
from contextlib import suppress
from dataclasses import dataclass
from pathlib import Path
from typing import Any, Generic, TypeVar

from ..processors import count
from ..program import Program
from ..progress import tracked
from ..study import OnError, Outcome, by_client, by_processes, program_of

T = TypeVar("T")
Scenario = Mapping[str, Any]
# What is done with each scenario, such as to simulate it and to give its figures. It has to be a function of a module, so that another
# process finds it by its name.
SweepWork = Callable[[Scenario, Program], T]


@dataclass(frozen=True)
class _Job(Generic[T]):
    """One scenario and what is done with it, as another process is told."""

    name: str
    scenario: Scenario
    work: SweepWork[T]
    program: Program | str | None
    on_error: OnError

    @property
    def digest(self) -> str:
        """The SHA-256 of the scenario, by which a sweep that is resumed knows it again."""
        return hashlib.sha256(json.dumps(self.scenario, sort_keys=True, default=repr).encode()).hexdigest()

    def __call__(self) -> Outcome[T]:
        """Does the work. An error is the fault of the outcome, unless it is to end the sweep."""
        try:
            return Outcome(self.name, self.digest, self.work(self.scenario, program_of(self.program)), "")
        except Exception as error:
            if self.on_error == "raise":
                raise
            return Outcome(self.name, self.digest, None, f"{type(error).__name__}: {error}")


def sweep(
    work: SweepWork[T],
    scenarios: Iterable[Scenario] | Mapping[str, Scenario],
    *,
    processes: int | None = None,
    client: Any = None,
    program: Program | str | None = None,
    on_error: OnError = "keep",
    kept: str | os.PathLike[str] | None = None,
    quiet: bool = True,
) -> list[Outcome[T]]:
    """Does the same work with many scenarios, and gives an outcome for each, in their order. `study.frame_of` makes a table of them.

    work:      what is done with each: a function of a module that takes the scenario and the program
    scenarios: the members of each, such as {"capacity": 5000}, of values that can be sent to another process; or a mapping that names them
    processes, client, program, on_error, quiet: as for `study.outcomes_of`
    kept:      a file to which each outcome is added as it comes. A sweep that is begun again with it does only what the file lacks: the
               scenarios that are not in it by name and members, and those with a fault. Only read a file of your own, since it is pickled

    Results do not depend on the number of processes or machines.
    """
    named = scenarios.items() if isinstance(scenarios, Mapping) else ((str(at), scenario) for at, scenario in enumerate(scenarios, 1))
    jobs = [_Job(name, scenario, work, program, on_error) for name, scenario in named]
    known = {} if kept is None else {(outcome.name, outcome.digest): outcome for outcome in outcomes_in(kept) if not outcome.fault}
    left = [job for job in jobs if (job.name, job.digest) not in known]
    done = by_client(client, left) if client is not None else by_processes(processes or count(), left)
    for outcome in tracked(done, "sweep", len(left), quiet):
        known[outcome.name, outcome.digest] = outcome
        if kept is not None:
            with open(kept, "ab") as file:
                pickle.dump(outcome, file)
    return [known[job.name, job.digest] for job in jobs]


def outcomes_in(path: str | os.PathLike[str]) -> Iterator[Outcome[Any]]:
    """The outcomes of a file, up to the first that is not whole: an interrupted sweep may have ended in the middle of one."""
    if not Path(path).exists():
        return
    with open(path, "rb") as file, suppress(EOFError, pickle.UnpicklingError):
        while True:
            yield pickle.load(file)
