"""A run of any length: one run if the program takes the script, else parts that continue each other."""

from __future__ import annotations

from concurrent.futures import ThreadPoolExecutor
from datetime import date

from . import schema
from .calls import bill, run
from .chains import chain
from .cluster import Cluster, Source
from .errors import Refused, TooLong
from .program import Program, chosen
from .runs import Run
from .texts import Bill, Report

# The code of a script that is too long for one run.
TOO_MANY = 20


def whole_run(
    source: Source, *, start: date | None = None, program: Program | None = None, quiet: bool = True, with_bill: bool = False
) -> Run:
    """The run of a cluster, however long its script is.

    source:         the cluster, the path of its file, or the bytes of the file
    start, program: as for `run`
    quiet:          whether no progress is told on standard error if the script is run in parts
    with_bill:      whether the bill is wanted for sure: the program is then asked for it beside the run, not after it

    Raises what `run` and `chain` raise.
    """
    found = chosen(program)
    if isinstance(source, Cluster) and len(source.phases) > schema.counts_of("document", "phases"):
        # The program would read the whole file to refuse it.
        return chain(source, start=start, program=found, quiet=quiet, with_bill=with_bill)
    with ThreadPoolExecutor(1) as pool:
        asked = pool.submit(bill, source, program=found) if with_bill else None
        try:
            done = run(source, start=start, program=found)
        except Refused as fault:
            if fault.code != TOO_MANY:
                raise
        except TooLong:
            pass
        else:
            return done if asked is None else with_bill_of(done, asked.result())
    return chain(source, start=start, program=found, quiet=quiet, with_bill=with_bill)


def with_bill_of(done: Run, known: Bill) -> Run:
    """The run with a bill that is known."""
    return Run(done.cluster, Report(tuple(done.ends), done.changes), done.start, done.program, bill=lambda: known)
