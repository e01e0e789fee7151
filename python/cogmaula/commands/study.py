"""`cogmaula study FILE .. -o TABLE`: runs many cluster files over processes or machines, and writes a row for each."""

from __future__ import annotations

import argparse
import contextlib
import hashlib
import importlib
import itertools
import sys
from collections.abc import Iterator
from pathlib import Path
from typing import Any

from .. import cli
from ..errors import NoPackage
from ..program import Program
from ..study import Outcome, Summary, outcomes_of
from ..study_table import known_of, write_table, written

HELP = "runs many cluster files over processes or machines, and writes a table"
MORE = (
    "The table is CSV with a row for each file, in their order: prices, energies in watts times minutes, amounts, and how long limits were"
    " broken. A file that is refused has its fault in its row. With --scheduler the workers of a Dask cluster share the work; each"
    " machine needs this package and a proved program."
)


def add_arguments(parser: argparse.ArgumentParser) -> None:
    """Adds the arguments of study."""
    parser.add_argument("files", metavar="FILE", nargs="+", help="a cluster file")
    parser.add_argument("-o", "--output", metavar="TABLE", required=True, help="the table to write, such as study.csv")
    how = parser.add_mutually_exclusive_group()
    how.add_argument("--processes", type=cli.whole_positive, metavar="NUMBER", help="default: as many as there are processors")
    how.add_argument("--scheduler", metavar="ADDRESS", help="of a Dask cluster, such as tcp://10.0.0.1:8786")
    parser.add_argument(
        "--resume", action="store_true", help="takes the rows that TABLE has of files with the same SHA-256, and runs the others alone"
    )
    parser.add_argument(
        "--on-error", choices=["keep", "raise"], default="keep", help="keep: a fault is in its row; raise: the first one ends the study"
    )
    parser.add_argument("--quiet", action="store_true", help="tells no progress")


def main(arguments: argparse.Namespace) -> int:
    """Runs the files. The status is 1 if one of them has a fault."""
    with contextlib.ExitStack() as stack:
        client, program = None, arguments.program
        if arguments.scheduler is not None:
            client = stack.enter_context(client_of(arguments.scheduler))
        else:
            program = cli.program_of(arguments)
        outcomes = list(studied(arguments, client, program))
    faults = [outcome for outcome in outcomes if outcome.fault]
    for outcome in faults[:10]:
        print(f"cogmaula: {outcome.name}: {outcome.fault}", file=sys.stderr)
    if faults:
        print(f"cogmaula: {len(faults)} of {len(outcomes)} files have a fault; the table tells each", file=sys.stderr)
    return cli.FAILED if faults else 0


def studied(arguments: argparse.Namespace, client: Any, program: Program | str | None) -> Iterator[Outcome[Summary]]:
    """The outcomes in the order of the files, with a row written for each as it comes.

    With --resume the rows that are known are written first. When all is done, the table is in the order of the files.
    """
    digests = {file: digest_of(file) for file in arguments.files}
    results = known_of(arguments.output) if arguments.resume else {}
    known = {file: Outcome(file, digest, results[digest], "") for file, digest in digests.items() if digest in results}
    files = [file for file in arguments.files if file not in known]
    new: Iterator[Outcome[Summary]] = outcomes_of(
        files, processes=arguments.processes, client=client, program=program, on_error=arguments.on_error, quiet=arguments.quiet
    )
    found = {outcome.name: outcome for outcome in written(itertools.chain(known.values(), new), arguments.output)}
    ordered = [found[file] for file in arguments.files]
    if known:
        write_table(ordered, arguments.output)
    yield from ordered


def digest_of(path: str) -> str:
    """The SHA-256 of a file, or an empty text if it cannot be read: its row tells the fault."""
    try:
        return hashlib.sha256(Path(path).read_bytes()).hexdigest()
    except OSError:
        return ""


def client_of(address: str) -> Any:
    """A client of the Dask cluster at this address. Raises NoPackage without Dask, and OSError if nobody answers."""
    try:
        distributed: Any = importlib.import_module("distributed")
    except ImportError:
        raise NoPackage("a study over machines needs Dask: on Debian, apt-get install python3-distributed") from None
    return distributed.Client(address, timeout="10s")
