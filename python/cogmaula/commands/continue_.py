"""`cogmaula continue FILE`: the cluster file of the next day."""

from __future__ import annotations

import argparse
import sys
from pathlib import Path

from .. import calls, cli
from ..cluster import Cluster
from ..continuing import continued, script_for

HELP = "writes the cluster file that goes on where a run of FILE ended"
MORE = (
    "Each device starts with the state that it had at the end of FILE, and the first phase joins those that were members. A run of FILE"
    " and then of the new file has the phase ends of one run over both scripts; the numbers of bids begin anew."
)


def add_arguments(parser: argparse.ArgumentParser) -> None:
    """Adds the arguments of continue."""
    parser.add_argument("file", metavar="FILE", help="the cluster file of the first day")
    parser.add_argument("--then", metavar="FILE", help="a file with the same tree, whose phases follow")
    parser.add_argument("-o", "--output", metavar="FILE", help="where to write the file; else to standard output")


def main(arguments: argparse.Namespace) -> int:
    """Writes the continuation of the file."""
    done = calls.run(arguments.file, program=cli.program_of(arguments))
    phases = script_for(done.cluster, Cluster.load(arguments.then)) if arguments.then else ()
    text = continued(done, phases).to_json()
    if arguments.output is None:
        sys.stdout.write(text)
    else:
        Path(arguments.output).write_text(text)
    return 0
