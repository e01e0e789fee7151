"""`cogmaula judge FOLDER`: whether the recordings of a market's nodes are those of a run of the network."""

from __future__ import annotations

import argparse
import json
import sys

from .. import cli
from ..program import LIVE_VARIABLE, live_at, live_program

HELP = "judges the recordings of the nodes of a market across machines"
MORE = (
    "FOLDER has the recordings of all nodes, which [node] record makes. It prints `valid` with what was judged, `incomplete` with"
    " what was not recorded, or `invalid` with the first line that is wrong. The exit status is 0, 1 or 5. With --trace it makes"
    " of valid recordings a cluster file and a trace, which market check has to take; else the status is 1. docs/JUDGE.md says"
    " what a verdict shows."
)


def add_arguments(parser: argparse.ArgumentParser) -> None:
    """Adds the arguments of judge."""
    parser.add_argument("folder", metavar="FOLDER", help="the folder of the recordings")
    parser.add_argument("--json", action="store_true", help="writes an object of JSON")
    parser.add_argument("--live", metavar="PROGRAM", help=f"the program live; else ${LIVE_VARIABLE}, live on the PATH, or that of the checkout")
    parser.add_argument("--trace", metavar="PREFIX", help="writes PREFIX.json and PREFIX.trace if the recordings are valid")


def main(arguments: argparse.Namespace) -> int:
    """Judges the folder."""
    from ..judge import judge, judge_and_trace

    live = live_at(arguments.live) if arguments.live else live_program()
    traced = None
    if arguments.trace is None:
        verdict = judge(arguments.folder, live)
    else:
        verdict, traced = judge_and_trace(arguments.folder, arguments.trace, live, cli.program_of(arguments))
    members = verdict.members() | ({} if arguments.trace is None else {"trace": None if traced is None else traced.members()})
    text = verdict.text() + ("" if traced is None else traced.text())
    sys.stdout.write(json.dumps(members) + "\n" if arguments.json else text)
    return {"valid": 0, "incomplete": cli.FAILED}.get(verdict.verdict, cli.REFUSED)
