"""`cogmaula explain FILE`: why the program refuses a file, with the line and the column."""

from __future__ import annotations

import argparse
from pathlib import Path

from .. import cli
from ..explaining import explain

HELP = "says where and why a file is refused"
MORE = (
    "It prints FILE:LINE:COLUMN with the program's own line, and then the member, the rule, what is written, what is allowed and"
    " what was likely meant. The exit status is 0 if the program takes the file, and 5 if it does not."
)


def add_arguments(parser: argparse.ArgumentParser) -> None:
    """Adds the arguments of explain."""
    parser.add_argument("file", metavar="FILE", help="the cluster file, or the input of the command")
    parser.add_argument(
        "--command",
        dest="reader",
        choices=["run", "trace", "bill", "free", "ask", "check", "serve"],
        default="run",
        help="the command that reads FILE: ask and check read an envelope, serve a stream; default run",
    )


def main(arguments: argparse.Namespace) -> int:
    """Explains the file."""
    told = explain(Path(arguments.file), command=arguments.reader, program=cli.program_of(arguments))
    if told is None:
        print(f"{arguments.file}: market {arguments.reader} takes it")
        return 0
    print(told.text(arguments.file), end="")
    return cli.REFUSED
