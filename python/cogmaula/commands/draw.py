"""`cogmaula draw WHAT FILE -o PICTURE`: draws a small run, a clearing, a bill, or the answers to targets."""

from __future__ import annotations

import argparse

from .. import calls, cli
from ..errors import MarketError, NoPackage

HELP = "draws a picture of a small run, a clearing, a bill, or the answers to targets"
MORE = (
    "run shows prices, the tree in a phase, the sums of the bids and the powers. clearing shows the bids of the members in a phase and"
    " where they balance. bill and ask show what these commands write. A picture is SVG or PNG, by its ending."
)


def add_arguments(parser: argparse.ArgumentParser) -> None:
    """Adds the arguments of draw."""
    parser.add_argument("what", choices=["run", "clearing", "bill", "ask"], help="what the picture shows")
    parser.add_argument("file", metavar="FILE", help="the cluster file")
    parser.add_argument("-o", "--output", metavar="PICTURE", required=True, help="the picture to write, such as day.svg")
    parser.add_argument("--phase", type=cli.whole_positive, metavar="NUMBER", help="of run the last, and of clearing the first if not given")
    parser.add_argument("--target", type=int, action="append", metavar="WATTS", help="of ask; may be repeated")


def main(arguments: argparse.Namespace) -> int:
    """Draws the picture."""
    try:
        from .. import drawing
        from ..report.flexibility import flexibility_of
    except ImportError:
        raise NoPackage("a picture needs matplotlib: on Debian, apt-get install python3-matplotlib") from None
    program = cli.program_of(arguments)
    run = calls.run(arguments.file, program=program)
    try:
        match arguments.what:
            case "run":
                figure = drawing.draw_run(run, arguments.phase, program)
            case "clearing":
                figure = drawing.draw_clearing(run, arguments.phase or 1, program)
            case "bill":
                figure = drawing.draw_bill(run.bill)
            case _:
                figure = drawing.draw_answers(flexibility_of(run.cluster, arguments.target, program))
        drawing.save(figure, arguments.output)
    except ValueError as fault:
        raise MarketError(str(fault)) from None
    return 0
