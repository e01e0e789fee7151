"""`cogmaula simulate`: a cluster file as a living market, with models as its devices."""

from __future__ import annotations

import argparse
import signal
import sys

from .. import cli, logs
from ..cluster import Cluster, bytes_of
from ..live.node.node_errors import BadSettings
from ..live.page.page_settings import PageSettings
from ..program import LIVE_VARIABLE, live_at, live_program
from .hub import allow_files

HELP = "lets a cluster file live: its devices as models in a market of proved nodes, by the clock"
MORE = (
    "Each node of the file is a node of a living market, in one process and without a broker. Phases of events come by the clock, and"
    " after the last one the devices live on. The devices are models, and no part of the market. docs/DEVICES.md says more."
)
# Where a page is served if no address is given: the system chooses the port.
ANY_PORT = "127.0.0.1:0"


def _positive(text: str) -> float:
    """A number above 0."""
    try:
        found = float(text)
    except ValueError:
        found = 0.0
    if not 0 < found < 1e9:
        raise argparse.ArgumentTypeError(f"{text!r} is no number above 0")
    return found


def add_arguments(parser: argparse.ArgumentParser) -> None:
    """Adds the arguments of simulate."""
    parser.add_argument("file", metavar="FILE", help="a cluster file; - is standard input")
    parser.add_argument("--speed", type=_positive, default=60.0, metavar="N", help="seconds of the devices in a second; default 60, an hour a minute")
    parser.add_argument("--minutes", type=_positive, metavar="N", help="ends after so many minutes of the devices; without it Ctrl-C ends it")
    told = "serves a page to look at, and prints its address; without an address at a free port of this machine"
    parser.add_argument("--page", nargs="?", const=ANY_PORT, metavar="HOST:PORT", help=told)
    parser.add_argument("--live", metavar="PROGRAM", help=f"the program live; else ${LIVE_VARIABLE}, live on the PATH, or that of the checkout")


def main(arguments: argparse.Namespace) -> int:
    """Lives until the time is over or a signal ends it."""
    from ..simulation.living import LivingCluster

    data = bytes_of(cli.source_of(arguments.file))
    cluster = Cluster.from_json(data)
    cluster.check(cli.program_of(arguments))
    logs.show("cogmaula simulate")
    limited = [node.name for node in cluster.nodes if node.kind == "limited"]
    if limited:
        print(f"cogmaula: {_clears_otherwise(limited)}", file=sys.stderr)
    try:
        page = None if arguments.page is None else PageSettings(arguments.page)
        living = LivingCluster(cluster, live_at(arguments.live) if arguments.live else live_program(), speed=arguments.speed, page=page, tell=_tell)
    except BadSettings as error:
        print(f"cogmaula: {error}", file=sys.stderr)
        return cli.MISUSED
    for number in (signal.SIGTERM, signal.SIGINT):
        signal.signal(number, lambda *_: living.stop())
    allow_files()
    living.run(arguments.minutes)
    return 0


def _clears_otherwise(limited: list[str]) -> str:
    """That a living market may clear at other prices than `market run`, by the names of the limited concentrators of a file."""
    named = ", ".join(limited[:3]) + (f" and {len(limited) - 3} more" if len(limited) > 3 else "")
    return (
        f"{named} announce what their devices take, and in `market run` their sum moved within the limits:"
        " prices may differ (docs/DEFINITIONS.md, Settled part)"
    )


def _tell(line: str) -> None:
    print(line, flush=True)
