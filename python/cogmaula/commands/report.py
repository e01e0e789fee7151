"""`cogmaula report`: writes a page that shows what came of a cluster file, or a day of a live market from its history."""

from __future__ import annotations

import argparse
import sys
from datetime import datetime
from fractions import Fraction
from pathlib import Path
from zoneinfo import ZoneInfo

from .. import cli
from ..data.supplier_connection import read_supply
from ..money import rate_of
from ..report import Currency, history_page, report

HELP = "writes a page of prices, loads, powers and bills: of a cluster file that it runs, or of a day of a market's history"
MORE = (
    "The page is one file that needs no network and no script. It shows the price over the hours, the load of each limited group against"
    " its limits, who took what, what is left over, the bills, and what the cluster would take or deliver at its end."
    " With --history it runs nothing, and shows a day of a live market from the tables of `cogmaula history`."
)
# What goes with a cluster file alone.
OF_FILE = ("start", "span", "target", "connection", "tariff")


def rate(text: str) -> Fraction:
    """A decimal number above 0, such as 0.001."""
    try:
        return rate_of(text)
    except ValueError as error:
        raise argparse.ArgumentTypeError(str(error)) from None


def zone_in(moment: datetime) -> ZoneInfo | None:
    """The zone of a moment, None if it has none, or an offset alone."""
    return moment.tzinfo if isinstance(moment.tzinfo, ZoneInfo) else None


def add_arguments(parser: argparse.ArgumentParser) -> None:
    """Adds the arguments of report."""
    parser.add_argument("file", metavar="FILE", nargs="?", help="the cluster file")
    parser.add_argument("--history", metavar="DATABASE", help="in its place the history of a live market: sqlite:///FILE, a file's name, or postgresql://USER@HOST/NAME")
    parser.add_argument("--measured", action="store_true", help="bills a day of the history by the powers that controls say they measured")
    parser.add_argument("--day", metavar="DATE", type=cli.moment, help="the day of the history, of this machine's zone or [ZONE]; default today")
    parser.add_argument("-o", "--output", metavar="PAGE", required=True, help="the page to write, such as day.html")
    parser.add_argument("--title", help="the title of the page; default the name of the file")
    parser.add_argument("--start", type=cli.moment, metavar="MOMENT", help="the moment before the first phase; default 2000-01-01")
    parser.add_argument("--currency", metavar="UNIT", help="the unit of money of the bills, such as EUR; needs --per-kwh")
    parser.add_argument(
        "--per-kwh", type=rate, metavar="AMOUNT", help="what a kilowatt-hour costs at price 1 in that unit, such as 0.01"
    )
    parser.add_argument("--span", type=cli.whole_positive, metavar="MINUTES", help="the spans of time of the bills; default an hour")
    parser.add_argument(
        "--target", type=int, action="append", metavar="WATTS", help="asks what the cluster does for so many watts; may be repeated"
    )
    parser.add_argument(
        "--connection", metavar="NAME", help="the manual device that is the connection to the supplier: it and the grid are one account"
    )
    parser.add_argument(
        "--tariff", metavar="FILE", help="a supplier's prices, fee and VAT, by which each household is billed by the month; needs --start"
    )
    parser.add_argument("--quiet", action="store_true", help="tells no progress")
    parser.set_defaults(fail=parser.error)


def main(arguments: argparse.Namespace) -> int:
    """Writes the page."""
    if (arguments.file is None) == (arguments.history is None):
        arguments.fail("give a cluster FILE, or --history DATABASE")
    if (arguments.currency is None) != (arguments.per_kwh is None):
        arguments.fail("--currency and --per-kwh go together: name the unit, and what a kilowatt-hour costs at price 1")
    if arguments.tariff is not None and arguments.start is None:
        arguments.fail("--tariff needs --start: a tariff has months and times of the day")
    currency = None if arguments.currency is None else Currency(arguments.currency, arguments.per_kwh)
    if arguments.history is not None:
        return _report_history(arguments, currency)
    if arguments.day is not None or arguments.measured:
        arguments.fail(f"--{'measured' if arguments.day is None else 'day'} goes with --history")
    supply = None if arguments.tariff is None else read_supply(arguments.tariff, zone_in(arguments.start))
    text = report(
        arguments.file,
        title=arguments.title,
        start=arguments.start,
        currency=currency,
        span=arguments.span,
        targets=arguments.target,
        connection=arguments.connection,
        supply=supply,
        program=cli.program_of(arguments),
        quiet=arguments.quiet,
    )
    Path(arguments.output).write_text(text, encoding="utf-8")
    return 0


def _report_history(arguments: argparse.Namespace, currency: Currency | None) -> int:
    """Writes the page of a day of a history."""
    # These load what a live market needs.
    from ..history import open_database
    from ..live.node.node_errors import BadSettings

    if given := [name for name in OF_FILE if getattr(arguments, name) is not None]:
        arguments.fail(f"--{given[0]} goes with a cluster FILE")
    url = arguments.history if "://" in arguments.history else f"sqlite:///{arguments.history}"
    try:
        database = open_database(url, is_reader=True)
        try:
            day = arguments.day or datetime.now().astimezone()
            text = history_page(database, day, arguments.title, currency, by_measure=arguments.measured)
        finally:
            database.close()
    except BadSettings as error:
        print(f"cogmaula: {error}", file=sys.stderr)
        return cli.MISUSED
    Path(arguments.output).write_text(text, encoding="utf-8")
    return 0
