"""`cogmaula history --config FILE --to URL`: keeps what happens in a market in tables."""

from __future__ import annotations

import argparse
import csv
import os
import signal
import sys
from datetime import datetime, timedelta

from .. import cli, logs
from ..history import Database, Keeper, open_database
from ..history.days import span_of
from ..live.node.node_errors import BadSettings
from ..live.node.notifying import Notifier
from ..live.node.node_settings import BrokerSettings, read_toml
from ..live.node.toml_tables import value_of

CALLS_PROGRAM = False
HELP = "keeps the clearings, bids, setpoints, limits and states of a market in SQLite or PostgreSQL"
MORE = (
    "The broker is that of --config, whose table [broker] is as a node's, with a login that reads the market; docs/OPERATE.md has the"
    " tables. What the broker tells is in the database before it is confirmed, so a process that is killed loses nothing. The exit status"
    " is 0 after SIGTERM or SIGINT, 1 if the database cannot be opened, and 2 for settings that are wrong."
)


def add_arguments(parser: argparse.ArgumentParser) -> None:
    """Adds the arguments of history."""
    parser.add_argument("--config", metavar="FILE", help="a TOML file with the table [broker]")
    parser.add_argument("--day", metavar="DATE", type=cli.moment, help="keeps nothing, and prints the energies and prices of that day, of this machine's zone or [ZONE]")
    parser.add_argument("--password-file", metavar="FILE", help="its first line is the password at the broker, in the place of that of --config")
    parser.add_argument("--to", metavar="URL", required=True, help="sqlite:///FILE, or postgresql://USER@HOST/NAME by Debian's python3-psycopg")


def _tell_day(database: Database, day: datetime) -> int:
    """Prints a day as CSV: a line for each device."""
    begin = day.replace(hour=0, minute=0, second=0, microsecond=0)
    end = begin + timedelta(days=1)
    span = span_of(database, begin.timestamp(), end.timestamp())
    database.close()
    out = csv.writer(sys.stdout, lineterminator="\n")
    out.writerow(["name", "set_watt_hours", "measured_watt_hours"])
    for device in sorted(span.by_market.keys() | span.by_measure.keys()):
        out.writerow([device, *(f"{energies[device]:.1f}" if device in energies else "" for energies in (span.by_market, span.by_measure))])
    prices = "no price" if span.mean is None else f"prices {span.least} to {span.greatest}, {span.mean:.2f} in the mean"
    different = f", {span.different} times a device wrote otherwise: cogmaula report names them" if span.different else ""
    print(f"{span.clearings} clearings, {prices}{different}", file=sys.stderr)
    return 0


def _require_password(broker: BrokerSettings) -> None:
    """Raises BadSettings if the password cannot be read, or others may read or write it."""
    try:
        broker.password()
    except OSError as error:
        raise BadSettings(f"broker.password_file is {error.filename}, which cannot be read: {error.strerror}") from None


def main(arguments: argparse.Namespace) -> int:
    """Keeps the history until a signal ends it."""
    try:
        if arguments.day is not None:
            return _tell_day(open_database(arguments.to, is_reader=True), arguments.day)
        if arguments.config is None:
            raise BadSettings("give --config FILE, or --day DATE for what is kept")
        table = dict(read_toml(arguments.config).get("broker", {}))
        if arguments.password_file is not None:
            table["password_file"] = arguments.password_file
        broker = value_of(BrokerSettings, table, "broker")
        _require_password(broker)
        database = open_database(arguments.to)
    except BadSettings as error:
        print(f"cogmaula: {error}", file=sys.stderr)
        return 2
    logs.show("cogmaula history")
    keeper = Keeper(broker, database)
    for number in (signal.SIGTERM, signal.SIGINT):
        signal.signal(number, lambda *_: keeper.stop())
    notifier = Notifier(os.environ)
    notifier.turns()
    keeper.run()
    notifier.stops()
    return 0
