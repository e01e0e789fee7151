"""`cogmaula node auctioneer|relay|device`: a node of a market across machines, joined to an MQTT broker."""

from __future__ import annotations

import argparse
import os
import signal
import sys
from typing import Any

from .. import cli, logs
from ..live.node.node_errors import BadSettings, NodeRefused, OtherTerms
from ..live.messages.frames import SORTS
from ..live.node.node_settings import PASSWORD_VARIABLE, read_toml, settings_of
from ..program import LIVE_VARIABLE

CALLS_PROGRAM = False
HELP = "runs a node of a market across machines, joined to an MQTT broker"
MORE = (
    "The settings come from the file of --config, and options go before them; docs/LIVE.md has the file. A device reads offers at"
    ' standard input, {"power": [WATTS, ..]} with a number for each step or {"leave": true}, a line each, and writes its setpoints at'
    " standard output. The exit status is 0 after SIGTERM or SIGINT, 2 for settings that are wrong or name a missing file, 5 if a person"
    " has to look before the node may go on, as if another process runs as it, and 6 if its Resume is of other limits, another basis or"
    " another version."
)
# The exit status if the node's terms are not those of its Resume.
OTHER_TERMS = 6

# Of each option the table and the member of the settings that it sets, its type, its word in the help, and what it is.
_OPTIONS: list[tuple[str, str, type, str, str]] = [
    ("node", "name", str, "NAME", "the node's name in topics"),
    ("node", "state", str, "FOLDER", "where the node keeps its Resume over a restart; of this node alone"),
    ("node", "live", str, "PROGRAM", f"the program live; else ${LIVE_VARIABLE}, live on the PATH, or that of the checkout"),
    ("node", "parent", str, "NAME", "the name of the node above, of a relay and a device"),
    ("node", "child", int, "CHILD", "its own number there, 1 to 256"),
    ("node", "floor", int, "WATTS", "the least power that a relay announces, 0 or below"),
    ("node", "ceiling", int, "WATTS", "the greatest power that a relay announces, 0 or above"),
    ("node", "period", float, "SECONDS", "clears or sends by the clock; without it after news"),
    ("node", "pause", float, "SECONDS", "after news, not faster than this; default 1"),
    ("node", "child_pause", float, "SECONDS", "a parent's: from one bid of a child that counts to the next; default 0"),
    ("node", "validity", float, "SECONDS", "an auctioneer's: setpoints hold so long without a heartbeat; default 120"),
    ("node", "heartbeat", float, "SECONDS", "an auctioneer's: from one heartbeat to the next; default a quarter of validity"),
    ("node", "grace", float, "SECONDS", "an auctioneer's: a device that is silent for so long is let go; default 1.25 times validity"),
    ("node", "fallback", int, "WATTS", "the power that a device's control is told while the market is silent; default 0"),
    ("node", "offer_validity", float, "SECONDS", "a device whose control is silent for so long leaves; default 900"),
    ("node", "record", str, "FOLDER", "records all frames of the node there, for cogmaula judge"),
    ("node", "record_size", int, "BYTES", "a file of the recording ends at so many bytes; default 67108864"),
    ("node", "record_files", int, "N", "keeps the newest so many files of the recording; default all"),
    ("basis", "min", int, "PRICE", "the least price of the market"),
    ("basis", "max", int, "PRICE", "the greatest price"),
    ("basis", "steps", int, "N", "how many prices, 2 to 1000"),
    ("broker", "host", str, "HOST", "the broker; default 127.0.0.1"),
    ("broker", "port", int, "PORT", "its port; default 8883 with TLS, 1883 without"),
    ("broker", "prefix", str, "PREFIX", "the first levels of all topics of the market; default market"),
    ("broker", "user", str, "USER", "the login at the broker"),
    ("broker", "password_file", str, "FILE", f"its first line is the password; else ${PASSWORD_VARIABLE}"),
    ("broker", "ca", str, "FILE", "the CA that signed the broker's certificate; makes the connection by TLS"),
    ("broker", "certificate", str, "FILE", "the node's own certificate, if the broker asks for one"),
    ("broker", "key", str, "FILE", "its key"),
    ("page", "listen", str, "ADDRESS:PORT", "serves a page of what the node sees; default 127.0.0.1:8080, if the file has a page"),
    ("page", "origin", str, "URL", "the address that browsers have for the page, if a proxy stands before it"),
    ("page", "password_file", str, "FILE", "its first line is the password of the login that reads for the page"),
    ("broker", "keepalive", int, "SECONDS", "a connection that is silent for 1.5 times as long is lost; default 10"),
]
_FLAGS = [
    ("broker", "tls", "connects by TLS, with the CAs of the system if no CA is given"),
    ("page", "whole", "the page shows the whole market, by a connection that reads all of its topics"),
    ("page", "insecure", "the page may be served at an address that others reach, though it has no login"),
    ("node", "limits_from", "a relay takes limits that are given while the market lives, at its topic limits"),
    ("node", "new_session", "an auctioneer begins a new session, in which all nodes count from 1"),
    ("node", "leave", "a device leaves the market, or a relay lets all of its devices go, and the command ends"),
]


def _option(table: str, member: str) -> str:
    """The word of an option. Of two members of one name, that of the page has its table before it."""
    is_second = (table, member) == ("page", "password_file")
    return f"--{'page-' if is_second else ''}{member.replace('_', '-')}"


def add_arguments(parser: argparse.ArgumentParser) -> None:
    """Adds the arguments of node."""
    parser.add_argument("sort", choices=SORTS, help="what the node is")
    parser.add_argument("--config", metavar="FILE", help="a TOML file with the tables [node], [basis], [broker], [page] and [children.NAME]")
    for table, member, kind, word, what in _OPTIONS:
        parser.add_argument(_option(table, member), dest=f"{table}.{member}", type=kind, metavar=word, help=what)
    for table, member, what in _FLAGS:
        parser.add_argument(_option(table, member), dest=f"{table}.{member}", action="store_true", default=None, help=what)


def _tables_of(arguments: argparse.Namespace) -> dict[str, dict[str, Any]]:
    """The tables of the settings: those of the file, with the options in them."""
    tables = {} if arguments.config is None else read_toml(arguments.config)
    for table, member in [option[:2] for option in _OPTIONS] + [flag[:2] for flag in _FLAGS]:
        value = getattr(arguments, f"{table}.{member}")
        if value is not None:
            tables.setdefault(table, {})[member] = value
    return tables


def main(arguments: argparse.Namespace) -> int:
    """Runs the node until a signal ends it."""
    from ..live.node.node import make_node
    from ..live.node.notifying import Notifier

    notifier = Notifier(os.environ)
    try:
        settings = settings_of(arguments.sort, _tables_of(arguments))
        settings.require_files()
    except BadSettings as error:
        print(f"cogmaula: {error}", file=sys.stderr)
        return 2
    logs.show(f"cogmaula node {settings.name}", settings.name)
    try:
        node = make_node(settings, turns=notifier.turns)
        for number in (signal.SIGTERM, signal.SIGINT):
            signal.signal(number, lambda *_: node.stop())
        node.run()
    except NodeRefused as error:
        print(f"cogmaula: {error}", file=sys.stderr)
        return OTHER_TERMS if isinstance(error, OtherTerms) else cli.REFUSED
    except OSError as error:
        where = "" if error.filename is None else f"{error.filename}: "
        print(f"cogmaula: node {settings.name}: {where}{error.strerror or error}", file=sys.stderr)
        return cli.FAILED
    finally:
        notifier.stops()
    return 0
