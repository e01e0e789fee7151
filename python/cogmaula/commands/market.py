"""`cogmaula market WORD`: makes the files of a market at an MQTT broker, and says an operator's words to it."""

from __future__ import annotations

import argparse
import sys
from dataclasses import replace
from pathlib import Path
from tempfile import TemporaryDirectory

from .. import cli
from ..deploy import Member, add_device, fence_settings, init_market, read_tree, renumber_device, revoke_login, rotate_login
from ..deploy.time_line import time_line
from ..history import open_database
from ..history.why import lines_of, why
from ..live.node.node_errors import BadSettings, LiveError
from ..live.node.fencing import fence
from ..live.children.given_limits import LimitsMessage
from ..live.broker.operating import clear, drop, give_limits
from ..live.node.node_settings import BrokerSettings, read_toml
from ..live.node.toml_tables import value_of

CALLS_PROGRAM = False
HELP = "makes and changes the files of a market at a broker, and says an operator's words to it"
MORE = (
    "init makes all files from one that names the tree, machines, limits and logins; add adds a device to them. They need openssl and"
    " mosquitto. times says of such a file when each device falls back and is let go. drop, clear, fence and limits go to the broker of"
    " --config, whose table [broker] is as a node's, with a login that may do this;"
    " docs/LIVE.md names the rights. The exit status is 0 once it is done, 1 if it fails or a node refuses, and 2 for settings that are"
    " wrong."
)


def address(text: str) -> tuple[str, int]:
    """The address and the port of a text such as 8883 or 10.0.0.1:8883."""
    host, _, port = text.rpartition(":")
    if not port.isascii() or not port.isdigit():
        raise argparse.ArgumentTypeError(f"{text!r} is no port, and no address with a port, such as 10.0.0.1:8883")
    return host or "127.0.0.1", int(port)


def add_arguments(parser: argparse.ArgumentParser) -> None:
    """Adds the arguments of market."""
    below = parser.add_subparsers(dest="word", metavar="WORD", required=True)
    making = below.add_parser("init", help="makes keys, passwords, rights, settings and units of a new market")
    making.add_argument("tree", metavar="TREE", help="the TOML file that names the market")
    making.add_argument("--out", metavar="FOLDER", required=True, help="the new folder of all files")
    making.add_argument(
        "--here", metavar="[ADDRESS:]PORT", type=address, help="for this machine alone, by a broker at this address, by default 127.0.0.1"
    )
    adding = below.add_parser("add", help="adds a device to the files of a market")
    adding.add_argument("name", metavar="NAME", help="the device")
    adding.add_argument("--out", metavar="FOLDER", required=True, help="the folder that init made")
    adding.add_argument("--parent", metavar="NODE", required=True, help="the node above")
    adding.add_argument("--child", metavar="CHILD", type=int, help="its number there; default the one behind the greatest")
    adding.add_argument("--host", metavar="HOST", help="the machine that it runs on")
    adding.add_argument("--site", metavar="SITE", help="the site in whose process it runs; default a process of its own")
    adding.add_argument("--least", metavar="WATTS", type=int, help="the least power that it may bid, 0 or below")
    adding.add_argument("--greatest", metavar="WATTS", type=int, help="the greatest power that it may bid, 0 or above")
    adding.add_argument("--fallback", metavar="WATTS", type=int, help="what its control is told while the market is silent; default 0")
    adding.add_argument("--offer-validity", metavar="SECONDS", type=float, help="it leaves if its control is silent for so long; default 900")
    adding.add_argument("--control", action="store_true", help="its control logs in at the broker by itself")
    timing = below.add_parser("times", help="says when each device of a market falls back, and when it is let go")
    timing.add_argument("tree", metavar="TREE", help="the TOML file that names the market")
    undoing = {
        "revoke": below.add_parser("revoke", help="bars a login: the broker ends its connection, and lets it in no more"),
        "rotate": below.add_parser("rotate", help="gives a login another password: the broker ends the connection of before"),
        "renumber": below.add_parser("renumber", help="lets a device that is down begin anew under a fresh child number"),
    }
    for word, one in undoing.items():
        one.add_argument("name", metavar="DEVICE" if word == "renumber" else "LOGIN", help="its name")
        one.add_argument("--out", metavar="FOLDER", required=True, help="the folder that init made")
    dropping = below.add_parser("drop", help="lets a device go at once: its bid does not count any more. It must take nothing")
    dropping.add_argument("node", metavar="NODE", help="the parent, a relay or the auctioneer")
    dropping.add_argument("child", metavar="CHILD", type=int, help="the device's number there")
    clearing = below.add_parser("clear", help="clears what the broker retains under a topic")
    clearing.add_argument("topic", metavar="TOPIC", help="the topic, such as market/street/bid/1")
    fencing = below.add_parser("fence", help="lets all devices of a relay go that is down: its parent counts nothing of it any more")
    fencing.add_argument("node", metavar="NODE", help="the relay, which has to be down for `grace`")
    fencing.add_argument("--out", metavar="FOLDER", required=True, help="the folder that init made, with the relay's own login")
    giving = below.add_parser("limits", help="gives limits to a relay of limits_from")
    giving.add_argument("node", metavar="NODE", help="the relay")
    giving.add_argument("--floor", type=int, metavar="WATTS", help="the least power; default that of its settings")
    giving.add_argument("--ceiling", type=int, metavar="WATTS", help="the greatest power; default that of its settings")
    giving.add_argument("--until", metavar="TIME", help="until when they hold, as 2026-01-31T18:00:00Z; default without an end")
    giving.add_argument("--reference", metavar="TEXT", help="a word of your own, which comes back with the answer")
    asking = below.add_parser("why", help="why a device was told its power at a moment: offers, prices, sums and limits up the tree")
    asking.add_argument("device", metavar="DEVICE", help="the device")
    asking.add_argument("moment", metavar="TIME", type=cli.moment, help="the moment, as 2026-01-31T14:03, of this machine's zone or [ZONE]")
    asking.add_argument("--history", metavar="DATABASE", required=True, help="the history: sqlite:///FILE, a file's name, or postgresql://USER@HOST/NAME")
    for one in (dropping, clearing, fencing, giving):
        one.add_argument("--config", metavar="FILE", required=True, help="a TOML file with the table [broker]")
        one.add_argument("--seconds", type=float, default=10.0, metavar="SECONDS", help="waits so long for the answer; default 10")


def _broker_of(path: str) -> BrokerSettings:
    tables = read_toml(path)
    return value_of(BrokerSettings, tables.get("broker", {}), "broker")


def _init(arguments: argparse.Namespace) -> str:
    tree = read_tree(arguments.tree)
    if arguments.here is not None:
        host, port = arguments.here
        broker = replace(tree.broker, host=host, port=port)
        tree = replace(tree, market=replace(tree.market, here=True), broker=broker)
    return "\n".join(init_market(tree, Path(arguments.out)))


def _add(arguments: argparse.Namespace) -> str:
    more = {word: value for word in ("fallback", "offer_validity") if (value := getattr(arguments, word)) is not None}
    told = {word: getattr(arguments, word) for word in ("name", "parent", "child", "least", "greatest", "host", "control")}
    return "\n".join(add_device(Path(arguments.out), Member("device", more=more, **told), arguments.site))


def _times(arguments: argparse.Namespace) -> str:
    return "\n".join(time_line(read_tree(arguments.tree)))


def _revoke(arguments: argparse.Namespace) -> str:
    return "\n".join(revoke_login(Path(arguments.out), arguments.name))


def _rotate(arguments: argparse.Namespace) -> str:
    return "\n".join(rotate_login(Path(arguments.out), arguments.name))


def _renumber(arguments: argparse.Namespace) -> str:
    return "\n".join(renumber_device(Path(arguments.out), arguments.name))


def _limits(arguments: argparse.Namespace) -> str:
    limits = LimitsMessage(arguments.floor, arguments.ceiling, arguments.until, arguments.reference)
    return give_limits(_broker_of(arguments.config), arguments.node, limits, arguments.seconds)


def _drop(arguments: argparse.Namespace) -> str:
    return drop(_broker_of(arguments.config), arguments.node, arguments.child, arguments.seconds)


def _clear(arguments: argparse.Namespace) -> str:
    return clear(_broker_of(arguments.config), arguments.topic, arguments.seconds)


def _fence(arguments: argparse.Namespace) -> str:
    with TemporaryDirectory() as state:
        return fence(_broker_of(arguments.config), fence_settings(Path(arguments.out), arguments.node, state), arguments.seconds)


def _why(arguments: argparse.Namespace) -> str:
    url = arguments.history if "://" in arguments.history else f"sqlite:///{arguments.history}"
    database = open_database(url, is_reader=True)
    try:
        return "\n".join(lines_of(why(database, arguments.device, arguments.moment), arguments.moment.tzinfo))
    finally:
        database.close()


_WORDS = {
    "init": _init, "add": _add, "times": _times, "revoke": _revoke, "rotate": _rotate, "renumber": _renumber, "drop": _drop, "clear": _clear,
    "fence": _fence, "limits": _limits, "why": _why,
}


def main(arguments: argparse.Namespace) -> int:
    """Does what the word says."""
    try:
        print(_WORDS[arguments.word](arguments))
    except BadSettings as error:
        print(f"cogmaula: {error}", file=sys.stderr)
        return 2
    except LiveError as error:
        print(f"cogmaula: {error}", file=sys.stderr)
        return cli.FAILED
    return 0
