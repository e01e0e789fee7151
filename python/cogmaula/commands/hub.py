"""`cogmaula hub`: one whole market in one process, for agents that connect by WebSocket or TCP."""

from __future__ import annotations

import argparse
import os
import resource
import signal
import sys
from collections.abc import Mapping
from pathlib import Path
from typing import Any

from .. import cli, logs
from ..hub.hub_settings import HubSettings, hub_settings_of, read_hub_toml
from ..hub.tokens import TokenFile, child_of, children_in, write_token
from ..live.node.node_errors import BadSettings, NodeRefused
from ..live.messages.topics import require_name
from ..program import LIVE_VARIABLE

CALLS_PROGRAM = False
HELP = "runs one whole market in one process, for agents that connect by WebSocket or TCP"
MORE = (
    "The settings come from the file of --config, and options go before them; docs/HUB.md has the file, and what agents say and"
    " are told. The exit status is 0 after SIGTERM or SIGINT, 2 for settings that are wrong, and 5 if a person has to look before"
    " the hub may go on."
)

# Of each option the member of [hub] that it sets, its type, its word in the help, and what it is.
_OPTIONS: list[tuple[str, type, str, str]] = [
    ("name", str, "NAME", "the auctioneer in topics; default hub"),
    ("state", str, "FOLDER", "what the nodes keep over a restart; of this hub alone"),
    ("agents", str, "FILE", "the file of tokens"),
    ("live", str, "PROGRAM", f"the program live; else ${LIVE_VARIABLE}, live on the PATH, or that of the checkout"),
    ("certificate", str, "FILE", "the hub's certificate: all connections are by TLS"),
    ("key", str, "FILE", "its key"),
    ("gone", float, "SECONDS", "an agent that is disconnected for so long leaves the market; default 150"),
    ("offer_validity", float, "SECONDS", "an agent that bids nothing for so long, not even the same again, leaves the market; default 300"),
    ("validity", float, "SECONDS", "a priceUpdate holds so long without a newer one; default 120"),
    ("period", float, "SECONDS", "clears by the clock; without it after news"),
    ("pause", float, "SECONDS", "after news, not faster than this; default 1"),
    ("record", str, "FOLDER", "records all frames of all nodes there, for cogmaula judge"),
    ("record_size", int, "BYTES", "a file of a recording ends at so many bytes, and is compressed; default 4194304"),
    ("record_files", int, "N", "keeps the newest so many files of each node's recording; default all"),
]
_ADDRESSES = [
    ("listen", "an address for WebSocket; may be given again"),
    ("listen_tcp", "an address for lines over TCP; may be given again"),
]
_FLAGS = [
    ("insecure", "lets the hub listen without TLS where other machines reach it"),
    ("new_session", "begins a new session, in which all agents count from 1"),
]
# The open files that 256 agents need: six each for their nodes, one for their connection, those that wait for a login, and the rest.
FILES = 4_096


def _option(member: str) -> str:
    return f"--{member.replace('_', '-')}"


def add_arguments(parser: argparse.ArgumentParser) -> None:
    """Adds the arguments of hub."""
    parser.add_argument("--config", metavar="FILE", required=True, help="a TOML file with the tables [hub], [basis] and [page]")
    told = "draws a token for an agent of this child number, prints it once, writes its line to the file of tokens, and ends"
    parser.add_argument("--new-token", nargs=2, metavar=("AGENT", "CHILD"), help=told)
    told = "the same for each line AGENT CHILD of a file, or of standard input for -; needs --into"
    parser.add_argument("--new-tokens", metavar="FILE", help=told)
    parser.add_argument("--into", metavar="FOLDER", help="writes each new token to FOLDER/AGENT.token, for its owner alone, and prints none")
    for member, kind, word, what in _OPTIONS:
        parser.add_argument(_option(member), type=kind, metavar=word, help=what)
    for member, what in _ADDRESSES:
        parser.add_argument(_option(member), action="append", metavar="HOST:PORT", help=what)
    for member, what in _FLAGS:
        parser.add_argument(_option(member), action="store_true", default=None, help=what)


def _tables_of(arguments: argparse.Namespace) -> dict[str, dict[str, Any]]:
    """The tables of the settings: those of the file, with the options in them. Raises BadSettings."""
    try:
        tables = read_hub_toml(arguments.config)
    except OSError as error:
        raise BadSettings(f"{arguments.config}: {error.strerror}") from None
    for member in [option[0] for option in _OPTIONS] + [option[0] for option in _ADDRESSES + _FLAGS]:
        value = getattr(arguments, member)
        if value is not None:
            tables.setdefault("hub", {})[member] = value
    return tables


def main(arguments: argparse.Namespace) -> int:
    """Runs the hub until a signal ends it, or draws a token."""
    try:
        settings = hub_settings_of(_tables_of(arguments))
        children = _children_of(arguments)
        if children is not None:
            return _draw_tokens(settings, children, arguments.into)
        return _run(settings)
    except BadSettings as error:
        print(f"cogmaula: {error}", file=sys.stderr)
        return 2
    except NodeRefused as error:
        print(f"cogmaula: {error}", file=sys.stderr)
        return cli.REFUSED


def _children_of(arguments: argparse.Namespace) -> dict[str, int] | None:
    """The child number of each agent for which a token is to be drawn, None if none is. Raises BadSettings and OSError."""
    if arguments.new_token is not None:
        agent, child = arguments.new_token
        return {agent: child_of(child, "--new-token")}
    if arguments.new_tokens is None:
        return None
    if arguments.into is None:
        raise BadSettings("--new-tokens draws many tokens: give the folder for them by --into FOLDER")
    if arguments.new_tokens == "-":
        return children_in(sys.stdin.read(), "standard input")
    return children_in(Path(arguments.new_tokens).read_text(), arguments.new_tokens)


def _draw_tokens(settings: HubSettings, children: Mapping[str, int], into: str | None) -> int:
    for agent in children:
        if require_name(agent, "the agent") == settings.name:
            raise BadSettings(f"{agent} is the hub's own name: give the agent another one")

    def keep(tokens: Mapping[str, str]) -> None:
        for agent, token in tokens.items():
            if into is None:
                print(token, flush=True)
            else:
                print(write_token(Path(into), agent, token))

    TokenFile(settings.agents).draw(children, keep)
    return 0


def _run(settings: HubSettings) -> int:
    from ..hub.hub import Hub
    from ..live.node.notifying import Notifier

    logs.show("cogmaula hub", settings.name)
    allow_files()
    notifier = Notifier(os.environ)
    hub = Hub(settings, turns=notifier.turns)
    for number in (signal.SIGTERM, signal.SIGINT):
        signal.signal(number, lambda *_: hub.stop())
    try:
        hub.run()
    finally:
        notifier.stops()
    return 0


def allow_files() -> None:
    """Lets the process open as many files as 256 agents need, if the system allows it."""
    least, most = resource.getrlimit(resource.RLIMIT_NOFILE)
    due = FILES if most == resource.RLIM_INFINITY else min(FILES, most)
    if least != resource.RLIM_INFINITY and least < due:
        resource.setrlimit(resource.RLIMIT_NOFILE, (due, most))
