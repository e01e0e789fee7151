"""`cogmaula agent`: the agent of a real device, against a hub or beside the device's node."""

from __future__ import annotations

import argparse
import os
import signal
import sys

from .. import cli, logs
from ..live.node.node_errors import BadSettings

CALLS_PROGRAM = False
HELP = "is the agent of a real device: reads its state, bids by a model, and writes the power that the market tells"
MORE = (
    "The settings come from a TOML file; docs/DEVICES.md has them. The device keeps its own protection. The exit status is 0 after"
    " SIGTERM or SIGINT, and 2 for settings that are wrong."
)


def add_arguments(parser: argparse.ArgumentParser) -> None:
    """Adds the arguments of agent."""
    parser.add_argument("file", metavar="SETTINGS", help="a TOML file with the tables [agent], [market], [device], [limits], [state], [setpoint], [measured], [time_out] and [homeassistant]")


def main(arguments: argparse.Namespace) -> int:
    """Runs the agent until a signal ends it."""
    from ..agent import Agent, read_agent_toml
    from ..live.node.notifying import Notifier

    logs.show("cogmaula agent")
    notifier = Notifier(os.environ)
    try:
        agent = Agent(read_agent_toml(arguments.file), turns=notifier.turns)
    except BadSettings as error:
        print(f"cogmaula: {error}", file=sys.stderr)
        return cli.MISUSED
    for number in (signal.SIGTERM, signal.SIGINT):
        signal.signal(number, lambda *_: agent.stop())
    try:
        agent.run()
    finally:
        notifier.stops()
    return 0
