"""`cogmaula site CONFIG`: many nodes of a market in one process, over one connection to the broker."""

from __future__ import annotations

import argparse
import os
import signal
import sys

from .. import cli, logs
from ..live.node.node_errors import BadSettings, LiveError, NodeRefused

CALLS_PROGRAM = False
HELP = "runs many nodes of a market in one process, over one connection to an MQTT broker"
MORE = (
    "CONFIG is a TOML file with the tables [site], [basis], [broker] and [nodes.NAME]; docs/LIVE.md has them. The control of a device offers"
    " and reads its setpoint by the topics of the device. A node that fails ends with a line, and the others go on. The exit status is 0"
    " after SIGTERM or SIGINT, 2 for settings that are wrong or name a missing file, and 1 once no node is left or the site fails."
)


def add_arguments(parser: argparse.ArgumentParser) -> None:
    """Adds the arguments of site."""
    parser.add_argument("config", metavar="CONFIG", help="the TOML file of the site")
    parser.add_argument(
        "--password-folder", metavar="FOLDER", help="where the files of passwords are, under the names that the settings give them"
    )


def main(arguments: argparse.Namespace) -> int:
    """Runs the site until a signal ends it."""
    from ..live.node.notifying import Notifier
    from ..live.site.site import Site
    from ..live.site.site_settings import read_site

    notifier = Notifier(os.environ)
    try:
        settings = read_site(arguments.config)
        if arguments.password_folder is not None:
            settings = settings.with_passwords_in(arguments.password_folder)
        settings.require_files()
    except BadSettings as error:
        print(f"cogmaula: {error}", file=sys.stderr)
        return 2
    logs.show(f"cogmaula site {settings.name}")
    try:
        site = Site(settings, notifier.turns)
        for number in (signal.SIGTERM, signal.SIGINT):
            signal.signal(number, lambda *_: site.stop())
        site.run()
    except NodeRefused as error:
        print(f"cogmaula: {error}", file=sys.stderr)
        return cli.REFUSED
    except LiveError as error:
        print(f"cogmaula: {error}", file=sys.stderr)
        return cli.FAILED
    except OSError as error:
        where = "" if error.filename is None else f"{error.filename}: "
        print(f"cogmaula: site {settings.name}: {where}{error.strerror or error}", file=sys.stderr)
        return cli.FAILED
    finally:
        notifier.stops()
    return 0
