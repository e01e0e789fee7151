"""The command line `cogmaula COMMAND`. Each module of `commands/` is a command; this file finds and calls them."""

from __future__ import annotations

import argparse
import contextlib
import gc
import importlib
import os
import pkgutil
import sys
from collections.abc import Iterator, Sequence
from datetime import datetime
from typing import Any, Protocol, cast

from . import commands
from .data.faults import RecipeFault, TableFault
from .errors import Invalid, MarketError, Refused, TooLong, Unreadable
from .moments import read_moment
from .program import VARIABLE, Program
from .version import build

# The exit status of a command that could not do its work; of one that was called wrongly, by its words, its recipe or its tables; of
# one whose file is refused, too long, invalid or no cluster file; and of one that the user ended.
FAILED, MISUSED, REFUSED, INTERRUPTED = 1, 2, 5, 130
# The code of a refusal for too many phases, events or changes.
TOO_MANY = 20
# The commands that make many values of a file and end, and after how many new values Python looks for cycles in them.
MAKING_MANY, MANY_VALUES = ("chain", "continue", "from-csv", "report", "run"), 200_000


class Command(Protocol):
    """A module of `commands/`. Its name with - for _ and without _ at its end is the command's.

    A command that does not call the program has `CALLS_PROGRAM = False`.
    """

    # One line: what the command does.
    HELP: str
    # What `--help` says beyond the arguments.
    MORE: str

    def add_arguments(self, parser: argparse.ArgumentParser) -> None:
        """Adds the command's own arguments."""

    def main(self, arguments: argparse.Namespace) -> int:
        """Does the work, and gives the exit status. Errors of this package and OSError may be raised."""


def command_names() -> dict[str, str]:
    """The module of each command, by the command's name."""
    modules = sorted(module.name for module in pkgutil.iter_modules(commands.__path__))
    return {module.rstrip("_").replace("_", "-"): module for module in modules if not module.startswith("_")}


def command_of(module: str) -> Command:
    """The command that a module of `commands/` is."""
    return cast(Command, importlib.import_module(f"{commands.__name__}.{module}"))


def moment(text: str) -> datetime:
    """A moment that the user writes as 2026-01-31, 2026-01-31T06:30 or 2026-01-31T06:30[Europe/Berlin]."""
    try:
        return read_moment(text)
    except (ValueError, OverflowError):
        told = "write it as 2026-01-31, 2026-01-31T06:30 or 2026-01-31T06:30[Europe/Berlin]"
        raise argparse.ArgumentTypeError(f"{text!r} is no moment: {told}") from None


def whole_positive(text: str) -> int:
    """A whole number above 0."""
    if not text.isascii() or not text.isdigit() or len(text) > 18 or int(text) == 0:
        raise argparse.ArgumentTypeError(f"{text!r} is no whole number above 0")
    return int(text)


def source_of(name: str) -> str | bytes:
    """The cluster file of this name, or the bytes of standard input for `-`."""
    return sys.stdin.buffer.read() if name == "-" else name


class _Version(argparse.Action):
    """Prints the version, of which the commit is asked for only then."""

    def __init__(self, option_strings: Sequence[str], dest: str, **more: Any) -> None:
        """Takes no argument."""
        super().__init__(option_strings, dest, nargs=0, **more)

    def __call__(self, parser: argparse.ArgumentParser, *_: object) -> None:
        """Ends with status 0."""
        print(f"cogmaula {build()}")
        parser.exit()


def make_parser(only: str | None = None) -> argparse.ArgumentParser:
    """The parser of all commands, or of one alone, since to load all of them takes longer than to do what one does."""
    parser = argparse.ArgumentParser(
        prog="cogmaula",
        description="From measured data to a decision, around the proved electronic market.",
        epilog="cogmaula COMMAND --help says more of a command.",
    )
    parser.add_argument("--version", action=_Version, help="prints the version and the commit, and ends")
    below = parser.add_subparsers(dest="command", metavar="COMMAND", required=True)
    for name, module in command_names().items():
        if only not in (None, name):
            continue
        command = command_of(module)
        one = below.add_parser(
            name, help=command.HELP, description=f"{command.HELP[0].upper()}{command.HELP[1:]}. {command.MORE}"
        )
        command.add_arguments(one)
        if getattr(command, "CALLS_PROGRAM", True):
            told = f"the proved program, its installed command or its checkout; else ${VARIABLE}"
            one.add_argument("--program", metavar="PATH", help=told)
        one.set_defaults(main=command.main)
    return parser


def program_of(arguments: argparse.Namespace) -> Program:
    """The program that the user named, or the one that is found."""
    return Program.find(arguments.program)


def main(words: Sequence[str] | None = None) -> int:
    """Runs the command of these words, by default those of the command line, and gives the exit status."""
    words = sys.argv[1:] if words is None else list(words)
    is_known = bool(words) and words[0] in command_names() and "_ARGCOMPLETE" not in os.environ
    parser = make_parser(words[0] if is_known else None)
    complete(parser)
    arguments = parser.parse_args(words)
    try:
        with rarely_collecting() if arguments.command in MAKING_MANY else contextlib.nullcontext():
            return int(arguments.main(arguments))
    except KeyboardInterrupt:
        print("cogmaula: interrupted", file=sys.stderr)
        return INTERRUPTED
    except BrokenPipeError:
        # The reader has gone: nothing more can be said there.
        os.dup2(os.open(os.devnull, os.O_WRONLY), 1)
        return FAILED
    except (Refused, TooLong, Invalid, Unreadable) as error:
        print(f"cogmaula: {error}{hint_of(arguments, error)}", file=sys.stderr)
        return REFUSED
    except (RecipeFault, TableFault) as error:
        print(f"cogmaula: {error}", file=sys.stderr)
        return MISUSED
    except (MarketError, OSError) as error:
        print(f"cogmaula: {error}", file=sys.stderr)
        return FAILED


@contextlib.contextmanager
def rarely_collecting() -> Iterator[None]:
    """Lets Python seldom look for cycles of values: a script has a value for each event, and none of them is in a cycle."""
    before = gc.get_threshold()
    gc.freeze()
    gc.set_threshold(MANY_VALUES, *before[1:])
    try:
        yield
    finally:
        gc.set_threshold(*before)
        gc.unfreeze()


def complete(parser: argparse.ArgumentParser) -> None:
    """Completes the words of a shell that asks for it, if argcomplete is installed."""
    if "_ARGCOMPLETE" in os.environ:
        with contextlib.suppress(ImportError):
            importlib.import_module("argcomplete").autocomplete(parser)


def hint_of(arguments: argparse.Namespace, error: MarketError) -> str:
    """What to do about a refused file, if the command was given one."""
    file = getattr(arguments, "file", None)
    if not isinstance(file, str) or file == "-":
        return ""
    if isinstance(error, TooLong) or (isinstance(error, Refused) and error.code == TOO_MANY):
        return f"\ncogmaula: cogmaula chain {file} runs a script that is too long for one run"
    if isinstance(error, Refused | Unreadable):
        return f"\ncogmaula: cogmaula explain {file} says where and why"
    return ""
