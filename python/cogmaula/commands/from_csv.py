"""`cogmaula from-csv RECIPE -o FILE`: makes a cluster file of tables of loads and solar power."""

from __future__ import annotations

import argparse
import sys
from datetime import timedelta
from pathlib import Path

from .. import cli
from ..chains import parts_of, run_parts
from ..data import Made, Recipe, RecipeFault, made_by, read_recipe
from ..data.looks import lines_of
from ..errors import Refused
from ..moments import written

HELP = "makes a cluster file of tables of loads and solar power, by a recipe"
MORE = (
    "The recipe is a short file in TOML. It names the tables, what their columns measure, the prices, and further nodes such as a feeder"
    " or batteries. docs/REPORTS.md has its words, and examples/neighbourhood a worked day. It prints what each column looks like, and"
    " asks the program whether it takes the file: of a long one its first part."
)


def add_arguments(parser: argparse.ArgumentParser) -> None:
    """Adds the arguments of from-csv."""
    parser.add_argument("recipe", metavar="RECIPE", help="the recipe")
    parser.add_argument("-o", "--output", metavar="FILE", required=True, help="the cluster file to write")
    parser.add_argument("--day", type=cli.moment, metavar="DATE", help="takes the rows of this day alone")
    parser.add_argument("--begin", type=cli.moment, metavar="MOMENT", help="takes the rows from then on")
    parser.add_argument("--end", type=cli.moment, metavar="MOMENT", help="takes the rows before then")
    parser.add_argument("--quiet", action="store_true", help="prints no table of the columns")


def main(arguments: argparse.Namespace) -> int:
    """Writes the file."""
    begin, end = arguments.begin, arguments.end
    if arguments.day is not None:
        begin, end = arguments.day, arguments.day + timedelta(days=1)
    keep_inputs(read_recipe(arguments.recipe), Path(arguments.output))
    made = made_by(arguments.recipe, begin, end)
    # What the program refuses is not written.
    first = next(parts_of(made.cluster))
    try:
        next(run_parts(made.cluster, [first], program=cli.program_of(arguments)))
    except Refused as error:
        raise RecipeFault(f"{arguments.recipe}: {place_of(made, error)}the program refuses it: {error}") from None
    made.cluster.save(arguments.output)
    if not arguments.quiet:
        print("\n".join(lines_of(made.looks)))
    tell(made, arguments.output)
    if (checked := len(first)) < len(made.cluster.phases):
        told = f"too long for one run, so the program has looked at its first {checked:,} phases"
        print(f"{arguments.output}: {told}: cogmaula run, chain and report run it in parts", file=sys.stderr)
    return 0


def place_of(made: Made, error: Refused) -> str:
    """The column or the node of the recipe that a refusal names, in words; an empty text if it names neither."""
    if error.place.what != "node" or not error.place.numbers:
        return ""
    at, nodes = error.place.numbers[0] - 1, made.cluster.nodes
    column = made.columns[at - len(nodes)] if at >= len(nodes) - len(made.columns) else None
    return f"{column}: " if column is not None else f"the node {nodes[at].name!r}: "


def keep_inputs(recipe: Recipe, output: Path) -> None:
    """Raises RecipeFault if the output would be written over the recipe or one of its tables."""
    for path in (recipe.path, *(table.file for table in (*recipe.tables, *recipe.prices))):
        if output.exists() and path.exists() and output.samefile(path):
            raise RecipeFault(f"{output} is the recipe or one of its tables: name another file with -o")


def tell(made: Made, output: str) -> None:
    """Tells what was made, what was filled in or rounded, and which columns look wrong."""
    cluster = made.cluster
    told = f"{len(cluster.devices)} devices, {len(cluster.phases)} phases, {cluster.minutes} minutes from {written(made.start)}"
    print(f"{output}: {told}", file=sys.stderr)
    for line in made.told:
        print(line, file=sys.stderr)
    for look in made.looks:
        if look.warning is not None:
            print(f"warning: {look.name}: {look.warning}", file=sys.stderr)
    if made.connection is not None:
        print(f"{output}: its connection to the supplier is {made.connection}", file=sys.stderr)
