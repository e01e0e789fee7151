"""`cogmaula run FILE`: runs a cluster file, prints what came of it, and writes tables."""

from __future__ import annotations

import argparse
import sys

from .. import cli
from ..whole import whole_run

HELP = "runs a cluster file, and writes its report or tables"
MORE = (
    "Without -o it prints the program's own report. With -o it writes tables into a folder: prices, powers, bids, states, limited"
    " groups, violations of their limits, and accounts. A script that is too long for one run is run in parts."
)


def add_arguments(parser: argparse.ArgumentParser) -> None:
    """Adds the arguments of run."""
    parser.add_argument("file", metavar="FILE", help="the cluster file; - for standard input")
    place = "where to write the tables: a folder, or a file for json-lines, hdf5 and netcdf"
    parser.add_argument("-o", "--output", metavar="FOLDER", help=place)
    kinds = ["csv", "json-lines", "parquet", "hdf5", "netcdf"]
    parser.add_argument("--format", choices=kinds, default="csv", help="of the tables; default csv")
    parser.add_argument("--start", type=cli.moment, metavar="MOMENT", help="the moment before the first phase; default 2000-01-01")


def main(arguments: argparse.Namespace) -> int:
    """Runs the file."""
    source = cli.source_of(arguments.file)
    done = whole_run(source, start=arguments.start, program=cli.program_of(arguments), quiet=False)
    if arguments.output is None:
        sys.stdout.write(done.text.decode())
    else:
        done.write(arguments.output, arguments.format)
    return 0
