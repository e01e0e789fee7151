"""`cogmaula chain FILE ..`: a script that is too long for one run, day by day."""

from __future__ import annotations

import argparse
import sys
from collections.abc import Iterator
from pathlib import Path

from .. import cli
from ..chains import parts_of, run_parts, whole_of
from ..cluster import Cluster
from ..continuing import script_for
from ..progress import Progress
from ..runs import Run

HELP = "runs a script that is too long for one run, in parts that continue each other"
MORE = (
    "With several files, which have the same tree, the phases of each follow those before. The report is that of one run over all"
    " phases. With -o it writes tables as run does."
)


def add_arguments(parser: argparse.ArgumentParser) -> None:
    """Adds the arguments of chain."""
    parser.add_argument("file", metavar="FILE", help="the cluster file")
    parser.add_argument("more", metavar="MORE", nargs="*", help="files of the days behind it, with the same tree")
    place = "where to write the tables: a folder, or a file for json-lines, hdf5 and netcdf"
    parser.add_argument("-o", "--output", metavar="FOLDER", help=place)
    kinds = ["csv", "json-lines", "parquet", "hdf5", "netcdf"]
    parser.add_argument("--format", choices=kinds, default="csv", help="of the tables; default csv")
    parser.add_argument("--minutes", type=cli.whole_positive, metavar="N", help="the most minutes of a part, such as 1440 for days")
    parser.add_argument("--parts", metavar="FOLDER", help="where to keep the cluster file of each part, to run or judge it alone")
    parser.add_argument("--start", type=cli.moment, metavar="MOMENT", help="the moment before the first phase; default 2000-01-01")


def main(arguments: argparse.Namespace) -> int:
    """Runs the files."""
    cluster = Cluster.load(arguments.file)
    for file in arguments.more:
        cluster = cluster.with_phases(*script_for(cluster, Cluster.load(file)))
    done = whole_of(cluster, _runs(arguments, cluster))
    if arguments.output is None:
        sys.stdout.write(done.text.decode())
    else:
        done.write(arguments.output, arguments.format)
    return 0


def _runs(arguments: argparse.Namespace, cluster: Cluster) -> Iterator[Run]:
    """The run of each part, with progress told and its file kept if that was asked."""
    program = cli.program_of(arguments)
    folder = None if arguments.parts is None else Path(arguments.parts)
    if folder is not None:
        folder.mkdir(parents=True, exist_ok=True)
    parts = parts_of(cluster, arguments.minutes)
    with Progress("chain, phases", len(cluster.phases)) as progress:
        for at, done in enumerate(run_parts(cluster, parts, start=arguments.start, program=program), 1):
            if folder is not None:
                done.cluster.save(folder / f"part_{at:04}.json")
            progress.step(len(done.ends) - (at > 1))
            yield done
