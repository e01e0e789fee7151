#!/usr/bin/env python3
"""Measures the Python package: pages of a day of 200 devices, a week and a year, a study of 1,000 files over 1 to 4 processes, and a month.

    python3 bench/python_package.py report         makes the day and its report, five times, each beside a plain run of the program
    python3 bench/python_package.py week           the same of a week of 97 devices, which is longer than one run, once
    python3 bench/python_package.py tables         goes from tables of a week to the page, 97 devices, beside the program's runs of its parts
    python3 bench/python_package.py year           makes the page of a house's year, with its connection, once
    python3 bench/python_package.py study [MANY]   makes so many files and runs them over 1, 2, 3 and 4 processes
    python3 bench/python_package.py month          makes a month of 156 devices, and runs it day by day

It needs matplotlib, and the proved program of this checkout or the one that COGMAULA_MARKET names. It prints a line for each
measurement, with the load of the machine.
"""

import math
import os
import random
import resource
import subprocess
import sys
import tempfile
import time
from collections.abc import Iterator
from datetime import datetime, timedelta
from pathlib import Path

TOP = Path(__file__).resolve().parent.parent
sys.path.insert(0, str(TOP / "python"))

from cogmaula import Basis, Battery, Cluster, Events, Limited, Load, Manual, Node, Program, Solar, State, Tick, parts_of, run_parts
from cogmaula.study import study

# The quarters of an hour of a day, and of each file of a study.
DAY, PART = 96, 24


def script_of(devices: int, quarters: int, seed: int) -> Cluster:
    """So many quarters of an hour: six in ten devices are loads, three are roofs, one a battery, below five feeders."""
    draw = random.Random(seed)
    feeders: list[Node] = [Limited(f"feeder{at}", floor=-40_000, ceiling=40_000) for at in range(5)]
    leaves = [device_of(draw, at, f"feeder{at % 5}") for at in range(devices)]
    grid = Manual("grid", points=[(60, 200_000), (80, 0), (300, 0), (320, -200_000)])
    cluster = Cluster(Basis(0, 500, 501), [*feeders, *leaves, grid])
    changing = [leaf for leaf in leaves if not isinstance(leaf, Battery)]
    phases = [cluster.join_all(), Tick(15)]
    for _ in range(1, quarters):
        phases += [Events([State(device.name, draw.randrange(100, 4000)) for device in changing]), Tick(15)]
    return cluster.with_phases(*phases)


def device_of(draw: random.Random, at: int, feeder: str) -> Node:
    """A device below a feeder."""
    if at % 10 == 9:
        return Battery(f"battery{at}", parent=feeder, capacity=10_000, charge=3000, discharge=3000, spread=20 + at % 30, start=5000)
    kind = Solar if at % 10 >= 6 else Load
    return kind(f"{kind.kind}{at}", parent=feeder, start=draw.randrange(100, 4000))


def load() -> str:
    """How many programs wait for the processors."""
    return f"load {os.getloadavg()[0]:.1f} on {os.cpu_count()} processors"


def processor_time() -> float:
    """The seconds that this program and those that it started and that ended had of a processor."""
    used = [resource.getrusage(who) for who in (resource.RUSAGE_SELF, resource.RUSAGE_CHILDREN)]
    return sum(usage.ru_utime + usage.ru_stime for usage in used)


def year_of_a_house() -> Cluster:
    """A house with a roof, a battery and a connection over 365 days in quarters of an hour, by a seed."""
    draw = random.Random(1)
    nodes = [
        Manual("connection", points=[(79, 30_000), (80, 0), (299, 0), (300, -30_000)]),
        Battery("battery", capacity=10_000, charge=5000, discharge=5000, spread=20, start=0),
        Load("house", start=300),
        Solar("roof", start=0),
    ]
    cluster = Cluster(Basis(0, 400, 401), nodes)
    phases = [cluster.join_all(), Tick(15)]
    for quarter in range(1, 365 * DAY):
        hour, day = quarter % DAY / 4, quarter // DAY
        height = max(0.0, math.sin((hour - 6) / 12 * math.pi)) * (3000 + 2000 * math.sin((day - 80) / 365 * 2 * math.pi))
        evening = 1500 * draw.random() if 17 < hour < 22 else 0
        sun, load = int(height * (0.3 + 0.7 * draw.random())), int(200 + 300 * draw.random() + evening)
        phases += [Events([State("house", load), State("roof", sun)]), Tick(15)]
    return cluster.with_phases(*phases)


def measure_page(what: str, file: Path, *more: str) -> None:
    """The page of a file, as a user makes it, with the start of Python."""
    page = file.with_suffix(".html")
    named = os.environ.get("COGMAULA_MARKET") or str(TOP)
    words = [sys.executable, "-m", "cogmaula", "report", str(file), "-o", str(page), "--program", named, "--quiet", *more]
    begun, used = time.monotonic(), processor_time()
    subprocess.run(words, cwd=TOP / "python", check=True)
    took, used = time.monotonic() - begun, processor_time() - used
    most = resource.getrusage(resource.RUSAGE_CHILDREN).ru_maxrss // 1024
    print(
        f"report of {what}: {took:.2f} s, {used:.2f} s of a processor, {page.stat().st_size:,} bytes, "
        f"at most {most} MB for a process, {load()}"
    )


def measure_run(file: Path) -> None:
    """The plain run of a file by the program."""
    program = Program.find(os.environ.get("COGMAULA_MARKET") or str(TOP))
    begun, used = time.monotonic(), processor_time()
    program.answer("run", file.read_bytes())
    print(f"market run of it: {time.monotonic() - begun:.2f} s, {processor_time() - used:.2f} s of a processor, {load()}")


def measure_report(folder: Path) -> None:
    """The report of a day of 200 devices."""
    file = folder / "day.json"
    script_of(199, DAY, 1).save(file)
    for _ in range(5):
        measure_run(file)
        measure_page(f"200 devices over {DAY} ticks", file)


def measure_week(folder: Path) -> None:
    """The report of a week of 97 devices, with a span of the whole week."""
    file = folder / "week.json"
    script_of(96, 7 * DAY, 1).save(file)
    measure_page(f"97 devices over {7 * DAY} ticks", file, "--span", "10080", "--connection", "grid")


def make_tables(folder: Path) -> Path:
    """A recipe with tables of a week, for 58 loads, 29 roofs, nine batteries below five feeders and a connection. All by a seed."""
    draw, start = random.Random(1), datetime(2026, 6, 21)
    recipe = ['minutes = 15\nmissing = "hold"\ntimezone = "Europe/Berlin"\n[basis]\nmin = 0\nmax = 500\nsteps = 501']
    recipe.append('[connection]\nname = "grid"\nbuy = 30\nsell = 8')
    recipe += [f'[[node]]\nname = "feeder{at}"\nkind = "limited"\nfloor = -40000\nceiling = 40000\nparent = "auctioneer"' for at in range(5)]
    for at in range(9):
        numbers = f"capacity = 10000\ncharge = 3000\ndischarge = 3000\nspread = {20 + at}\nstart = 5000"
        recipe.append(f'[[node]]\nname = "battery{at}"\nkind = "battery"\nparent = "feeder{at % 5}"\n{numbers}')
    for kind, many in (("load", 58), ("solar", 29)):
        names = [f"{kind}{at}" for at in range(many)]
        rows = [",".join(["time", *names])]
        for quarter in range(7 * DAY):
            moment = start + timedelta(minutes=15 * quarter)
            rows.append(",".join([moment.isoformat(timespec="minutes"), *(str(draw.randrange(100, 4000)) for _ in names)]))
        (folder / f"{kind}.csv").write_text("\n".join(rows) + "\n")
        parents = ", ".join(f'{name} = "feeder{at % 5}"' for at, name in enumerate(names))
        recipe.append(f'[[table]]\nfile = "{kind}.csv"\nkind = "{kind}"\nparents = {{{parents}}}')
    path = folder / "week.toml"
    path.write_text("\n".join(recipe) + "\n")
    return path


def measure_tables(folder: Path) -> None:
    """From tables of a week to its page, and the program's runs of its parts."""
    program = Program.find(os.environ.get("COGMAULA_MARKET") or str(TOP))
    recipe, file = make_tables(folder), folder / "week.json"
    begun, used = time.monotonic(), processor_time()
    words = [sys.executable, "-m", "cogmaula", "from-csv", str(recipe), "-o", str(file), "--program", program.path]
    subprocess.run(words, cwd=TOP / "python", check=True, capture_output=True)
    print(f"from-csv: {time.monotonic() - begun:.2f} s, {processor_time() - used:.2f} s of a processor, {load()}")
    measure_page("the week of 97 devices", file, "--connection", "grid", "--start", "2026-06-21")
    cluster = Cluster.load(file)
    parts = [run.cluster.to_bytes() for run in run_parts(cluster, parts_of(cluster), program=program)]
    for command in ("run", "bill"):
        begun, used = time.monotonic(), processor_time()
        for part in parts:
            program.answer(command, part)
        print(f"market {command} of {len(parts)} parts: {time.monotonic() - begun:.2f} s, {processor_time() - used:.2f} s of a processor, {load()}")


def measure_year(folder: Path) -> None:
    """The report of a house's year."""
    file = folder / "year.json"
    year_of_a_house().save(file)
    measure_page("a house's year", file, "--connection", "connection", "--currency", "EUR", "--per-kwh", "0.001", "--start", "2026-01-01")


def measure_month(folder: Path) -> None:
    """A month of 156 devices in quarters of an hour, cut into days, with all its tables."""
    file, program = folder / "month.json", os.environ.get("COGMAULA_MARKET") or str(TOP)
    month = script_of(155, 30 * DAY, 1)
    month.save(file)
    words = [sys.executable, "-m", "cogmaula", "chain", str(file), "--minutes", "1440", "-o", str(folder / "tables"), "--program", program]
    begun, used = time.monotonic(), processor_time()
    subprocess.run(words, cwd=TOP / "python", check=True)
    took, used = time.monotonic() - begun, processor_time() - used
    rows = (folder / "tables" / "prices.csv").read_text().count("\n") - 1
    assert rows == len(month.phases)
    told = f"{rows} phases in {len(list(parts_of(month, 1440)))} parts, {file.stat().st_size:,} bytes"
    print(f"month of 156 devices: {took:.1f} s, {used:.1f} s of a processor, {told}, {load()}")


def files_of(folder: Path, many: int) -> Iterator[Path]:
    """So many files of 20 devices and six hours each."""
    for at in range(many):
        path = folder / f"{at:05}.json"
        script_of(19, PART, at).save(path)
        yield path


def measure_study(folder: Path, many: int) -> None:
    """The same files over 1 to 4 processes; the outcomes have to be the same."""
    paths, program = list(files_of(folder, many)), Program.find(TOP)
    alone = None
    for processes in (1, 2, 3, 4):
        begun, used = time.monotonic(), processor_time()
        outcomes = study(paths, processes=processes, program=program)
        took, used = time.monotonic() - begun, processor_time() - used
        alone = alone or (took, outcomes)
        assert outcomes == alone[1] and not any(outcome.fault for outcome in outcomes)
        told = f"{took:.1f} s, {used:.1f} s of a processor, {alone[0] / took:.2f} times as fast as one"
        print(f"study of {many} files over {processes} processes: {told}, {load()}")


def main() -> int:
    """Measures what the words ask for."""
    with tempfile.TemporaryDirectory() as folder:
        match sys.argv[1:]:
            case ["report"]:
                measure_report(Path(folder))
            case ["week"]:
                measure_week(Path(folder))
            case ["tables"]:
                measure_tables(Path(folder))
            case ["year"]:
                measure_year(Path(folder))
            case ["study"]:
                measure_study(Path(folder), 1000)
            case ["month"]:
                measure_month(Path(folder))
            case ["study", many] if many.isdigit():
                measure_study(Path(folder), int(many))
            case _:
                print(__doc__, file=sys.stderr)
                return 2
    return 0


if __name__ == "__main__":
    sys.exit(main())
