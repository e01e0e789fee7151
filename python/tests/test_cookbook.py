"""Runs every command of docs/COOKBOOK.md, and compares each block of the page with what comes out or with the example files."""

from __future__ import annotations

import importlib.util
import json
import os
import shlex
import subprocess
import sys
from collections.abc import Iterator
from datetime import date
from pathlib import Path
from types import ModuleType

import house_model
import pytest

from cogmaula import Cluster, Program, run
from cogmaula.data import made_by

TOP = Path(__file__).resolve().parents[2]
PAGE = TOP / "docs" / "COOKBOOK.md"
FOLDER = TOP / "examples" / "cookbook"
COMMANDS = ("./market ", "cogmaula ", "python3 ")


def blocks_of(page: str) -> Iterator[list[str]]:
    """The indented blocks of a page, as lines without the indent. An item of a list is none."""
    block: list[str] = []
    for line in [*page.splitlines(), ""]:
        if line.startswith("    "):
            block.append(line[4:])
        elif block:
            yield block
            block = []


def output_of(line: str, folder: Path, program: Program) -> list[list[str]]:
    """What a command of the page writes: the lines of its standard output, and of each file that it writes into OUTPUT."""
    words = [word.replace("OUTPUT", str(folder)) for word in shlex.split(line)]
    if words[0] == "./market":
        assert words[2] == "<"
        return [program.answer(words[1], (TOP / words[3]).read_bytes()).decode().splitlines()]
    start = [sys.executable, "-m", "cogmaula"] if words[0] == "cogmaula" else [sys.executable]
    environment = {**os.environ, "PYTHONPATH": str(TOP / "python"), "COGMAULA_MARKET": program.path}
    done = subprocess.run(
        [*start, *words[1:]], cwd=TOP, env=environment, capture_output=True, text=True, check=False, timeout=600
    )
    assert done.returncode == 0, done.stderr
    return [done.stdout.splitlines(), *(path.read_text().splitlines() for path in sorted(folder.iterdir()))]


def is_part(block: list[str], lines: list[str]) -> bool:
    """Whether the block is some lines, one behind another."""
    return any(lines[at : at + len(block)] == block for at in range(len(lines) - len(block) + 1))


def objects_of(value: object) -> Iterator[object]:
    """The value and all values in it."""
    yield value
    for member in value.values() if isinstance(value, dict) else value if isinstance(value, list) else ():
        yield from objects_of(member)


def test_each_block_of_the_page_is_what_comes_out(tmp_path: Path, program: Program) -> None:
    """A command is run; a block behind it is a part of what it wrote; an object is a part of a file that the page links."""
    files = [json.loads(path.read_text()) for path in sorted(FOLDER.glob("*.json"))]
    written: list[list[str]] = []
    commands = 0
    for block in blocks_of(PAGE.read_text()):
        if block[0].startswith(COMMANDS):
            # The commands of a block share a folder, so that one reads what another has written.
            folder = tmp_path / f"{commands}"
            folder.mkdir()
            for line in block:
                written = output_of(line, folder, program)
            commands += 1
        elif block[0].startswith("{"):
            due = json.loads("\n".join(block))
            assert any(due in objects_of(file) for file in files), block
        else:
            assert any(is_part(block, text) for text in written), "\n".join(block)
    assert commands >= 10


def test_each_file_is_named_by_the_page_and_has_its_text(program: Program) -> None:
    """The page names each cluster file, and the program writes the text beside it, which was worked out without the program."""
    page = PAGE.read_text()
    for file in sorted(FOLDER.glob("*.json")):
        assert f"../examples/cookbook/{file.name}" in page
        assert program.answer("run", file.read_bytes()).decode() == file.with_suffix(".txt").read_text()
        Cluster.load(file).check(program)


def test_the_report_of_the_feeder_says_what_the_page_quotes(tmp_path: Path, program: Program) -> None:
    """The quoted sentence is on the page of the report, and the run has the violations that it tells."""
    pytest.importorskip("matplotlib")
    quoted = "feeder was outside its limits for 1 h, at the ends of 2 of 4 phases"
    assert quoted in PAGE.read_text().replace("\n", " ")
    written = output_of("cogmaula report examples/cookbook/feeder.json -o OUTPUT/feeder.html", tmp_path, program)
    assert any(quoted in line for line in written[1])
    assert [end.groups[0].total for end in run(FOLDER / "feeder.json", program=program).ends] == [4000, 6000, 6000, 5000]


def test_equal_batteries_charge_together_or_not_at_all(program: Program) -> None:
    """Worked by hand: at price 50 none charges; with spreads 0 to 19 the first ten do, at price 40."""
    equal, staggered = (run(FOLDER / f"batteries_{name}.json", program=program).ends[0] for name in ("equal", "staggered"))
    names = [f"battery{at:02}" for at in range(20)]
    assert [equal.powers[name] for name in names] == [0] * 20 and equal.total == -10000
    assert [staggered.powers[name] for name in names] == [1000] * 10 + [0] * 10 and staggered.total == 0


def load_module(name: str) -> ModuleType:
    """A script of the cookbook as a module."""
    spec = importlib.util.spec_from_file_location(name, FOLDER / f"{name}.py")
    assert spec is not None and spec.loader is not None
    module = importlib.util.module_from_spec(spec)
    spec.loader.exec_module(module)
    return module


@pytest.fixture(scope="module")
def year(tmp_path_factory: pytest.TempPathFactory) -> Path:
    """The tables and the recipe of the house's year."""
    folder: Path = tmp_path_factory.mktemp("year")
    load_module("year").main(folder)
    return folder


def net_of(folder: Path) -> list[int]:
    """What the house takes in each hour of the year net of its roof, in watts, read by pandas alone."""
    pandas = pytest.importorskip("pandas")
    house, roof = (pandas.read_csv(folder / f"{name}.csv")[name] for name in ("house", "roof"))
    return list(map(int, house - roof))


def test_the_costs_of_the_year_are_those_of_the_page(year: Path) -> None:
    """By a model of its own: the four costs in ten slices, and the battery in one piece, which is all but idle."""
    net = net_of(year)
    assert len(net) == 8760
    page = PAGE.read_text()
    sliced, whole = house_model.costs(net, 10), house_model.costs(net, 1)
    for name, cost in sliced.items():
        assert f"    {name:10} {cost:8.2f} EUR\n" in page
    assert f"{whole['no battery'] - whole['tariff']:.2f} EUR" in page
    assert f"{sliced['tariff'] - sliced['plain rule']:.2f} EUR" in page


def test_a_week_of_the_year_costs_what_the_model_says(year: Path, program: Program) -> None:
    """To the last unit, and the market's bill is that of the program: what the connection and the grid are paid."""
    made = made_by(year / "house.toml", date(2026, 6, 1), date(2026, 6, 8))
    done = run(made.cluster, start=made.start, program=program)
    begin = (31 + 28 + 31 + 30 + 31) * 24 - 1
    assert made.connection == "connection"
    found = load_module("costs").costs(done)
    due = house_model.costs(net_of(year)[begin : begin + 7 * 24], 10)
    assert found == pytest.approx(due)
    assert -(done.bill.devices["connection"].amount + done.bill.grid.amount) / 60_000_000 == pytest.approx(due["market"])
    assert due["plain rule"] < due["no battery"] and due["tariff"] < due["no battery"]
