"""From tables to a cluster file: what a recipe makes, and what is said of faulty recipes and tables."""

from __future__ import annotations

import subprocess
import sys
from datetime import datetime, timedelta
from decimal import Decimal
from pathlib import Path

import pytest
from hypothesis import given
from hypothesis import strategies as some

from cogmaula import Cluster, Events, Join, Load, Program, Solar, State, Tick, Unreadable, cli, run
from cogmaula.data import RecipeFault, TableFault, from_csv, read_recipe, read_table
from cogmaula.data.recipe import Table
from cogmaula.report import groups_of
from cogmaula.report.intervals import intervals_of
from cogmaula.states import snapshots

TOP = Path(__file__).resolve().parents[2]
RECIPE = """
minutes = 30
[basis]
min = 0
max = 9
steps = 10
[[node]]
name = "feeder"
kind = "limited"
parent = "auctioneer"
floor = -5000
ceiling = 5000
[[table]]
file = "loads.csv"
kind = "load"
unit = "kW"
prefix = "load-"
parent = "feeder"
parents = {b = "auctioneer"}
[[table]]
file = "sun.csv"
kind = "solar"
unit = "kWh"
prefix = "roof-"
parent = "feeder"
delimiter = ";"
decimal = ","
"""
LOADS = "time,a,b\n2026-06-21T00:00,0.5,1\n2026-06-21T00:30,0.5,1.25\n2026-06-21T01:00,0.5,1.25\n"
SUN = "time;a\n2026-06-21T00:00;0\n2026-06-21T00:30;0,25\n2026-06-21T01:00;0,25\n"


def written(folder: Path, recipe: str = RECIPE, loads: str = LOADS, sun: str = SUN) -> Path:
    """A recipe with its tables in a folder."""
    for name, text in (("recipe.toml", recipe), ("loads.csv", loads), ("sun.csv", sun)):
        (folder / name).write_text(text)
    return folder / "recipe.toml"


def test_a_recipe_makes_the_cluster_of_its_tables(tmp_path: Path) -> None:
    """Worked by hand: 0.25 kWh in half an hour are 500 W; only what changes has an event; the last row changes nothing."""
    cluster, start = from_csv(written(tmp_path))
    assert start == datetime(2026, 6, 21)
    assert cluster.version == 2 and cluster.basis.prices == list(range(10))
    assert cluster.nodes[1:] == (
        Load("load-a", parent="feeder", start=500),
        Load("load-b", parent="auctioneer", start=1000),
        Solar("roof-a", parent="feeder", start=0),
    )
    assert cluster.phases == (
        Events([Join("load-a"), Join("load-b"), Join("roof-a")]),
        Tick(30),
        Events([State("load-b", 1250), State("roof-a", 500)]),
        Tick(30),
        Tick(30),
    )


def test_the_rows_between_two_times_alone_are_taken(tmp_path: Path) -> None:
    """From the second row on, the first powers are those of the second row."""
    cluster, start = from_csv(written(tmp_path), begin=datetime(2026, 6, 21, 0, 30), end=datetime(2026, 6, 21, 1))
    assert start == datetime(2026, 6, 21, 0, 30)
    assert [getattr(device, "start") for device in cluster.devices] == [500, 1250, 500]
    assert [phase.minutes for phase in cluster.phases if isinstance(phase, Tick)] == [30]


def test_no_row_between_two_times_is_told(tmp_path: Path) -> None:
    """A day without rows has no cluster."""
    with pytest.raises(TableFault, match="no row lies between"):
        from_csv(written(tmp_path), begin=datetime(2027, 1, 1))


@pytest.mark.parametrize(
    ("old", "new", "told"),
    [
        ("2026-06-21T00:30,", "2026-06-21T00:45,", r"loads.csv:3: the row is of .*00:45.*, and .*00:30.* is due"),
        ("2026-06-21T00:30,", "2026-06-21T00:00,", r"loads.csv:3: the row is of"),
        ("2026-06-21T00:30,", "noon,", r"loads.csv:3: 'noon' is no time"),
        ("2026-06-21T00:30,", "2026-06-21T00:30Z,", r"loads.csv:3: .* has an offset and the line before has none"),
        ("0.5,1.25", "0.5,", r"loads.csv:3: column b: the cell is empty"),
        ("0.5,1.25", "0.5,1.2.5", r"loads.csv:3: column b: '1.2.5' is no number"),
        ("0.5,1.25", "0.5,-1", r"loads.csv:3: column b: -1 is below 0: .* into a table of solar"),
        ("0.5,1.25", "0.5,NaN", r"loads.csv:3: column b: the cell has no value but 'NaN'"),
        ("0.5,1.25", "0.5,inf", r"loads.csv:3: column b: 'inf' is no number"),
        ("0.5,1.25", "0.5,1_000", r"loads.csv:3: column b: '1_000' is no number"),
        ("0.5,1.25", "0.5,\u0661\u0662", r"loads.csv:3: column b: '\u0661\u0662' is no number"),
        ("0.5,1.25", "0.5," + "9" * 5000, r"loads.csv:3: column b: '9{60}\.\.' is no number"),
        ("0.5,1.25", "0.5,1e99", r"loads.csv:3: column b: 1e99 kW are more than 1,000,000,000 W"),
        ("0.5,1.25", "0.5", r"loads.csv:3: the line has 2 cells, and the first line has 3"),
        ("time,a,b", "time,a,a", r"loads.csv:1: column 3 is called 'a' as an earlier one is"),
        ("time,a,b", "time,a,", r"loads.csv:1: column 3 has no name"),
        ("time,a,b", "time", r"loads.csv:1: the table has no column beside the time"),
    ],
)
def test_a_faulty_table_is_told_with_its_place(tmp_path: Path, old: str, new: str, told: str) -> None:
    """Each fault has the file, the line and the column."""
    assert old in LOADS
    with pytest.raises(TableFault, match=told):
        from_csv(written(tmp_path, loads=LOADS.replace(old, new, 1)))


def test_tables_without_rows_or_text_are_told(tmp_path: Path) -> None:
    """A line of names alone, and bytes that are no text."""
    with pytest.raises(TableFault, match="the table has no rows"):
        from_csv(written(tmp_path, loads="time,a,b\n"))
    path = written(tmp_path)
    (tmp_path / "loads.csv").write_bytes(b"time,\xff\n")
    with pytest.raises(TableFault, match="this is no table"):
        from_csv(path)


def test_tables_of_other_spans_are_told(tmp_path: Path) -> None:
    """Both tables need the same rows."""
    with pytest.raises(TableFault, match=r"sun.csv: its rows go from .* cut them to the same span"):
        from_csv(written(tmp_path, sun=SUN[: SUN.rindex("2026")]))


@pytest.mark.parametrize(
    ("old", "new", "told"),
    [
        ("minutes = 30", "minutes = ", "this is no TOML"),
        ("minutes = 30", "minutes = 0", "minutes is 0"),
        ("minutes = 30", "hours = 1", "the recipe has 'hours', which is unknown"),
        ('kind = "solar"', 'kind = "sun"', "table 2: kind is 'sun': write one of load, solar"),
        ('unit = "kWh"', 'unit = "MWh"', "table 2: unit is 'MWh'"),
        ('unit = "kWh"', "unit = 3", "table 2: unit is 3: write a text"),
        ('file = "sun.csv"\n', "", "table 2 has no file"),
        ('delimiter = ";"', 'delimiter = ";;"', "table 2: delimiter is ';;': write one sign"),
        ('delimiter = ";"', "delimiter = '\"'", "table 2: delimiter is"),
        ('decimal = ","', 'decimal = "x"', "table 2: decimal is 'x': write . or ,"),
        ('decimal = ","', 'decimal = ";"', "table 2: decimal is ';'"),
        ("minutes = 30", "minutes = -15", "minutes is -15: write a whole number above 0"),
        ("minutes = 30", "minutes = 30\nresample = 45", "resample is 45, and a row has 30 minutes"),
        ("minutes = 30", 'minutes = 30\nmissing = "guess"', "missing is 'guess': write one of hold, zero"),
        ("minutes = 30", 'minutes = 30\ntimezone = "Berlin"', "timezone is 'Berlin': write a name such as Europe/Berlin"),
        ("{b = ", "{B = ", "loads.csv: parents names 'B', which is no column: is 'b' meant"),
        ("{b = ", "{other = ", "loads.csv: parents names 'other', which is no column: it has a, b"),
        ("floor = -5000", "floor = 2026-01-01", "node 1: a value is none of a cluster file"),
        ("[[node]]", "[node]", "node is no list of tables"),
        ("[basis]", "basis = 3\n[other]", "the recipe has 'other'"),
    ],
)
def test_a_faulty_recipe_is_told(tmp_path: Path, old: str, new: str, told: str) -> None:
    """Each fault says what is wrong."""
    assert old in RECIPE
    with pytest.raises(RecipeFault, match=told):
        from_csv(written(tmp_path, recipe=RECIPE.replace(old, new, 1)))


def test_a_recipe_needs_a_basis_and_a_table(tmp_path: Path) -> None:
    """Without them nothing can be made."""
    for recipe, told in (("", "has no basis"), ("[basis]\n", "has no table"), ("basis = 1\ntable = []\n", "basis is no table")):
        with pytest.raises(RecipeFault, match=told):
            from_csv(written(tmp_path, recipe=recipe))
    with pytest.raises(RecipeFault, match="has no table: write"):
        from_csv(written(tmp_path, recipe="table = []\n[basis]\nmin = 0\nmax = 9\nsteps = 10\n"))


def test_a_node_of_the_recipe_has_the_members_of_its_kind(tmp_path: Path) -> None:
    """A slip in a node is one of the cluster file."""
    with pytest.raises(Unreadable, match="the member floor is missing"):
        from_csv(written(tmp_path, recipe=RECIPE.replace("floor", "flor")))


@given(some.decimals(min_value=0, max_value=1000, places=5), some.sampled_from([1, 5, 15, 60]))
def test_a_number_becomes_the_nearest_whole_watts(tmp_path_factory: pytest.TempPathFactory, number: Decimal, minutes: int) -> None:
    """In each unit, at most half a watt off: energy times 60 over the minutes is power."""
    path = tmp_path_factory.mktemp("table") / "table.csv"
    path.write_text(f"time,a\n2026-01-01,{number}\n")
    for unit, factor in (("W", Decimal(1)), ("kW", Decimal(1000)), ("Wh", Decimal(60) / minutes), ("kWh", Decimal(60000) / minutes)):
        measured = read_table(Table(path, "load", unit), minutes)
        assert abs(measured.powers[0][0] - number * factor) <= Decimal("0.5")


def test_the_command_writes_a_file_that_the_program_takes(
    tmp_path: Path, program: Program, capsys: pytest.CaptureFixture[str]
) -> None:
    """One day of the tables; and a node that the program refuses, which leaves the file that was there."""
    path, output = written(tmp_path), tmp_path / "day.json"
    words = ["from-csv", str(path), "-o", str(output), "--program", program.path]
    assert cli.main([*words, "--day", "2026-06-21"]) == 0
    assert "3 devices, 5 phases, 90 minutes from 2026-06-21T00:00:00" in capsys.readouterr().err
    assert Cluster.load(output) == from_csv(path)[0]
    assert cli.main([*words, "--begin", "2026-06-21T00:30", "--end", "2026-06-21T01:00"]) == 0
    assert Cluster.load(output).minutes == 30
    assert cli.main([*words, "--day", "2026-06-22"]) == 2
    for own in ("recipe.toml", "loads.csv"):
        assert cli.main([*words[:3], str(tmp_path / own)]) == 2
        assert f"{tmp_path / own} is the recipe or one of its tables" in capsys.readouterr().err
    written(tmp_path, recipe=RECIPE.replace("ceiling = 5000", "ceiling = -1"))
    capsys.readouterr()
    before = output.read_bytes()
    assert cli.main(words) == 2
    assert "recipe.toml: the node 'feeder': the program refuses it: refused" in capsys.readouterr().err
    assert output.read_bytes() == before


def test_a_month_is_made_and_tried_in_parts(tmp_path: Path, program: Program, capsys: pytest.CaptureFixture[str]) -> None:
    """1,500 quarters of an hour are more phases than one run takes."""
    times = [datetime(2026, 6, 1) + timedelta(minutes=15 * at) for at in range(1500)]
    rows = [f"{time.isoformat()},{at % 7}" for at, time in enumerate(times)]
    (tmp_path / "loads.csv").write_text("\n".join(["time,a", *rows, ""]))
    (tmp_path / "recipe.toml").write_text(
        '[basis]\nmin = 0\nmax = 9\nsteps = 10\n[[table]]\nfile = "loads.csv"\nkind = "load"\n'
    )
    output = tmp_path / "month.json"
    assert cli.main(["from-csv", str(tmp_path / "recipe.toml"), "-o", str(output), "--program", program.path]) == 0
    assert "too long for one run" in capsys.readouterr().err
    assert len(Cluster.load(output).phases) == 3000


def test_the_worked_day_has_the_violation_that_its_page_tells(program: Program) -> None:
    """The feeder is outside from 11:30 to 15:30, and all batteries are nearly full by then."""
    folder = TOP / "examples" / "neighbourhood"
    day = run(folder / "neighbourhood.json", start=datetime(2026, 6, 21), program=program)
    (violation,) = groups_of(day, intervals_of(day.cluster))[0].violations
    assert (violation.begin, violation.end) == (11 * 60 + 30, 15 * 60 + 30)
    assert 52_500 <= -violation.load < 53_500
    at = day.times.index(datetime(2026, 6, 21, 11, 30))
    charges = list(snapshots(day.cluster, day.ends))[at].states
    assert all(charges[device.name] >= 9500 for device in day.cluster.devices if device.kind == "battery")  # type: ignore[operator]
    lower = [time for time, end in zip(day.times, day.ends, strict=True) if end.groups[0].price < end.price]
    assert lower[0] == datetime(2026, 6, 21, 10, 30)


def test_the_neighbourhood_is_made_by_its_seed(tmp_path: Path) -> None:
    """The tables of the example are those that its script makes, and its cluster file is the one that its recipe makes."""
    folder = TOP / "examples" / "neighbourhood"
    script = tmp_path / "make_data.py"
    script.write_text((folder / "make_data.py").read_text())
    subprocess.run([sys.executable, str(script)], check=True)
    for name in ("loads.csv", "solar.csv"):
        assert (tmp_path / name).read_text() == (folder / name).read_text()
    cluster, start = from_csv(folder / "neighbourhood.toml")
    assert cluster.to_json() == (folder / "neighbourhood.json").read_text()
    assert start == datetime(2026, 6, 21)
    assert read_recipe(folder / "neighbourhood.toml").minutes == 15


@pytest.mark.parametrize(
    ("columns", "told"),
    [
        ("a,b/c", "loads.csv: column b/c: the program refuses it: refused 7 node 3: a name has a wrong form"),
        ("a,store", "loads.csv: column store: the program refuses it: refused"),
    ],
)
def test_a_column_that_the_program_refuses_is_named_and_nothing_is_written(tmp_path, capsys, program, columns, told) -> None:
    (tmp_path / "loads.csv").write_text(f"time,{columns}\n2026-06-21T00:00,100,200\n2026-06-21T00:15,100,200\n")
    battery = "capacity = 1000\ncharge = 500\ndischarge = 500\nspread = 1\nstart = 0"
    recipe = f'[basis]\nmin = 0\nmax = 9\nsteps = 10\n[[node]]\nname = "store"\nkind = "battery"\nparent = "auctioneer"\n{battery}\n'
    (tmp_path / "recipe.toml").write_text(recipe + '[[table]]\nfile = "loads.csv"\nkind = "load"\nunit = "W"\n')
    words = ["from-csv", str(tmp_path / "recipe.toml"), "-o", str(tmp_path / "out.json"), "--program", program.path]
    assert cli.main(words) == 2
    assert told in capsys.readouterr().err and not (tmp_path / "out.json").exists()
    (tmp_path / "recipe.toml").write_text(recipe.replace("spread = 1", "spread = -1") + '[[table]]\nfile = "loads.csv"\nkind = "load"\n')
    (tmp_path / "loads.csv").write_text("time,a\n2026-06-21T00:00,1\n2026-06-21T00:15,2\n")
    assert cli.main(words) == 2
    assert "recipe.toml: the node 'store': the program refuses it: refused" in capsys.readouterr().err
    assert not (tmp_path / "out.json").exists()
