"""Data frames against the lines of the report and of the bill, and the files that they are written to."""

from __future__ import annotations

import json
import re
import sys
from datetime import datetime, timedelta

import pytest
from zoneinfo import ZoneInfo
from clusters import clusters
from conftest import CASES, EXAMPLES
from hypothesis import given, settings

from cogmaula import Basis, Cluster, Events, Join, Limited, Load, NoPackage, Run, Tick, ask, bill, run
from cogmaula import data_frames

pd = pytest.importorskip("pandas")
pytestmark = pytest.mark.usefixtures("program")


def words(text, first):
    """The words of each line that begins so."""
    return [line.split() for line in text.decode().splitlines() if line.startswith(f"{first} ")]


@settings(max_examples=40)
@given(cluster=clusters())
def test_frames_are_the_lines(cluster):
    done = run(cluster)
    look_at_prices(done)
    look_at_powers_and_bids(done)
    look_at_groups(done)
    look_at_accounts(done)


def look_at_prices(done):
    lines = words(done.text, "phase")
    assert [str(cell) for cell in done.prices["price"]] == [line[3] for line in lines]
    assert [str(cell) for cell in done.prices["step"]] == [line[5] for line in lines]
    assert [str(cell) for cell in done.prices["total_W"]] == [line[7] for line in lines]
    assert [str(cell) for cell in done.prices["members"]] == [line[9] for line in lines]
    assert list(done.prices.index.get_level_values("phase")) == [int(line[1]) for line in lines]


def look_at_powers_and_bids(done):
    due, phase = {}, 0
    for line in done.text.decode().splitlines():
        if found := re.match(r"phase (\d+)", line):
            phase = int(found[1])
        if found := re.match(r"member (\S+) power (\S+) bid (\S+)", line):
            due[phase, found[1]] = int(found[2]), int(found[3])
    assert list(done.powers.columns) == [device.name for device in done.cluster.devices]
    found = {}
    for (_, at), row in done.powers.iterrows():
        for name, power in row.items():
            if not pd.isna(power):
                found[at, name] = int(power), int(done.bids.xs(at, level="phase")[name].iloc[0])
    assert found == due


def look_at_groups(done):
    lines = words(done.text, "limited")
    frame = done.limited_groups.reset_index()
    assert [[row.group, str(row.price), str(row.step), str(row.total_W)] for row in frame.itertuples()] == [
        [line[1], line[3], line[5], line[7]] for line in lines
    ]
    for row in frame.itertuples():
        assert row.floor_W <= row.total_W - row.excess_W <= row.ceiling_W
        assert (row.excess_W == 0) == (row.floor_W <= row.total_W <= row.ceiling_W)
    assert len(done.violations) == sum(frame["excess_W"] != 0)


def look_at_accounts(done):
    # Powers over the minutes that they last are what the program's bill has.
    amounts = done.powers.fillna(0).astype("int64").mul(done.prices["minutes"], axis=0)
    for name, account in bill(done.cluster).devices.items():
        assert amounts[name].clip(lower=0).sum() == account.taken
        assert -amounts[name].clip(upper=0).sum() == account.given
        assert done.accounts.loc[("device", name), "amount"] == account.amount
    assert done.accounts["amount"].sum() == 0


@settings(max_examples=25)
@given(cluster=clusters())
def test_times_are_the_minutes_of_ticks(cluster):
    start = datetime(2026, 3, 1, 6)
    done = run(cluster, start=start)
    passed, due = 0, []
    for phase in cluster.phases:
        passed += phase.minutes if isinstance(phase, Tick) else 0
        due.append(start + timedelta(minutes=passed))
    assert list(done.prices.index.get_level_values("time")) == due
    # What lasts over the ticks behind a phase is all the time but that before the first end.
    first = cluster.phases[0].minutes if cluster.phases and isinstance(cluster.phases[0], Tick) else 0
    assert sum(done.durations) == cluster.minutes - first


def overloaded():
    """A load of 300 W below a ceiling of 200 W, which no price brings down."""
    nodes = [Limited("feeder", floor=-100, ceiling=200), Load("house", parent="feeder", start=300)]
    return Cluster(Basis(0, 9, 10), nodes, [Events([Join("house")]), Tick(30), Tick(15)])


def test_violations_by_hand():
    done = run(overloaded())
    assert list(done.violations["excess_W"]) == [100, 100, 100]
    assert list(done.violations["minutes"]) == [30, 15, 0]
    assert list(done.violations.index.get_level_values("group")) == ["feeder"] * 3
    assert done.violations.index.names == ["time", "phase", "group"]


def test_states_by_hand():
    done = run(EXAMPLES / "battery_day.json")
    assert done.states["battery"].iloc[0] == done.cluster.node("battery").start
    assert set(done.states.columns) == {device.name for device in done.cluster.devices if device.kind != "manual"}
    assert done.states.dtypes.unique().tolist() == [pd.Int64Dtype()]


def test_a_device_called_grid_keeps_its_row():
    text = (CASES / "bill" / "two_bids_over_an_hour.json").read_text().replace("gen1", "grid")
    accounts = run(text.encode()).accounts
    assert accounts.loc[("device", "grid"), "amount"] == -36000
    assert accounts.loc[("grid", ""), "amount"] == 12000


def test_amounts_past_64_bits():
    # A float would lose its last digits.
    most = 999_999_999
    phases = [Events([Join("house")]), *[Tick(1440)] * 10]
    done = run(Cluster(Basis(0, most, 2), [Load("house", start=most)], phases))
    assert done.accounts.loc[("device", "house"), "amount"] == most * most * 14_400
    assert done.accounts.loc[("device", "house"), "taken_Wmin"] == most * 14_400


def test_curve_and_targets():
    told = ask(EXAMPLES / "balance.json", [0, -250])
    curve, targets = data_frames.curve(told), data_frames.targets(told)
    assert list(curve.columns) == ["step", "price", "from_W", "to_W"]
    assert curve["to_W"].isna().tolist() == [True] + [False] * 5
    assert targets.to_dict("list") == {"target_W": [0, -250], "price": [2, 5], "step": [2, 5], "total_W": [0, -50]}


def test_no_phases():
    done = run(Cluster(Basis(0, 9, 10), [Load("house", start=1)]))
    assert [len(table) for table in done.tables().values()] == [0, 0, 0, 0, 0, 0, 2]
    assert done.durations == [] and done.times == []


# Files.


def test_csv(tmp_path):
    done = run(EXAMPLES / "limited_feeder.json")
    paths = done.to_csv(tmp_path / "tables")
    assert sorted(path.name for path in paths) == sorted(f"{table}.csv" for table in done.tables())
    read = pd.read_csv(tmp_path / "tables" / "prices.csv", parse_dates=["time"]).set_index(["time", "phase"])
    assert read.equals(done.prices)
    powers = pd.read_csv(tmp_path / "tables" / "powers.csv", parse_dates=["time"]).set_index(["time", "phase"])
    assert powers.astype("Int64").to_dict() == done.powers.to_dict()


def test_json_lines(tmp_path):
    done = run(EXAMPLES / "limited_feeder.json")
    done.to_json_lines(tmp_path / "run.jsonl")
    rows = [json.loads(line) for line in (tmp_path / "run.jsonl").read_text().splitlines()]
    assert [row["price"] for row in rows] == list(done.prices["price"])
    for row, end in zip(rows, done.ends, strict=True):
        assert {name: member["power_W"] for name, member in row["members"].items()} == end.powers
        assert {name: group["total_W"] for name, group in row["limited"].items()} == {group.name: group.total for group in end.groups}
        assert (row["phase"], row["total_W"], row["step"]) == (end.phase, end.total, end.step)


def test_each_format_by_its_name(tmp_path):
    done = run(EXAMPLES / "balance.json")
    done.write(tmp_path / "tables", "csv")
    done.write(tmp_path / "run.jsonl", "json-lines")
    assert (tmp_path / "tables" / "prices.csv").is_file() and (tmp_path / "run.jsonl").is_file()
    with pytest.raises(ValueError, match="no format is called xls"):
        done.write(tmp_path, "xls")


def engine_at_hand():
    """Whether pandas can write Parquet here."""
    from importlib.util import find_spec

    return any(find_spec(module) for module in ("pyarrow", "fastparquet"))


@pytest.mark.skipif(engine_at_hand(), reason="an engine for Parquet is at hand")
def test_parquet_without_an_engine(tmp_path):
    with pytest.raises(NoPackage, match="Parquet needs pyarrow or fastparquet"):
        run(EXAMPLES / "balance.json").write(tmp_path, "parquet")


@pytest.mark.skipif(not engine_at_hand(), reason="no engine for Parquet is at hand")
def test_parquet_is_read_as_it_was_written(tmp_path):
    done = run(EXAMPLES / "village.json")
    done.to_parquet(tmp_path)
    assert pd.read_parquet(tmp_path / "prices.parquet").equals(done.prices)
    amounts = pd.read_parquet(tmp_path / "accounts.parquet")["amount"]
    assert [int(amount) for amount in amounts] == list(done.accounts["amount"])


def test_parquet_is_handed_amounts_as_text(tmp_path, monkeypatch):
    handed = {}

    def to_parquet(frame, path, engine):
        handed[path.name] = frame, engine

    monkeypatch.setattr(pd.DataFrame, "to_parquet", to_parquet)
    monkeypatch.setattr("cogmaula.runs._parquet_engine", lambda: "pyarrow")
    done = run(EXAMPLES / "village.json")
    done.to_parquet(tmp_path)
    assert sorted(handed) == sorted(f"{table}.parquet" for table in done.tables())
    frame, engine = handed["accounts.parquet"]
    assert engine == "pyarrow"
    assert list(frame["amount"]) == [str(amount) for amount in done.accounts["amount"]]


def test_hdf5_is_read_as_it_was_written(tmp_path):
    pytest.importorskip("tables")
    done = run(EXAMPLES / "village.json")
    done.write(tmp_path / "run.h5", "hdf5")
    assert pd.read_hdf(tmp_path / "run.h5", "prices").equals(done.prices)
    powers = pd.read_hdf(tmp_path / "run.h5", "powers")
    assert powers.equals(done.powers.astype("float64"))
    assert [int(amount) for amount in pd.read_hdf(tmp_path / "run.h5", "accounts")["amount"]] == list(done.accounts["amount"])


def test_hdf5_has_the_times_of_a_zone_in_utc(tmp_path):
    pytest.importorskip("tables")
    done = run(EXAMPLES / "village.json", start=datetime(2026, 6, 21, tzinfo=ZoneInfo("Europe/Berlin")))
    done.to_hdf5(tmp_path / "run.h5")
    prices = pd.read_hdf(tmp_path / "run.h5", "prices")
    assert prices.index[0] == (pd.Timestamp("2026-06-20 22:00"), 1) and prices["price"].tolist() == done.prices["price"].tolist()
    with pd.HDFStore(tmp_path / "run.h5", "r") as store:
        assert store.get_storer("powers").attrs.time_zone == "Europe/Berlin"


def test_hdf5_without_an_engine(tmp_path, monkeypatch):
    monkeypatch.setattr("importlib.util.find_spec", lambda name: None)
    with pytest.raises(NoPackage, match="python3-tables"):
        run(EXAMPLES / "balance.json").to_hdf5(tmp_path / "run.h5")


def test_frames_without_pandas(monkeypatch):
    monkeypatch.setitem(sys.modules, "pandas", None)
    done = Run(Cluster.load(EXAMPLES / "balance.json"), (EXAMPLES / "balance.txt").read_bytes())
    assert done.snapshot.members == {"roof", "boiler"}
    with pytest.raises(NoPackage, match="python3-pandas"):
        done.prices
