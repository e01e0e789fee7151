"""Datasets of runs: what xarray reads from a file of netCDF against the lines of the report and of the bill."""

from __future__ import annotations

import sys
from datetime import UTC, datetime, timedelta, timezone
from zoneinfo import ZoneInfo

import pytest
from conftest import EXAMPLES

from cogmaula import Basis, Cluster, Events, Join, Leave, Load, NoPackage, Run, Tick, run
from cogmaula.cli import main
from cogmaula.texts import Account, Bill

xarray = pytest.importorskip("xarray")
netcdf4 = pytest.importorskip("netCDF4")
pytestmark = pytest.mark.usefixtures("program")

BERLIN = ZoneInfo("Europe/Berlin")


def read(done, path, **more):
    """The dataset that xarray reads from the file of a run, whole."""
    assert done.to_netcdf(path, **more) == path
    with xarray.open_dataset(path) as found:
        return found.load()


def test_a_file_is_read_as_it_was_written(tmp_path):
    done = run(EXAMPLES / "limited_feeder.json")
    found = read(done, tmp_path / "run.nc")
    assert found.drop_vars("time").identical(done.dataset().drop_vars("time"))
    assert (found.time.to_numpy() == done.dataset().time.to_numpy()).all()


def test_values_are_those_of_the_report(tmp_path):
    done = run(EXAMPLES / "limited_feeder.json")
    found = read(done, tmp_path / "run.nc")
    assert list(found.device.to_numpy()) == [device.name for device in done.cluster.devices]
    for end in done.ends:
        here = found.sel(phase=end.phase)
        assert (int(here.price), int(here.step), int(here.total), int(here.members)) == (end.price, end.step, end.total, len(end.powers))
        for name in found.device.to_numpy():
            power, bid = here.power.sel(device=name).item(), here.bid.sel(device=name).item()
            assert (power, bid) == (end.powers[name], end.bids[name]) if name in end.powers else (power != power and bid != bid)
        for group in end.groups:
            there = here.sel(group=group.name)
            assert (int(there.group_price), int(there.group_load)) == (group.price, group.total)
            assert int(there.group_excess) == max(group.total - int(there.ceiling), 0) + min(group.total - int(there.floor), 0)
    accounts = [*done.bill.devices.values(), done.bill.grid]
    assert [int(number) for number in found.amount_digits.to_numpy()] == [account.amount for account in accounts]
    assert [int(number) for number in found.taken.to_numpy()] == [account.taken for account in accounts]
    assert list(found.party_kind.to_numpy()) == ["device"] * len(done.bill.devices) + ["grid"]


def test_units(tmp_path):
    # examples/battery_day.json has a battery of 2,000 Wh at its end: the page of the package shows it.
    found = read(run(EXAMPLES / "battery_day.json"), tmp_path / "run.nc")
    named = {"power": "W", "total": "W", "minutes": "min", "taken": "W min", "amount": "W min", "group_load": "W", "price": "1"}
    assert {name: found[name].attrs["units"] for name in named} == named
    last = found.state.sel(device="battery", phase=24)
    assert (last.item(), last.state_unit.item()) == (2000.0, "W h")
    assert found.attrs["Conventions"] == "CF-1.8"


TICKS = (Events([Join("house")]), Tick(60), Tick(60))
ZONES = {
    # The clock of Berlin goes from 02:00 to 03:00 on 29 March 2026 at 01:00 UTC.
    "a zone": (datetime(2026, 3, 29, 1, tzinfo=BERLIN), "Europe/Berlin", ["2026-03-29T00:00", "2026-03-29T01:00", "2026-03-29T02:00"], [60, 120, 120]),
    "an offset": (
        datetime(2026, 3, 29, 1, tzinfo=timezone(timedelta(hours=-5))), "-0500",
        ["2026-03-29T06:00", "2026-03-29T07:00", "2026-03-29T08:00"], [-300, -300, -300],
    ),
    "none": (datetime(2026, 3, 29, 1), "", ["2026-03-29T01:00", "2026-03-29T02:00", "2026-03-29T03:00"], None),
}


@pytest.mark.parametrize("start, zone, times, offsets", ZONES.values(), ids=ZONES)
def test_times_are_in_utc_with_the_offset_of_the_zone(tmp_path, start, zone, times, offsets):
    done = run(Cluster(Basis(0, 9, 10), [Load("house", start=100)], TICKS), start=start)
    found = read(done, tmp_path / "run.nc")
    assert [str(moment)[:16] for moment in found.time.to_numpy()] == times
    assert found.attrs["time_zone"] == zone
    assert (list(found.utc_offset.to_numpy()) if offsets else "utc_offset" not in found) == (offsets or True)
    if offsets:
        clock = [moment.replace(tzinfo=None).isoformat()[:16] for moment in done.times]
        assert [str(moment)[:16] for moment in (found.time + found.utc_offset * 60 * 10**9).astype("datetime64[ns]").to_numpy()] == clock
    assert found.time.attrs["time_zone"] == ("UTC" if offsets else "")


def test_other_readers_see_whole_seconds_of_utc(tmp_path):
    start = datetime(2026, 6, 21, tzinfo=BERLIN)
    run(Cluster(Basis(0, 9, 10), [Load("house", start=100)], TICKS), start=start).to_netcdf(tmp_path / "run.nc")
    with netcdf4.Dataset(tmp_path / "run.nc") as file:
        assert file["time"].units == "seconds since 1970-01-01"
        assert int(file["time"][0]) == int(start.astimezone(UTC).timestamp())
        assert file["power"].dtype == "int64"


def test_a_device_that_left_has_no_power(tmp_path):
    script = (Events([Join("house")]), Tick(60), Events([Leave("house")]))
    found = read(run(Cluster(Basis(0, 9, 10), [Load("house", start=100)], script)), tmp_path / "run.nc")
    powers = found.power.sel(device="house").to_numpy()
    assert list(powers[:2]) == [100, 100] and powers[2] != powers[2]


def test_households_are_a_coordinate_of_devices(tmp_path):
    nodes = [Load(name, start=100) for name in ("house01", "house02", "lamp")]
    cluster = Cluster(Basis(0, 9, 10), nodes)
    done = run(cluster.with_phases(cluster.join_all(), Tick(60)))
    found = read(done, tmp_path / "run.nc", households={"north": ["house02"], "south": ["house01"]})
    assert list(found.household.to_numpy()) == ["south", "north", ""]
    assert int(found.power.groupby("household").sum("device").sel(household="north", phase=1)) == 100
    assert "household" not in done.dataset()
    for households, fault in (({"north": ["roof"]}, "north has roof"), ({"a": ["lamp"], "b": ["lamp"]}, "two households, a and b")):
        with pytest.raises(ValueError, match=fault):
            done.dataset(households)


def test_an_amount_past_64_bits_keeps_its_digits(tmp_path):
    cluster = Cluster(Basis(0, 9, 10), [Load("house", start=100)], TICKS)
    huge = 10**20 + 1
    bill = Bill({"house": Account(huge, 12000, 0)}, Account(-huge, 0, 12000), 1, 120)
    found = read(Run(cluster, run(cluster).text, bill=lambda: bill), tmp_path / "run.nc")
    assert [int(number) for number in found.amount_digits.to_numpy()] == [huge, -huge]
    assert list(found.amount.to_numpy()) == [1e20, -1e20]


def test_a_run_of_nothing(tmp_path):
    found = read(run(Cluster(Basis(0, 9, 10), [], [])), tmp_path / "run.nc")
    assert dict(found.sizes) == {"phase": 0, "device": 0, "group": 0, "party": 1}


def test_the_command_writes_netcdf(tmp_path):
    path = tmp_path / "run.nc"
    assert main(["run", str(EXAMPLES / "village.json"), "-o", str(path), "--format", "netcdf", "--start", "2026-03-01"]) == 0
    with xarray.open_dataset(path) as found:
        assert found.sizes["device"] == 8 and str(found.time.to_numpy()[0])[:10] == "2026-03-01"


@pytest.mark.parametrize("lacking, package", [("xarray", "python3-xarray"), ("netCDF4", "python3-netcdf4")])
def test_without_a_package(tmp_path, monkeypatch, lacking, package):
    monkeypatch.setitem(sys.modules, lacking, None)
    with pytest.raises(NoPackage, match=package):
        run(EXAMPLES / "balance.json").to_netcdf(tmp_path / "run.nc")
