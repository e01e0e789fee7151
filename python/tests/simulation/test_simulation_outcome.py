"""What comes of a simulation, by hand and against a run of what was bid: prices for a device, fleets, figures, bills, pages and files."""

from __future__ import annotations

from datetime import date, datetime, time
from zoneinfo import ZoneInfo

import pytest

numpy = pytest.importorskip("numpy")
pytest.importorskip("pandas")

from cogmaula import Basis, run
from cogmaula.figures import NoConnection
from cogmaula.simulation import BadBid, Battery, Group, Held, HeatPump, Load, Manual, Solar, Vehicle, simulate
from cogmaula.tariffs import Tariff

BERLIN = ZoneInfo("Europe/Berlin")
TEN, FORTY = Basis(0, 9, 10), Basis(0, 40, 41)
START = datetime(2026, 6, 1)


def exchange(prices, hours=1):
    """A connection that has these prices, each for some hours."""

    def bid(now):
        price = prices[int((now.replace(tzinfo=None) - START).total_seconds() // (3600 * hours)) % len(prices)]
        return [(price - 1, 50_000), (price, -50_000)]

    return Manual("grid", bid)


def traded(program, live=None, **more):
    """By hand, an hour each at prices 5, 5 and 30: the battery of 2 kW charges, charges, and gives what it has; a house of 1 kW all the
    while, and a roof of 3 kW in the second hour."""
    store = Battery("store", 4000, 2000, 4000, (10, 20), 0, interval=60)
    devices = [Load(name="house", power=1000), Solar(name="roof", power=Held(START, 60, [0, 3000, 0])), store, exchange([5, 5, 30])]
    return simulate(devices, FORTY, ticks=3, minutes=60, start=START, program=program, live=live, **more)


def test_figures_of_a_simulation_are_those_of_the_hand(program, live):
    done = traded(program, live)
    assert done.powers["store"].tolist() == [2000, 2000, -4000] and [end.price for end in done.ends] == [5, 5, 30]
    figures = done.figures("grid", currency="EUR", per_kwh=0.01)
    # 3 kWh at 5, none in the second hour, and 3 kWh sold at 30.
    assert figures.cost_at_connection == pytest.approx(0.01 * (3 * 5 - 3 * 30))
    assert figures.cost_without_battery == pytest.approx(0.01 * (1 * 5 - 2 * 5 + 1 * 30)) and figures.cost_plain is None
    assert (figures.self_consumption, figures.self_sufficiency) == (0.5, 0.5)
    assert (figures.left_kWh, figures.shifted_kWh, figures.batteries["store"].cycles) == (0, {"store": 4.0}, 1.0)
    assert figures.cost == pytest.approx(0.01 * (3 * 5 - 3 * 30))
    with pytest.raises(NoConnection, match="no manual device of this name .its manual devices: grid"):
        done.figures("house")


def test_the_bill_of_a_simulation_is_the_programs_of_what_was_bid(program, live):
    done = traded(program, live, keep_bids=True)
    again = run(done.cluster(), program=program)
    assert again.start == START and again.bill.devices == done.bill.devices and again.bill.grid == done.bill.grid
    assert done.accounts.equals(again.accounts)
    assert done.figures("grid").cost_at_connection == again.figures("grid").cost_at_connection
    tariff = Tariff("EUR", buy=0.3, sell=0.1)
    billed = done.tariff_bill(tariff, {"home": ["house", "roof", "store"]})
    assert billed.loc[("home", "2026-06"), "total"] == pytest.approx(3 * 0.3 - 3 * 0.1)


def test_a_page_a_plot_a_notebook_and_files_of_a_simulation(program, live, tmp_path):
    pytest.importorskip("matplotlib")
    xarray = pytest.importorskip("xarray")
    devices = [Load(name="house", power=1800), Battery("store", 4000, 2000, 2000, (0, 9), 2000), Solar(name="roof", power=500)]
    groups = [Group("feeder", -500, 1600, ("house",))]
    done = simulate([*devices, Manual("grid", [(5, 9000), (6, -9000)])], TEN, ticks=8, start=START, groups=groups, program=program, live=live)
    page = done.report("street", connection="grid", currency="EUR", per_kwh=0.1)
    assert "<title>street: report of a run</title>" in page and "price (EUR/MWh)" in page
    assert "feeder was outside its limits for 2 h" in page and "models of a simulation" in page
    assert "SHA-256" not in page and "by plain rules *</th>" not in page and "without batteries *</th>" in page
    assert len(done.plot("grid", currency="EUR", per_kwh=0.1).axes) == 3
    assert done.plot().axes[0].get_ylabel() == "price (price units)"
    assert done._repr_html_().startswith("<p>Simulation(4 devices, 8 ticks") and "<table" in done._repr_html_()
    assert sorted(path.name for path in done.to_csv(tmp_path)) == ["accounts.csv", "limited_groups.csv", "powers.csv", "prices.csv", "states.csv"]
    assert (tmp_path / "limited_groups.csv").read_text().splitlines()[1].startswith("2026-06-01 00:00:00,1,feeder,9,9,1800,-500,1600,200,15")
    done.to_netcdf(tmp_path / "street.nc", households={"home": ["house", "store"]})
    with xarray.open_dataset(tmp_path / "street.nc") as found:
        assert found.power.sel(device="house").values.tolist() == [1800] * 9
        assert found.household.values.tolist() == ["home", "home", "", ""] and "utc_offset" not in found


def test_a_month_over_the_switch_of_the_clock_is_that_of_numpys_auction(program, live):
    """March 2026 in Europe/Berlin has 2,972 quarters of an hour. The auction in numpy knows nothing of the program."""
    import sys
    from pathlib import Path

    sys.path.insert(0, str(Path(__file__).resolve().parents[3] / "bench"))
    import simulation as bench

    start = datetime(2026, 3, 1, tzinfo=BERLIN)
    saved, bench.START = bench.START, start
    try:
        done = simulate(bench.street(11, 2972), bench.BASIS, ticks=2972, start=start, program=program, live=live)
        prices, powers = bench.numpy_auction(bench.street(11, 2972), 2972)
    finally:
        bench.START = saved
    assert done.noted.steps.tolist() == prices.tolist() and (done.noted.powers == powers).all()
    assert done.series().index[-1] == datetime(2026, 3, 31, 23, 45, tzinfo=BERLIN) and len(set(prices.tolist())) > 10
    days = done.series().groupby(done.series().index.date).count()["house0"]
    assert (days[date(2026, 3, 29)], days[date(2026, 3, 28)]) == (92, 96)


class Listener(Load):
    """A load that hears its price."""

    heard: list

    def step(self, power, minutes, price):
        self.heard = [*getattr(self, "heard", []), (power, minutes, price)]
        super().step(power, minutes)


def test_a_device_hears_the_price_of_its_clearing(program, live):
    """Power is lacking at every price, so the market clears at the last one, and so does the group, which is within its limits."""
    one, other = Listener(name="one", power=1000), Listener(name="other", power=5)
    simulate([one, other], TEN, ticks=2, groups=[Group("feeder", -50, 5000, ("other",))], program=program, live=live)
    assert one.heard == [(1000, 15, 9)] * 2 and other.heard == [(5, 15, 9)] * 2


class Stores:
    """A fleet of batteries that charge below a price and discharge above it. Its states are charges in watt-hours."""

    def __init__(self, names, limit=5):
        self.names, self.states, self.limit = names, [500.0] * len(names), limit

    def bids(self, now, states, prices):
        low = numpy.where(states < 1000, 400, 0)[:, None]
        high = numpy.where(states > 0, -400, 0)[:, None]
        return numpy.where(prices < self.limit, low, high)

    def step(self, now, states, powers, minutes):
        return numpy.clip(states + powers * minutes / 60, 0, 1000)


def test_a_fleet_is_as_its_devices_one_by_one(program, live):
    class Store:
        def __init__(self, name):
            self.name, self.state = name, 500.0

        def bid(self, now):
            return [400 if self.state < 1000 else 0] * 5 + [-400 if self.state > 0 else 0] * 5

        def step(self, power, minutes):
            self.state = min(max(self.state + power * minutes / 60, 0.0), 1000.0)

    names = ("a", "b", "c")
    roof = Solar(name="roof", power=Held(START, 15, [1000, 0, 0, 900], repeats=True))
    groups = [Group("feeder", -10_000, 700, ("b", "c"))]
    more = {"ticks": 40, "start": START, "groups": groups, "program": program, "live": live}
    fleet = simulate([roof, Stores(names)], TEN, **more)
    single = simulate([roof, *map(Store, names)], TEN, **more)
    assert fleet.names == single.names and (fleet.noted.powers == single.noted.powers).all() and (fleet.noted.states == single.noted.states).all()
    assert fleet.noted.last_states.tolist() == single.noted.last_states.tolist() and (fleet.noted.groups == single.noted.groups).all()


@pytest.mark.parametrize(
    ("array", "told"),
    [
        (numpy.zeros((1, 9)), r"\(1, 9\) at 2026-06-01T00:00:00: \(1, 10\) is due"),
        (numpy.full((1, 10), 0.5), "a bids what no market takes at 2026-06-01T00:00:00: watts that are no whole numbers, at step 0"),
        (numpy.full((1, 10), numpy.nan), "watts that are no whole numbers"),
        (numpy.arange(10)[None], "more at a price than at the one before, at step 1"),
        (numpy.full((1, 10), 2_000_000_000), "outside"),
    ],
)
def test_bids_of_a_fleet_that_no_market_takes(program, array, told):
    fleet = Stores(("a",))
    fleet.bids = lambda now, states, prices: array
    with pytest.raises(BadBid, match=told):
        simulate([fleet], TEN, ticks=1, start=START, program=program)


def test_bids_are_kept_and_a_bool_is_none(program, live):
    """What was made of a bid is used again, and what only looks equal to a known bid is refused all the same."""
    one = Manual("one", lambda now: 1 if now.minute == 0 else True)
    with pytest.raises(BadBid, match="True is no whole number"):
        simulate([one], TEN, ticks=2, start=START, program=program)


def test_a_vehicle_and_a_heat_pump_have_kinds_of_their_own_on_the_page(program, live):
    car = Vehicle(name="car", power=3700, arrival=time(0), departure=time(7), needed=8000, prices=(0, 9))
    pump = HeatPump(name="pump", power=1500, loss=150, constant=60, outdoor=3.0, low=19, high=22, prices=(2, 8), temperature=20.5)
    done = simulate([car, pump], TEN, ticks=4, start=START, program=program, live=live)
    assert [node.kind for node in done.run.cluster.nodes] == ["vehicle", "heat_pump"]


# Profiles from series.


def series_of(values, begin="2026-06-01", zone=None, step="15min"):
    import pandas

    return pandas.Series(values, index=pandas.date_range(begin, periods=len(values), freq=step, tz=zone), dtype=float)


def test_a_series_is_a_profile_by_its_index(program):
    """Of another zone too: midnight in Berlin is 22:00 of the day before in UTC. Behind its end the last value holds."""
    loads = series_of([100, 200, 300], begin="2026-05-31 22:00", zone="UTC")
    done = simulate([Load(name="house", power=loads)], TEN, ticks=4, start=datetime(2026, 6, 1, tzinfo=BERLIN), program=program)
    assert done.powers["house"].tolist() == [100, 200, 300, 300]
    weather = series_of([0.0, 30.0], step="60min")
    pump = HeatPump(name="pump", power=1500, loss=150, constant=60, outdoor=weather, low=1, high=2, prices=(2, 8), temperature=20)
    done = simulate([pump], TEN, ticks=2, minutes=60, start=START, program=program)
    assert done.states["pump"].tolist() == pytest.approx([20, 20 * numpy.exp(-1 / 60)])


@pytest.mark.parametrize(
    ("series", "told"),
    [
        (series_of([1000, float("nan"), 1000]), "^house: its power has nan at 2026-06-01T00:15:00: mend the table"),
        (series_of([1000, 1000, 1000]).drop(series_of([0, 0, 0]).index[1]), None),
        (series_of([1000, 1000, 1000, 1000]).drop(series_of([0] * 4).index[2]), "^house: its power has a gap at 2026-06-01T00:15:00: the next row is of 2026-06-01T00:45:00"),
        (series_of([1000, 1000, 1000]).iloc[[0, 1, 1, 2]], "^house: its power has 2026-06-01T00:15:00 twice"),
        (series_of([1000, 1000], zone="Europe/Berlin"), "^house: its power has 2026-06-01T00:00:00\\+02:00 has a zone and 2026-06-01T00:00:00 has none"),
        (series_of([0.344, 2.1]), "^house: its power has 0.344 at 2026-06-01T00:00:00: are these kilowatts"),
        (series_of([1.0, 2.0]).reset_index(drop=True), "^house: its power has a series without rows, or whose index has no times"),
    ],
)
def test_a_bad_series_is_told_with_device_and_time_before_anything_is_simulated(program, series, told):
    house = Load(name="house", power=series)
    if told is None:
        assert len(simulate([house], TEN, ticks=3, start=START, program=program)) == 3
        return
    with pytest.raises(ValueError, match=told) as found:
        simulate([house], TEN, ticks=3, start=START, program=program)
    assert "\n" not in str(found.value) and house._now is None
