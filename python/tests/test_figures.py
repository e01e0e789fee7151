"""The figures of a run by hand: costs with and without the market, shares, peaks, batteries, and the rules that they stand on."""

from __future__ import annotations

import random
from dataclasses import replace
from datetime import datetime
from decimal import Decimal
from typing import Any
from zoneinfo import ZoneInfo

import pytest
from hypothesis import given, settings

from clusters import clusters
from cogmaula import (
    Basis,
    Battery,
    Cluster,
    Cogeneration,
    Events,
    Freezer,
    Join,
    Limited,
    Load,
    Manual,
    Program,
    Solar,
    State,
    Tick,
    run,
    vary,
)
from cogmaula.figures import NoConnection, Peak
from cogmaula.figures.plain_rules import plain_powers

pytest.importorskip("pandas")

TARIFF = Manual("supplier", points=[(7, 10_000), (8, 0), (29, 0), (30, -10_000)])
STORE = Battery("store", capacity=10_000, charge=5000, discharge=5000, spread=5, start=5000)


def sunny(hours: int) -> Cluster:
    """A roof of 3,000 W and a house of 1,000 W beside a battery that charges with 5,000 W or not at all."""
    one = Cluster(Basis(0, 40, 41), [TARIFF, Load("house", start=1000), Solar("roof", start=3000), STORE])
    return one.with_phases(one.join_all(), *[Tick(60)] * hours)


def test_costs_without_the_market(program: Program) -> None:
    """By hand: 2 kW are left over for a day, which the battery of 5 kW never takes. By its plain rule it takes 5 kWh of them, and is full.

    At price 8 of sale 48 kWh are 384, and 43 are 344. At prices up to 14 the battery, half full, would take more than is left over. So the
    market clears at 15, and what is sold is billed at that.
    """
    figures = run(sunny(24), program=program).figures("supplier")
    assert (figures.cost_at_connection, figures.cost_plain, figures.cost_without_battery) == (-384, -344, -384)
    assert (figures.sold_kWh, figures.bought_kWh, figures.sold_above_kWh, figures.bought_below_kWh) == (48, 0, 48, 0)
    assert figures.cost == -15 * 48 and figures.batteries["store"].cycles == 0
    assert (figures.produced_kWh, figures.consumed_kWh) == (72, 24)
    assert figures.self_consumption == pytest.approx(1 / 3) and figures.self_sufficiency == 1
    assert figures.peak_sold == Peak(2000, datetime(2000, 1, 1)) and figures.peak_bought == Peak(0, None)
    assert figures.shifted_kWh == {"house": 0, "roof": 0, "store": 0}


def test_the_bill_of_the_cookbook_is_the_tariffs(program: Program) -> None:
    """By hand, as on the page: 0.5 kWh bought at 30 and 0.5 kWh sold at 8 are 11; in cents of EUR 0.11."""
    from conftest import EXAMPLES

    done = run(EXAMPLES / "cookbook" / "connection.json", program=program)
    figures = done.figures("connection", currency="EUR", per_kwh=0.01)
    assert (figures.cost, figures.cost_at_connection, figures.cost_plain) == pytest.approx((0.11, 0.11, 0.11))
    assert (figures.bought_kWh, figures.sold_kWh, figures.sold_above_kWh) == (0.5, 0.5, 0)
    assert figures.self_sufficiency == pytest.approx(1 - 0.5 / 3) and figures.self_consumption == pytest.approx(1 - 0.5 / 3)


def test_costs_by_pandas_alone(program: Program) -> None:
    """Two days of drawn loads and sun in quarters of an hour: each cost from the powers, the two tariffs and a battery of floats."""
    pd, draw = pytest.importorskip("pandas"), random.Random(7)
    loads, suns = ([draw.randrange(0, most) for _ in range(192)] for most in (2500, 4000))
    one = Cluster(Basis(0, 40, 41), [TARIFF, Load("house", start=loads[0]), Solar("roof", start=suns[0]), STORE])
    phases = [one.join_all(), Tick(15)]
    for load, sun in zip(loads[1:], suns[1:], strict=True):
        phases += [Events([State("house", load), State("roof", sun)]), Tick(15)]
    done = run(one.with_script(phases), program=program)
    figures, net = done.figures("supplier"), pd.Series(loads) - pd.Series(suns)

    def cost(exchange: Any) -> float:
        return float((exchange.clip(lower=0) * 30 + exchange.clip(upper=0) * 8).sum() / 4000)

    charge, rule = 5000.0, []
    for power in net:
        most = min(5000, (10_000 - charge) * 4) if power < 0 else min(5000, charge * 4)
        rule.append(min(-power, most) if power < 0 else -min(power, most))
        charge += rule[-1] / 4
    assert figures.cost_at_connection == pytest.approx(cost(done.series().drop(columns="supplier").sum(axis=1).astype(float)))
    assert figures.cost_without_battery == pytest.approx(cost(net))
    # Whole watts and watt-hours may differ by one in each quarter of an hour.
    assert figures.cost_plain == pytest.approx(cost(net + pd.Series(rule)), abs=192 * 4 * 30 / 4000)
    bought = done.series().drop(columns="supplier").sum(axis=1).clip(lower=0).sum() / 4000
    assert figures.bought_kWh == pytest.approx(bought) and figures.batteries["store"].cycles > 0


def test_a_connection_with_a_price_for_each_hour(program: Program) -> None:
    """By hand: 1 kW at 20, then at 30: 50. While the connection is away its price is not known."""
    house = Load("house", start=1000)
    one = Cluster(Basis(0, 40, 41), [Manual("exchange", points=[(19, 5000), (20, -5000)]), house])
    dearer = Events([State("exchange", points=[(29, 5000), (30, -5000)])])
    figures = run(one.with_phases(one.join_all(), Tick(60), dearer, Tick(60)), program=program).figures("exchange")
    assert (figures.cost, figures.cost_at_connection) == (50, 50)
    with pytest.raises(NoConnection, match="is no member of the market all the time"):
        run(one.with_phases(Events([Join("house")]), Tick(60)), program=program).figures("exchange")
    for name in ("house", "nobody"):
        with pytest.raises(NoConnection, match="no manual device of this name .its manual devices: exchange"):
            run(one, program=program).figures(name)


def test_without_a_connection_nothing_is_compared(program: Program) -> None:
    """Shares are not known either, since the manual device may be the site's or the supplier's."""
    figures = run(sunny(1), program=program).figures()
    unknown = (figures.cost_at_connection, figures.cost_plain, figures.cost_without_battery, figures.sold_above_kWh)
    assert unknown == (None,) * 4 and figures.self_consumption is None and figures.self_sufficiency is None


def test_plain_rules_by_hand(program: Program) -> None:
    """A freezer from 10 down to 0, an engine from 0 up to 10, and two batteries that share what is left over."""
    nodes = [
        Freezer("freezer", low=0, high=10, power=100, warm=5, cool=10, start=0),
        Cogeneration("engine", low=0, high=10, power=200, loss=5, gain=10, start=0),
        Battery("one", capacity=1000, charge=60, discharge=50, spread=1, start=0),
        Battery("two", capacity=1000, charge=60, discharge=50, spread=1, start=0),
        Load("house", start=0),
    ]
    one = Cluster(Basis(0, 9, 10), nodes)
    later = Events([State("house", 300)])
    done = run(one.with_phases(one.join_all(), Tick(60), Tick(60), later, Tick(60), Tick(60)), program=program)
    powers = plain_powers(done.cluster, done.held, None)
    # The freezer warms to 10, and then cools by 5 an hour to 0; the engine heats from 0 to 10 by 5 an hour, and then rests.
    assert powers[:, 0].tolist() == [0, 0, 100, 100]
    assert powers[:, 1].tolist() == [-200, -200, 0, 0]
    # 200 W are left over, of which each takes its 60 W. Then 400 W lack: each delivers 50 W.
    assert powers[:, 2].tolist() == powers[:, 3].tolist() == [60, 60, -50, -50]


def test_a_battery_follows_the_devices_below_its_parent(program: Program) -> None:
    """A battery of one house has nothing to do with the roof of another. It stops when it is full."""
    houses = [Limited("a", floor=-9000, ceiling=9000), Limited("b", floor=-9000, ceiling=9000)]
    roof = Solar("roof", parent="a", start=1000)
    stores = [replace(STORE, name=f"store_{group}", parent=group, capacity=1500, start=0) for group in "ab"]
    one = Cluster(Basis(0, 9, 10), [*houses, roof, *stores])
    done = run(one.with_phases(one.join_all(), Tick(60), Tick(60)), program=program)
    assert plain_powers(done.cluster, done.held, None)[:, 1:].tolist() == [[1000, 0], [500, 0]]


def test_the_use_of_a_battery(program: Program) -> None:
    """By hand: charged by 2,500 Wh in an hour, and empty after the next, for lack of power below its limit."""
    store = Battery("store", capacity=5000, charge=2500, discharge=2500, spread=0, start=0)
    one = Cluster(Basis(0, 9, 10), [store, Solar("roof", start=2500), Load("house", start=0)])
    dark = Events([State("roof", 0), State("house", 2500)])
    figures = run(one.with_phases(one.join_all(), Tick(60), dark, Tick(60)), program=program).figures()
    use = figures.batteries["store"]
    assert (use.least, use.mean, use.most, use.last) == (0, 0.25, 0.5, 0)
    assert (use.cycles, use.cycles_a_day) == (0.5, 6)
    assert figures.shifted_kWh["store"] == 2.5 and figures.self_consumption == figures.self_sufficiency == 1


def priced(device: Battery, prices: list[int], minutes: int, *more: Any) -> Cluster:
    """A battery beside an exchange that has these prices, a tick each, and further devices and events for each tick."""
    at = [[(price - 1, 50_000), (price, -50_000)] for price in prices]
    nodes, events = more or ((), [()] * len(prices))
    one = Cluster(Basis(0, 40, 41), [Manual("exchange", points=at[0]), device, *nodes])
    phases = [one.join_all(), Tick(minutes)]
    for points, told in zip(at[1:], events[1:], strict=True):
        phases += [Events([State("exchange", points=points), *told]), Tick(minutes)]
    return one.with_phases(*phases)


def test_shares_of_a_site_whose_battery_trades_with_the_grid(program: Program) -> None:
    """By hand, an hour each: the battery of 2 kW buys 2 kWh beside the house's 1 kWh; then it takes 2 kWh of 3 kWh of sun, of which
    the house takes 1; then it gives its 4 kWh, half of them the sun's: 1 kWh to the house, and 3 are sold.

    So 1.5 of 3 kWh of the sun are sold, and 1 + 0.5 of 3 kWh of the house are bought. By bought and sold alone both shares were 0.
    """
    store = Battery("store", capacity=4000, charge=2000, discharge=4000, spread=0, start=0)
    site = [Load("house", start=1000), Solar("roof", start=0)]
    events: list[Any] = [(), [State("roof", 3000)], [State("roof", 0)]]
    done = run(priced(store, [1, 1, 40], 60, site, events), program=program)
    assert done.held.powers[:, 1].tolist() == [2000, 2000, -4000]
    figures = done.figures("exchange")
    assert (figures.bought_kWh, figures.sold_kWh) == (3, 3)
    assert (figures.self_consumption, figures.self_sufficiency) == (0.5, 0.5)


def test_shares_that_cannot_be_known(program: Program) -> None:
    """A manual device that takes and gives may be a battery, beside a connection too."""
    nodes = [Manual("exchange", points=[(19, 5000), (20, -5000)]), Manual("box", demand=[500] * 41), Load("house", start=1000)]
    one = Cluster(Basis(0, 40, 41), nodes)
    steady = run(one.with_phases(one.join_all(), Tick(60)), program=program).figures("exchange")
    assert steady.self_sufficiency == 0
    turned = Events([State("box", demand=[-500] * 41)])
    both = run(one.with_phases(one.join_all(), Tick(60), turned, Tick(60)), program=program).figures("exchange")
    assert (both.self_consumption, both.self_sufficiency) == (None, None)
    assert "not known" in both._repr_html_()


def test_what_is_left_in_batteries_has_a_value(program: Program) -> None:
    """By hand: 2 kWh more at the mean price of 1 and 3; by its plain rule the battery gives the house 1 kWh in the first hour."""
    store = Battery("store", capacity=8000, charge=2000, discharge=2000, spread=0, start=1000)
    done = run(priced(store, [1, 3], 60, [Load("house", start=1000)], [(), ()]), program=program)
    assert done.held.powers[:, 1].tolist() == [2000, 2000]
    figures = done.figures("exchange", currency="EUR", per_kwh=0.5)
    assert (figures.left_kWh, figures.left_value, figures.left_plain_value) == (4, 4, -1)
    assert (figures.cost_at_connection, figures.cost_plain) == (0.5 * (3 * 1 + 3 * 3), 0.5 * (0 * 1 + 1 * 3))


def test_churn_is_not_shifted(program: Program) -> None:
    """By hand: 100 Wh in and 100 Wh out, six times in an hour of five minutes each: nothing is at another time than before."""
    store = Battery("store", capacity=1000, charge=1200, discharge=1200, spread=0, start=500)
    done = run(priced(store, [1, 40] * 6, 5), program=program)
    assert done.held.powers[:, 1].tolist() == [1200, -1200] * 6
    figures = done.figures("exchange")
    use = figures.batteries["store"]
    assert (use.flips, use.ticks, use.churned_kWh, use.cycles) == (11, 12, pytest.approx(0.6), pytest.approx(0.6))
    assert figures.shifted_kWh["store"] == 0 and figures.left_kWh == 0


def test_the_head_warns_of_a_battery_that_turns_at_almost_each_tick(program: Program) -> None:
    """The warning has the cure, and the cure works: with a spread of 30 the same battery does not turn."""
    from cogmaula.report import report

    page, calm = (
        report(priced(Battery("store", capacity=1000, charge=1200, discharge=1200, spread=spread, start=500), [12, 24] * 6, 5),
               connection="exchange", program=program)
        for spread in (0, 30)
    )
    assert "store turned from charging to discharging or back at 11 of 12 ticks, in 14.4 cycles a day" in page
    assert "A greater spread" in page and "kWh</p><p class=\"soft\">shifted by" not in page
    assert "turned from charging" not in calm


def test_limits_in_figures(program: Program) -> None:
    """A load of 300 W below a ceiling of 200 W: outside for the 45 minutes that it lasts."""
    nodes = [Limited("feeder", floor=-100, ceiling=200), Load("house", parent="feeder", start=300)]
    figures = run(Cluster(Basis(0, 9, 10), nodes, [Events([Join("house")]), Tick(30), Tick(15)]), program=program).figures()
    assert figures.minutes_outside == {"feeder": 45} and not figures.kept_limits
    assert repr(figures).startswith("Figures(limits broken, cost 2.02 ")
    assert "<td>no</td>" in figures._repr_html_()


@settings(max_examples=40, deadline=None)
@given(clusters())
def test_figures_and_bills_agree(program: Program, cluster: Cluster) -> None:
    """Of any cluster: the cost is what the grid is paid, and what is bought less what is sold is what its account gave less what it took."""
    done = run(cluster, program=program)
    figures, bill = done.figures(), done.bill
    assert figures.cost == pytest.approx(-bill.grid.amount / 60_000)
    asked = sum(account.taken - account.given for name, account in bill.devices.items() if cluster.node(name).kind == "objective")
    assert (figures.bought_kWh - figures.sold_kWh) * 60_000 == pytest.approx(bill.grid.given - bill.grid.taken - asked)
    assert all(0 <= battery.least <= battery.mean <= battery.most <= 1 for battery in figures.batteries.values())


# A run's further frames.


def test_series_have_a_row_for_each_stretch_of_time(program: Program) -> None:
    """By hand: ticks of 30 and 45 minutes are five rows of 15; the phase that lasts no time has none, and means are those of the bill."""
    one = Cluster(Basis(0, 9, 10), [Load("house", start=500), Load("shed", start=9)])
    phases = [Events([Join("house")]), Tick(30), Events([State("house", 9000)]), Events([State("house", 1000), Join("shed")]), Tick(45)]
    series = run(one.with_script(phases), start=datetime(2026, 6, 21, 6), program=program).series()
    assert series["house"].tolist() == [500, 500, 1000, 1000, 1000] and series["shed"].isna().tolist() == [True] * 2 + [False] * 3
    assert series.index.is_unique and series.index.freqstr == "15T" and series.index[-1] == datetime(2026, 6, 21, 7)
    assert series["house"].resample("5h", origin="start").mean().tolist() == [800]
    assert len(run(one, program=program).series()) == 0


def test_series_over_the_end_of_summer_time(program: Program) -> None:
    """The day has 25 hours: each is an hour behind the one before it, and two of them are at 02:00."""
    one = Cluster(Basis(0, 9, 10), [Load("house", start=500)])
    start = datetime(2026, 10, 25, tzinfo=ZoneInfo("Europe/Berlin"))
    done = run(one.with_phases(one.join_all(), *[Tick(60)] * 25), start=start, program=program)
    index = done.series().index
    assert index.is_unique and index.freq.nanos == 3_600_000_000_000 and [time.hour for time in index[:5]] == [0, 1, 2, 2, 3]
    assert [time.hour for time in done.times[1:6]] == [1, 2, 2, 3, 4] and done.times[-1].day == 26


def test_a_bill_in_money(program: Program) -> None:
    """By hand: 136,000 watts times minutes at price 9 are 20.4 kWh of price 1, and at 0.01 EUR each 0.204 EUR."""
    one = Cluster(Basis(0, 9, 10), [Load("house", start=136)])
    bill = run(one.with_phases(one.join_all(), Tick(1000)), program=program).bill
    frame = bill("EUR", 0.01)
    assert list(frame.columns) == ["amount_EUR", "taken_kWh", "given_kWh"]
    assert frame.loc[("device", "house"), "amount_EUR"] == 0.204 and frame.round(1).loc[("grid", ""), "amount_EUR"] == -0.2
    exact = bill("EUR", Decimal("0.01"), Decimal)
    assert exact.loc[("device", "house"), "amount_EUR"] == Decimal("0.204")
    for bad in (0, -1, "x", float("nan")):
        with pytest.raises(ValueError):
            bill("EUR", bad)
    assert repr(bill) == "Bill(1 devices, 1 ticks, 1000 minutes, devices pay 1224000 price units\u00b7W\u00b7min)"
    assert "<td>20.4" in bill._repr_html_()


def test_what_a_notebook_shows(program: Program) -> None:
    """A line, a table and a figure; the figure has three axes and leaves the connection out."""
    pytest.importorskip("matplotlib")
    done = run(sunny(3), start=datetime(2026, 6, 21), program=program)
    assert repr(done) == "Run(4 devices, 4 phases, 180 minutes from 2026-06-21 00:00)"
    assert "<table" in done._repr_html_()
    figure = done.plot("supplier")
    assert len(figure.axes) == 3
    assert [text.get_text() for text in figure.axes[1].get_legend().get_texts()] == ["roof", "house", "store"]
    with pytest.raises(NoConnection):
        done.plot("house")
    assert len(run(Cluster(Basis(0, 9, 10)), program=program).plot().axes) == 3


def test_variants_have_names() -> None:
    """Each combination once; a name of a node before a member sets that of this node alone."""
    two = sunny(1).with_nodes(replace(STORE, name="other"))
    found = vary(two, capacity=[1000, 2000], **{"store.charge": [1, 2]})
    assert list(found) == [
        "capacity=1000 store.charge=1", "capacity=1000 store.charge=2", "capacity=2000 store.charge=1", "capacity=2000 store.charge=2"
    ]
    last = found["capacity=2000 store.charge=2"]
    assert [(node.capacity, node.charge) for node in last.nodes if isinstance(node, Battery)] == [(2000, 2), (2000, 5000)]
    for bad in ("colour", "roof.capacity", "name"):
        with pytest.raises(ValueError, match="no node has a member"):
            vary(two, **{bad: [1]})
