"""Models of devices against textbook cases: by hand, or by the closed formula of a body that cools."""

from __future__ import annotations

from datetime import datetime, time, timedelta
from math import e

import pytest

numpy = pytest.importorskip("numpy")
from checks.oracle import auction
from clusters import bases, bids, devices
from hypothesis import given
from hypothesis import settings as hypothesis_settings
from hypothesis import strategies as st

from cogmaula import Basis, Manual, Objective, ProgramFault, State
from cogmaula.simulation import (
    BadBid,
    Battery,
    BidMaker,
    Boiler,
    Cogeneration,
    Device,
    DeviceKind,
    Held,
    HeatPump,
    Load,
    Solar,
    Stated,
    Vehicle,
    demands,
)
from cogmaula.simulation.device import offer_of
from cogmaula.simulation.kind_models import ClusterDevice

NOON = datetime(2026, 6, 1, 12)
TEN = Basis(0, 9, 10)


# Bids.


def made(live, basis, *bids):
    """The demands that the program makes of bids."""
    with BidMaker(basis, live) as maker:
        return list(maker.demands({f"d{at}": offer_of(bid, basis, "d") for at, bid in enumerate(bids)}).values())


@pytest.mark.parametrize(
    ("bid", "due"),
    [
        (5, [5] * 10),
        ([9, 8, 7, 6, 5, 4, 3, 2, 1, 0], [9, 8, 7, 6, 5, 4, 3, 2, 1, 0]),
        # By hand: 10 - 10/3 is 6.67, which is 6 rounded down, and 10 - 20/3 is 3.
        ([(0, 10), (3, 0)], [10, 6, 3, 0, 0, 0, 0, 0, 0, 0]),
        # Of two points at a price the last holds there.
        ([(4, 100), (4, -50)], [100] * 4 + [-50] * 6),
        ([(9, 1)], [1] * 10),
        # Whole numbers of any library, and arrays of them.
        (5.0, [5] * 10),
        (numpy.float64(5), [5] * 10),
        (numpy.arange(9, -1, -1), [9, 8, 7, 6, 5, 4, 3, 2, 1, 0]),
        (numpy.linspace(18, 0, 10), [18, 16, 14, 12, 10, 8, 6, 4, 2, 0]),
        (numpy.array([(4, 100), (4, -50)]), [100] * 4 + [-50] * 6),
        ([(4.0, 100), (numpy.int32(4), -50.0)], [100] * 4 + [-50] * 6),
    ],
)
def test_bids_by_hand(live, bid, due):
    assert made(live, TEN, bid) == [tuple(due)]


@hypothesis_settings(max_examples=60)
@given(st.data())
def test_points_as_the_plain_auction_has_them(live, data):
    basis = data.draw(bases())
    given_bids = data.draw(st.lists(bids(basis), min_size=1, max_size=20))
    due = [tuple(auction.state_of(bid, basis.prices)) for bid in given_bids]
    assert made(live, basis, *(next(iter(bid.values())) for bid in given_bids)) == due


def test_a_program_makes_what_is_new_alone_and_a_long_stream_is_followed_by_another(live, monkeypatch):
    """Ten offers are more than an agent keeps. Points at a price of their own, from price 0 on: 10 at price 0, and none from price 5 on."""
    opened, asked = [], []
    start, ask = demands._Agent.start, BidMaker._ask
    monkeypatch.setattr(demands._Agent, "start", lambda self: (opened.append(1), start(self))[1])
    monkeypatch.setattr(BidMaker, "_ask", lambda self, offers: (asked.append(len(offers)), ask(self, offers))[1])
    monkeypatch.setattr(demands, "LONGEST", demands.ROOM + 200)
    offers = {f"d{at}": offer_of([(0, 10 + at), (5, 0)], TEN, "d") for at in range(10)}
    with BidMaker(TEN, live) as maker:
        assert maker.demands({"load": offer_of(3, TEN, "load")}) == {"load": (3,) * 10} and not opened
        found = maker.demands(offers)
        assert [entry[0] for entry in found.values()] == list(range(10, 20)) and {entry[5] for entry in found.values()} == {0}
        assert maker.demands(offers) == found and asked == [10]
        assert maker.demands({**offers, "d9": offer_of([(0, 5), (5, 0)], TEN, "d")})["d9"] == (5, 4, 3, 2, 1, 0, 0, 0, 0, 0)
    assert (asked, len(opened)) == ([10, 1], 2)


def test_a_program_that_is_no_agent_is_told(tmp_path):
    for program, words in ((tmp_path / "none", "cannot be started"), ("false", "device 1: .* status is 1")):
        with BidMaker(TEN, str(program)) as maker, pytest.raises(ProgramFault, match=words):
            maker.demands({"a": offer_of([(0, 1)], TEN, "a")})


@pytest.mark.parametrize(
    ("bid", "words"),
    [
        ([1, 2], "2 demands are there, and 10 are due"),
        ([], "0 demands are there"),
        (list(range(10)), "above the one of the step before"),
        (1.5, "whole watts"),
        (True, "whole watts"),
        (float("nan"), "nan is no whole number"),
        (numpy.array([1.5] * 10), "1.5 is no whole number"),
        (1_000_000_001, "outside ±1000000000"),
        ([(0, 1), (10, 0)], "price 10 of point 1 is outside the basis, 0 to 9"),
        ([(0, 1), (5, 2)], "the power 2 of point 1 is above 1"),
        ([(5, 2), (4, 1)], "the price 4 of point 1 is below 5"),
        (Stated(DeviceKind("battery", (100, 5, 5, 0)), 101), "give 0 to 100 watt-hours"),
        ([(0, 1, 2)], "a pair"),
        ([(0, 0)] * 65, "65 points"),
    ],
)
def test_bids_that_no_market_takes_name_the_device(bid, words):
    with pytest.raises(BadBid, match=f"store bids .*{words}"):
        offer_of(bid, TEN, "store")


# The battery.


def test_a_battery_loses_on_both_ways():
    """By hand: of 1000 Wh nine tenths go in, and for 900 Wh out it gives 1000."""
    store = Battery("store", 5000, 2000, 2000, (0, 9), 2000, efficiency=0.81)
    store.step(1000, 60)
    assert store.state == pytest.approx(2900)
    store.step(-900, 60)
    assert store.state == pytest.approx(1900)
    store.step(-2000, 600)
    assert store.state == 0
    store.step(2000, 600)
    assert store.state == 5000


@pytest.mark.parametrize(
    ("energy", "reserve", "due"),
    [
        # A quarter full, so the middle is three quarters of the way from 10 to 50.
        (1000, 0, [(10, 2000), (40, 0), (50, -2000)]),
        (4000, 0, [(10, 0), (10, 0), (50, -2000)]),
        # 100 Wh fit into a quarter of an hour by 400 W, and come out so.
        (3900, 0, [(10, 400), (11, 0), (50, -2000)]),
        (100, 0, [(10, 2000), (49, 0), (50, -400)]),
        # The reserve is not sold, and the middle counts from it.
        (1000, 1000, [(10, 2000), (50, 0), (50, 0)]),
        (2500, 1000, [(10, 2000), (30, 0), (50, -2000)]),
    ],
)
def test_a_battery_bids_in_proportion_to_its_charge(energy, reserve, due):
    assert Battery("store", 4000, 2000, 2000, (10, 50), energy, reserve=reserve).bid(NOON) == due


# Heat.


def house(**more):
    """By hand: 1500 W of heat pump are 4500 W of heat, which hold 30 degrees above the outside at 150 W for a degree."""
    common = {"power": 1500, "cop": 3, "loss": 150, "constant": 60, "outdoor": 0.0, "low": 19, "high": 22}
    return HeatPump(**{"name": "pump", "prices": (20, 80), "temperature": 20, **common, **more})


def test_a_house_warms_and_cools_by_its_time_constant():
    """In a time constant the distance to where it tends falls to 1/e, in two parts as in one."""
    warm, cool, parted = house(), house(outdoor=5.0), house()
    warm.step(1500, 60 * 60)
    assert warm.state == pytest.approx(30 - 10 / e)
    cool.step(0, 60 * 60)
    assert cool.state == pytest.approx(5 + 15 / e)
    parted.step(1500, 13 * 60)
    parted.step(1500, 47 * 60)
    assert parted.state == pytest.approx(warm.state)


def test_the_weather_is_that_of_the_moment_of_the_bid():
    weather = Held(NOON, 60, [0.0, 30.0], repeats=True)
    one = house(outdoor=weather, temperature=20)
    with pytest.raises(ValueError, match="bid before step"):
        one.step(0, 60)
    one.bid(NOON)
    one.step(0, 60)
    assert one.state == pytest.approx(20 * e ** (-1 / 60))
    one.step(0, 60)
    assert one.state > 20 * e ** (-1 / 60)


@pytest.mark.parametrize(
    ("temperature", "due"), [(18.5, 1500), (19, 1500), (20.5, [(50, 1500), (50, 0)]), (21.4, [(32, 1500), (32, 0)]), (22, 0), (25, 0)]
)
def test_a_heat_pump_pays_more_the_colder_it_is(temperature, due):
    assert house(temperature=temperature).bid(NOON) == due


def test_a_boiler_warms_100_litres_by_10_degrees_with_1163_watt_hours():
    tank = {"name": "boiler", "power": 1163, "litres": 100, "low": 50, "high": 65, "prices": (10, 60), "temperature": 50}
    boiler = Boiler(**tank, drawn=0.0, loss=1e-6)
    assert boiler.bid(NOON) == 1163
    boiler.step(1163, 60)
    assert boiler.state == pytest.approx(60, abs=1e-4)
    assert boiler.bid(NOON) == [(27, 1163), (27, 0)]
    # What is drawn counts against what is heated: it tends to the room, at 2 W for a degree with a time constant of 58.15 h.
    idle = Boiler(**tank, drawn=1163.0)
    idle.step(1163, 58.15 * 60)
    assert idle.state == pytest.approx(20 + 30 / e)


@pytest.mark.parametrize(("temperature", "due"), [(49, -1000), (50, -1000), (65, [(45, 0), (45, -1000)]), (80, 0)])
def test_cogeneration_sells_cheaper_the_colder_its_buffer_is(temperature, due):
    unit = Cogeneration(
        name="chp", power=1000, heat=2000, litres=500, drawn=2000.0, low=50, high=80, prices=(20, 70), temperature=temperature
    )
    assert unit.bid(NOON) == due
    # Its heat is what is drawn, so the buffer tends to the room: 500 l and 2 W for a degree are 290.75 h.
    unit.step(-1000, 290.75 * 60)
    assert unit.state == pytest.approx(20 + (temperature - 20) / e)


# The vehicle.


def car(**more):
    return Vehicle(**{"name": "car", "power": 11_000, "arrival": time(18), "departure": time(7), "needed": 22_000, "prices": (20, 90), **more})


def drive(one, begin, hours, takes):
    """Lets it bid each quarter of an hour. `takes` gives its power for a bid. Gives the hours at which it charged."""
    found = []
    for quarter in range(4 * hours):
        now = begin + timedelta(minutes=15 * quarter)
        power = takes(one.bid(now))
        one.step(power, 15)
        if power:
            found.append(now.hour + now.minute / 60)
    return found


def test_a_vehicle_charges_at_the_last_moment_if_all_is_dear_and_is_full_at_its_departure():
    """By hand: 22 kWh by 11 kW are two hours, so from 5 to 7."""
    one = car()
    hours = drive(one, NOON, 24, lambda bid: bid if isinstance(bid, int) else 0)
    assert (min(hours), max(hours), len(hours)) == (5, 6.75, 8)
    assert (one.state, one.unmet, one.is_there) == (0, 0, False)


def test_a_vehicle_charges_at_once_if_all_is_cheap():
    one = car()
    hours = drive(one, NOON, 24, lambda bid: bid if isinstance(bid, int) else bid[0][1])
    assert (min(hours), max(hours), len(hours)) == (18, 19.75, 8)


def test_a_vehicle_pays_by_the_share_of_the_time_that_it_needs():
    """By hand: at 18:00 it needs 2 of 13 hours, so 20 + 70 * 2/13 is 30.8."""
    one = car()
    assert one.bid(NOON) == 0
    assert one.bid(NOON.replace(hour=18)) == [(31, 11_000), (31, 0)]
    one.step(11_000, 60)
    assert one.state == 11_000
    # What is missing at the departure is told, and the next day it needs all again.
    one.bid(NOON + timedelta(hours=19))
    assert (one.unmet, one.state) == (11_000, 0)
    one.bid(NOON + timedelta(hours=30))
    assert one.state == 22_000


def test_a_vehicle_at_work_by_day():
    one = car(arrival=time(8), departure=time(16), needed=10_000)
    hours = drive(one, NOON.replace(hour=0), 24, lambda bid: bid if isinstance(bid, int) else 0)
    assert (min(hours), max(hours)) == (15, 15.75)
    assert one.unmet == 0


def test_given_powers():
    sun = Held(NOON, 30, [100.4, 200.6])
    roof, load = Solar(name="roof", power=sun), Load(name="house", power=400)
    assert [roof.bid(NOON + timedelta(minutes=minutes)) for minutes in (-1, 0, 29, 30, 90)] == [-100, -100, -100, -201, -201]
    assert (load.bid(NOON), load.state) == (400, 400)


@pytest.mark.parametrize(
    "make",
    [
        lambda: Battery("a", 100, 1, 1, (0, 9), 200),
        lambda: Battery("a", 100, 1, 1, (0, 9), 50, reserve=100),
        lambda: Battery("a", 100, 1, 1, (0, 9), 50, efficiency=0),
        lambda: house(low=22),
        lambda: house(prices=(80, 20)),
        lambda: car(prices=(90, 20)),
        lambda: Battery("a", 100, 1, 1, (9, 0), 50),
        lambda: Boiler(name="a", power=1, litres=1, drawn=0.0, low=1, high=2, prices=(9, 0), temperature=1),
        lambda: house(loss=0),
        lambda: Boiler(name="a", power=1, litres=0, drawn=0.0, low=1, high=2, prices=(0, 9), temperature=1),
        lambda: car(departure=time(18)),
        lambda: Held(NOON, 0, [1.0]),
    ],
)
def test_what_no_device_has(make):
    with pytest.raises(ValueError):
        make()


# The kinds of a cluster file.


@hypothesis_settings(max_examples=200)
@given(st.data())
def test_kinds_bid_and_step_as_the_plain_auction_has_them(live, data):
    """The bid of each kind and state; and over a tick in parts the state of that tick, except that what is rounded differs by one."""
    basis = data.draw(bases())
    node = data.draw(devices("d", ["auctioneer"], basis))
    minutes, power = data.draw(st.integers(1, 1440)), data.draw(st.integers(-3000, 3000))
    one: Device = ClusterDevice(node, minutes)
    state = auction.state_of(node.members(), basis.prices)
    assert made(live, basis, one.bid(NOON)) == [tuple(auction.bid_of(node.members(), state, basis.steps))]
    for _ in range(parts := data.draw(st.integers(1, 5))):
        one.step(power, minutes / parts)
    if node.ticks:
        assert one.state == pytest.approx(auction.after_tick(node.members(), node.start, power, minutes), abs=1)


def test_kinds_take_the_states_of_events():
    one, other = ClusterDevice(Objective("o", start=5), 15), ClusterDevice(Manual("m", points=[(0, 9), (9, 0)]), 15)
    one.set(State("o", 7))
    other.set(State("m", demand=[3] * 10))
    assert (one.bid(NOON), other.bid(NOON)) == (-7, (3,) * 10)
