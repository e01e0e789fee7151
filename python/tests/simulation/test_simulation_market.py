"""Simulations in the proved market: the same prices and powers as a run of what was bid, groups within their limits, long streams."""

from __future__ import annotations

from datetime import date, datetime, timedelta, timezone

import pytest

from cogmaula import Basis, ProgramFault, run
from cogmaula.simulation import BadBid, Battery, BidsNotKept, Group, Held, HeatPump, Load, Market, Solar, markets, simulate

HUNDRED, TEN = Basis(0, 99, 100), Basis(0, 9, 10)
START = datetime(2026, 6, 1)


def street():
    """Devices whose bids change at each tick, at each few, and never."""
    sun = Held(START, 60, [max(0, 3000 - 400 * abs(hour - 12)) for hour in range(24)], repeats=True)
    return [
        Load(name="house", power=400),
        Solar(name="roof", power=sun),
        Battery("store", 5000, 2000, 2000, (10, 90), 500, efficiency=0.9),
        HeatPump(
            name="pump", power=1500, loss=150, constant=60, outdoor=3.0, low=19, high=22, prices=(20, 80), temperature=20.5
        ),
    ]


def test_a_run_of_what_was_bid_has_the_prices_and_powers_of_the_simulation(program, live):
    pytest.importorskip("pandas")
    done = simulate(street(), HUNDRED, ticks=96, start=date(2026, 6, 1), keep_bids=True, program=program, live=live)
    again = run(done.cluster(), start=date(2026, 6, 1), program=program)
    held = again.prices["minutes"] > 0
    assert done.prices["price"].tolist() == again.prices["price"][held].tolist()
    assert done.prices["total_W"].tolist() == again.prices["total_W"][held].tolist()
    assert done.powers.values.tolist() == again.powers[held].values.tolist()
    assert len(set(done.prices["price"])) > 5
    # The frames are as those of a run.
    assert list(done.prices.columns) == list(again.prices.columns) and done.powers.index.names == again.powers.index.names
    assert done.series().equals(again.series().astype("Int64"))
    assert done.states["store"].between(0, 5000).all() and done.states["store"].nunique() > 20
    assert repr(done) == "Simulation(4 devices, 96 ticks of 15 minutes from 2026-06-01 00:00)"


def test_a_long_simulation_has_streams_one_behind_another(program, live, monkeypatch):
    """Of a market whose streams end soon, prices and powers are those of one stream, with a group too."""
    groups = [Group("feeder", -1200, 1000, ("store", "roof"))]

    def found(groups):
        done = simulate(street(), HUNDRED, ticks=96, start=START, groups=groups, program=program, live=live)
        return [(end.step, end.powers, end.groups) for end in done.ends]

    whole = [found([]), found(groups)]
    opened = []
    real = markets._Node._begin
    monkeypatch.setattr(markets._Node, "_begin", lambda self, first: (opened.append(self._what), real(self, first))[1])
    monkeypatch.setattr(markets, "LONGEST", 20_000)
    assert [found([]), found(groups)] == whole
    assert opened.count("market serve") > 4 and len(opened) - opened.count("market serve") > 2


def test_a_group_keeps_its_limits_by_a_price_of_its_own(program, live):
    """By hand: a load of 1000 W and a battery that is half full, from 0 to 9: middle 4 (4.5 rounds to even), 2000 W at 0, none at 4,
    -2000 W at 9. Outside are 1800 W of roof.

    The group takes 1000 + 2000 at price 0, 2500 at 1, 2000 at 2, 1500 at 3, 1000 at 4. With a ceiling of 1600 it takes 1500 at its
    price 3 or below, so the roof's 1800 W are too much at every price: the market clears at 0, and the group at 3.
    """
    pytest.importorskip("pandas")
    devices = [Load(name="house", power=1000), Battery("store", 4000, 2000, 2000, (0, 9), 2000), Solar(name="roof", power=1800)]
    done = simulate(devices, TEN, ticks=1, groups=[Group("feeder", -500, 1600, ("house", "store"))], program=program, live=live)
    (end,) = done.ends
    assert (end.price, end.total) == (0, -300)
    assert (end.groups[0].price, end.groups[0].total) == (3, 1500)
    assert end.powers == {"house": 1000, "store": 500, "roof": -1800}
    row = done.limited_groups.iloc[0]
    assert (row["ceiling_W"], row["excess_W"], row["minutes"]) == (1600, 0, 15)
    with pytest.raises(ValueError, match="groups"):
        done.cluster()


def test_a_market_by_itself(program):
    """No bid: step 0. The same bids again: the same step, and nothing is asked."""
    with Market(TEN, ["a", "b"], program=program) as market:
        assert market.clear().step == 0
        market.bid("a", (100,) * 10)
        market.bid("b", (0,) * 4 + (-150,) * 6)
        first = market.clear()
        assert (first.step, dict(first.devices)) == (4, {"a": 4, "b": 4})
        market.bid("b", (0,) * 4 + (-150,) * 6)
        assert market.clear() is first


def test_a_market_whose_program_ends_says_so(program):
    with Market(TEN, ["a"], program=program) as market:
        market._auctioneer._process.kill()
        market.bid("a", (100,) * 10)
        with pytest.raises(ProgramFault, match="market serve: .* status is -9"):
            market.clear()


@pytest.mark.parametrize(
    ("groups", "words"),
    [
        ([Group("g", 0, 1, ("nobody",))], "no device"),
        ([Group("g", 0, 1, ("a",)), Group("h", 0, 1, ("a",))], "one group at most"),
        ([Group("g", 0, 1, ())], "one device or more"),
    ],
)
def test_groups_that_do_not_fit(program, groups, words):
    with pytest.raises(ValueError, match=words):
        Market(TEN, ["a"], groups, program=program)


def test_other_things_that_do_not_fit(program):
    with pytest.raises(ValueError, match="one name"):
        Market(TEN, ["a", "a"], program=program)
    with pytest.raises(ValueError, match="256 children"):
        Market(TEN, [f"d{number}" for number in range(257)], program=program)
    with pytest.raises(ValueError, match="limits 1 to 2"):
        Group("g", 1, 2, ("a",))
    with pytest.raises(ValueError, match="1 or more"):
        simulate([Load(name="a", power=1)], TEN, ticks=0, program=program)
    with pytest.raises(BidsNotKept):
        simulate([Load(name="a", power=1)], TEN, ticks=1, program=program).cluster()


def test_a_gap_in_a_table_is_told_before_anything_is_simulated(program):
    """With the device and the time; a table that goes on behind the simulation is not looked at there."""
    values = [1.0] * 30 + [float("nan")]
    house = Load(name="house", power=Held(START, 60, values))
    with pytest.raises(ValueError, match=r"^house: its power has nan at 2026-06-02T06:00:00: mend the table"):
        simulate([house], TEN, ticks=124, start=START, program=program)
    assert house._now is None
    assert len(simulate([house], TEN, ticks=120, start=START, program=program)) == 120
    with pytest.raises(ValueError, match=r"^house: .*2026-06-01T00:00:00\+00:00 has a zone and 2026-06-01T00:00:00 has none"):
        simulate([house], TEN, ticks=1, start=START.replace(tzinfo=timezone.utc), program=program)


def test_a_device_that_makes_no_bid_is_named_with_its_moment(program):
    house = Load(name="house", power=lambda now: 5 if now.hour < 2 else float("nan"))
    with pytest.raises(BadBid, match=r"^house makes no bid at 2026-06-01T02:00:00: ValueError: cannot convert float NaN"):
        simulate([house], TEN, ticks=24, minutes=60, start=START, program=program)


@pytest.mark.parametrize("basis", [Basis(0, 1000, 1001), Basis(0, 9, 1), Basis(9, 0, 10), Basis(0, 10, 10)])
def test_a_basis_that_no_market_has_is_told_in_words(program, basis):
    with pytest.raises(ValueError, match="2 to 1,000 steps"):
        Market(basis, ["a"], program=program)


def test_moments_pass_in_the_zone_of_the_start(program):
    pytest.importorskip("pandas")
    from zoneinfo import ZoneInfo

    seen = []

    class Watcher(Load):
        def bid(self, now):
            seen.append(now)
            return super().bid(now)

    zone = ZoneInfo("Europe/Berlin")
    simulate([Watcher(name="a", power=1)], TEN, ticks=3, minutes=60, start=datetime(2026, 10, 25, 1, tzinfo=zone), program=program)
    assert [moment.hour for moment in seen] == [1, 2, 2]
    assert [moment.utcoffset() for moment in seen] == [timedelta(hours=2), timedelta(hours=2), timedelta(hours=1)]
