"""States after ticks: the worked rows of docs/CLUSTER_FILE.md, and the plain auction of checks/oracle as a second opinion."""

from __future__ import annotations

from checks.oracle import auction
import pytest
from clusters import bases, clusters, devices
from hypothesis import given, settings
from hypothesis import strategies as st

from cogmaula import Battery, Bid, Cluster, Cogeneration, Freezer, HeatPump, Load, Manual, run
from cogmaula.states import after_tick, start_of

FREEZER = Freezer("a", low=-2200, high=-1800, power=200, warm=30, cool=80, start=-2000)
HEAT_PUMP = HeatPump("a", low=1900, high=2200, power=1500, loss=20, gain=60, start=2080)
UNIT = Cogeneration("a", low=5000, high=8000, power=2000, loss=20, gain=50, start=6000)
STORE = Battery("a", capacity=5000, charge=1000, discharge=1000, spread=5, start=2500)


@pytest.mark.parametrize(
    ("node", "state", "power", "minutes", "due"),
    [
        # The worked column of the page.
        (FREEZER, -2000, 200, 15, -2050),
        (FREEZER, -2000, 0, 15, -1970),
        (HEAT_PUMP, 2080, 1500, 15, 2120),
        (HEAT_PUMP, 2080, 0, 15, 2060),
        (UNIT, 5200, -2000, 15, 5230),
        (UNIT, 5380, 0, 15, 5360),
        (STORE, 100, 500, 7, 158),
        (STORE, 100, -500, 7, 41),
        # A battery is full or empty, and a temperature stays within its limits.
        (STORE, 4900, 1000, 60, 5000),
        (STORE, 100, -1000, 60, 0),
        (FREEZER, 999_990, 0, 1, 1_000_000),
        (HEAT_PUMP, -999_990, 0, 1, -1_000_000),
        # The others keep their state.
        (Load("a", start=100), 100, 100, 60, 100),
    ],
)
def test_a_tick_by_hand(node, state, power, minutes, due):
    assert after_tick(node, state, power, minutes) == due


@settings(max_examples=150)
@given(st.data())
def test_a_tick_by_the_plain_auction(data):
    node = data.draw(devices("d", ["auctioneer"], data.draw(bases())).filter(lambda node: node.ticks))
    state, power = node.start, data.draw(st.integers(-3000, 3000))
    minutes = data.draw(st.integers(1, 1440))
    assert after_tick(node, state, power, minutes) == auction.after_tick(node.members(), state, power, minutes)


def test_starts():
    assert start_of(STORE) == 2500
    assert start_of(Manual("a", demand=[1, 0])) == Bid(demand=(1, 0))
    assert start_of(Manual("a", points=[[0, 1]])) == Bid(points=((0, 1),))


@settings(max_examples=40)
@given(cluster=clusters())
def test_members_are_those_that_the_report_names(program, cluster: Cluster):
    from cogmaula.states import snapshots

    done = run(cluster)
    for now, end in zip(snapshots(cluster, done.ends), done.ends, strict=True):
        assert now.members == end.powers.keys()
