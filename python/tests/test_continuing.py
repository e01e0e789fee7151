"""The law of `continue`: a run of A then B has the phase ends of a run of A, and of a run of what continues A with B."""

from __future__ import annotations

from dataclasses import replace

import pytest
from clusters import clusters, days
from conftest import EXAMPLES
from hypothesis import given, settings
from hypothesis import strategies as st

from cogmaula import Basis, Battery, Cluster, Events, Join, Leave, Load, Manual, NoContinuation
from cogmaula import Refused, State, Tick, TooLong, chain, continued, parts_of, resumed, run, run_parts, whole_of
from cogmaula.continuing import script_for
from cogmaula.program_limits import MOST_BYTES

pytestmark = pytest.mark.usefixtures("program")
MANY = settings(max_examples=300)


def plain(ends):
    """Phase ends without what is numbered anew: phases and bids."""
    return [replace(end, phase=0, bids={}) for end in ends]


@MANY
@given(given_days=days())
def test_a_run_goes_on_where_it_ended(given_days):
    cluster, (first, second) = given_days
    whole = run(cluster.with_script([*first, *second]))
    one = run(cluster.with_script(first))
    two = run(continued(one, second))
    assert plain(whole.ends) == plain(one.ends) + plain(two.ends[1:])
    # The first phase of the next day repeats the end, if there was one.
    assert plain(two.ends[:1]) == plain(one.ends[-1:]) or not one.ends
    assert whole.snapshot.members == two.snapshot.members
    assert whole.snapshot.states == two.snapshot.states


@settings(max_examples=100)
@given(given_days=days(count=3))
def test_a_chain_is_the_run_of_the_whole_script(given_days):
    cluster, scripts = given_days
    whole = run(cluster.with_script([phase for script in scripts for phase in script]))
    linked = whole_of(whole.cluster, run_parts(cluster, scripts))
    assert linked.text == whole.text
    assert linked.bill == whole.bill
    assert linked.times == whole.times
    # Each part goes on at the moment at which the one before ended.
    runs = list(run_parts(cluster, scripts))
    for one, two in zip(runs, runs[1:]):
        assert two.start == (one.times[-1] if one.times else one.start)


@settings(max_examples=60)
@given(cluster=clusters(most=12), minutes=st.integers(1, 400))
def test_a_script_that_is_cut_by_minutes_has_all_its_phases(cluster, minutes):
    parts = list(parts_of(cluster, minutes))
    assert [phase for part in parts for phase in part] == list(cluster.phases)
    for part in parts:
        ticks = [phase.minutes for phase in part if isinstance(phase, Tick)]
        assert len(ticks) <= 1 or sum(ticks) <= minutes
    assert chain(cluster, minutes=minutes).text == run(cluster).text


def two_devices(phases):
    """A battery and a load over these phases."""
    nodes = [
        Battery("store", capacity=10_000, charge=500, discharge=500, spread=0, start=5_000),
        Load("house", start=300),
    ]
    return Cluster(Basis(0, 9, 10), nodes, phases)


def test_a_battery_by_hand():
    # At step k the middle is (10000 - 5000) * 9 / 10000, 4. Up to price 3 the battery takes 500, at 4 nothing, above it delivers 500. With
    # the load of 300 the total is 300 at price 4 and -200 at 5. So the battery delivers 500 W, and over 60 minutes 500 Wh.
    both = Events([Join("store"), Join("house")])
    done = run(two_devices([both, Tick(60)]))
    next_day = continued(done, [Tick(60)])
    assert [end.powers for end in done.ends] == [{"store": -500, "house": 300}] * 2
    assert next_day.node("store").start == 4_500
    assert next_day.phases == (both, Tick(60))
    assert run(next_day).snapshot.states == {"store": 4_000, "house": 300}


def test_who_left_keeps_its_state():
    cluster = Cluster.load(EXAMPLES / "village.json")
    done = run(cluster)
    next_day = continued(done)
    joined = {event.device for event in next_day.phases[0].events}
    assert joined == set(done.snapshot.members)
    assert {device.name: device.start for device in next_day.devices if device.kind != "manual"} == {
        name: state for name, state in done.snapshot.states.items() if isinstance(state, int)
    }


def test_more_phases_than_a_run_takes():
    whole = two_devices([Events([Join("store"), Join("house")]), *[Tick(1)] * 2_000])
    with pytest.raises(Refused) as refused:
        run(whole)
    assert refused.value.answer == "refused 20 document"
    # The second part and the third begin with a phase of joins.
    assert [len(part) for part in parts_of(whole)] == [999, 999, 3]
    done = chain(whole)
    assert len(done.ends) == 2_001
    assert done.text.endswith(b"end phases 2001 changes 2002\n")
    assert (done.bill.ticks, done.bill.minutes) == (2_000, 2_000)


def test_a_part_has_no_more_changes_than_a_run_takes():
    flips = Events([event for _ in range(1_000) for event in (Join("house"), Leave("house"))])
    whole = two_devices([Events([Join("store")]), *[flips] * 20])
    parts = list(parts_of(whole))
    # A part has 20,000 changes at most. The first has 1 and 9 times 2,000. The others begin with a join of the store.
    assert [len(part) for part in parts] == [10, 9, 2]
    assert chain(whole).changes == 40_001


def test_a_phase_that_is_too_large():
    flips = Events([event for _ in range(10_001) for event in (Join("house"), Leave("house"))])
    with pytest.raises(NoContinuation, match="phase 1 is too large"):
        list(parts_of(two_devices([flips])))


def test_a_refusal_counts_the_phases_of_the_whole():
    whole = two_devices([Events([Join("house")]), Tick(10), Tick(10), Tick(10), Events([Join("house")])])
    with pytest.raises(Refused) as alone:
        run(whole)
    with pytest.raises(Refused) as linked:
        chain(whole, minutes=10)
    assert linked.value.answer == alone.value.answer == "refused 15 event 5 1"


def test_the_next_day_has_the_same_tree():
    first = two_devices([])
    other_start = replace(first.nodes[0], start=1)
    assert script_for(first, Cluster(first.basis, [other_start, first.nodes[1]], [Tick(5)])) == (Tick(5),)
    with pytest.raises(NoContinuation, match="other nodes"):
        script_for(first, Cluster(first.basis, first.nodes[:1]))
    with pytest.raises(NoContinuation, match="other prices"):
        script_for(first, Cluster(Basis(0, 9, 4), first.nodes))


def test_resumed_before_all_phases_is_the_cluster_with_a_phase_of_nobody():
    from cogmaula.states import first_snapshot

    first = two_devices([])
    assert resumed(first, first_snapshot(first)) == first.with_phases(Events())


def test_more_bytes_than_a_file_may_have():
    basis = Basis(0, 999, 1_000)
    events = [State("flex", demand=[-(10**9) + at] * 1_000) for at in range(400)]
    phases = [Events([Join("flex")]), *(Events([event]) for event in events)]
    whole = Cluster(basis, [Manual("flex", demand=[0] * 1_000)], phases)
    with pytest.raises(TooLong):
        run(whole)
    parts = list(parts_of(whole))
    assert len(parts) == 2
    # Each part is one that the program takes, and no event more would fit into the first.
    done = list(run_parts(whole, parts))
    sizes = [len(done_part.cluster.to_bytes()) for done_part in done]
    assert max(sizes) <= MOST_BYTES
    assert sizes[0] > MOST_BYTES - 60_000
    assert [end.powers["flex"] for end in whole_of(whole, done).ends] == [0, *(-(10**9) + at for at in range(400))]
