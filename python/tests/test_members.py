"""What constructors take: whole numbers of any library, and no texts, fractions or truths; and a battery in slices."""

from __future__ import annotations

from typing import Any

import pytest
from hypothesis import given
from hypothesis import strategies as st

from cogmaula import Basis, Battery, Cluster, Load, Manual, Program, Refused, Solar, State, Tick

NOT_WHOLE = ["5", 5.0, None, True]


@pytest.mark.parametrize(
    ("member", "made"),
    [
        ("Load.start", lambda value: Load("a", start=value)),
        ("Battery.spread", lambda value: Battery("a", capacity=1, charge=1, discharge=1, spread=value, start=0)),
        ("Basis.steps", lambda value: Basis(0, 9, value)),
        ("Tick.minutes", Tick),
        ("Manual.demand[1]", lambda value: Manual("a", demand=[1, value])),
        ("Manual.points[0]", lambda value: Manual("a", points=[(0, value)])),
    ],
)
def test_a_constructor_takes_whole_numbers_alone(member: str, made: Any) -> None:
    """A number of NumPy becomes one of Python; all else is told with the class and the member."""
    numpy = pytest.importorskip("numpy")
    assert made(numpy.int64(7)) == made(7)
    Cluster(Basis(0, 9, 10), [load for load in [made(numpy.int32(7))] if hasattr(load, "kind")]).to_json()
    for wrong in NOT_WHOLE:
        with pytest.raises(TypeError) as told:
            made(wrong)
        assert str(told.value) == f"{member} is {wrong!r}: a whole number is due"


def test_a_value_may_be_missing_and_a_name_is_a_text() -> None:
    """The value of a state with points is None; a name that is no text is told."""
    assert State("a", points=[(0, 1)]).value is None
    with pytest.raises(TypeError, match=r"Solar.name is 5: a text is due"):
        Solar(5, start=1)  # type: ignore[arg-type]
    with pytest.raises(TypeError, match=r"Manual.points\[0\] has 3 numbers"):
        Manual("a", points=[(0, 1, 2)])  # type: ignore[list-item]


def test_what_a_file_says_is_left_to_the_program(program: Program) -> None:
    """A text in place of a number stays as it is, and the program refuses it by its own code."""
    text = '{"version": 1, "basis": {"min": 0, "max": 9, "steps": 10}, "nodes": [{"name": "a", "kind": "load", "parent": "auctioneer", "start": "5"}], "phases": []}'
    cluster = Cluster.from_json(text)
    assert getattr(cluster.nodes[0], "start") == "5"
    with pytest.raises(Refused) as told:
        cluster.check(program)
    assert told.value.code == 2


def test_a_battery_in_slices_by_hand() -> None:
    """10 Wh over 3 slices are 3, 3 and 4; each slice waits a step longer than the one before."""
    battery = Battery("store", parent="feeder", capacity=10, charge=7, discharge=6, spread=2, start=5)
    assert battery.sliced(3) == [
        Battery("store0", parent="feeder", capacity=3, charge=2, discharge=2, spread=2, start=1),
        Battery("store1", parent="feeder", capacity=3, charge=2, discharge=2, spread=3, start=2),
        Battery("store2", parent="feeder", capacity=4, charge=3, discharge=2, spread=4, start=2),
    ]
    assert [slice_.name for slice_ in battery.sliced(10)][-1] == "store9"
    assert [slice_.spread for slice_ in battery.sliced(2, apart=5)] == [2, 7]
    for count in (0, 11):
        with pytest.raises(ValueError, match=f"store has 10 Wh, which {count} slices cannot share"):
            battery.sliced(count)


def test_no_slice_starts_above_its_capacity() -> None:
    """129 Wh over 6 slices are 21, 22, 21, 22, 21 and 22, and 128 Wh in them leave one slice short, not one above its brim."""
    slices = Battery("b", capacity=129, charge=0, discharge=0, spread=0, start=128).sliced(6)
    assert [slice_.capacity for slice_ in slices] == [21, 22, 21, 22, 21, 22]
    assert [slice_.start for slice_ in slices] == [20, 22, 21, 22, 21, 22]


@given(st.integers(1, 10**6), st.integers(0, 10**6), st.integers(0, 10**6), st.integers(1, 200), st.data())
def test_slices_add_up_to_the_battery(capacity: int, charge: int, discharge: int, count: int, data: st.DataObject) -> None:
    """No watt and no watt-hour is lost, no slice starts above its capacity, and the names are different and in order."""
    count = min(count, capacity)
    start = data.draw(st.integers(0, capacity))
    slices = Battery("b", capacity=capacity, charge=charge, discharge=discharge, spread=0, start=start).sliced(count)
    assert len(slices) == count
    for member, whole in (("capacity", capacity), ("charge", charge), ("discharge", discharge), ("start", start)):
        assert sum(getattr(slice_, member) for slice_ in slices) == whole
    assert all(0 <= slice_.start <= slice_.capacity >= 1 for slice_ in slices)
    names = [slice_.name for slice_ in slices]
    assert names == sorted(set(names))
