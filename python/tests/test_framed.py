"""Clusters of data frames, by hand."""

from __future__ import annotations

from datetime import date, datetime
from typing import Any

import pytest

from cogmaula import Basis, Battery, Cluster, Events, Join, Limited, Load, Solar, State, Tick, run
from cogmaula.chains import run_parts
from cogmaula.data import TableFault

pandas = pytest.importorskip("pandas")
BASIS = Basis(0, 9, 10)


def frame(columns: dict[str, list[Any]], begin: str = "2026-06-21", step: str = "30min") -> Any:
    """A frame whose rows are so far apart."""
    return pandas.DataFrame(columns, index=pandas.date_range(begin, periods=len(next(iter(columns.values()))), freq=step))


def test_frames_make_a_cluster() -> None:
    """Halves of a watt go to the even one; what stays the same has no event; a zone is kept out of the way."""
    nodes = [Limited("feeder", floor=-9, ceiling=9), Battery("store", parent="feeder", capacity=9, charge=1, discharge=1, spread=0, start=0)]
    load, solar = frame({"house": [102.5, 103.5, 103.5]}), frame({"roof": [0, 77, 77]})
    due = Cluster(BASIS, [*nodes, Load("house", parent="feeder", start=102), Solar("roof", parent="feeder", start=0)])
    due = due.with_phases(
        Events([Join("store"), Join("house"), Join("roof")]), Tick(30), Events([State("house", 104), State("roof", 77)]), Tick(30), Tick(30)
    )
    assert Cluster.from_frames(BASIS, load, solar, nodes=nodes, parent="feeder") == due
    zoned = [frame.tz_localize("Europe/Berlin") for frame in (load, solar)]
    assert Cluster.from_frames(BASIS, *zoned, nodes=nodes, parent="feeder") == due


@pytest.mark.parametrize(
    ("load", "told"),
    [
        (frame({"a": [1, float("nan")]}), "column a has nan at 2026-06-21 00:30:00"),
        (frame({"a": [1, -1]}), "column a has -1"),
        (frame({"a": [1, 2e9]}), "column a has 2000000000.0"),
        (frame({"a": [1, 2, 3]}).drop(pandas.Timestamp("2026-06-21 00:30")).iloc[[0, 1, 1]], "is not 60 minutes after"),
        (frame({"a": [0.344, 2.128]}), "column a has 0.344 at 2026-06-21 00:00:00, .*: are these kilowatts\\?"),
        (frame({"a": [1, 2]}, step="30s"), "no whole minutes apart"),
        (frame({"a": [1]}).reset_index(), "a DatetimeIndex is due"),
        ([1, 2], "a DatetimeIndex is due"),
    ],
)
def test_a_faulty_frame_is_told(load: Any, told: str) -> None:
    """Each fault has the column and the time."""
    with pytest.raises(TableFault, match=told):
        Cluster.from_frames(BASIS, load)


def test_a_run_begins_at_the_time_of_the_frame(program: Any) -> None:
    """In its zone; unless the run is told otherwise. What looks like another unit is told."""
    loads = frame({"house": [500, 600, 700]}, begin="2026-03-29 00:00").tz_localize("UTC").tz_convert("Europe/Berlin")
    one = Cluster.from_frames(BASIS, loads)
    assert run(one, program=program).series().index.tolist() == loads.index.tolist()
    assert str(one.start) == "2026-03-29 01:00:00+01:00" and str(one.start.tzinfo) == "Europe/Berlin"
    assert run(one.with_phases(Tick(30)), start=date(2026, 1, 1), program=program).start == datetime(2026, 1, 1)
    assert next(run_parts(one, [one.phases], program=program)).start == one.start
    with pytest.warns(UserWarning, match="column house: its mean is 2.5 W, below 50: is the unit kW?"):
        assert Cluster.from_frames(BASIS, frame({"house": [2, 3]})).start == datetime(2026, 6, 21)


def test_frames_of_other_rows_and_none() -> None:
    """Both need the same rows, and one is due."""
    with pytest.raises(TableFault, match="cut them to the same span"):
        Cluster.from_frames(BASIS, frame({"a": [1, 2]}), frame({"b": [1, 2]}, begin="2026-06-22"))
    with pytest.raises(ValueError, match="there is no frame"):
        Cluster.from_frames(BASIS)
