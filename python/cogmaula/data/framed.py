"""Clusters of data frames: each column a device, each row an interval, in watts."""

from __future__ import annotations

import warnings
from collections.abc import Iterable, Sequence
from dataclasses import replace
from datetime import datetime, timedelta
from pathlib import Path
from typing import TYPE_CHECKING

from ..cluster import Basis, Cluster
from ..data_frames import pandas
from ..moments import zone_of
from ..nodes import Node
from ..schema import limits_of
from .faults import TableFault
from .recipe_cluster import made_of
from .recipe import Recipe, Table
from .tables import Measured

if TYPE_CHECKING:
    from pandas import DataFrame

MINUTE = timedelta(minutes=1)
# The greatest share of a column's energy that whole watts may change.
MOST_ROUNDED = 0.05


def cluster_from_frames(
    basis: Basis, load: DataFrame | None = None, solar: DataFrame | None = None, *, nodes: Iterable[Node] = (), parent: str = "auctioneer"
) -> Cluster:
    """The cluster of data frames of loads and solar panels.

    basis:  the prices
    load:   watts taken, a column for each device and a row for each interval, with a DatetimeIndex of when it begins; or None
    solar:  watts delivered, as positive numbers, with the same index; or None
    nodes:  further nodes, which come first, such as a feeder, batteries and a connection
    parent: the node that the devices of the columns are below

    The powers are rounded to whole watts, halves to even. A row lasts until the next one; a single row lasts an hour. The cluster's
    `start` is the time of the first row, in its zone.

    Raises TableFault with column and time if rows are not equally far apart, a value is missing, negative or too large, or whole watts
    would change the energy of a column by more than a twentieth, as those of kilowatts would; ValueError if there is no frame; NoPackage
    without pandas. Warns of a column whose unit is likely another one.
    """
    given = [(kind, frame) for kind, frame in (("load", load), ("solar", solar)) if frame is not None]
    if not given:
        raise ValueError("there is no frame: give load, solar or both")
    minutes = minutes_of(*given[0])
    tables = [(Table(Path(kind), kind, parent=parent), measured_of(kind, frame, minutes)) for kind, frame in given]
    recipe = Recipe(Path("frames"), minutes, {"min": basis.min, "max": basis.max, "steps": basis.steps}, (), tuple(table for table, _ in tables))
    made = made_of(recipe, tables, list(nodes))
    for look in made.looks:
        if look.warning is not None:
            warnings.warn(f"{look.kind}: column {look.name}: {look.warning}", stacklevel=3)
    return replace(made.cluster, start=start_of(given[0][1]))


def start_of(frame: DataFrame) -> datetime:
    """The time of a frame's first row, in its zone; in one of a name if the zone has one, whatever library it is of."""
    first: datetime = frame.index[0].to_pydatetime()
    try:
        return first if frame.index.tz is None else first.astimezone(zone_of(str(frame.index.tz)))
    except ValueError:
        return first


def times_of(kind: str, frame: DataFrame) -> list[datetime]:
    """The times of a frame's rows, as datetimes; those with a zone in UTC."""
    pd = pandas()
    if not isinstance(frame, pd.DataFrame) or not isinstance(frame.index, pd.DatetimeIndex) or not len(frame) or not len(frame.columns):
        raise TableFault(f"{kind}: a data frame with rows, columns and a DatetimeIndex is due")
    index = frame.index if frame.index.tz is None else frame.index.tz_convert("UTC")
    return [time.to_pydatetime() for time in index]


def minutes_of(kind: str, frame: DataFrame) -> int:
    """The minutes of the frame's first row."""
    times = times_of(kind, frame)
    apart: timedelta = times[1] - times[0] if len(times) > 1 else 60 * MINUTE
    minutes, rest = divmod(apart, MINUTE)
    if rest or not 1 <= minutes <= 1440:
        raise TableFault(f"{kind}: the rows {times[0]} and {times[1]} are no whole minutes apart, 1 to 1440")
    return minutes


def measured_of(kind: str, frame: DataFrame, minutes: int) -> Measured:
    """What a frame says, in whole watts."""
    times = times_of(kind, frame)
    for before, time in zip(times, times[1:]):
        if time - before != minutes * MINUTE:
            raise TableFault(f"{kind}: the row of {time} is not {minutes} minutes after {before}: frame.asfreq and fillna mend gaps")
    most = limits_of(kind, "start")[1]
    powers = []
    for name in frame.columns:
        for time, power in zip(times, frame[name]):
            if not 0 <= power <= most:
                raise TableFault(f"{kind}: column {name} has {power} at {time}: write 0 to {most:,} W, and no value missing")
        powers.append(whole_watts(kind, str(name), times, frame[name].tolist()))
    return Measured(tuple(map(str, frame.columns)), tuple(times), tuple(powers))


def whole_watts(kind: str, name: str, times: Sequence[datetime], powers: Sequence[float]) -> tuple[int, ...]:
    """The powers of a column in whole watts. Raises TableFault if that changes much of their energy."""
    found = tuple(round(power) for power in powers)
    if sum(abs(power - whole) for power, whole in zip(powers, found, strict=True)) > MOST_ROUNDED * sum(powers):
        at, worst = max(enumerate(powers), key=lambda one: abs(one[1] - found[one[0]]))
        told = f"column {name} has {worst:g} at {times[at]}, and whole watts would change its energy by more than {MOST_ROUNDED:.0%}"
        raise TableFault(f"{kind}: {told}: are these kilowatts? Give watts (frame * 1000), or round them yourself (frame.round())")
    return found
