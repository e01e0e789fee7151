"""Data frames of a run, by pandas.

Most frames have an index of two levels, `time` and `phase`. `time` is the start and the minutes of all ticks up to the phase's
end, so phases of events share it with the tick before them. `phase` counts from 1. Names of devices are columns or values of their
own and never stand beside other names.
"""

from __future__ import annotations

import math
from collections.abc import Iterable, Sequence
from datetime import datetime
from decimal import Decimal
from importlib import import_module
from types import ModuleType
from typing import TYPE_CHECKING, Any

from .cluster import Cluster
from .errors import NoPackage
from .money import Currency, decimal_of, energy
from .nodes import Limited
from .states import snapshots
from .texts import Answers, Bill, PhaseEnd

if TYPE_CHECKING:
    from numpy.typing import NDArray
    from pandas import DataFrame, MultiIndex

# The first moment of a run if the user gives none.
START = datetime(2000, 1, 1)


def pandas() -> ModuleType:
    """The module pandas. Raises NoPackage if it is not installed."""
    try:
        return import_module("pandas")
    except ImportError:
        raise NoPackage("data frames need pandas: on Debian, apt-get install python3-pandas") from None


def arrays() -> None:
    """Raises NoPackage if numpy is not installed."""
    try:
        import numpy  # noqa: F401
    except ImportError:
        raise NoPackage("figures and bills of spans need numpy: on Debian, apt-get install python3-numpy") from None


def index_of(times: Sequence[datetime], ends: Sequence[PhaseEnd]) -> MultiIndex:
    """The index of `time` and `phase`, a row for each phase."""
    pd = pandas()
    stamps = pd.DatetimeIndex(times, name="time")
    return pd.MultiIndex.from_arrays([stamps, [end.phase for end in ends]], names=["time", "phase"])


def prices(index: MultiIndex, ends: Sequence[PhaseEnd], durations: Sequence[int]) -> DataFrame:
    """A row for each phase: price, step, total_W, members, minutes. All are int64."""
    columns = {
        "price": [end.price for end in ends],
        "step": [end.step for end in ends],
        "total_W": [end.total for end in ends],
        "members": [len(end.powers) for end in ends],
        "minutes": list(durations),
    }
    return pandas().DataFrame(columns, index=index, dtype="int64")


def wide(index: MultiIndex, names: Iterable[str], rows: Sequence[dict[str, int]]) -> DataFrame:
    """A row for each phase and a column for each name. Its dtype is Int64: <NA> where a row lacks the name."""
    pd = pandas()
    columns = {name: pd.array([row.get(name) for row in rows], dtype="Int64") for name in names}
    frame = pd.DataFrame(columns, index=index)
    frame.columns.name = "device"
    return frame


def states(index: MultiIndex, cluster: Cluster, ends: Sequence[PhaseEnd]) -> DataFrame:
    """The state of each device but the manual ones at the end of each phase, wide."""
    numbers = [
        {name: state for name, state in now.states.items() if isinstance(state, int)} for now in snapshots(cluster, ends)
    ]
    return wide(index, [device.name for device in cluster.devices if device.kind != "manual"], numbers)


def limited_groups(times: Sequence[datetime], cluster: Cluster, ends: Sequence[PhaseEnd], durations: Sequence[int]) -> DataFrame:
    """A row for each phase and limited concentrator: the price below it, the sum there, its limits and what is past them."""
    pd = pandas()
    limits = {node.name: (node.floor, node.ceiling) for node in cluster.nodes if isinstance(node, Limited)}
    rows, keys = [], []
    for time, end, minutes in zip(times, ends, durations, strict=True):
        for group in end.groups:
            floor, ceiling = limits[group.name]
            excess = max(group.total - ceiling, 0) + min(group.total - floor, 0)
            rows.append((group.price, group.step, group.total, floor, ceiling, excess, minutes))
            keys.append((time, end.phase, group.name))
    names = ["price", "step", "total_W", "floor_W", "ceiling_W", "excess_W", "minutes"]
    index = pd.MultiIndex.from_arrays(
        [pd.DatetimeIndex([key[0] for key in keys]), [key[1] for key in keys], [key[2] for key in keys]],
        names=["time", "phase", "group"],
    )
    return pd.DataFrame(rows, index=index, columns=names, dtype="int64")


def accounts(bill: Bill) -> DataFrame:
    """A row for each device, and one for the grid with an empty name: amount, taken_Wmin, given_Wmin.

    The index has two levels, `party` (device or grid) and `name`. `amount` holds Python's whole numbers, since it may be past 64
    bits. The others are int64.
    """
    pd = pandas()
    parties = [("device", name, account) for name, account in bill.devices.items()] + [("grid", "", bill.grid)]
    index = pd.MultiIndex.from_arrays([[party[0] for party in parties], [party[1] for party in parties]], names=["party", "name"])
    frame = pd.DataFrame(index=index)
    frame["amount"] = pd.Series([party[2].amount for party in parties], index=index, dtype="object")
    frame["taken_Wmin"] = pd.Series([party[2].taken for party in parties], index=index, dtype="int64")
    frame["given_Wmin"] = pd.Series([party[2].given for party in parties], index=index, dtype="int64")
    return frame


def simple(frame: DataFrame) -> DataFrame:
    """The frame with plain columns and plain names, as HDF5 holds them: numbers that may be missing as floats, large ones as text."""
    kinds = {name: str if kind == object else "float64" if str(kind) == "Int64" else kind for name, kind in frame.dtypes.items()}
    return frame.astype(kinds)


def in_utc(frame: DataFrame) -> DataFrame:
    """The frame with its times in UTC and without a zone, which HDF5 does not hold in an index of several levels."""
    names = frame.index.names
    if "time" not in names or getattr(frame.index.get_level_values("time"), "tz", None) is None:
        return frame
    levels = [frame.index.get_level_values(name) for name in names]
    plain = [level.tz_convert("UTC").tz_localize(None) if name == "time" else level for name, level in zip(names, levels, strict=True)]
    return frame.set_axis(pandas().MultiIndex.from_arrays(plain, names=names), axis=0)


def money_accounts(bill: Bill, currency: Currency, number: type[float] | type[Decimal]) -> DataFrame:
    """The accounts in kilowatt-hours and money: amount_UNIT, taken_kWh, given_kWh, each the float or decimal number nearest the exact value."""
    exact = accounts(bill)
    made: Any = float if number is float else decimal_of
    frame = pandas().DataFrame(index=exact.index)
    frame[f"amount_{currency.unit}"] = [made(currency.money(amount)) for amount in exact["amount"]]
    frame["taken_kWh"] = [made(energy(int(energy_taken))) for energy_taken in exact["taken_Wmin"]]
    frame["given_kWh"] = [made(energy(int(energy_given))) for energy_given in exact["given_Wmin"]]
    return frame


def series(start: datetime, names: Sequence[str], powers: NDArray[Any], members: NDArray[Any], minutes: Sequence[int]) -> DataFrame:
    """A row for each stretch of time over which powers hold, all equally long: Int64 by device, <NA> if no member.

    powers, members: of each interval and device; minutes: how long each interval lasts. If they differ, a row is as long as their
    greatest common divisor, and an interval has several rows.
    """
    pd = pandas()
    width = math.gcd(*minutes) if minutes else 0
    index = pd.date_range(start, periods=sum(minutes) // width if width else 0, freq=pd.Timedelta(minutes=width or 1), name="time")
    rows = [at for at, length in enumerate(minutes) for _ in range(length // (width or 1))]
    columns = {name: pd.arrays.IntegerArray(powers[rows, at], ~members[rows, at]) for at, name in enumerate(names)}
    frame = pd.DataFrame(columns, index=index)
    frame.columns.name = "device"
    return frame


def curve(answers: Answers) -> DataFrame:
    """A row for each step that answers some target: step, price, from_W, to_W. The last two are Int64, <NA> for no limit."""
    pd = pandas()
    return pd.DataFrame(
        {
            "step": pd.array([point.step for point in answers.curve], dtype="int64"),
            "price": pd.array([point.price for point in answers.curve], dtype="int64"),
            "from_W": pd.array([point.least for point in answers.curve], dtype="Int64"),
            "to_W": pd.array([point.most for point in answers.curve], dtype="Int64"),
        }
    )


def targets(answers: Answers) -> DataFrame:
    """A row for each target in order: target_W, price, step, total_W. All are int64."""
    columns = {
        "target_W": [answer.target for answer in answers.answers],
        "price": [answer.price for answer in answers.answers],
        "step": [answer.step for answer in answers.answers],
        "total_W": [answer.total for answer in answers.answers],
    }
    return pandas().DataFrame(columns, dtype="int64")
