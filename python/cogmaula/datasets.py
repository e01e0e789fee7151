"""A run as a dataset of xarray, and as a file of netCDF: arrays with named dimensions, coordinates and units.

| Dimension | Coordinates |
|---|---|
| `phase` | `phase` from 1, `time` in UTC, `utc_offset` in minutes if the run's start has a zone |
| `device` | `device`, `kind`, `parent`, `state_unit`, and `household` if households are named |
| `group` | `group`: the limited concentrators, `floor` and `ceiling` |
| `party` | `party`: the devices and then the grid, `party_kind` |

Units are those of UDUNITS, as the CF conventions ask for. A price has no unit of its own, so it is `1`.
"""

from __future__ import annotations

import os
from collections.abc import Mapping, Sequence
from datetime import UTC, datetime, timedelta
from importlib.util import find_spec
from typing import TYPE_CHECKING, Any

from .errors import NoPackage
from .moments import zone_name
from .nodes import Limited
from .version import __version__

if TYPE_CHECKING:
    from .runs import Run

# The last party of a bill. A device may have its name, so `party_kind` tells them apart.
GRID = "grid"
# The unit of a device's state by its kind; all others have the temperature that the cluster file chose.
STATE_UNITS = {"battery": "W h", "solar": "W", "load": "W", "objective": "W", "manual": ""}
TEMPERATURE = "the temperature unit of the cluster file"
# Stands in a file for a whole number that is missing, as the power of a device that is no member.
MISSING = -(2**63)
# How times stand in a file: whole seconds, which xarray and others read as moments.
TIMES = {"units": "seconds since 1970-01-01 00:00:00", "calendar": "proleptic_gregorian", "dtype": "int64"}


def xarray() -> Any:
    """The module xarray. Raises NoPackage if it is not installed."""
    try:
        import xarray as module
    except ImportError:
        raise NoPackage("datasets need xarray: on Debian, apt-get install python3-xarray") from None
    return module


def dataset_of(run: Run, households: Mapping[str, Sequence[str]] | None = None) -> Any:
    """The run as a dataset of xarray.

    households: the devices of each household; a device of none has an empty text

    Raises ValueError if a household has a device that the cluster lacks, or two have the same; NoPackage without xarray.
    """
    parts = [phase_values(run), device_values(run), group_values(run), party_values(run)]
    coordinates = {**phase_coordinates(run), **device_coordinates(run, households), **group_coordinates(run), **party_coordinates(run)}
    values = {name: value for part in parts for name, value in part.items()}
    return xarray().Dataset(values, coordinates, attributes(run))


def write_netcdf(run: Run, path: str | os.PathLike[str], households: Mapping[str, Sequence[str]] | None = None) -> None:
    """Writes the dataset of the run into a file of netCDF 4. Raises what `dataset_of` raises, NoPackage without netCDF4, and OSError."""
    dataset = dataset_of(run, households)
    if find_spec("netCDF4") is None:
        raise NoPackage("netCDF needs netCDF4: on Debian, apt-get install python3-netcdf4")
    whole = {"dtype": "int64", "_FillValue": MISSING}
    encoding: dict[str, dict[str, Any]] = {"time": dict(TIMES), **{name: whole for name in ("power", "bid", "state")}}
    dataset.to_netcdf(os.fspath(path), format="NETCDF4", engine="netcdf4", encoding=encoding)


def attributes(run: Run) -> dict[str, Any]:
    """What holds for the whole dataset."""
    return {
        "Conventions": "CF-1.8",
        "title": "run of a cluster by the program market",
        "source": f"cogmaula {__version__}",
        "start": run.start.isoformat(),
        "time_zone": zone_name(run.start),
        "changes": run.changes,
    }


def phase_coordinates(run: Run) -> dict[str, Any]:
    """The number and the moment of each phase's end. Without a zone, times are those of a clock that is never changed."""
    import numpy

    zoned = run.start.tzinfo is not None
    moments = [time.astimezone(UTC).replace(tzinfo=None) if zoned else time for time in run.times]
    found = {
        "phase": ("phase", numpy.array([end.phase for end in run.ends], dtype="int64"), {"long_name": "number of the phase"}),
        "time": ("phase", numpy.array(moments, dtype="datetime64[ns]"), {"standard_name": "time", "time_zone": "UTC" if zoned else ""}),
    }
    if zoned:
        offsets = [int((time.utcoffset() or timedelta()).total_seconds() // 60) for time in run.times]
        told = {"long_name": "what to add to the time for the clock of the run's zone", "units": "min"}
        found["utc_offset"] = ("phase", numpy.array(offsets, dtype="int64"), told)
    return found


def phase_values(run: Run) -> dict[str, Any]:
    """What the market did in each phase."""
    columns = {
        "price": ("price", {"long_name": "clearing price, in price units", "units": "1"}),
        "step": ("step", {"long_name": "step of the clearing price, from 0", "units": "1"}),
        "total": ("total_W", {"long_name": "power that is left over: above 0 if it is lacking", "units": "W"}),
        "members": ("members", {"long_name": "devices that are members", "units": "1"}),
        # By the unit "minutes" xarray would make it a timedelta.
        "minutes": ("minutes", {"long_name": "how long the end of the phase lasts", "units": "min"}),
    }
    return {name: ("phase", run.prices[column].to_numpy(), told) for name, (column, told) in columns.items()}


def device_coordinates(run: Run, households: Mapping[str, Sequence[str]] | None) -> dict[str, Any]:
    """The devices, in the order of the cluster file."""
    devices = run.cluster.devices
    found: dict[str, Any] = {
        "device": ("device", texts(device.name for device in devices)),
        "kind": ("device", texts(device.kind for device in devices)),
        "parent": ("device", texts(getattr(device, "parent", "auctioneer") for device in devices)),
        "state_unit": ("device", texts(STATE_UNITS.get(device.kind, TEMPERATURE) for device in devices)),
    }
    if households is not None:
        owners = owners_of(households, {device.name for device in devices})
        found["household"] = ("device", texts(owners.get(device.name, "") for device in devices))
    return found


def owners_of(households: Mapping[str, Sequence[str]], known: set[str]) -> dict[str, str]:
    """The household of each device that has one. Raises ValueError for a device that is not known, or is in two households."""
    found: dict[str, str] = {}
    for household, devices in households.items():
        for name in devices:
            if name not in known:
                raise ValueError(f"{household} has {name}, which is no device of the cluster")
            if name in found:
                raise ValueError(f"{name} is in two households, {found[name]} and {household}")
            found[name] = household
    return found


def device_values(run: Run) -> dict[str, Any]:
    """Powers, bids and states: of each phase and device, missing where there is none."""
    names = [device.name for device in run.cluster.devices]
    frames = {
        "power": (run.powers, {"long_name": "power that the device takes, below 0 if it delivers", "units": "W"}),
        "bid": (run.bids, {"long_name": "number of the bid that the price answers", "units": "1"}),
        "state": (run.states.reindex(columns=names), {"long_name": "state of the device, in the unit of state_unit"}),
    }
    dimensions = ("phase", "device")
    return {name: (dimensions, frame.to_numpy("float64", na_value=float("nan")), told) for name, (frame, told) in frames.items()}


def group_coordinates(run: Run) -> dict[str, Any]:
    """The limited concentrators and their limits."""
    import numpy

    groups = limited_of(run)
    watts = {"units": "W"}
    return {
        "group": ("group", texts(group.name for group in groups)),
        "floor": ("group", numpy.array([group.floor for group in groups], dtype="int64"), watts),
        "ceiling": ("group", numpy.array([group.ceiling for group in groups], dtype="int64"), watts),
    }


def group_values(run: Run) -> dict[str, Any]:
    """The price and the load of each limited concentrator in each phase."""
    columns = {
        "group_price": ("price", {"long_name": "price below the group, in price units", "units": "1"}),
        "group_load": ("total_W", {"long_name": "power that the nodes below the group take", "units": "W"}),
        "group_excess": ("excess_W", {"long_name": "load above the ceiling, or below the floor if it is below 0", "units": "W"}),
    }
    shape = (len(run.ends), len(limited_of(run)))
    groups = run.limited_groups
    return {name: (("phase", "group"), groups[column].to_numpy().reshape(shape), told) for name, (column, told) in columns.items()}


def limited_of(run: Run) -> list[Limited]:
    """The limited concentrators, in the order of the report."""
    return [node for node in run.cluster.nodes if isinstance(node, Limited)]


def party_coordinates(run: Run) -> dict[str, Any]:
    """Who has an account."""
    names = list(run.bill.devices)
    return {"party": ("party", texts([*names, GRID])), "party_kind": ("party", texts([*("device" for _ in names), GRID]))}


def party_values(run: Run) -> dict[str, Any]:
    """The accounts. An amount may be past 64 bits, so its exact digits are beside the nearest float."""
    import numpy

    accounts = [*run.bill.devices.values(), run.bill.grid]
    energy = {"units": "W min"}
    paid = {"long_name": "amount that the party pays, in price units times W min", "units": "W min"}
    return {
        "amount": ("party", numpy.array([float(account.amount) for account in accounts]), paid),
        "amount_digits": ("party", texts(str(account.amount) for account in accounts), {"long_name": "the amount, exact"}),
        "taken": ("party", numpy.array([account.taken for account in accounts], dtype="int64"), {"long_name": "energy taken", **energy}),
        "given": ("party", numpy.array([account.given for account in accounts], dtype="int64"), {"long_name": "energy given", **energy}),
    }


def texts(them: Any) -> Any:
    """Texts as an array; of no length it still holds texts."""
    import numpy

    return numpy.array(list(them), dtype=object)
