"""What came of a simulation: data frames, figures, a bill, a page and files, as a run has them."""

from __future__ import annotations

import os
from collections.abc import Iterator, Mapping, Sequence
from datetime import datetime
from functools import cached_property
from pathlib import Path
from typing import TYPE_CHECKING, Any, overload

from .. import data_frames
from ..cluster import Basis, Cluster
from ..errors import MarketError
from ..moments import later
from ..money import Rate, currency_of
from ..nodes import Manual
from ..phases import Events, Join, Phase, State, Tick
from ..texts import Bill, GroupEnd, PhaseEnd
from .course import WATTS, Noted
from .device import Device
from .fleet import Fleet
from .markets import Group

if TYPE_CHECKING:
    from matplotlib.figure import Figure

    from ..figures import Figures
    from ..tariffs import Tariff
    from .as_run import SimulatedRun

# The data frames that are written to files, a file each.
TABLES = ("prices", "powers", "states", "limited_groups", "accounts")


class BidsNotKept(MarketError):
    """A cluster was asked of a simulation that did not keep its bids."""


class TickEnds(Sequence[PhaseEnd]):
    """Each tick as the end of a phase: the price, the powers, and what is left over. Each is made when it is asked for."""

    def __init__(self, names: Sequence[str], basis: Basis, groups: Sequence[Group], noted: Noted) -> None:
        """Takes what was noted."""
        self._names, self._prices, self._groups, self._noted = names, basis.prices, groups, noted
        self._members = [[names.index(name) for name in group.devices] for group in groups]

    def __len__(self) -> int:
        return len(self._noted.steps)

    @overload
    def __getitem__(self, at: int) -> PhaseEnd: ...

    @overload
    def __getitem__(self, at: slice) -> Sequence[PhaseEnd]: ...

    def __getitem__(self, at: int | slice) -> PhaseEnd | Sequence[PhaseEnd]:
        if isinstance(at, slice):
            return [self[number] for number in range(*at.indices(len(self)))]
        at = range(len(self))[at]
        step, row = int(self._noted.steps[at]), self._noted.powers[at].tolist()
        groups = tuple(
            GroupEnd(group.name, self._prices[below], below, sum(row[place] for place in members))
            for group, below, members in zip(self._groups, self._noted.groups[at].tolist(), self._members, strict=True)
        )
        return PhaseEnd(at + 1, self._prices[step], step, sum(row), dict(zip(self._names, row, strict=True)), {}, groups)


class Simulation:
    """What came of a simulation. The data frames are as those of a `Run`, with a row for each tick, and need pandas.

    A row holds from its time on, for the minutes of a tick. Prices and powers are those of the proved market over what was bid. Accounts
    are added up here by the rule of its bill, and not by the program.
    """

    def __init__(
        self, devices: tuple[Device | Fleet, ...], basis: Basis, start: datetime, minutes: int, groups: tuple[Group, ...], noted: Noted
    ) -> None:
        """Takes what `simulate` noted."""
        singles = [device for device in devices if not isinstance(device, Fleet)]
        fleets = [device for device in devices if isinstance(device, Fleet)]
        self.devices = devices
        self.names = (*(device.name for device in singles), *(name for fleet in fleets for name in fleet.names))
        self.basis = basis
        self.start = start
        self.minutes = minutes
        self.groups = groups
        self.noted = noted

    def __len__(self) -> int:
        return len(self.noted.steps)

    def __repr__(self) -> str:
        return f"Simulation({len(self.names)} devices, {len(self)} ticks of {self.minutes} minutes from {self.start:%Y-%m-%d %H:%M})"

    def _repr_html_(self) -> str:
        """The simulation as a table of a notebook: its first and last ticks. It needs pandas."""
        from html import escape

        return f"<p>{escape(repr(self))}</p>" + str(self.prices.to_html(max_rows=10))

    # Data frames.

    @cached_property
    def times(self) -> list[datetime]:
        """When each tick begins."""
        return [later(self.start, tick * self.minutes) for tick in range(len(self))]

    @cached_property
    def ends(self) -> Sequence[PhaseEnd]:
        """Each tick as the end of a phase: the price, the powers, and what is left over."""
        return TickEnds(self.names, self.basis, self.groups, self.noted)

    @cached_property
    def _index(self) -> Any:
        pd = data_frames.pandas()
        stamps = pd.date_range(self.start, periods=len(self), freq=pd.Timedelta(minutes=self.minutes), name="time")
        return pd.MultiIndex.from_arrays([stamps, range(1, len(self) + 1)], names=["time", "phase"])

    @property
    def _price_of_steps(self) -> Any:
        import numpy

        return numpy.array(self.basis.prices, dtype="int64")

    @cached_property
    def prices(self) -> Any:
        """A row for each tick: price, step, total_W, members, minutes. See `Run.prices`."""
        steps = self.noted.steps.astype("int64")
        columns = {
            "price": self._price_of_steps[steps], "step": steps, "total_W": self.noted.powers.sum(axis=1, dtype="int64"),
            "members": len(self.names), "minutes": self.minutes,
        }
        return data_frames.pandas().DataFrame(columns, index=self._index)

    @cached_property
    def powers(self) -> Any:
        """The power of each device in watts, positive if it takes power: (time, phase) by device, Int64."""
        return self._frame(self.noted.powers).astype("Int64")

    @cached_property
    def states(self) -> Any:
        """The state of each device at the begin of each tick, in the unit of its model: (time, phase) by device, float64."""
        return self._frame(self.noted.states)

    def _frame(self, values: Any) -> Any:
        found = data_frames.pandas().DataFrame(values, index=self._index, columns=list(self.names))
        found.columns.name = "device"
        return found

    @cached_property
    def limited_groups(self) -> Any:
        """A row for each tick and group. See `Run.limited_groups`."""
        import numpy

        pd, many = data_frames.pandas(), len(self.groups)
        steps = self.noted.groups.astype("int64").ravel()
        loads = [self.noted.powers[:, [self.names.index(name) for name in group.devices]].sum(axis=1, dtype="int64") for group in self.groups]
        total = numpy.stack(loads, axis=1).ravel() if many else numpy.zeros(0, dtype="int64")
        floor, ceiling = (numpy.tile(numpy.array([getattr(group, word) for group in self.groups], dtype="int64"), len(self)) for word in ("floor", "ceiling"))
        columns = {
            "price": self._price_of_steps[steps], "step": steps, "total_W": total, "floor_W": floor, "ceiling_W": ceiling,
            "excess_W": numpy.maximum(total - ceiling, 0) + numpy.minimum(total - floor, 0), "minutes": numpy.full(len(total), self.minutes),
        }
        time, phase = (self._index.get_level_values(word).repeat(many) for word in ("time", "phase"))
        names = numpy.tile(numpy.array([group.name for group in self.groups], dtype=object), len(self))
        index = pd.MultiIndex.from_arrays([time, phase, names], names=["time", "phase", "group"])
        return pd.DataFrame(columns, index=index)

    def series(self) -> Any:
        """The power of each device over time, with an index of times that has its frequency: Int64 by device."""
        found = self.powers.droplevel("phase")
        found.index.freq = data_frames.pandas().Timedelta(minutes=self.minutes)
        return found

    # As a run.

    @cached_property
    def run(self) -> SimulatedRun:
        """The simulation as a run, for all that takes one: its first phase joins all devices, and each tick is a phase behind it.

        Its devices have their models' kinds. It has no cluster file, and no program is asked about it.
        """
        from .as_run import SimulatedRun

        return SimulatedRun(self)

    @property
    def bill(self) -> Bill:
        """The accounts, added up here: over each tick a device pays the price below its group for the power that it takes. See `Bill`."""
        return self.run.bill

    @property
    def accounts(self) -> Any:
        """The accounts as a data frame: see `Run.accounts`."""
        return self.run.accounts

    def tariff_bill(self, tariff: Tariff, households: Mapping[str, Sequence[str]]) -> Any:
        """What a supplier bills each household and month for its power. See `Tariff.bill`; `households` names the devices of each."""
        from ..tariffs import households as powers_of

        return tariff.bill(powers_of(self.series(), households))

    def figures(self, connection: str | None = None, *, currency: str | None = None, per_kwh: Rate | None = None) -> Figures:
        """What the simulation cost, whether limits were kept, and who flexed. See `Run.figures`.

        connection: a `Manual` device. `cost_plain` is None, since models have no plain rules, and `shifted_kWh` has batteries alone
        """
        return self.run.figures(connection, currency=currency, per_kwh=per_kwh)

    def plot(self, connection: str | None = None, *, currency: str | None = None, per_kwh: Rate | None = None) -> Figure:
        """A figure of the price, of what the devices take, and of what is left over. See `Run.plot`."""
        return self.run.plot(connection, currency=currency, per_kwh=per_kwh)

    def report(
        self,
        title: str = "simulation",
        *,
        connection: str | None = None,
        currency: str | None = None,
        per_kwh: Rate | None = None,
        span: int | None = None,
    ) -> str:
        """The page of the simulation, in HTML that needs no script and no network: see `cogmaula.report`. It needs matplotlib.

        connection, currency, per_kwh: as for `figures`
        span: the minutes of a span of the bill; if it is not given, an hour, or some hours or days if the simulation is long
        """
        from ..report.cluster_report import report_of_run

        return report_of_run(self.run, title, connection=connection, currency=currency_of(currency, per_kwh), span=span)

    # Files.

    def tables(self) -> dict[str, Any]:
        """Each data frame by its name."""
        return {name: getattr(self, name) for name in TABLES}

    def to_csv(self, folder: str | os.PathLike[str]) -> list[Path]:
        """Writes each data frame as a file NAME.csv of the folder, and returns their paths. Raises OSError."""
        place = Path(folder)
        place.mkdir(parents=True, exist_ok=True)
        paths = []
        for name, frame in self.tables().items():
            paths.append(place / f"{name}.csv")
            frame.to_csv(paths[-1])
        return paths

    def dataset(self, households: Mapping[str, Sequence[str]] | None = None) -> Any:
        """The simulation as a dataset of xarray, with units and coordinates: see `cogmaula.datasets`. Raises what `Run.dataset` raises."""
        return self.run.dataset(households)

    def to_netcdf(self, path: str | os.PathLike[str], households: Mapping[str, Sequence[str]] | None = None) -> Path:
        """Writes the `dataset` into a file of netCDF 4, and returns its path. Raises what `Run.to_netcdf` raises."""
        return self.run.to_netcdf(path, households)

    def cluster(self) -> Cluster:
        """The cluster file of what was bid: manual devices, and for each tick its new bids and so many minutes.

        A run of it has the prices and the powers of the simulation, so anyone can bill, trace and judge them. A script that is too
        long for one run is one for `chain`.

        Raises BidsNotKept, and ValueError if there are groups: a relay announces what its devices take, which is not what a limited
        concentrator of a cluster file announces.
        """
        if self.groups:
            raise ValueError("a simulation with groups has no cluster file of the same prices")
        if not self.noted.has_all_bids:
            raise BidsNotKept("the bids were not kept: give simulate keep_bids=True")
        phases: list[Phase] = []
        bids = self.noted.bids
        for before, now in zip([bids[0], *bids], bids):
            changed = [State(name, demand=demand_of(new)) for name, new, old in zip(self.names, now, before, strict=True) if new != old]
            phases += [Events(changed) if phases else Events(map(Join, self.names)), Tick(self.minutes)]
        return Cluster(self.basis, list(self._manual(bids[0])), phases, start=self.start)

    def at_the_end(self) -> Cluster:
        """A cluster of manual devices, without groups, which bid as the devices did at the last tick."""
        manual = Cluster(self.basis, list(self._manual(self.noted.last_bids)))
        return manual.with_phases(manual.join_all())

    def _manual(self, bids: Sequence[bytes]) -> Iterator[Manual]:
        return (Manual(name, demand=demand_of(bid)) for name, bid in zip(self.names, bids, strict=True))


def demand_of(data: bytes) -> tuple[int, ...]:
    """A bid as the demand at each step, in watts."""
    import numpy

    return tuple(numpy.frombuffer(data, WATTS).tolist())
