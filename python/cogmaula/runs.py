"""A run of a cluster: the report of the program as values, as data frames, and as files for other tools."""

from __future__ import annotations

import json
import os
from collections.abc import Callable, Iterator, Mapping, Sequence
from datetime import datetime
from functools import cached_property
from pathlib import Path
from typing import TYPE_CHECKING, Any

from . import data_frames
from .cluster import Cluster
from .errors import NoPackage
from .moments import later, zone_name
from .money import Rate, currency_of
from .nodes import Limited
from .phases import Tick
from .program import Program, found_program
from .states import Bid, Snapshot, last_snapshot
from .texts import Bill, PhaseEnd, Report, bill_of, report_of, report_text

if TYPE_CHECKING:
    from matplotlib.figure import Figure
    from pandas import DataFrame, MultiIndex

    from .figures import Figures
    from .figures.stores import Stores
    from .held import Held

# The data frames of a run that are written to files, a file each.
TABLES = ("prices", "powers", "bids", "states", "limited_groups", "violations", "accounts")


class Run:
    """A run of a cluster by the proved program.

    cluster: what was run
    ends:    the end of each phase
    changes: the number of changes of the run
    start:   the moment at which the first phase ends, if that is no tick

    All data frames are made when they are first asked for. They need pandas, and raise NoPackage without it.
    """

    # Whether the kinds of its devices have plain rules, by which figures compare.
    has_plain_rules = True

    def __init__(
        self,
        cluster: Cluster,
        text: bytes | Report,
        start: datetime | None = None,
        program: Program | None = None,
        *,
        bill: Callable[[], Bill] | None = None,
    ) -> None:
        """Takes the report of the cluster, as the program wrote it or as values, and what gives its bill if that is not the program.

        Raises ProgramFault if the text has another form.
        """
        report = text if isinstance(text, Report) else report_of(text)
        self.cluster = cluster
        self._text = None if isinstance(text, Report) else text
        self.ends: Sequence[PhaseEnd] = report.ends
        self.changes = report.changes
        self.start = start or cluster.start or data_frames.START
        self._program = program
        self._bill = bill

    @cached_property
    def text(self) -> bytes:
        """The report, as the program writes it."""
        return report_text(Report(tuple(self.ends), self.changes)) if self._text is None else self._text

    @property
    def program(self) -> Program:
        """The program that further questions about this run go to."""
        return self._program or found_program()

    # Times.

    @cached_property
    def times(self) -> list[datetime]:
        """The moment of each phase's end: the start and the minutes of all ticks up to it."""
        found, passed = [], 0
        for phase in self.cluster.phases:
            passed += phase.minutes if isinstance(phase, Tick) else 0
            found.append(later(self.start, passed))
        return found

    @cached_property
    def durations(self) -> list[int]:
        """For how many minutes the powers and prices at the end of each phase hold: those of the next phase if that is a tick, else 0.

        The bill goes by the same.
        """
        following = [phase.minutes if isinstance(phase, Tick) else 0 for phase in self.cluster.phases[1:]]
        return [*following, 0][: len(self.ends)]

    # Data frames.

    @cached_property
    def _index(self) -> MultiIndex:
        return data_frames.index_of(self.times, self.ends)

    @cached_property
    def prices(self) -> DataFrame:
        """A row for each phase, with the index (time, phase). All columns are int64.

        price:   the clearing price, in price units
        step:    its step, from 0
        total_W: the total that is left over, in watts: above 0 if power is lacking at every price, else what is delivered too much
        members: how many devices are members
        minutes: how long these hold: the minutes of the tick that follows, 0 if none does
        """
        return data_frames.prices(self._index, self.ends, self.durations)

    @cached_property
    def held(self) -> Held:
        """What holds over each tick, as arrays: powers, members and prices. It needs numpy, which comes with pandas."""
        data_frames.arrays()
        from .held import held_of

        return held_of(self.cluster, self.ends)

    def series(self) -> DataFrame:
        """The power of each device over time, as an index of times wants it: Int64 by device, <NA> if no member.

        Only what holds for some time has a row, which begins at its time and is as long as all others. So the index is unique and has its
        frequency, and means and sums over it are those of the bill: `run.series().resample("1h").mean()`. If ticks differ in length,
        a row is as long as their greatest common divisor.
        """
        held = self.held
        return data_frames.series(self.start, held.names, held.powers, held.members, held.minutes.tolist())

    @cached_property
    def powers(self) -> DataFrame:
        """The power of each device in watts, positive if it takes power: (time, phase) by device, Int64, <NA> if no member.

        Phases that last no time have rows too. Drop them before you add up or take means: `powers[prices["minutes"] > 0]`, or take
        `series`, which has none.
        """
        return data_frames.wide(self._index, [device.name for device in self.cluster.devices], [end.powers for end in self.ends])

    @cached_property
    def bids(self) -> DataFrame:
        """The number of each device's bid, which is that of its last change: shaped as `powers`."""
        return data_frames.wide(self._index, [device.name for device in self.cluster.devices], [end.bids for end in self.ends])

    @cached_property
    def states(self) -> DataFrame:
        """The state of each device but the manual ones: (time, phase) by device, Int64. Devices keep it while they are no members.

        Of a battery it is the charge in watt-hours, of a freezer, heat pump or cogeneration unit the temperature in the unit of
        the file, of a solar panel, a load and an objective the watts. By the report and the rules of ticks.
        """
        return data_frames.states(self._index, self.cluster, self.ends)

    @cached_property
    def limited_groups(self) -> DataFrame:
        """A row for each phase and limited concentrator, with the index (time, phase, group). All columns are int64.

        price, step:        what holds for the nodes below it
        total_W:            the sum of the bids below it there, in watts
        floor_W, ceiling_W: its limits
        excess_W:           0 within the limits, else how far the sum is above the ceiling, or below the floor (negative)
        minutes:            how long these hold: the minutes of the tick that follows, 0 if none does
        """
        return data_frames.limited_groups(self.times, self.cluster, self.ends, self.durations)

    @cached_property
    def violations(self) -> DataFrame:
        """The rows of `limited_groups` in which the sum is outside the limits: no price brings the group within them."""
        return self.limited_groups[self.limited_groups["excess_W"] != 0]

    @cached_property
    def stores(self) -> Stores:
        """What the batteries hold over the ticks, as arrays. It needs numpy."""
        data_frames.arrays()
        from .figures.stores import Stores

        return Stores.of(self.cluster, self.held, self.held.powers)

    @cached_property
    def group_loads(self) -> list[list[int]]:
        """For each limited group, in the order of the file, the sum of the bids below it at the end of each phase, in watts."""
        groups = [node for node in self.cluster.nodes if isinstance(node, Limited)]
        return [[end.groups[at].total for end in self.ends] for at in range(len(groups))]

    def bids_of_connection(self, name: str) -> list[Bid]:
        """The bid that a manual device has over each tick."""
        from .figures.supplier_tariffs import bids_over, connection_in

        return bids_over(self.cluster, connection_in(self.cluster, name))

    @cached_property
    def bill(self) -> Bill:
        """The accounts of the run, for which the program is asked when they are first wanted.

        `run.bill` is exact. `run.bill("EUR", 0.001)` is the same in kilowatt-hours and money, as a data frame.
        """
        return self._bill() if self._bill else bill_of(self.program.answer("bill", self.cluster.to_bytes()))

    @cached_property
    def accounts(self) -> DataFrame:
        """A row for each device and for the grid, with the index (party, name): amount, taken_Wmin, given_Wmin.

        `party` is device or grid, so that a device called grid is another row. `amount` is in price units times watts times
        minutes, in whole numbers of any size: 60,000 are a price unit times a kilowatt-hour.
        """
        return data_frames.accounts(self.bill)

    @cached_property
    def snapshot(self) -> Snapshot:
        """All devices at the end of the run: the state of each, and which are members."""
        return last_snapshot(self.cluster, self.ends)

    def figures(self, connection: str | None = None, *, currency: str | None = None, per_kwh: Rate | None = None) -> Figures:
        """What the run cost, with and without the market, whether limits were kept, and who flexed.

        connection: the manual device that is the connection to the supplier; without it nothing is compared with the market
        currency:   the unit of money, such as EUR; price units times kilowatt-hours if it is not given
        per_kwh:    what a kilowatt-hour costs at price 1 in that unit

        Raises ValueError if only one of the last two is given, NoConnection if the connection is none, and NoPackage without numpy.
        """
        data_frames.arrays()
        from .figures.run_figures import figures_of

        return figures_of(self, connection, currency_of(currency, per_kwh))

    def plot(self, connection: str | None = None, *, currency: str | None = None, per_kwh: Rate | None = None) -> Figure:
        """A figure of the price, of what the devices take, and of what is left over. It needs matplotlib.

        connection: as for `figures`; the figure then shows what is bought and sold, and the devices without it
        currency, per_kwh: as for `figures`; the price is then in money for a megawatt-hour

        Raises NoConnection, ValueError if only one of the last two is given, and NoPackage without matplotlib.
        """
        try:
            from .report.overview import draw_overview
        except ImportError:
            raise NoPackage("a plot needs matplotlib: on Debian, apt-get install python3-matplotlib") from None
        return draw_overview(self, connection, currency_of(currency, per_kwh))

    def __repr__(self) -> str:
        return (
            f"Run({len(self.cluster.devices)} devices, {len(self.ends)} phases, {self.cluster.minutes} minutes "
            f"from {self.start:%Y-%m-%d %H:%M})"
        )

    def _repr_html_(self) -> str:
        """The run as a table of a notebook: its first and last phases. It needs pandas."""
        from html import escape

        return f"<p>{escape(repr(self))}</p>" + str(self.prices.to_html(max_rows=10))

    # Files.

    def tables(self) -> dict[str, DataFrame]:
        """Each data frame by its name."""
        return {name: getattr(self, name) for name in TABLES}

    def to_csv(self, folder: str | os.PathLike[str]) -> list[Path]:
        """Writes each data frame as a file NAME.csv of the folder, and returns their paths. Raises OSError."""
        return self._write(folder, "csv", lambda frame, path: frame.to_csv(path))

    def to_parquet(self, folder: str | os.PathLike[str]) -> list[Path]:
        """Writes each data frame as a file NAME.parquet of the folder, and returns their paths. `amount` is text there.

        Raises NoPackage if pandas has no engine for Parquet, which Debian 12 does not package.
        """
        engine = _parquet_engine()
        return self._write(folder, "parquet", lambda frame, path: _plain(frame).to_parquet(path, engine=engine))

    def to_hdf5(self, path: str | os.PathLike[str]) -> Path:
        """Writes the data frames into a file of HDF5, each under its name, and returns its path. It needs PyTables.

        `amount` is text there. Columns with missing values are float64, with NaN for them. If the start has a zone, times are in UTC, and
        the attribute `time_zone` of each frame has its name.

        Raises NoPackage without PyTables, and OSError.
        """
        from importlib.util import find_spec

        pd = data_frames.pandas()
        if find_spec("tables") is None:
            raise NoPackage("HDF5 needs PyTables: on Debian, apt-get install python3-tables")
        with pd.HDFStore(os.fspath(path), mode="w") as store:
            for name, frame in self.tables().items():
                store.put(name, data_frames.in_utc(data_frames.simple(frame)))
                store.get_storer(name).attrs.time_zone = zone_name(self.start)
        return Path(path)

    def dataset(self, households: Mapping[str, Sequence[str]] | None = None) -> Any:
        """The run as a dataset of xarray, with units and coordinates, as `cogmaula.datasets` describes.

        households: the devices of each household, such as `read_supply(path).households`; a coordinate `household` is then beside `device`

        Raises ValueError if the cluster lacks a device of a household, or two households have it; NoPackage without xarray.
        """
        from .datasets import dataset_of

        return dataset_of(self, households)

    def to_netcdf(self, path: str | os.PathLike[str], households: Mapping[str, Sequence[str]] | None = None) -> Path:
        """Writes the `dataset` into a file of netCDF 4, and returns its path. It needs xarray and netCDF4.

        Raises what `dataset` raises, NoPackage without netCDF4, and OSError.
        """
        from .datasets import write_netcdf

        write_netcdf(self, path, households)
        return Path(path)

    def _write(self, folder: str | os.PathLike[str], ending: str, write: Callable[[DataFrame, Path], object]) -> list[Path]:
        place = Path(folder)
        place.mkdir(parents=True, exist_ok=True)
        paths = []
        for name, frame in self.tables().items():
            paths.append(place / f"{name}.{ending}")
            write(frame, paths[-1])
        return paths

    def write(self, place: str | os.PathLike[str], kind: str) -> None:
        """Writes the run as `csv` or `parquet` into a folder, or as `json-lines`, `hdf5` or `netcdf` into a file."""
        match kind:
            case "csv":
                self.to_csv(place)
            case "parquet":
                self.to_parquet(place)
            case "json-lines":
                self.to_json_lines(place)
            case "hdf5":
                self.to_hdf5(place)
            case "netcdf":
                self.to_netcdf(place)
            case _:
                raise ValueError(f"no format is called {kind}")

    def rows(self) -> Iterator[dict[str, Any]]:
        """An object for each phase: phase, time, minutes, price, step, total_W, members with power_W and bid, and limited."""
        for time, end, minutes in zip(self.times, self.ends, self.durations, strict=True):
            yield {
                "phase": end.phase,
                "time": time.isoformat(),
                "minutes": minutes,
                "price": end.price,
                "step": end.step,
                "total_W": end.total,
                "members": {name: {"power_W": power, "bid": end.bids[name]} for name, power in end.powers.items()},
                "limited": {group.name: {"price": group.price, "step": group.step, "total_W": group.total} for group in end.groups},
            }

    def to_json_lines(self, path: str | os.PathLike[str]) -> None:
        """Writes the object of each phase as a line of JSON. It needs no pandas. Raises OSError."""
        with open(path, "w", encoding="utf-8") as file:
            for row in self.rows():
                file.write(json.dumps(row) + "\n")


def _parquet_engine() -> str:
    """The engine with which pandas can write Parquet. Raises NoPackage."""
    from importlib.util import find_spec

    data_frames.pandas()
    for name in ("pyarrow", "fastparquet"):
        if find_spec(name) is not None:
            return name
    raise NoPackage("Parquet needs pyarrow or fastparquet beside pandas: install one of them, or write CSV")


def _plain(frame: DataFrame) -> DataFrame:
    """The frame with whole numbers of any size as text, which Parquet can hold."""
    large = [name for name, kind in frame.dtypes.items() if kind == object]
    return frame.astype(dict.fromkeys(large, "string"))
