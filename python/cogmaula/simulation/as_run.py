"""A simulation as a run, so that figures, pages, plots and datasets take it: its devices as nodes, and its arrays as what holds."""

from __future__ import annotations

import re
from collections.abc import Iterator, Sequence
from functools import cache, cached_property
from typing import TYPE_CHECKING, Any, ClassVar, overload

import numpy

from .. import nodes
from ..cluster import Cluster
from ..data_frames import index_of, pandas
from ..figures.stores import Stores
from ..held import Held
from ..nodes import Child, Limited, Node
from ..phases import Events, Join, Tick
from ..runs import Run
from ..states import Bid
from ..texts import Bill, PhaseEnd, Report
from .battery import Battery
from .device import Device
from .fleet import Fleet
from .given_devices import Load, Manual, Solar

if TYPE_CHECKING:
    from .outcome import Simulation


class Model(Child):
    """A device of a simulation that no cluster file knows. Its kind is the name of its class in words."""

    kind: ClassVar[str] = "model"


@cache
def model_of(kind: str) -> type[Model]:
    """The class of models of a kind."""
    words = re.sub(r"(?<=[a-z0-9])(?=[A-Z])", "_", kind).lower()
    return type(f"{kind}Model", (Model,), {"kind": words})


def nodes_of(devices: Sequence[Device | Fleet], above: dict[str, str]) -> Iterator[Node]:
    """The devices of a simulation as nodes, below the groups that they are in."""
    singles = [device for device in devices if not isinstance(device, Fleet)]
    for device in singles:
        yield node_of(device, above.get(device.name, nodes.AUCTIONEER))
    for fleet in devices:
        if isinstance(fleet, Fleet):
            yield from (model_of(type(fleet).__name__)(name, parent=above.get(name, nodes.AUCTIONEER)) for name in fleet.names)


def node_of(device: Device, parent: str) -> Node:
    """A device as a node."""
    match device:
        case Battery():
            numbers = {word: round(getattr(device, word)) for word in ("capacity", "charge", "discharge")}
            return nodes.Battery(device.name, parent=parent, spread=0, start=round(device.energy), **numbers)
        case Load():
            return nodes.Load(device.name, parent=parent, start=0)
        case Solar():
            return nodes.Solar(device.name, parent=parent, start=0)
        case Manual():
            return nodes.Manual(device.name, parent=parent, points=((0, 0),))
    return model_of(type(device).__name__)(device.name, parent=parent)


class AllEnds(Sequence[PhaseEnd]):
    """The ends of the phases of a simulation: of its joins that of the first tick, and of each tick that of the next; the last comes twice."""

    def __init__(self, ends: Sequence[PhaseEnd]) -> None:
        self._ends = ends

    def __len__(self) -> int:
        return len(self._ends) + 1

    @overload
    def __getitem__(self, at: int) -> PhaseEnd: ...

    @overload
    def __getitem__(self, at: slice) -> Sequence[PhaseEnd]: ...

    def __getitem__(self, at: int | slice) -> PhaseEnd | Sequence[PhaseEnd]:
        if isinstance(at, slice):
            return [self[number] for number in range(*at.indices(len(self)))]
        at = range(len(self))[at]
        end = self._ends[min(at, len(self._ends) - 1)]
        return PhaseEnd(at + 1, end.price, end.step, end.total, end.powers, end.bids, end.groups)


class SimulatedRun(Run):
    """A simulation as a run. Its cluster has the nodes and the ticks, and no events beside the joins."""

    has_plain_rules = False

    def __init__(self, simulation: Simulation) -> None:
        """Takes a simulation."""
        above = {name: group.name for group in simulation.groups for name in group.devices}
        limited = [Limited(group.name, floor=group.floor, ceiling=group.ceiling) for group in simulation.groups]
        ticks = [Tick(simulation.minutes)] * len(simulation)
        cluster = Cluster(simulation.basis, [*limited, *nodes_of(simulation.devices, above)], [Events(map(Join, simulation.names)), *ticks])
        super().__init__(cluster, Report((), 0), simulation.start)
        self.ends = AllEnds(simulation.ends)
        self.simulation: Simulation = simulation

    @cached_property
    def held(self) -> Held:
        """What holds over each tick."""
        done, minutes = self.simulation, self.simulation.minutes
        many, groups = len(done), [group.name for group in done.groups]
        inside, prices = self.cluster.groups(), numpy.array(done.basis.prices, dtype=numpy.int64)
        column = [1 + groups.index(group) if (group := inside[name]) is not None else 0 for name in done.names]
        steps = numpy.concatenate([done.noted.steps[:, None], done.noted.groups], axis=1)
        return Held(
            done.names, numpy.full(many, minutes, dtype=numpy.int64), numpy.arange(1, many + 1) * minutes, numpy.arange(1, many + 1),
            done.noted.powers.astype(numpy.int64), numpy.ones((many, len(done.names)), dtype=bool), prices[steps],
            numpy.array(column, dtype=numpy.int64),
        )

    @cached_property
    def group_loads(self) -> list[list[int]]:
        """For each group what its devices take at the end of each phase, in watts."""
        done, found = self.simulation, list[list[int]]()
        for group in done.groups:
            loads = done.noted.powers[:, [done.names.index(name) for name in group.devices]].sum(axis=1, dtype=numpy.int64).tolist()
            found.append([*loads, loads[-1]])
        return found

    @cached_property
    def bill(self) -> Bill:
        """The accounts, added up from what holds over each tick."""
        (whole,) = self.held.bills([0])
        return whole

    @cached_property
    def stores(self) -> Stores:
        """What the batteries hold, by their models, to the watt-hour."""
        noted = self.simulation.noted
        columns = tuple(at for at, node in enumerate(self.cluster.devices) if isinstance(node, nodes.Battery))
        found = tuple(node for node in self.cluster.devices if isinstance(node, nodes.Battery))
        before = noted.states[:, columns]
        after = numpy.concatenate([before[1:], [noted.last_states[list(columns)]]])
        return Stores(found, columns, numpy.round(before).astype(numpy.int64), numpy.round(after).astype(numpy.int64))

    @cached_property
    def states(self) -> Any:
        """The state of each device at the end of each phase, in the unit of its model: (time, phase) by device, float64."""
        noted = self.simulation.noted
        frame = pandas().DataFrame(
            numpy.concatenate([noted.states, [noted.last_states]]), index=index_of(self.times, self.ends), columns=list(self.simulation.names)
        )
        frame.columns.name = "device"
        return frame

    def bids_of_connection(self, name: str) -> list[Bid]:
        """The bid that a supplier had over each tick."""
        from .outcome import demand_of

        noted, made = self.simulation.noted, dict[bytes, Bid]()
        at = noted.kept.index(self.simulation.names.index(name))
        return [made.setdefault(row[at], Bid(demand_of(row[at]))) if row[at] not in made else made[row[at]] for row in noted.bids]
