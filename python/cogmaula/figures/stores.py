"""What the batteries of a run hold over its ticks, by the rules of ticks; and where the energy in them comes from."""

from __future__ import annotations

from dataclasses import dataclass
from typing import Any

import numpy

from ..cluster import Cluster
from ..held import Held
from ..nodes import Battery
from ..phases import State, Tick

# Watts times minutes that are a watt-hour.
WATT_HOUR = 60
# What a battery takes and gives back within so many minutes is churn, and shifts nothing.
CHURN = 60


@dataclass(frozen=True)
class Stores:
    """The batteries of a run. Arrays have a row for each tick and a column for each battery.

    nodes:         the batteries, in the order of the file, and the columns that they have in `Held`
    before, after: their charges at the begin and the end of each tick, in watt-hours
    """

    nodes: tuple[Battery, ...]
    columns: tuple[int, ...]
    before: Any
    after: Any

    @staticmethod
    def of(cluster: Cluster, held: Held, powers: Any) -> Stores:
        """The batteries with these powers, shaped as `Held.powers`."""
        found = [(at, node) for at, node in enumerate(cluster.devices) if isinstance(node, Battery)]
        columns, nodes = tuple(at for at, _ in found), tuple(node for _, node in found)
        place = {node.name: at for at, node in enumerate(nodes)}
        own, members = powers[:, list(columns)], held.members[:, list(columns)]
        most = numpy.array([node.capacity for node in nodes], dtype=numpy.int64)
        before, after = numpy.zeros_like(own), numpy.zeros_like(own)
        charge, row = numpy.array([node.start for node in nodes], dtype=numpy.int64), 0
        for phase in cluster.phases if nodes else ():
            if isinstance(phase, Tick):
                before[row] = charge
                moved = numpy.clip(charge + own[row] * phase.minutes // WATT_HOUR, 0, most)
                after[row] = charge = numpy.where(members[row], moved, charge)
                row += 1
                continue
            for event in phase.events:
                if isinstance(event, State) and event.value is not None and event.device in place:
                    charge = charge.copy()
                    charge[place[event.device]] = event.value
        return Stores(nodes, columns, before, after)

    @property
    def left(self) -> int:
        """What all hold more at the end than at the begin, by what they took and gave, in watt-hours. What an event sets is in none of it."""
        return int((self.after - self.before).sum())


def flips_of(powers: Any) -> int:
    """How often a battery went from charging to discharging or back, from a tick to the next."""
    signs = numpy.sign(powers)
    return int((signs[1:] * signs[:-1] < 0).sum())


def churn_of(powers: Any, held: Held) -> int:
    """What a battery took and gave back within an hour of the run, in watts times minutes: it was at no other time than before."""
    if not len(powers):
        return 0
    begins = held.ends - held.minutes
    firsts = numpy.flatnonzero(numpy.diff(begins // CHURN, prepend=-1))
    energies = powers * held.minutes
    whole, net = numpy.abs(energies).sum(), numpy.abs(numpy.add.reduceat(energies, firsts)).sum()
    return int(whole - net) // 2
