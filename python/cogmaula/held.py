"""What holds over the ticks of a run: powers, prices and members as arrays, and the accounts of any stretch of time.

Over a tick each member has the power and the price of the end of the phase before. So the accounts of a stretch of time are sums over
its ticks, by the rule of the program's bill. `report.bills` compares the sums of a run with that bill.
"""

from __future__ import annotations

from collections.abc import Sequence
from dataclasses import dataclass
from typing import Any

import numpy

from .cluster import Cluster
from .phases import Tick
from .texts import Account, Bill, PhaseEnd

# Sums up to here are exact in 64 bits, with room for a sign and a sum of two.
MOST_EXACT = 2**61


@dataclass(frozen=True)
class Held:
    """The intervals of a run, which are its ticks, one behind another. Arrays have a row for each of them.

    names:   the devices, in the order of the file; columns of `powers` and `members`
    minutes: how long each interval lasts
    ends:    when each ends, in minutes after the start of the run
    phases:  how many phases come before each tick
    powers:  the power of each device in watts, 0 if it is no member
    members: whether each device is a member
    prices:  the market's price, and that of each limited group, in the columns that `column` gives
    column:  the column of `prices` that each device pays by
    """

    names: tuple[str, ...]
    minutes: Any
    ends: Any
    phases: Any
    powers: Any
    members: Any
    prices: Any
    column: Any

    def exchange(self, connection: str | None = None) -> Any:
        """What all devices take together over each tick, in watts; without the connection, if one is named."""
        return self.powers[:, self.without(connection)].sum(axis=1)

    def without(self, connection: str | None) -> list[int]:
        """The columns of all devices but the connection."""
        return [at for at, name in enumerate(self.names) if name != connection]

    def bills(self, firsts: Sequence[int], connection: str | None = None) -> list[Bill]:
        """The bills of stretches of time: each from one of these intervals, which rise from 0, up to the next of them.

        connection: a device whose account is added to that of the grid: together they are the supplier. What both pass to each other
                    is then neither taken nor given
        """
        if not len(firsts):
            return []
        lasts, own = [*firsts[1:], len(self.minutes)], self.without(connection)
        most = int(numpy.abs(self.powers).max(initial=0)) * max(1, int(numpy.abs(self.prices).max(initial=0)))
        kind = numpy.int64 if most * int(self.minutes.sum()) * max(1, len(self.names)) < MOST_EXACT else object
        energies = self.powers[:, own].astype(kind) * self.minutes.astype(kind)[:, None]
        totals = energies.sum(axis=1)
        sums = [numpy.add.reduceat(amounts, firsts, axis=0) for amounts in (
            energies * self.prices[:, self.column[own]].astype(kind),
            numpy.maximum(energies, 0), numpy.maximum(-energies, 0), numpy.maximum(-totals, 0), numpy.maximum(totals, 0))]
        found, names = list[Bill](), [self.names[at] for at in own]
        for at, (first, last) in enumerate(zip(firsts, lasts, strict=True)):
            amounts, taken, given, *grid = (sum_[at] for sum_ in sums)
            devices = {name: Account(int(amounts[by]), int(taken[by]), int(given[by])) for by, name in enumerate(names)}
            paid = sum(account.amount for account in devices.values())
            found.append(Bill(devices, Account(-paid, *map(int, grid)), last - first, int(self.minutes[first:last].sum())))
        return found

    def column_of(self, name: str) -> int:
        """The column of a device. Raises KeyError."""
        try:
            return self.names.index(name)
        except ValueError:
            raise KeyError(name) from None


def held_of(cluster: Cluster, ends: Sequence[PhaseEnd]) -> Held:
    """What holds over the ticks of a run with these ends of phases."""
    phases = [at for at, phase in enumerate(cluster.phases) if isinstance(phase, Tick)]
    minutes = numpy.array([phase.minutes for phase in cluster.phases if isinstance(phase, Tick)], dtype=numpy.int64)
    names = tuple(device.name for device in cluster.devices)
    places = {name: at for at, name in enumerate(names)}
    groups = [node.name for node in cluster.nodes if node.kind == "limited"]
    inside = cluster.groups()
    powers = numpy.zeros((len(phases), len(names)), dtype=numpy.int64)
    members = numpy.zeros(powers.shape, dtype=bool)
    prices = numpy.zeros((len(phases), 1 + len(groups)), dtype=numpy.int64)
    for row, before in enumerate(phases):
        if before:
            end = ends[before - 1]
            columns = [places[name] for name in end.powers]
            powers[row, columns] = list(end.powers.values())
            members[row, columns] = True
            prices[row] = [end.price, *(group.price for group in end.groups)]
    column = numpy.array([1 + groups.index(group) if (group := inside[name]) is not None else 0 for name in names], dtype=numpy.int64)
    return Held(names, minutes, minutes.cumsum(), numpy.array(phases, dtype=numpy.int64), powers, members, prices, column)
