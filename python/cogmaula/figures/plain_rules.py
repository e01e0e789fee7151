"""What each device would do without a market, by a plain rule of its own.

This is a model beside the proved market, and nothing of it is proved. It is there to compare with.

| Device | Plain rule |
|---|---|
| load, solar | what it does in any case |
| battery | charges with what the other devices below its parent deliver too much, and delivers what they lack |
| freezer | runs from `high` down to `low` |
| heat_pump, cogeneration | runs from `low` up to `high` |
| objective | nothing: nobody asks |
| manual | has no rule, so it does what it did in the run |
"""

from __future__ import annotations

from dataclasses import dataclass
from typing import Any

import numpy

from ..cluster import Cluster
from ..held import Held
from ..nodes import AUCTIONEER, Battery, Freezer, Node
from ..phases import State, Tick
from ..states import after_tick

# The kinds that have no plain rule.
WITHOUT_RULE = ("manual",)
# The kinds that are switched on and off by a temperature.
SWITCHED = ("freezer", "heat_pump", "cogeneration")


@dataclass
class Switch:
    """A device that a temperature switches on and off, with a distance between both."""

    node: Any
    state: int
    is_on: bool = False

    def power(self) -> int:
        """What it takes now, in watts; below 0 it delivers."""
        low, high = self.state <= self.node.low, self.state >= self.node.high
        begins, ends = (high, low) if isinstance(self.node, Freezer) else (low, high)
        self.is_on = not ends if self.is_on else begins
        sign = -1 if self.node.kind == "cogeneration" else 1
        return sign * int(self.node.power) if self.is_on else 0


def battery_power(node: Battery, charge: int, others: int, minutes: int) -> int:
    """What a battery does by its plain rule, in watts, with this charge in watt-hours beside devices that take so many watts."""
    if others < 0:
        return min(-others, node.charge, (node.capacity - charge) * 60 // minutes)
    return -min(others, node.discharge, charge * 60 // minutes)


def plain_powers(cluster: Cluster, held: Held, connection: str | None) -> Any:
    """The power of each device over each tick by its plain rule, shaped as `Held.powers`; 0 for the connection."""
    powers = held.powers.copy()
    devices = cluster.devices
    for at, device in enumerate(devices):
        if device.name == connection or device.kind in ("objective", "battery", *SWITCHED):
            powers[:, at] = 0
    switches = {device.name: (at, Switch(device, start_of(device))) for at, device in enumerate(devices) if device.kind in SWITCHED}
    batteries = {battery.name: (at, battery) for at, battery in enumerate(devices) if isinstance(battery, Battery)}
    beside = {battery.name: beside_of(cluster, battery) for _, battery in batteries.values()}
    charges = {battery.name: battery.start for _, battery in batteries.values()}
    row = 0
    for phase in cluster.phases:
        if isinstance(phase, Tick):
            now, members = powers[row], held.members[row]
            for at, switch in switches.values():
                if members[at]:
                    now[at] = switch.power()
                    switch.state = after_tick(switch.node, switch.state, int(now[at]), phase.minutes)
            for at, node in batteries.values():
                if members[at]:
                    now[at] = battery_power(node, charges[node.name], int(now[beside[node.name]].sum()), phase.minutes)
                    charges[node.name] = after_tick(node, charges[node.name], int(now[at]), phase.minutes)
            row += 1
        else:
            for event in phase.events:
                if isinstance(event, State) and event.value is not None:
                    if event.device in charges:
                        charges[event.device] = event.value
                    elif event.device in switches:
                        switches[event.device][1].state = event.value
    return powers


def start_of(node: Node) -> int:
    """The state with which a device starts."""
    return int(getattr(node, "start"))


def beside_of(cluster: Cluster, node: Node) -> Any:
    """The columns of the devices below the parent of a node."""
    above = {node.name: node.above for node in cluster.nodes}

    def is_below(name: str) -> bool:
        while name != AUCTIONEER and name != node.above:
            name = above[name]
        return name == node.above

    return numpy.array([at for at, device in enumerate(cluster.devices) if is_below(device.name)], dtype=numpy.int64)
