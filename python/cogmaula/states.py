"""The state of each device at the end of each phase, by the report of the program and the rules of ticks.

The report has no states. docs/CLUSTER_FILE.md gives them: a tick of `n` minutes changes each member that is a freezer, heat
pump, cogeneration unit or battery, by the power that the report gives it at the end of the phase before. States are whole
numbers, and a tick ends with its phase, so a state at a phase's end is exact.
"""

from __future__ import annotations

from collections.abc import Iterable, Iterator, Mapping
from dataclasses import dataclass

from .cluster import Cluster
from .program_limits import MOST_TEMPERATURE
from .members import Demand, Points
from .nodes import Battery, Cogeneration, Freezer, HeatPump, Manual, Node
from .phases import Events, Join, Phase, State
from .texts import PhaseEnd


@dataclass(frozen=True)
class Bid:
    """The state of a manual device: its `demand` for each step in watts, or its `points`, the one that was given last."""

    demand: Demand | None = None
    points: Points | None = None


# A temperature, a charge in watt-hours, a power or a target in watts, or the bid of a manual device.
DeviceState = int | Bid


@dataclass(frozen=True)
class Snapshot:
    """All devices between two phases: the state of each, and which of them are members."""

    states: Mapping[str, DeviceState]
    members: frozenset[str]


def start_of(node: Node) -> DeviceState:
    """The state with which a device starts."""
    if isinstance(node, Manual):
        return Bid(node.demand, node.points)
    return int(getattr(node, "start"))


def first_snapshot(cluster: Cluster) -> Snapshot:
    """All devices before the first phase: nobody is a member."""
    return Snapshot({device.name: start_of(device) for device in cluster.devices}, frozenset())


def after_tick(node: Node, state: int, power: int, minutes: int) -> int:
    """The state of a member after a tick, by its power in watts at the end of the phase before. Rounds down, as the page does."""
    match node:
        case Battery():
            return min(max(state + power * minutes // 60, 0), node.capacity)
        case Freezer():
            state += node.warm - (node.cool if power > 0 else 0)
        case HeatPump():
            state += (node.gain if power > 0 else 0) - node.loss
        case Cogeneration():
            state += (node.gain if power < 0 else 0) - node.loss
        case _:
            return state
    return min(max(state, -MOST_TEMPERATURE), MOST_TEMPERATURE)


def _after_events(now: Snapshot, phase: Events) -> Snapshot:
    """All devices after these events, which the program took."""
    states, members = dict(now.states), set(now.members)
    for event in phase.events:
        if isinstance(event, State):
            states[event.device] = Bid(event.demand, event.points) if event.value is None else event.value
        elif isinstance(event, Join):
            members.add(event.device)
        else:
            members.discard(event.device)
    return Snapshot(states, frozenset(members))


def next_snapshot(ticking: Mapping[str, Node], now: Snapshot, phase: Phase, powers: Mapping[str, int]) -> Snapshot:
    """All devices after a phase.

    ticking: the devices of the four kinds that change at a tick
    powers:  the power of each member at the end of the phase before, in watts
    """
    if isinstance(phase, Events):
        return _after_events(now, phase)
    states = dict(now.states)
    for name, node in ticking.items():
        state = states[name]
        if name in now.members and isinstance(state, int):
            states[name] = after_tick(node, state, powers[name], phase.minutes)
    return Snapshot(states, now.members)


def snapshots(cluster: Cluster, ends: Iterable[PhaseEnd]) -> Iterator[Snapshot]:
    """All devices at the end of each phase of a run of the cluster."""
    ticking = {device.name: device for device in cluster.devices if device.ticks}
    now, powers = first_snapshot(cluster), dict[str, int]()
    for phase, end in zip(cluster.phases, ends, strict=True):
        now = next_snapshot(ticking, now, phase, powers)
        powers = end.powers
        yield now


def last_snapshot(cluster: Cluster, ends: Iterable[PhaseEnd]) -> Snapshot:
    """All devices at the end of a run of the cluster."""
    now = first_snapshot(cluster)
    for now in snapshots(cluster, ends):
        pass
    return now
