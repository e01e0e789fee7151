"""The next day: the cluster that goes on where a run ended.

A run keeps nothing. The cluster that continues it has the same prices and the same tree. Each device starts with the state that it
had at the end, and the first phase joins those that were members. At its end all members have the states and so the bids of the end
before, and the market clears as it did there. So a tick that follows goes by the same powers.

Each state at a phase's end is a whole number within the limits of a start, or a bid. So each run can be continued exactly. What
begins anew is what is counted: phases, changes, and with them the numbers of bids.
"""

from __future__ import annotations

from collections.abc import Iterable
from dataclasses import replace

from .cluster import Cluster
from .errors import MarketError
from .nodes import Manual, Node
from .phases import Events, Join, Phase
from .runs import Run
from .states import Bid, DeviceState, Snapshot


class NoContinuation(MarketError):
    """A script cannot follow a run: it is of another cluster, or a phase of it is too large for a run of its own."""


def started(node: Node, state: DeviceState) -> Node:
    """The node with this state as its start."""
    if isinstance(state, Bid):
        assert isinstance(node, Manual), "only a manual device has a bid for a state"
        return replace(node, demand=state.demand, points=state.points)
    return replace(node, start=state)


def resumed(cluster: Cluster, now: Snapshot, phases: Iterable[Phase] = ()) -> Cluster:
    """The cluster from a moment on: its devices start with their states, and the first phase joins the members."""
    nodes = [started(node, now.states[node.name]) if node.is_device else node for node in cluster.nodes]
    joins = Events(Join(device.name) for device in cluster.devices if device.name in now.members)
    return Cluster(cluster.basis, nodes, [joins, *phases], cluster.version)


def continued(done: Run, phases: Iterable[Phase] = ()) -> Cluster:
    """The cluster of the next day after a run.

    phases: what happens on that day; it may begin with a tick

    The first phase of the cluster joins the members. Its end repeats the end of the run: the same price, powers and groups. Phase `k`
    of the day is phase `k + 1` of the cluster, so a day has at most 999 phases.
    """
    return resumed(done.cluster, done.snapshot, phases)


def script_for(cluster: Cluster, following: Cluster) -> tuple[Phase, ...]:
    """The phases of a file of the next day, which has the prices and the tree of the cluster. Its starts do not count.

    Raises NoContinuation if it is of another cluster.
    """
    if following.basis != cluster.basis:
        raise NoContinuation("the file of the next day has other prices")
    same = [_without_start(node) for node in cluster.nodes] == [_without_start(node) for node in following.nodes]
    if not same:
        raise NoContinuation("the file of the next day has other nodes: it needs those of the first, and may differ in their starts")
    return following.phases


def _without_start(node: Node) -> dict[str, object]:
    """The members of a node that stay as they are from day to day."""
    return {name: value for name, value in node.members().items() if name not in ("start", "demand", "points")}
