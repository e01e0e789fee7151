"""The bids behind a picture, as the program's `ask` tells them: of the whole cluster, of a group, of a device."""

from __future__ import annotations

from collections.abc import Iterable
from dataclasses import replace

from ..cluster import Cluster
from ..continuing import started
from ..nodes import AUCTIONEER, Child, Node
from ..program import Program
from ..report.flexibility import demands_after
from ..states import DeviceState, Snapshot


def sum_of_bids(cluster: Cluster, now: Snapshot, names: Iterable[str], program: Program) -> list[int | None]:
    """What these members would take together at each step, in watts, with the states that they have now.

    A cluster of them alone is asked. An item is None if the program cannot be asked, below -1,000,000,000 W. Raises what
    `Program.answer` raises.
    """
    nodes = [alone(cluster.node(name), now.states[name]) for name in names]
    only = Cluster(cluster.basis, nodes, version=cluster.version)
    return demands_after(only.with_phases(only.join_all()), program)


def alone(node: Node, state: DeviceState) -> Node:
    """The device below the auctioneer, with this state at its start."""
    return started(replace(node, parent=AUCTIONEER) if isinstance(node, Child) else node, state)
