"""The connection of a site to its supplier: the manual device that buys and sells, and what it asks for each exchange.

Without the market a site pays what its connection asks for what it takes from it, or gives. This is the price at which a market of the
connection alone clears if it has to give that power. The program tells it by `ask`, once for each bid that the connection has.
"""

from __future__ import annotations

from collections.abc import Iterable, Sequence
from dataclasses import replace
from typing import Any

import numpy

from ..calls import ask
from ..cluster import Cluster
from ..program_limits import MOST_TARGET
from ..nodes import AUCTIONEER, Manual
from ..phases import Events, State, Tick
from ..program import Program
from ..states import Bid
from .figure_values import NoConnection

# So many targets are asked for in one call: fewer than the most that the program takes.
AT_ONCE = 50_000


def connection_in(cluster: Cluster, name: str) -> Manual:
    """The connection of this name. Raises NoConnection."""
    manual = [device for device in cluster.devices if isinstance(device, Manual)]
    for device in manual:
        if device.name == name:
            return device
    known = ", ".join(device.name for device in manual) or "none"
    raise NoConnection(f"the connection {name}: the cluster has no manual device of this name (its manual devices: {known})")


def bids_over(cluster: Cluster, node: Manual) -> list[Bid]:
    """The bid that the connection has over each tick."""
    now, found = Bid(node.demand, node.points), list[Bid]()
    for phase in cluster.phases:
        if isinstance(phase, Tick):
            found.append(now)
        elif isinstance(phase, Events):
            for event in phase.events:
                if isinstance(event, State) and event.device == node.name:
                    now = Bid(event.demand, event.points)
    return found


def prices_asked(cluster: Cluster, name: str, bids: Sequence[Bid], exchanges: Sequence[Any], program: Program) -> list[Any]:
    """What the connection asks for each exchange: for each series of exchanges a series of prices.

    bids:      the bid of the connection over each tick
    exchanges: arrays of watts for each tick; above 0 the site takes from the connection, below 0 it gives

    Raises NoConnection, and what `Program.answer` raises.
    """
    node = connection_in(cluster, name)
    places: dict[Bid, list[int]] = {}
    for at, bid in enumerate(bids):
        places.setdefault(bid, []).append(at)
    prices = [numpy.zeros(len(exchange), dtype=numpy.int64) for exchange in exchanges]
    for bid, rows in places.items():
        values = numpy.unique(numpy.concatenate([exchange[rows] for exchange in exchanges]))
        asked = prices_of(cluster, node, bid, values.tolist(), program)
        for series, found in zip(exchanges, prices, strict=True):
            found[rows] = asked[numpy.searchsorted(values, series[rows])]
    return prices


def prices_of(cluster: Cluster, node: Manual, bid: Bid, exchanges: Iterable[int], program: Program) -> Any:
    """What the connection asks with this bid for each exchange, as an array."""
    alone = Cluster(cluster.basis, [replace(node, parent=AUCTIONEER, demand=bid.demand, points=bid.points)], version=cluster.version)
    file = alone.with_phases(alone.join_all()).to_bytes()
    # The connection has at most as much power as the largest target, so a greater exchange is answered as that one.
    targets = [-max(-MOST_TARGET, min(exchange, MOST_TARGET)) for exchange in exchanges]
    found = [
        answer.price for at in range(0, len(targets), AT_ONCE) for answer in ask(file, targets[at : at + AT_ONCE], program=program).answers
    ]
    return numpy.array(found, dtype=numpy.int64)
