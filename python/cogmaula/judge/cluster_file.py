"""The cluster file of a session that was recorded: its tree, with devices of which all offers are events of one phase.

docs/CLUSTER_FILE.md has the rules of such a file. A session that breaks one has no trace, and a line says which.
"""

from __future__ import annotations

import re

from ..cluster import Cluster
from ..program_limits import MOST_DEPTH, MOST_EVENTS, MOST_NAME_BYTES, MOST_NODES
from ..nodes import AUCTIONEER, Concentrator, Manual, Node
from ..phases import Events
from .following import Following
from .recording_faults import NoTrace

_NAME = re.compile(rf"[A-Za-z][A-Za-z0-9_-]{{0,{MOST_NAME_BYTES - 1}}}")


def cluster_of(following: Following) -> Cluster:
    """The cluster of a session. Raises NoTrace with the rule that the session breaks."""
    script, journal = following.script, following.journal
    _require(len(journal.parents) <= MOST_NODES, f"{len(journal.parents)} nodes are below the auctioneer", f"at most {MOST_NODES}")
    if following.bound is not None:
        relay, number = following.bound
        rule = "moves a sum into the limits, where a relay announces what is taken below it"
        raise NoTrace(f"no trace is written: bid {number} of {relay} is over a sum that its limits bind, and a cluster file {rule}")
    nodes: list[Node] = []
    # Of each relay how many relays are on its path, itself included.
    depths = {journal.root: 0}
    for name, parent in journal.parents.items():
        told = "auctioneer" if parent == journal.root else parent
        is_right = _NAME.fullmatch(name) is not None and name != AUCTIONEER
        _require(is_right, f"{name} is the name of a node", f"names of 1 to {MOST_NAME_BYTES} bytes, a letter first, and none is {AUCTIONEER}")
        if name in script.devices:
            start = script.devices[name].start
            nodes.append(Manual(name, parent=told, demand=(0,) * following.basis.steps if start is None else start))
            continue
        depths[name] = depths[parent] + 1
        _require(depths[name] <= MOST_DEPTH, f"{name} is a relay below {depths[parent]} others", f"at most {MOST_DEPTH} on a path")
        nodes.append(Concentrator(name, parent=told))
    _require(len(script.events) <= MOST_EVENTS, f"more than {MOST_EVENTS} changes of devices were made", f"at most {MOST_EVENTS} in a phase")
    return Cluster(following.basis, nodes, [Events(script.events)])


def _require(holds: bool, found: str, rule: str) -> None:
    if not holds:
        raise NoTrace(f"no trace is written: {found}, and a cluster file has {rule}")
