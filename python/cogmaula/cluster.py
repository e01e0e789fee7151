"""A cluster: its prices, its tree of nodes and its script, as a value that is read, built by code and written."""

from __future__ import annotations

import json
import os
from collections.abc import Iterable
from dataclasses import dataclass, field, replace
from datetime import datetime
from functools import cached_property
from pathlib import Path
from typing import Any

from .members import look
from .nodes import AUCTIONEER, Node
from .phases import Events, Join, Phase, Tick
from .program import Program, chosen


@dataclass(frozen=True)
class Basis:
    """The prices of a market: `steps` whole prices at equal distances from `min` to `max`, in price units."""

    min: int
    max: int
    steps: int

    def __post_init__(self) -> None:
        """Keeps each member as a whole number. Raises TypeError."""
        look(self)

    def price(self, step: int) -> int:
        """The price of a step, which counts from 0."""
        return self.min + step * (self.max - self.min) // (self.steps - 1)

    @property
    def prices(self) -> list[int]:
        """The price of each step."""
        return [self.price(step) for step in range(self.steps)]


@dataclass(frozen=True, init=False)
class Cluster:
    """A tree of devices and concentrators under one auctioneer, and what happens to it, phase by phase.

    A cluster looks at none of its numbers, names and places. The program does: `check` asks it.

    start: the moment before the first phase, if it is known, as that of a data frame: a run begins there unless it is told otherwise. The
           cluster file has none, so it is lost there, and two clusters that differ in it alone are equal
    """

    basis: Basis
    nodes: tuple[Node, ...]
    phases: tuple[Phase, ...]
    version: int
    start: datetime | None = field(compare=False)

    def __init__(
        self,
        basis: Basis,
        nodes: Iterable[Node] = (),
        phases: Iterable[Phase] = (),
        version: int = 2,
        start: datetime | None = None,
    ) -> None:
        """Takes nodes and phases in the order of the file. Only version 2 knows limited concentrators."""
        object.__setattr__(self, "start", start)
        object.__setattr__(self, "basis", basis)
        object.__setattr__(self, "nodes", tuple(nodes))
        object.__setattr__(self, "phases", tuple(phases))
        object.__setattr__(self, "version", version)

    # Reading and writing.

    @staticmethod
    def load(path: str | os.PathLike[str]) -> Cluster:
        """The cluster of a file. Raises Unreadable if the text has another shape, and OSError."""
        return Cluster.from_json(Path(path).read_bytes())

    @staticmethod
    def from_json(text: str | bytes) -> Cluster:
        """The cluster of a text. Raises Unreadable if it has another shape: the program refuses each such text."""
        from .cluster_reader import cluster_of

        return cluster_of(text)

    @staticmethod
    def from_frames(
        basis: Basis, load: Any = None, solar: Any = None, *, nodes: Iterable[Node] = (), parent: str = AUCTIONEER
    ) -> Cluster:
        """The cluster of data frames of loads and solar panels in watts: `cluster_from_frames` of data/framed.py says more."""
        from .data.framed import cluster_from_frames

        return cluster_from_frames(basis, load, solar, nodes=nodes, parent=parent)

    def to_json(self) -> str:
        """The text of the cluster file, with a node or a phase in each line."""
        nodes = ",\n".join(json.dumps(node.members()) for node in self.nodes)
        phases = ",\n".join(phase.line for phase in self.phases)
        basis = {"min": self.basis.min, "max": self.basis.max, "steps": self.basis.steps}
        return (
            f'{{\n"version": {json.dumps(self.version)},\n"basis": {json.dumps(basis)},\n'
            f'"nodes": [\n{nodes}\n],\n"phases": [\n{phases}\n]\n}}\n'
        )

    def to_bytes(self) -> bytes:
        """The bytes of the cluster file."""
        return self.to_json().encode("utf-8", "surrogatepass")

    def save(self, path: str | os.PathLike[str]) -> None:
        """Writes the cluster file."""
        Path(path).write_bytes(self.to_bytes())

    # Building.

    def with_nodes(self, *nodes: Node) -> Cluster:
        """The cluster with these nodes behind its own."""
        return replace(self, nodes=(*self.nodes, *nodes))

    def with_phases(self, *phases: Phase) -> Cluster:
        """The cluster with these phases behind its own."""
        return replace(self, phases=(*self.phases, *phases))

    def with_script(self, phases: Iterable[Phase]) -> Cluster:
        """The cluster with these phases in place of its own."""
        return replace(self, phases=tuple(phases))

    def join_all(self) -> Events:
        """A phase in which all devices join, in the order of the file."""
        return Events(Join(device.name) for device in self.devices)

    # Looking.

    @property
    def devices(self) -> list[Node]:
        """The leaves of the tree, in the order of the file."""
        return [node for node in self.nodes if node.is_device]

    def node(self, name: str) -> Node:
        """The node with this name. Raises KeyError if there is none."""
        for node in self.nodes:
            if node.name == name:
                return node
        raise KeyError(name)

    @cached_property
    def minutes(self) -> int:
        """The minutes of all ticks. They are kept, since a page asks for them for each battery and each span."""
        return sum(phase.minutes for phase in self.phases if isinstance(phase, Tick))

    def groups(self) -> dict[str, str | None]:
        """For each node the limited concentrator that it is or stands below, or None."""
        found: dict[str, str | None] = {AUCTIONEER: None}
        for node in self.nodes:
            found[node.name] = node.name if node.kind == "limited" else found.get(node.above)
        del found[AUCTIONEER]
        return found

    def check(self, program: Program | None = None) -> None:
        """Asks the program whether it takes the cluster. Raises what a run would, above all Refused."""
        chosen(program).answer("run", self.to_bytes())


# What a call takes for a cluster: the cluster, the path of its file, or the bytes of the file.
Source = Cluster | str | os.PathLike[str] | bytes


def bytes_of(source: Source) -> bytes:
    """The bytes of the cluster file that a source names. Raises OSError."""
    if isinstance(source, Cluster):
        return source.to_bytes()
    return source if isinstance(source, bytes) else Path(source).read_bytes()
