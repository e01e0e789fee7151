"""Variants of a cluster for a study: each combination of some members of its nodes, under a name that says what was changed."""

from __future__ import annotations

import itertools
from collections.abc import Iterable
from dataclasses import fields, replace
from typing import Any

from .cluster import Cluster
from .nodes import Node


def vary(cluster: Cluster, /, **members: Iterable[Any]) -> dict[str, Cluster]:
    """The variants of a cluster, by their names: one for each combination of the values that are given.

    members: the values of a member. `capacity=[5000, 10000]` sets the capacity of each node that has one. A name of a node before it sets
             that of this node alone: `**{"store.capacity": [5000, 10000]}`

    A variant is called after its members: `capacity=5000 charge=2500`. Raises ValueError if no node has such a member.
    """
    for word in members:
        if not any(has(node, word) for node in cluster.nodes):
            raise ValueError(f"no node has a member {word}: the members are those of docs/CLUSTER_FILE.md, such as capacity or store.capacity")
    found = {}
    for values in itertools.product(*members.values()):
        chosen = dict(zip(members, values, strict=True))
        nodes = [changed(node, chosen) for node in cluster.nodes]
        found[" ".join(f"{word}={value}" for word, value in chosen.items())] = replace(cluster, nodes=tuple(nodes))
    return found


def has(node: Node, word: str) -> bool:
    """Whether a word names a member of the node."""
    name, _, member = word.rpartition(".")
    return name in ("", node.name) and member != "name" and member in {field.name for field in fields(node)}


def changed(node: Node, chosen: dict[str, Any]) -> Node:
    """The node with the chosen members that it has."""
    own = {word.rpartition(".")[2]: value for word, value in chosen.items() if has(node, word)}
    return replace(node, **own) if own else node
