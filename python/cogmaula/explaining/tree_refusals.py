"""Explains the refusals of a file's tree: codes 7 to 11 and 22."""

from __future__ import annotations

import re
from collections.abc import Iterator

from .. import schema
from ..program_limits import MOST_DEPTH, MOST_NAME_BYTES
from ..nodes import AUCTIONEER
from .findings import File, Finding, Node, close, listed, number

CONCENTRATORS = ("concentrator", "limited")
LETTERS = re.compile(r"[A-Za-z0-9_-]")


def _at_member(file: File, node: Node, name: str, fault: str, allowed: str, likely: str | None = None) -> Finding:
    """The finding of a member of a node."""
    value = node.value.members[name].value
    return Finding(value.at, f"nodes[{node.number - 1}].{name}", fault, allowed, file.shown(value), likely)


def name(file: File) -> Finding:
    """Code 7: a name has a wrong form."""
    node = file.node()
    allowed = f"1 to {MOST_NAME_BYTES} bytes: an ASCII letter, then letters, digits, _ and -; not {AUCTIONEER}"
    fault = f"node {node.number}: its name {_why_no_name(node.name)}"
    likely = re.sub(r"[^A-Za-z0-9_-]+", "_", node.name).strip("_")[:MOST_NAME_BYTES]
    if likely and not likely[0].isalpha():
        likely = f"{node.kind}_{likely}"[:MOST_NAME_BYTES]
    return _at_member(file, node, "name", fault, allowed, likely if likely not in ("", AUCTIONEER) else None)


def _why_no_name(text: str) -> str:
    """Why a text is no name."""
    if not text:
        return "is empty"
    if text == AUCTIONEER:
        return "is that of the auctioneer"
    if wrong := next((letter for letter in text if not LETTERS.match(letter)), None):
        return f"has {wrong!r}, which is no letter from A to Z, digit, _ or -"
    if not text[0].isalpha():
        return f"begins with {text[0]!r}, which is no letter"
    return f"has {len(text)} bytes"


def twice(file: File) -> Finding:
    """Code 8: two nodes have the same name."""
    node = file.node()
    first = next(other for other in file.nodes() if other.name == node.name)
    taken = {node.name for node in file.nodes()}
    free = next(name for name in (f"{node.name[: MOST_NAME_BYTES - 4]}_{at}" for at in range(2, 1000)) if name not in taken)
    fault = f"{node.words} has the name of node {first.number}"
    return _at_member(file, node, "name", fault, "a name that no other node has", free)


def parent(file: File) -> Finding:
    """Code 9: the parent is not known, is no concentrator, or comes later."""
    node = file.node()
    earlier = [above.name for above in file.nodes()[: node.number - 1] if above.kind in CONCENTRATORS]
    allowed = f"{AUCTIONEER}, or a concentrator that comes earlier in the file"
    other = next((above for above in file.nodes() if above.name == node.parent), None)
    likely = None
    if other is None:
        why, likely = "is no node of the file", close(node.parent, [AUCTIONEER, *earlier])
    elif other.number == node.number:
        why = "is the node itself"
    elif other.kind not in CONCENTRATORS:
        why = f"is a {other.kind.replace('_', ' ')}, node {other.number}, and no concentrator"
    else:
        why, likely = f"comes later, as node {other.number}", f"move {other.name} before {node.name}"
    return _at_member(file, node, "parent", f"{node.words}: its parent {node.parent} {why}", allowed, likely)


def _above(file: File, node: Node) -> Iterator[Node]:
    """The nodes above a node, the nearest first."""
    by_name = {earlier.name: earlier for earlier in file.nodes()[: node.number]}
    while (found := by_name.get(node.parent)) is not None:
        node = found
        yield node


def depth(file: File) -> Finding:
    """Code 10: more than 6 concentrators are on a path."""
    node = file.node()
    path = [node, *_above(file, node)]
    fault = f"{node.words} is one of {len(path)} concentrators on a path: {' below '.join(node.name for node in path)}"
    likely = f"{listed([node.name for node in path[len(path) - MOST_DEPTH + 1 :]], 'or')} for a parent"
    return _at_member(file, node, "parent", fault, f"at most {MOST_DEPTH} concentrators from a node to the auctioneer", likely)


def count(file: File) -> Finding:
    """Code 11: more nodes than a file may have."""
    most, nodes = schema.counts_of("document", "nodes"), file.items("nodes")
    fault = f"the file has {number(len(nodes))} nodes, and this is the first too many"
    return Finding(nodes[most].at, f"nodes[{most}]", fault, f"at most {number(most)} nodes", file.shown(nodes[most]), "two clusters")


def limited(file: File) -> Finding:
    """Code 22: a limited node is below a limited one."""
    node = file.node()
    other = next(above for above in _above(file, node) if above.kind == "limited")
    fault = f"{node.words} is limited, and so is {other.words} above it"
    likely = f'"concentrator" for one of {other.name} and {node.name}'
    return _at_member(file, node, "kind", fault, "no limited node below another", likely)
