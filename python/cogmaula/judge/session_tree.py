"""The tree of a session, by the first starts of its nodes: who is whose child, and what of the market was not recorded."""

from __future__ import annotations

from dataclasses import dataclass, field

from ..program_limits import MOST_DEPTH
from .reading import Recorded, Start


@dataclass
class Market:
    """The recordings of one session.

    nodes:    of each node its recording, each parent before its children
    children: the node of each parent and child number
    missing:  in words, what was not recorded
    """

    session: str
    nodes: dict[str, Recorded] = field(default_factory=dict)
    children: dict[tuple[str, int], str] = field(default_factory=dict)
    missing: list[str] = field(default_factory=list)

    def misses(self, what: str) -> None:
        """Notes that something was not recorded, once."""
        if what not in self.missing:
            self.missing.append(what)

    def relays_below(self, node: str) -> frozenset[int]:
        """The numbers of a node's children that are relays."""
        below = {child: self.nodes[name].first for (parent, child), name in self.children.items() if parent == node}
        return frozenset(child for child, start in below.items() if start is not None and start.sort == "relay")

    def is_known(self, node: str) -> bool:
        """Whether all that a node sent is in its recording."""
        return node in self.nodes and not self.nodes[node].lacking


def markets_of(recordings: list[Recorded]) -> list[Market]:
    """The markets of all sessions, in the order of their begins. Raises Faulty if the recordings are of no such markets."""
    _require_rising(recordings)
    sessions: dict[str, list[tuple[Recorded, Start]]] = {}
    unstarted = []
    for one in recordings:
        if one.first is None:
            unstarted.append(one)
        else:
            sessions.setdefault(one.session, []).append((one, one.first))
    ordered = sorted(sessions.values(), key=lambda them: them[0][1].session.order)
    markets = [_market_of(them, {life.node for life in unstarted}) for them in ordered]
    for market in markets:
        for one in unstarted:
            if one.session == market.session:
                market.misses(f"{one.node}: {one.lacking}")
    return markets


def _require_rising(recordings: list[Recorded]) -> None:
    """Raises Faulty if a node comes back to a session that it has left."""
    by_node: dict[str, list[Recorded]] = {}
    for one in recordings:
        if one.first is not None:
            by_node.setdefault(one.node, []).append(one)
    for them in by_node.values():
        them.sort(key=lambda life: life.files[0][0])
        for before, after in zip(them, them[1:], strict=False):
            assert before.first is not None
            assert after.first is not None
            assert after.begin is not None
            if before.files[-1][0] > after.files[0][0] or before.first.session.order > after.first.session.order:
                why = f"it goes back from session {before.session}, or to it: a node is in one after the other"
                raise after.fault(after.begin, why)


def _market_of(them: list[tuple[Recorded, Start]], unstarted: set[str]) -> Market:
    """The market of one session. What nodes without a start lack is told elsewhere."""
    them = sorted(them, key=lambda pair: (pair[1].sort != "auctioneer", pair[0].node))
    market = Market(them[0][0].session)
    first = them[0][1]
    parents = {one.node: start for one, start in them}
    for one, start in them:
        assert one.begin is not None
        wrong = _wrong_beside(start, first, market, parents)
        if wrong:
            raise one.fault(one.begin, wrong)
        if start.parent is not None and start.child is not None:
            market.children[start.parent, start.child] = one.node
            if start.parent not in parents and start.parent not in unstarted:
                market.misses(f"{start.parent}, the parent of {one.node}, has no recording")
        if one.lacking:
            market.misses(f"{one.node}: {one.lacking}")
    if first.sort != "auctioneer":
        market.misses("no auctioneer has a recording")
    market.nodes = {one.node: one for one, _ in sorted(them, key=lambda pair: (_depth(pair[0], parents), pair[0].node))}
    return market


def _wrong_beside(start: Start, first: Start, market: Market, parents: dict[str, Start]) -> str:
    """What is wrong with a node's start beside those of the others, in words, "" if nothing is."""
    if start is not first and start.sort == "auctioneer":
        return f"it is an auctioneer, and {first.node} is one too: a market has one"
    if start.basis != first.basis:
        return f"its basis is {start.basis}, and that of {first.node} is {first.basis}: a market has one"
    if start.session != first.session:
        return f"its session began at {start.session.begun}, and that of {first.node} at {first.session.begun}"
    if start.parent is None or start.child is None:
        return ""
    other = market.children.get((start.parent, start.child))
    if other is not None:
        return f"it is child {start.child} of {start.parent}, and {other} is it too: a number is of one child in a session"
    above = parents.get(start.parent)
    if above is not None and above.sort == "device":
        return f"its parent is {start.parent}, which is a device"
    if above is not None and above.giver == start.child:
        return f"it is child {start.child} of {start.parent}, and that place is of the limits of {start.parent}"
    return ""


def _depth(one: Recorded, parents: dict[str, Start]) -> int:
    """How many nodes are above a node. Raises Faulty if it is above itself, or below more relays than a path may have."""
    depth, start = 0, one.first
    while start is not None and start.parent is not None:
        depth += 1
        if depth > len(parents):
            assert one.begin is not None
            raise one.fault(one.begin, "it is above itself by the parents of the nodes")
        start = parents.get(start.parent)
    relays = depth - (one.first is not None and one.first.sort == "device")
    if relays > MOST_DEPTH:
        assert one.begin is not None
        raise one.fault(one.begin, f"{relays} relays are on its path, and the law of the network is of at most {MOST_DEPTH}")
    return depth
