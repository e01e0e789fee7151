"""What a page shows of a market: the tree with prices, bids, powers and limits, made of the market's newest messages.

Each figure tells the clearing that it is of. What the messages do not tell is None. `GET /view` of a page has these members as JSON.
"""

from __future__ import annotations

from collections.abc import Mapping
from dataclasses import asdict, dataclass, replace
from typing import Any, Literal

from ...cluster import Basis
from ..broker.broker_link import Message
from ..messages.frames import Bid, Gone, Price, Sort
from .heard import Heard, NotTaken, Place, time_or_none
from ..messages.messages import SetpointMessage, StateMessage


@dataclass(frozen=True)
class BidView:
    """A node's newest bid.

    number:      its number, and `time` when it was sent, None if that was not told
    is_gone:     whether the node bids no more; then there is no demand
    least:       its least demand in watts, and `greatest` its greatest
    demand:      its demand in watts at the step of the node's newest price, None without a price
    is_answered: whether the node's newest price answers this bid; a newer bid waits for its price
    """

    number: int
    time: str | None
    is_gone: bool
    least: int | None
    greatest: int | None
    demand: int | None
    is_answered: bool


@dataclass(frozen=True)
class PriceView:
    """A price: the index of its clearing, the step, the price in price units, the bid that it answers, and when the market cleared."""

    clearing: int
    step: int
    price: int
    bid: int | None
    time: str | None


@dataclass(frozen=True)
class PowerView:
    """The power of a node, in watts.

    power:   positive if the node takes power; None if it is not known of all that is below
    by:      what tells it: the setpoint of a device, its fallback, the demand of an answered bid, or the sum of what is below
    first:   the oldest clearing that a part of the power is of, and `last` the newest; None without a part
    lacking: the number of nodes below whose power is not known
    """

    power: int | None
    by: Literal["setpoint", "fallback", "bid", "sum"]
    first: int | None
    last: int | None
    lacking: int = 0


@dataclass(frozen=True)
class NodeView:
    """A node of the market, or a child of which the number alone is known.

    depth:         how many nodes are above it here
    state:         up or down, and `why` in words; `since` is when that was told
    session:       the session that the node says it is in
    floor:         the least power that a relay announces now, in watts, and `ceiling` the greatest
    alarm:         what is wrong with its limits or its prices, in words
    silent:        since when it hears no heartbeat (RFC 3339), None if it does
    lapsed:        since when its parent has let it go, and `why_lapsed` in words
    price:         its newest price; of the auctioneer that of its newest clearing
    passed:        the newest price that it passed to the nodes below
    is_within:     whether the power is within the limits; None if one of them is not known
    notes:         what is wrong with it, in words
    """

    name: str | None
    sort: Sort | None = None
    parent: str | None = None
    child: int | None = None
    depth: int = 0
    state: Literal["up", "down"] | None = None
    why: str = ""
    since: str | None = None
    session: str | None = None
    floor: int | None = None
    ceiling: int | None = None
    alarm: str = ""
    silent: str | None = None
    lapsed: str | None = None
    why_lapsed: str = ""
    bid: BidView | None = None
    price: PriceView | None = None
    passed: PriceView | None = None
    setpoint: SetpointMessage | None = None
    power: PowerView | None = None
    is_within: bool | None = None
    notes: tuple[str, ...] = ()


@dataclass(frozen=True)
class MarketView:
    """A market.

    basis:     its prices, in price units, and `session` and `begun` its session; None before the auctioneer told them
    price:     the auctioneer's newest clearing; None if its prices are not seen
    clearing:  the greatest index of a clearing that is seen anywhere
    nodes:     each node, and behind it those below
    not_taken: the messages that are not shown
    """

    prefix: str
    basis: Basis | None
    session: str | None
    begun: str | None
    price: PriceView | None
    clearing: int | None
    nodes: tuple[NodeView, ...]
    not_taken: tuple[NotTaken, ...]

    def to_json(self) -> dict[str, Any]:
        """The view as JSON has it, with the names of these classes' members; a setpoint as its device is told it."""
        told = asdict(self)
        for node, shown in zip(self.nodes, told["nodes"], strict=True):
            shown["setpoint"] = None if node.setpoint is None else node.setpoint.to_object()
        return told


def view_of(prefix: str, messages: Mapping[str, Message], own: str | None = None) -> MarketView:
    """What the newest messages of a market tell, by their topics. An empty payload tells nothing.

    own: the node that these messages are for, None if they are all of the market; of another node not all that is below is seen
    """
    heard = Heard(prefix, messages, own)
    nodes = _with_powers(_in_order(_Nodes(heard).all()), own)
    clearings = [node.price for node in nodes if node.sort == "auctioneer" and node.price is not None]
    return MarketView(
        prefix=prefix,
        basis=None if heard.basis is None else heard.basis.basis,
        session=heard.session,
        begun=None if heard.basis is None else heard.basis.session.begun,
        price=max(clearings, key=lambda setpoint: setpoint.clearing) if clearings else None,
        clearing=max((price.index for price, _ in heard.prices.values()), default=None),
        nodes=tuple(nodes),
        not_taken=tuple(heard.not_taken),
    )


class _Nodes:
    """The nodes of a market, each with what is of it alone."""

    def __init__(self, heard: Heard) -> None:
        self._heard = heard
        self._owners = self._found_owners()
        self._passed: dict[str, tuple[Price, str | None]] = {}
        for (parent, _), told in heard.prices.items():
            if parent not in self._passed or told[0].index > self._passed[parent][0].index:
                self._passed[parent] = told

    def all(self) -> list[NodeView]:
        """All nodes: those with a name, and the children of which the number alone is known."""
        heard = self._heard
        places = sorted({*heard.bids, *heard.prices} - self._owners.keys())
        parents = {parent for parent, _ in (*heard.bids, *heard.prices)}
        parents |= {state.parent for state in heard.states.values() if state is not None and state.parent is not None}
        names = sorted({*heard.states, *heard.setpoints, *parents})
        return [self._named(name) for name in names] + [self._at_place(NodeView(None, None, *place), place) for place in places]

    def _found_owners(self) -> dict[Place, list[str]]:
        """The nodes that say that a place is theirs: those of this session, or else those whose last will knew none."""
        found: dict[Place, list[str]] = {}
        for session in ("", self._heard.session):
            claims: dict[Place, list[str]] = {}
            for name, state in self._heard.states.items():
                if state is not None and state.parent is not None and state.child is not None and state.session == session:
                    claims.setdefault((state.parent, state.child), []).append(name)
            found |= claims
        return found

    def _named(self, name: str) -> NodeView:
        state = self._heard.states.get(name)
        passed = self._price_view(self._passed.get(name))
        fallback = self._heard.silent.get(name)
        power = None if fallback is None else PowerView(fallback.power, "fallback", None, None)
        node = NodeView(name, setpoint=self._heard.setpoints.get(name), power=power, passed=None if passed is None else replace(passed, bid=None))
        if state is None:
            return node
        node = replace(
            node,
            sort=state.sort,
            parent=state.parent,
            child=state.child,
            state=state.state,
            why=state.why,
            since=time_or_none(state.time),
            session=state.session or None,
            floor=state.floor,
            ceiling=state.ceiling,
            alarm=state.alarm,
            silent=time_or_none(state.silent or ""),
        )
        if state.sort == "auctioneer":
            return replace(node, price=node.passed)
        place = None if state.parent is None or state.child is None else (state.parent, state.child)
        owners = [] if place is None else self._owners.get(place, [])
        if place is not None and owners == [name]:
            return self._at_place(node, place)
        return replace(node, notes=self._notes_of(state, [owner for owner in owners if owner != name]))

    def _notes_of(self, state: StateMessage, others: list[str]) -> tuple[str, ...]:
        """What is wrong with a node that has no place, or shares it with others."""
        if state.sort is None:
            return ("its version does not tell its place",)
        if state.session and self._heard.session is not None and state.session != self._heard.session:
            return (f"it is in session {state.session}, and not in that of the market",)
        more = f" and {len(others) - 1} more" if len(others) > 1 else ""
        return (f"its child number is also that of {others[0]}{more}",) if others else ()

    def _at_place(self, node: NodeView, place: Place) -> NodeView:
        """The node that has a place, with the bid and the price of it."""
        told, heard, lapse = self._heard.prices.get(place), self._heard.bids.get(place), self._heard.lapsed.get(place)
        if lapse is not None and (heard is None or heard[0].number < lapse.number):
            node = replace(node, lapsed=time_or_none(lapse.time), why_lapsed=lapse.why)
        price = None if told is None else told[0]
        return replace(node, bid=None if heard is None else _bid_view(*heard, price), price=self._price_view(told))

    def _price_view(self, told: tuple[Price, str | None] | None) -> PriceView | None:
        if told is None or self._heard.basis is None:
            return None
        price, time = told
        return PriceView(price.index, price.step, self._heard.basis.basis.price(price.step), price.number, time)


def _bid_view(bid: Bid | Gone, time: str | None, price: Price | None) -> BidView:
    """A bid beside the newest price for its child."""
    is_answered = price is not None and price.number == bid.number
    if isinstance(bid, Gone):
        return BidView(bid.number, time, True, None, None, None, is_answered)
    demand = None if price is None else bid.demands[price.step]
    return BidView(bid.number, time, False, bid.demands[-1], bid.demands[0], demand, is_answered)


def _in_order(nodes: list[NodeView]) -> list[NodeView]:
    """Each node, and behind it those below by their child numbers. Nodes in a ring come last, from the first name on."""
    below: dict[str | None, list[int]] = {}
    names = {node.name for node in nodes if node.name is not None}
    for at, shown in enumerate(nodes):
        below.setdefault(shown.parent if shown.parent in names else None, []).append(at)
    for them in below.values():
        them.sort(key=lambda at: (nodes[at].sort != "auctioneer", nodes[at].child or 0, nodes[at].name or ""))
    found: list[NodeView] = []
    placed: set[int] = set()
    for first in (*below.get(None, []), *range(len(nodes))):
        is_in_ring = nodes[first].parent in names
        waiting = [(first, 0)] if first not in placed else []
        while waiting:
            at, depth = waiting.pop()
            if at in placed:
                continue
            placed.add(at)
            node = nodes[at]
            notes = (*node.notes, "it is below itself") if is_in_ring and depth == 0 else node.notes
            found.append(replace(node, depth=depth, notes=notes))
            children = [] if node.name is None else below.get(node.name, [])
            waiting += [(child, depth + 1) for child in reversed(children)]
    return found


def _with_powers(nodes: list[NodeView], own: str | None) -> list[NodeView]:
    """The nodes, each with its power. Those below a node come behind it, and are one deeper."""
    found: list[NodeView] = []
    # Of each depth, the nodes that wait for the one above.
    waiting: dict[int, list[NodeView]] = {}
    for node in reversed(nodes):
        below = waiting.pop(node.depth + 1, [])
        is_seen_below = own is None or node.name == own
        power = _own_power(node) if not below else _sum_of(below) if is_seen_below else None
        node = replace(node, power=power, is_within=_is_within(node, power))
        waiting.setdefault(node.depth, []).append(node)
        found.append(node)
    return found[::-1]


def _own_power(node: NodeView) -> PowerView | None:
    """The power of a node below which none is seen: by its setpoint, or by its bid if that is answered. None if neither tells it."""
    bid, price, setpoint = node.bid, node.price, node.setpoint
    if node.power is not None:
        return node.power
    if node.lapsed is not None or (bid is not None and bid.is_gone):
        return None
    if setpoint is not None:
        # A newer price that answers the same bid by the same step is told with the next heartbeat: the power is that of its clearing too.
        is_same = price is not None and (price.bid, price.step) == (setpoint.bid, setpoint.step)
        clearing = max(setpoint.clearing, price.clearing) if price is not None and is_same else setpoint.clearing
        return PowerView(setpoint.power, "setpoint", clearing, clearing)
    if bid is not None and price is not None and bid.is_answered:
        return PowerView(bid.demand, "bid", price.clearing, price.clearing)
    return None


def _sum_of(nodes: list[NodeView]) -> PowerView | None:
    """The sum of the powers of these nodes. One that bids and whose power is not known makes the sum unknown.

    It is 0 if all that bid have left, and None if none has bid.
    """
    parts = [node.power for node in nodes if node.power is not None]
    lacking = sum(part.lacking for part in parts)
    lacking += sum(node.power is None and node.bid is not None and not node.bid.is_gone and node.lapsed is None for node in nodes)
    clearings = [index for part in parts for index in (part.first, part.last) if index is not None]
    if not parts and not lacking and not any(node.lapsed is not None or node.bid is not None for node in nodes):
        return None
    power = sum(part.power for part in parts if part.power is not None)
    return PowerView(None if lacking else power, "sum", min(clearings, default=None), max(clearings, default=None), lacking)


def _is_within(node: NodeView, power: PowerView | None) -> bool | None:
    """Whether a power of one clearing is within the node's limits. None if it is not known, or if the node has no limit."""
    if power is None or power.power is None or power.first != power.last or (node.floor is None and node.ceiling is None):
        return None
    return (node.floor is None or power.power >= node.floor) and (node.ceiling is None or power.power <= node.ceiling)
