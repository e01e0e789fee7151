"""Clusters at the limits of the market."""

import json

from checks.facts import DEMAND_LIMIT as MOST
from checks.facts import MINUTES_LIMIT as MINUTES
from checks.facts import MOST_CHANGES as CHANGES
from checks.facts import MOST_DEPTH as DEPTH
from checks.facts import MOST_EVENTS as EVENTS
from checks.facts import MOST_NODES as NODES
from checks.facts import MOST_PHASES as PHASES
from checks.facts import MOST_STEPS as STEPS
from checks.facts import SUM_LIMIT as SUM


def chain():
    """Concentrators as deep as they may stand."""
    parents = ["auctioneer", *(f"c{number}" for number in range(1, DEPTH))]
    return [{"name": f"c{at}", "kind": "concentrator", "parent": parent} for at, parent in enumerate(parents, 1)]


def document(basis, nodes, phases):
    names = ("min", "max", "steps")
    file = {"version": 2, "basis": dict(zip(names, basis)), "nodes": nodes, "phases": phases}
    return json.dumps(file, separators=(",", ":")).encode()


def joins(names):
    return {"events": [{"join": name} for name in names]}


def widest():
    """As many nodes as there may be, at the greatest depth, with the most prices."""
    nodes = chain()
    for number in range(1, NODES - DEPTH + 1):
        kind = {"kind": "load", "start": number} if number % 2 else {"kind": "manual", "points": [[0, number], [STEPS - 1, -3 * number]]}
        nodes.append({"name": f"d{number}", "parent": f"c{DEPTH}"} | kind)
    names = [node["name"] for node in nodes[DEPTH:]]
    return document((0, STEPS - 1, STEPS), nodes, [joins(names), {"tick": MINUTES}, {"events": [{"leave": name} for name in names[::2]]}])


def most_events(phases, events):
    """Two devices at the greatest depth that join and leave in turn, as often as a phase and a run may have it."""
    nodes = [*chain(), *({"name": name, "kind": "load", "parent": f"c{DEPTH}", "start": 7} for name in ("a", "b"))]
    turns = [{"join": "a"}, {"join": "b"}, {"leave": "a"}, {"leave": "b"}]
    return document((0, 9, 10), nodes, [{"events": [turns[number % 4] for number in range(events)]}] * phases)


def most_ticks():
    """As many phases as there may be, all but the first the longest ticks, and of devices that tick nearly as many changes."""
    nodes = [*chain(), *({"name": f"b{number}", "kind": "battery", "parent": f"c{1 + number % DEPTH}", "capacity": MOST, "charge": MOST,
                          "discharge": MOST, "spread": number, "start": number * 50_000_000} for number in range(20))]
    return document((0, 99, 100), nodes, [joins(node["name"] for node in nodes[DEPTH:]), *([{"tick": MINUTES}] * (PHASES - 1))])


def greatest_sums(kind, basis):
    """As many devices as there may be, each with the greatest power, over the greatest prices and the longest time."""
    nodes = [{"name": f"d{number}", "kind": kind, "parent": "auctioneer", "start": MOST} for number in range(NODES)]
    return document(basis, nodes, [joins(node["name"] for node in nodes), *([{"tick": MINUTES}] * (PHASES - 1))])


def greatest_limits():
    """Limited concentrators whose limits are those of a sum, and which they do not touch."""
    nodes = [{"name": "c1", "kind": "limited", "parent": "auctioneer", "floor": -SUM, "ceiling": SUM}]
    nodes += [{"name": f"d{number}", "kind": "manual", "parent": "c1", "demand": [MOST, -MOST]} for number in range(NODES - 1)]
    return document((-MOST, MOST, 2), nodes, [joins(node["name"] for node in nodes[1:])])


def files(everything):
    """Files with the commands that are tried on them."""
    all_commands = ("run", "trace", "bill", "ask", "free")
    yield f"{NODES} nodes below {DEPTH} concentrators", widest(), all_commands
    yield f"{EVENTS:,} events below {DEPTH} concentrators", most_events(1, EVENTS), all_commands
    yield "1,000 phases of ticks", most_ticks(), all_commands if everything else ("run", "bill")
    yield "the greatest sum", greatest_sums("load", (MOST - 1, MOST, 2)), ("run", "bill", "ask")
    yield "the least sum", greatest_sums("solar", (-MOST, -MOST + 1, 2)), ("run", "bill", "ask")
    yield "the widest limits", greatest_limits(), all_commands
    if everything:
        yield f"{CHANGES:,} changes below {DEPTH} concentrators", most_events(5, CHANGES // 5), all_commands
