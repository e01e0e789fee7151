"""Cluster files that differ from a right one in one member: it is left out, has a wrong type, stands at a limit or past it; or
a member is there that is not known. The limits are those of cluster.schema.json."""

import json

from checks import facts
from checks.kinds import kinds

LARGE, STEPS = facts.DEMAND_LIMIT, (facts.LEAST_STEPS, facts.MOST_STEPS)

# A right value of a member, by its name or with its kind before it; else it is 1.
RIGHT = {"low": -5, "high": 5, "floor": -1, "capacity": 10, "power": 10, "battery start": 5}
# The values at its limits, of a member that another one limits.
WITHIN = {"low": slice(0, 1), "high": slice(1, 2)}


def table_of(kind, limits):
    """For each member of a kind a value that is right, values at its limits, and values past them."""
    table = {}
    for name, (least, most) in limits.items():
        right = RIGHT.get(f"{kind} {name}", RIGHT.get(name, 1))
        within = [least, most][WITHIN.get(name, slice(None))]
        table[name] = right, within, [least - 1, most + 1]
    if kind == "battery":
        # Its charge is within its capacity.
        charge, capacity = table["start"], table["capacity"]
        table["start"] = charge[0], [charge[1][0], capacity[0]], charge[2]
        table["capacity"] = capacity[0], [charge[0], capacity[1][1]], capacity[2]
    return table


KINDS = {kind: table_of(kind, limits) for kind, limits in kinds().items() if kind != "manual"}
BIDS = [{"demand": [1, 0]}, {"points": [[0, 1], [9, 0]]}]
BASIS = {
    "min": (0, [-LARGE], [-LARGE - 1, LARGE + 1]),
    "max": (9, [LARGE], [-LARGE - 1, LARGE + 1]),
    "steps": (2, [10], [STEPS[0] - 1, STEPS[1] + 1]),
}
# Values of a wrong type, by the right one. Events have places of their own, and so are no wrong part of their phase.
LISTS = [["a", "a"], [[], []], [1.5, 0], [[0, 1.5]], [[1.5, 0]]]
WRONG = {int: ["1", 1.5, True, None, [1]], str: [1, None, ["a"]], list: [{}, "a", None, *LISTS]}
WRONG_EVENTS = [{}, "a", None]


def shape_edits(members):
    """The object without each of its members, with one more, and with each of a wrong type, and the code that is due."""
    yield "a further member", {**members, "note": 1}, 4
    for name, value in members.items():
        yield f"no {name}", {member: members[member] for member in members if member != name}, 3
        for wrong in WRONG_EVENTS if name == "events" else WRONG[type(value)]:
            yield f"{name} {json.dumps(wrong)}", {**members, name: wrong}, 2


def number_edits(limits, members, code):
    """The object with each of its numbers at its limits, which is right, and past them, with the code that is due."""
    for name, (_, within, beyond) in limits.items():
        for value in within:
            yield f"{name} {value}", {**members, name: value}, None
        for value in beyond:
            yield f"{name} {value}", {**members, name: value}, 19 if name == "start" else code


def node_of(kind, more):
    parent = {} if kind == "objective" else {"parent": "auctioneer"}
    return {"name": "node1", "kind": kind, **parent, **more}


def with_node(node):
    return {"version": 2, "basis": {"min": 0, "max": 9, "steps": 2}, "nodes": [node], "phases": []}


def with_event(event):
    phases = [{"events": [{"join": "node1"}, event]}]
    return {**with_node(node_of("load", {"start": 10})), "phases": phases}


def edits_of(name, edits, document, place):
    """The name of each edit, the document that it gives, and the line of its refusal, or None."""
    for edit, members, code in edits:
        yield f"{name}: {edit}", document(members), None if code is None else f"refused {code} {place}"


def documents():
    """The name of each edit, the document, and the line of its refusal, or None if it is right."""
    right = with_node(node_of("load", {"start": 10}))
    for name in right:
        yield f"document: no {name}", {member: right[member] for member in right if member != name}, "refused 3 document"
        for wrong in ("1", 1.5, None):
            yield f"document: {name} {json.dumps(wrong)}", {**right, name: wrong}, "refused 2 document"
    for version in (0, 3):
        yield f"document: version {version}", {**right, "version": version}, "refused 5 document"

    basis = {name: value for name, (value, _, _) in BASIS.items()}
    edits = [*shape_edits(basis), *number_edits(BASIS, basis, 6)]
    yield from edits_of("basis", edits, lambda basis: {**right, "basis": basis}, "basis")

    for kind, limits in KINDS.items():
        node = node_of(kind, {name: value for name, (value, _, _) in limits.items()})
        edits = [*shape_edits(node), *number_edits(limits, node, 13)]
        yield from edits_of(kind, edits, with_node, "node 1")
    for bid in BIDS:
        yield from edits_of("manual", shape_edits(node_of("manual", bid)), with_node, "node 1")
    for past in (LARGE + 1, -LARGE - 1):
        for bid, code in (({"demand": [past, past]}, 17), ({"points": [[0, past]]}, 18), ({"points": [[past, 0]]}, 18)):
            yield f"manual: {bid}", with_node(node_of("manual", bid)), f"refused {code} node 1 item 0"
        yield f"event: value {past}", with_event({"state": "node1", "value": past}), "refused 19 event 1 2"

    for event in ({"join": "node1"}, {"leave": "node1"}, *({"state": "node1", **bid} for bid in ({"value": 1}, *BIDS))):
        yield from edits_of("event", shape_edits(event), with_event, "event 1 2")
    for phase in ({"tick": 1}, {"events": []}):
        yield from edits_of("phase", shape_edits(phase), lambda phase: {**right, "phases": [phase]}, "phase 1")


def files():
    """The name of each edit, its file, and the text of `run`."""
    for name, document, line in documents():
        yield name, json.dumps(document).encode(), f"{line or 'end phases 0 changes 0'}\n"
