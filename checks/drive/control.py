"""Compares the bids that `live device` sends of kinds, states and points with those that `market run` makes of the same devices.

The states are those of a day of examples/village.json. `run` tells no bids: a probe beside the devices makes the market clear at each
step in turn, and so their powers at each step are told.
"""

import json
from pathlib import Path

from checks.drive.built import ended
from checks.make.control_rows import kind, points, state
from checks.make.node_bytes import DEVICE, MOST, hello, price
from checks.make.node_streams import answers_in
from checks.oracle import frames
from checks.oracle.auction import TICKING, after_tick
from checks.oracle.node_frames import PARAMETERS

VILLAGE = Path(__file__).parents[2] / "examples/village.json"
QUARTERS, MINUTES = 96, 15
# How many devices one run has.
MOST_DEVICES = 200


class Ends(Exception):
    """A program did not end well."""


def output_of(program, arguments, data):
    status, written = ended(program, arguments, data)
    if status != frames.DONE:
        raise Ends(f"{' '.join(arguments)} ends with status {status}")
    return written


def powers_of(market, file):
    """The power of each member, by phase."""
    phases = []
    for line in output_of(market, ["run"], json.dumps(file).encode()).decode().splitlines():
        word, name, _, power, *_ = line.split()
        if word == "phase":
            phases.append({})
        elif word == "member":
            phases[-1][name] = int(power)
    return phases


def states_of_a_day(market, file):
    """Of each device with a kind the states that it has in a day, in which the sun and the loads change each hour."""
    nodes = {node["name"]: node for node in file["nodes"] if node["kind"] in PARAMETERS}
    states, phases = {name: [node["start"]] for name, node in nodes.items()}, [{"events": [{"join": name} for name in nodes]}]
    for quarter in range(QUARTERS):
        if quarter % 4 == 0:
            changed = {name: quarter * (QUARTERS - quarter) * (1 + at) for at, name in enumerate(nodes) if nodes[name]["kind"] not in TICKING}
            phases.append({"events": [{"state": name, "value": state} for name, state in changed.items()]})
            for name, state in changed.items():
                states[name].append(state)
        phases.append({"tick": MINUTES})
    told = powers_of(market, file | {"phases": phases})
    for before, phase in zip(told, phases[1:]):
        for name, node in nodes.items() if "tick" in phase else ():
            if node["kind"] in TICKING:
                states[name].append(after_tick(node, states[name][-1], before[name], MINUTES))
    return {name: sorted(set(values)) for name, values in states.items()}


def arrays_by_run(market, basis, devices):
    """The bid of each device, a node of a cluster file, as `run` makes it."""
    steps = range(basis["steps"])
    probes = [[MOST] * at + [-MOST] * (len(steps) - at) for at in steps]
    nodes = [device | {"name": f"d{at}", "parent": "auctioneer"} for at, device in enumerate(devices)]
    nodes.append({"name": "probe", "kind": "manual", "parent": "auctioneer", "demand": probes[0]})
    phases = [{"events": [{"join": node["name"]} for node in nodes]}]
    phases += [{"events": [{"state": "probe", "demand": demand}]} for demand in probes[1:]]
    told = powers_of(market, {"version": 1, "basis": basis, "nodes": nodes, "phases": phases})
    return [tuple(told[step][f"d{at}"] for step in steps) for at in range(len(devices))]


def arrays_by_live(live, basis, offers):
    """The demands that `live device` bids for the frames of a control, each of which it answers by an offer, with a price behind it."""
    fields = basis["min"], basis["max"], basis["steps"]
    data = hello(fields[2], *fields[:2])
    for number, offer in enumerate(offers, 1):
        data += offer + price(int(DEVICE[1]), 2 * number, number, 0, fields)
    bids = [answer for answer in answers_in(output_of(live, DEVICE, data), DEVICE, fields[2]) if answer[0] == frames.BID]
    return [tuple(int.from_bytes(bid[at : at + 4], "big", signed=True) for at in range(7, len(bid), 4)) for bid in bids]


def kind_frame(node):
    number = list(PARAMETERS).index(node["kind"])
    return kind(number, *(node[word] for word in PARAMETERS[node["kind"]]))


def point_lists(file):
    """The points of the file's devices, at first and by its events."""
    changed = [event for phase in file["phases"] for event in phase.get("events", [])]
    return [node["points"] for node in [*file["nodes"], *changed] if "points" in node]


def try_village(live, market):
    file = json.loads(VILLAGE.read_text())
    for name, states in states_of_a_day(market, file).items():
        node = next(node for node in file["nodes"] if node["name"] == name)
        due = []
        for at in range(0, len(states), MOST_DEVICES):
            due += arrays_by_run(market, file["basis"], [node | {"start": state} for state in states[at : at + MOST_DEVICES]])
        found = arrays_by_live(live, file["basis"], [kind_frame(node) + state(states[0]), *(state(other) for other in states[1:])])
        wrong = [state for state, a, b in zip(states, due, found, strict=True) if a != b] if len(due) == len(found) else states
        yield f"the bids of {name} in {len(states)} states", f"other bids than of run in the states {wrong[:5]}" if wrong else None
    lists = point_lists(file)
    due = arrays_by_run(market, file["basis"], [{"kind": "manual", "points": list_} for list_ in lists])
    found = arrays_by_live(live, file["basis"], [points(*list_) for list_ in lists])
    yield f"the bids of {len(lists)} lists of points", None if found == due else f"{found} in place of {due}"
