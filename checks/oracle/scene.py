"""The refusal of a cluster file, or none, by the rules of docs/CLUSTER_FILE.md and from nothing of the program."""

import json
import math
import re

from checks import facts
from checks.kinds import kinds
from checks.oracle.auction import CONCENTRATORS, TICKING

NESTING = 127
MOST = facts.DEMAND_LIMIT
NODES, DEPTH, PHASES, EVENTS = facts.MOST_NODES, facts.MOST_DEPTH, facts.MOST_PHASES, facts.MOST_EVENTS
CHANGES, POINTS, NAME_BYTES = facts.MOST_CHANGES, facts.MAX_POINTS, facts.MAX_NAME_BYTES
STEPS, MINUTES = (facts.LEAST_STEPS, facts.MOST_STEPS), (1, facts.MINUTES_LIMIT)
NAME = re.compile(r"[A-Za-z][A-Za-z0-9_-]{0,%d}" % (NAME_BYTES - 1))
STRING = re.compile(r'"(?:[^"\\]|\\.)*"', re.DOTALL)

DOCUMENT = {"version": int, "basis": dict, "nodes": list, "phases": list}
BASIS = {"min": int, "max": int, "steps": int}
# The numbers of a node by its kind, each with its limits. Those of a state are apart: they have a code of their own.
KINDS = kinds()


class Refused(Exception):
    """The line that tells why a file is refused."""


def refuse(code, place, item=None):
    raise Refused(f"refused {code} {place}" + ("" if item is None else f" item {item}"))


def require(right, code, place, item=None):
    if not right:
        refuse(code, place, item)


# The reading.


def number_of(text):
    """A whole number within 64 bits with a sign; any other number as a float."""
    if text != "-0" and len(text) < 21 and -(2**63) <= int(text) < 2**63:
        return int(text)
    return float_of(text)


def float_of(text):
    value = float(text)
    if math.isinf(value):
        raise ValueError("a number that no float holds")
    return value


def no_constant(text):
    raise ValueError(text)


def require_characters(value):
    """That no text has half of a character."""
    if isinstance(value, str):
        value.encode()
    elif isinstance(value, list):
        for element in value:
            require_characters(element)


def object_of(pairs):
    for pair in pairs:
        require_characters(list(pair))
    return dict(pairs)


def nesting(text):
    """How many objects and lists stand in each other."""
    depth = deepest = 0
    for character in STRING.sub("", text):
        depth += (character in "[{") - (character in "]}")
        deepest = max(deepest, depth)
    return deepest


def value_of(text):
    """The JSON value of these bytes."""
    try:
        characters = text.decode()
        value = json.loads(
            characters, parse_int=number_of, parse_float=float_of, parse_constant=no_constant, object_pairs_hook=object_of
        )
        require_characters(value)
    except (RecursionError, ValueError):
        refuse(1, "document")
    require(nesting(characters) <= NESTING, 1, "document")
    return value


# The shape.


def require_members(value, members, place, chosen=()):
    """That an object has exactly these members, and of each choice the first that is there."""
    members = dict(members)
    for choice in chosen:
        form = next((member for member in choice if member in value), None)
        require(form, 3, place)
        members[form] = choice[form]
    require(all(member in value for member in members), 3, place)
    require(all(name in members for name in value), 4, place)
    for name, kind in members.items():
        require(type(value[name]) is kind and has_elements(name, value[name]), 2, place)


def has_elements(name, value):
    """Whether the elements of a demand, and of points, have the right type."""
    if name == "demand":
        return all(type(element) is int for element in value)
    if name == "points":
        return all(type(element) is list and len(element) == 2 and has_elements("demand", element) for element in value)
    return True


def require_node(node, version, place):
    require(type(node) is dict, 2, place)
    require("kind" in node, 3, place)
    kind = node["kind"]
    require(type(kind) is str, 2, place)
    require(kind in KINDS and (kind != "limited" or version == 2), 12, place)
    members = {"name": str, "kind": str} | ({} if kind == "objective" else {"parent": str}) | dict.fromkeys(KINDS[kind], int)
    require_members(node, members, place, [{"demand": list, "points": list}] if kind == "manual" else [])


def require_event(event, place):
    require(type(event) is dict, 2, place)
    form = next((word for word in ("join", "leave", "state") if word in event), None)
    require(form, 3, place)
    require_members(event, {form: str}, place, [{"value": int, "demand": list, "points": list}] if form == "state" else [])


def require_shape(file):
    require(type(file) is dict, 2, "document")
    require_members(file, DOCUMENT, "document")
    require(file["version"] in (1, 2), 5, "document")
    basis = file["basis"]
    require_members(basis, BASIS, "basis")
    fits = STEPS[0] <= basis["steps"] <= STEPS[1] and -MOST <= basis["min"] < basis["max"] <= MOST
    require(fits and (basis["max"] - basis["min"]) % (basis["steps"] - 1) == 0, 6, "basis")
    for at, node in enumerate(file["nodes"], 1):
        require_node(node, file["version"], f"node {at}")
    for at, phase in enumerate(file["phases"], 1):
        require(type(phase) is dict, 2, f"phase {at}")
        require_members(phase, {}, f"phase {at}", [{"events": list, "tick": int}])
        for place, event in enumerate(phase.get("events", []), 1):
            require_event(event, f"event {at} {place}")


# The tree.


def require_tree(nodes):
    require(len(nodes) <= NODES, 11, "document")
    names, depths = set(), {"auctioneer": 0}
    for at, node in enumerate(nodes, 1):
        place, name, parent = f"node {at}", node["name"], node.get("parent", "auctioneer")
        require(NAME.fullmatch(name) and name != "auctioneer", 7, place)
        require(name not in names, 8, place)
        require(parent in depths, 9, place)
        names.add(name)
        depth = depths[parent] + (node["kind"] in CONCENTRATORS)
        require(depth <= DEPTH, 10, place)
        if node["kind"] in CONCENTRATORS:
            depths[name] = depth


# The numbers.


def require_demand(demand, steps, place):
    require(len(demand) == steps, 17, place, len(demand))
    require_first(17, place, demand, lambda at: at > 0 and demand[at] > demand[at - 1])
    require_first(17, place, demand, lambda at: abs(demand[at]) > MOST)


def require_points(points, basis, place):
    require(1 <= len(points) <= POINTS, 18, place, len(points))
    require_first(18, place, points, lambda at: at > 0 and points[at][0] < points[at - 1][0])
    require_first(18, place, points, lambda at: at > 0 and points[at][1] > points[at - 1][1])
    require_first(18, place, points, lambda at: abs(points[at][1]) > MOST)
    require_first(18, place, points, lambda at: not basis["min"] <= points[at][0] <= basis["max"])


def require_first(code, place, things, is_bad):
    at = next((index for index in range(len(things)) if is_bad(index)), None)
    require(at is None, code, place, at)


def require_state(node, given, basis, place):
    """That the state that a node or an event gives fits the kind of device."""
    if node["kind"] == "manual":
        require("demand" in given or "points" in given, 19, place)
        if "demand" in given:
            require_demand(given["demand"], basis["steps"], place)
        else:
            require_points(given["points"], basis, place)
        return
    value = given.get("value", given.get("start"))
    least, most = KINDS[node["kind"]]["start"]
    # A battery holds no more than its own capacity.
    require(value is not None and least <= value <= node.get("capacity", most), 19, place)


def require_numbers(nodes, basis):
    limited = {}
    for at, node in enumerate(nodes, 1):
        place = f"node {at}"
        numbers = {name: limits for name, limits in KINDS[node["kind"]].items() if name != "start"}
        require(all(least <= node[name] <= most for name, (least, most) in numbers.items()), 13, place)
        require("low" not in node or node["low"] < node["high"], 13, place)
        above = limited.get(node.get("parent"), False)
        require(not above or node["kind"] != "limited", 22, place)
        limited[node["name"]] = above or node["kind"] == "limited"
        if node["kind"] not in CONCENTRATORS:
            require_state(node, node, basis, place)


def require_script(file):
    devices = {node["name"]: node for node in file["nodes"] if node["kind"] not in CONCENTRATORS}
    joined, changes = set(), 0
    for at, phase in enumerate(file["phases"], 1):
        if "tick" in phase:
            require(MINUTES[0] <= phase["tick"] <= MINUTES[1], 13, f"phase {at}")
            changes += sum(devices[name]["kind"] in TICKING for name in joined)
        events = phase.get("events", [])
        require(len(events) <= EVENTS, 20, f"phase {at}")
        for number, event in enumerate(events, 1):
            place, form = f"event {at} {number}", next(word for word in ("join", "leave", "state") if word in event)
            name = event[form]
            require(name in devices, 14, place)
            require(form != "join" or name not in joined, 15, place)
            require(form == "join" or name in joined, 16, place)
            if form == "state":
                require_state(devices[name], event, file["basis"], place)
            joined = joined | {name} if form == "join" else joined - {name} if form == "leave" else joined
        changes += len(events)
        require(changes <= CHANGES, 20, f"phase {at}")


def scene_of(text):
    """The cluster file of these bytes, if it has a plan."""
    file = value_of(text)
    require_shape(file)
    require_tree(file["nodes"])
    require(len(file["phases"]) <= PHASES, 20, "document")
    require_numbers(file["nodes"], file["basis"])
    require_script(file)
    return file


def refusal_of(text):
    """The line of the refusal of a file, or None if it has a plan."""
    try:
        scene_of(text)
    except Refused as line:
        return f"{line}\n"
    return None
