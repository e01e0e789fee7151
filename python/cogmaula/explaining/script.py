"""Explains the refusals of a file's numbers and script: codes 13 to 20."""

from __future__ import annotations

from .. import schema
from ..program_limits import MOST_CHANGES
from ..nodes import KINDS
from .findings import File, Finding, Node, close, listed, number
from .located import Member, Value

FORMS = ("value", "demand", "points")
UNITS = {"battery": "watt-hours", "solar": "watts", "load": "watts", "objective": "watts"}


def span(low: int, high: int) -> str:
    """A range in words."""
    return f"from {number(low)} to {number(high)}"


def between(low: int, high: int) -> str:
    """A whole number of a range in words."""
    return f"a whole number {span(low, high)}"


def kind_of(node: Node) -> str:
    """The kind of a node in words."""
    word = node.kind.replace("_", " ")
    return f"an {word}" if word[0] in "aeiou" else f"a {word}"


def parameter(file: File) -> Finding:
    """Code 13: a parameter of a node, or the minutes of a tick, are outside the limits."""
    if file.place.what == "phase":
        value = file.value().members["tick"].value
        allowed = f"{between(*schema.limits_of('tick', 'tick'))}, in minutes"
        return Finding(value.at, file.path_to("tick"), f"{file.words()}: its minutes are outside the limits", allowed, file.shown(value))
    node = file.node()
    for name in schema.members_of(node.kind)[3:]:
        member = node.value.members[name]
        if name != "start" and (found := _past(file, node, member)):
            return found
    low, high = (node.value.members[bound].value for bound in ("low", "high"))
    fault = f"{node.words}: low is not below high"
    return Finding(low.at, file.path_to("low"), fault, f"a whole number below high, {file.shown(high)}", file.shown(low))


def _past(file: File, node: Node, member: Member) -> Finding | None:
    """The finding of a parameter if it is past a limit of its own."""
    low, high = schema.limits_of(node.kind, member.name)
    if low <= member.value.value <= high:
        return None
    fault = f"{node.words}: {member.name} is outside its limits"
    about = schema.rule_of(node.kind, member.name)["description"]
    allowed = f"{between(low, high)}. {about}"
    return Finding(member.value.at, file.path_to(member.name), fault, allowed, file.shown(member.value))


# Events.


def _device(file: File) -> tuple[str, Value]:
    """The word of the event at the place, and the value that names its device."""
    members = file.value().members
    word = next(form for form in ("join", "leave", "state") if form in members)
    return word, members[word].value


def _node_named(file: File, name: str) -> Node | None:
    return next((node for node in file.nodes() if node.name == name), None)


def no_device(file: File) -> Finding:
    """Code 14: no device has the name."""
    word, value = _device(file)
    devices = [node.name for node in file.nodes() if KINDS[node.kind].is_device]
    node = _node_named(file, value.value)
    if node is not None or value.value == "auctioneer":
        what = "the auctioneer" if node is None else f"a {node.kind}" if node.kind == "concentrator" else "a limited concentrator"
        fault, likely = f"{file.words()}: {value.value} is {what}, and no device", None
    else:
        fault, likely = f"{file.words()}: no device has the name {value.value}", close(value.value, devices)
    allowed = "the name of a device: " + (listed(devices, "or") if len(devices) <= 8 else f"one of {len(devices)}")
    return Finding(value.at, file.path_to(word), fault, allowed, file.shown(value), likely)


def _last_change(file: File, name: str) -> tuple[str, str] | None:
    """The last join or leave of a device before the place, and where that is in words."""
    last = None
    phase, event = file.place.numbers
    for at in range(1, phase + 1):
        for number_of, earlier in enumerate(file.events(at)[: event - 1 if at == phase else None], 1):
            word = next(form for form in ("join", "leave", "state") if form in earlier.members)
            if word != "state" and earlier.members[word].value.value == name:
                last = word, f"event {number_of} of phase {at}"
    return last


def joined(file: File) -> Finding:
    """Code 15: the device is joined already."""
    word, value = _device(file)
    last = _last_change(file, value.value)
    where = last[1] if last else "an earlier event"
    fault = f"{file.words()}: {value.value} is joined already, by {where}"
    return Finding(value.at, file.path_to(word), fault, "a device that is no member", file.shown(value), "no second join, or a leave before it")


def not_joined(file: File) -> Finding:
    """Code 16: the device is not joined."""
    word, value = _device(file)
    last = _last_change(file, value.value)
    why = f"it left by {last[1]}" if last else "it never joined before"
    likely = f'{{"join": "{value.value}"}} before it'
    return Finding(value.at, file.path_to(word), f"{file.words()}: {value.value} is no member: {why}", "a member", file.shown(value), likely)


# Bids and states.


def _steps(file: File) -> int:
    return int(file.document.members["basis"].value.members["steps"].value.value)


def demand(file: File) -> Finding:
    """Code 17: the demands are refused."""
    value = file.value().members["demand"].value
    item, steps = file.refused.item or 0, _steps(file)
    if len(value.items) != steps:
        fault = f"{file.words()}: demand has {number(len(value.items))} numbers, and the basis has {number(steps)} steps"
        return Finding(value.at, file.path_to("demand"), fault, f"{number(steps)} whole numbers, one for each step", file.shown(value))
    here = value.items[item]
    path = file.path_to("demand", item)
    before = value.items[item - 1] if item else None
    if before is not None and here.value > before.value:
        fault = f"{file.words()}: the demand of step {item} is above the one before, {number(before.value)}"
        return Finding(here.at, path, fault, f"a whole number of at most {number(before.value)}: demands never rise", file.shown(here))
    limits = schema.schema()["$defs"]["demand"]["items"]
    fault = f"{file.words()}: the demand of step {item} is too large"
    return Finding(here.at, path, fault, between(limits["minimum"], limits["maximum"]), file.shown(here))


def points(file: File) -> Finding:
    """Code 18: the points are refused."""
    value = file.value().members["points"].value
    item, most = file.refused.item or 0, schema.counts_of("manual_by_points", "points")
    if not 1 <= len(value.items) <= most:
        fault = f"{file.words()} has {number(len(value.items))} points"
        return Finding(value.at, file.path_to("points"), fault, f"1 to {most} pairs of a price and a power", file.shown(value))
    price, power = value.items[item].items
    before = value.items[item - 1].items if item else None
    # A point is tried for its price, and then for its power.
    if before and price.value < before[0].value:
        return _point(file, item, 0, price, "its price is below the one before", f"a price of at least {number(before[0].value)}")
    if before and power.value > before[1].value:
        return _point(file, item, 1, power, "its power is above the one before", f"a power of at most {number(before[1].value)}")
    limits = schema.schema()["$defs"]["points"]["items"]["prefixItems"][1]
    if not limits["minimum"] <= power.value <= limits["maximum"]:
        return _point(file, item, 1, power, "its power is too large", between(limits["minimum"], limits["maximum"]))
    basis = file.document.members["basis"].value.members
    least, highest = basis["min"].value.value, basis["max"].value.value
    return _point(file, item, 0, price, "its price is outside the basis", f"a price {span(least, highest)}")


def _point(file: File, item: int, at: int, value: Value, why: str, allowed: str) -> Finding:
    """The finding of a number of a point."""
    fault = f"{file.words()}, point {item}: {why}"
    return Finding(value.at, file.path_to("points", item, at), fault, allowed, file.shown(value))


def state(file: File) -> Finding:
    """Code 19: the state does not fit the kind of device."""
    members = file.value().members
    if file.place.what == "node":
        node, name = file.node(), "start"
    else:
        found = _node_named(file, members["state"].value.value)
        assert found is not None, "the program found the device"
        node, name = found, next(form for form in FORMS if form in members)
    value = members[name].value
    about = f"{file.words()}: {name}"
    if node.kind == "manual":
        return Finding(members[name].at, file.path_to(name), f"{about} does not fit {node.name}, a manual device", "demand or points", file.shown(value))
    if name not in ("value", "start"):
        fault = f"{about} does not fit {node.name}, {kind_of(node)}"
        return Finding(members[name].at, file.path_to(name), fault, "value, with a whole number", file.shown(value))
    low, high = schema.limits_of(node.kind, "start")
    if node.kind == "battery":
        high = min(high, int(node.value.members["capacity"].value.value))
    unit = UNITS.get(node.kind, "the unit of your temperatures")
    why = "above the capacity of" if node.kind == "battery" and value.value > high else "outside the limits of"
    fault = f"{about} is {why} {node.name}, {kind_of(node)}"
    return Finding(value.at, file.path_to(name), fault, f"{between(low, high)}, in {unit}", file.shown(value))


# Counts.


def too_many(file: File) -> Finding:
    """Code 20: too many phases, events or changes."""
    phases = file.items("phases")
    if file.place.what == "document":
        most = schema.counts_of("document", "phases")
        fault = f"the file has {number(len(phases))} phases, and this is the first too many"
        return Finding(phases[most].at, f"phases[{most}]", fault, f"at most {number(most)} phases", file.shown(phases[most]), "cogmaula chain")
    phase = file.place.numbers[0]
    events, most = file.events(phase), schema.counts_of("events", "events")
    if len(events) > most:
        fault = f"{file.words()} has {number(len(events))} events, and this is the first too many"
        path = file.path_to("events", most)
        return Finding(events[most].at, path, fault, f"at most {number(most)} events in a phase", file.shown(events[most]), "two phases")
    value = file.value()
    fault = f"{file.words()}: at its end the run has more than {number(MOST_CHANGES)} changes"
    allowed = f"at most {number(MOST_CHANGES)} changes: each event is one, and each tick one for each member whose state it changes"
    return Finding(value.at, file.path_to(), fault, allowed, file.shown(value), "cogmaula chain, which runs the file in parts")
