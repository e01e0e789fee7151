"""Explains the refusals of a file's shape: codes 2 to 6 and 12."""

from __future__ import annotations

from typing import Any

from .. import schema
from .findings import ONE_OF, File, Finding, close, listed, number
from .located import Member, Value

TYPES = {
    "integer": ("whole", "a whole number within 64 bits, without a point and an exponent"),
    "string": ("text", "a text in quotes"),
    "array": ("list", "a list in brackets"),
    "object": ("object", "an object in braces"),
}


def form_of(file: File, value: Value) -> str:
    """The form in the schema of the object at the place of the refusal. Of several, the first whose member is there."""
    match file.place.what:
        case "node":
            kind = value.members["kind"].value.value
            if kind == "manual":
                return "manual_by_demand" if "demand" in value.members else "manual_by_points"
            return str(kind)
        case "phase":
            return "events" if "events" in value.members else "tick"
        case "event":
            if form := next((form for form in ("join", "leave") if form in value.members), None):
                return form
            state = next((form for form in ONE_OF["state"] if form in value.members), "value")
            return f"state_by_{state}"
        case _:
            return file.place.what


def owner_of(file: File, value: Value) -> str:
    """Whose members these are, in words."""
    match file.place.what:
        case "node":
            kind = str(value.members["kind"].value.value).replace("_", " ")
            return f"a node of the kind {kind}"
        case "phase":
            return "a phase of events" if "events" in value.members else "a tick"
        case "event":
            word = next((form for form in ONE_OF["event"] if form in value.members), "event")
            return f"an event with {word}"
        case _:
            return file.words()


def members(names: list[str]) -> str:
    """Members in words."""
    return f"the member{'s' if len(names) > 1 else ''} {listed(names)}"


def wrong_type(file: File) -> Finding:
    """Code 2: a member, or a value where an object is due, has the wrong type."""
    value = file.value()
    if value.what != "object":
        due = "an object in braces"
        return Finding(value.at, file.path_to(), f"{file.words()} is no object", due, file.shown(value))
    if file.place.what == "node" and value.members["kind"].value.what != "text":
        return _of_type(file, ("kind",), value.members["kind"].value, "string")
    form = form_of(file, value)
    for name in schema.members_of(form):
        member = value.members.get(name)
        if found := member and _first_wrong(member.value, schema.rule_of(form, name), (name,)):
            return _of_type(file, *found)
    return unknown(file, value)


def _first_wrong(value: Value, rule: dict[str, Any], path: tuple[str | int, ...]) -> tuple[tuple[str | int, ...], Value, str] | None:
    """The first value of another type than the rule of a member asks for, itself or in it: its path, and what is due."""
    due = rule.get("type", "string")
    if value.what != TYPES[due][0]:
        return path, value, due
    for at, item in enumerate(value.items):
        told = rule.get("items", {})
        if "type" in told and (found := _first_wrong(item, told, (*path, at))):
            return found
        if "prefixItems" in rule and (found := _first_wrong(item, {"type": "integer"}, (*path, at))):
            return found
    if "prefixItems" in rule and len(value.items) != 2:
        return path, value, "pair"
    return None


def _of_type(file: File, path: tuple[str | int, ...], value: Value, due: str) -> Finding:
    """The finding of a value of the wrong type."""
    allowed = "a pair in brackets: a price and a power, both whole numbers" if due == "pair" else TYPES[due][1]
    fault = f"{file.words()}: {path[0]} is of the wrong type"
    if len(path) > 1:
        fault = f"{file.words()}: item {path[1]} of {path[0]} is of the wrong type"
    return Finding(value.at, file.path_to(*path), fault, allowed, file.shown(value), _meant(file, value, due))


def _meant(file: File, value: Value, due: str) -> str | None:
    """What was likely meant by a value of the wrong type."""
    if due == "integer" and value.what == "number" and value.value == int(value.value) and abs(value.value) < 2**53:
        return str(int(value.value))
    if due == "integer" and value.what == "text" and value.value.removeprefix("-").isdigit():
        return f"{value.value}, without quotes"
    if due == "array" and value.what == "object":
        return f"[{file.shown(value)}], in brackets" if value.members else "[]"
    return None


def missing(file: File) -> Finding:
    """Code 3: a member is missing."""
    value = file.value()
    if file.place.what == "node" and "kind" not in value.members:
        return _missing(file, value, ["kind"], schema.kinds(), "the kind says which other members a node has")
    form = form_of(file, value)
    if choice := _lacking_choice(file, value):
        return _missing(file, value, list(choice), [], f"one of {listed(choice, 'or')} is due")
    due = schema.members_of(form)
    lacking = [word for word in due if word not in value.members]
    return _missing(file, value, lacking, [], f"{owner_of(file, value)} has {members(due)}")


def _lacking_choice(file: File, value: Value) -> tuple[str, ...] | None:
    """The members of which one is due and none is there."""
    choices: list[str] = []
    if file.place.what in ("phase", "event"):
        choices.append(file.place.what)
    if file.place.what == "event" and "state" in value.members:
        choices = ["state"]
    if file.place.what == "node" and value.members["kind"].value.value == "manual":
        choices = ["manual"] if all(word in value.members for word in ("name", "parent")) else []
    for choice in choices:
        if not any(name in value.members for name in ONE_OF[choice]):
            return ONE_OF[choice]
    return None


def _missing(file: File, value: Value, lacking: list[str], values: list[str], rule: str) -> Finding:
    """The finding of missing members, of which a misspelt one may be there. `values` are those that the member may have."""
    known = set() if lacking == ["kind"] else set(schema.members_of(form_of(file, value)))
    allowed = f"{rule}: {listed(values, 'or')}" if values else rule
    for name, member in value.members.items():
        meant = None if name in known else close(name, lacking)
        if meant is not None:
            fault = f"{file.words()} has no member {meant}, and {name} is not known"
            return Finding(member.at, file.path_to(name), fault, allowed, _pair(file, member), f'"{meant}" for "{name}"')
    words = f"lacks {members(lacking)}" if "one of" not in rule else f"has no member {listed(lacking, 'or')}"
    return Finding(value.at, file.path_to(), f"{file.words()} {words}", allowed, file.shown(value))


def _pair(file: File, member: Member) -> str:
    """A member as it is written."""
    return f'"{member.name}": {file.shown(member.value)}'


def unknown(file: File, value: Value | None = None) -> Finding:
    """Code 4: a member is not known."""
    value = value or file.value()
    due = schema.members_of(form_of(file, value))
    member = min((member for member in value.members.values() if member.name not in due), key=lambda member: member.at)
    fault = f"{file.words()}: the member {member.name} is not known"
    allowed = f"{owner_of(file, value)} has {members(due)}, and no other"
    return Finding(member.at, file.path_to(member.name), fault, allowed, _pair(file, member), _excess(file, member.name, due))


def _excess(file: File, name: str, due: list[str]) -> str | None:
    """Why a member is likely there that is not known."""
    if name == "$schema":
        return "name the schema in the settings of the editor"
    for choice in ONE_OF.values():
        if name in choice and any(form in due for form in choice):
            other = next(form for form in choice if form in due)
            return f"only one of {other} and {name}"
    if file.place.what == "node":
        owners = [kind for kind in schema.kinds() if kind != "manual" and name in schema.members_of(kind)]
        if owners:
            return f"another kind: {name} is a member of {listed(owners)}"
    return None


def version(file: File) -> Finding:
    """Code 5: the version is neither 1 nor 2."""
    value = file.document.members["version"].value
    return Finding(value.at, "version", "the version is not known", "1 or 2; limited concentrators need 2", file.shown(value), "2")


def basis(file: File) -> Finding:
    """Code 6: the prices do not fit."""
    members = file.value().members
    least, most, steps = (int(members[word].value.value) for word in ("min", "max", "steps"))
    for name in ("min", "max", "steps"):
        low, high = schema.limits_of("basis", name)
        if not low <= members[name].value.value <= high:
            fault = f"the basis: {name} is outside its limits"
            return _in_basis(file, name, fault, f"a whole number from {number(low)} to {number(high)}", None)
    if least >= most:
        return _in_basis(file, "max", "the basis: max is not above min", f"a whole number above {number(least)}", None)
    width, gaps = most - least, steps - 1
    fault = f"the basis: max - min is {number(width)}, which steps - 1, {number(gaps)}, does not divide"
    near = max(width // gaps, 1) * gaps
    counts = [steps + 1 for steps in range(1, schema.limits_of("basis", "steps")[1]) if width % steps == 0]
    count = min(counts, key=lambda count: abs(count - steps))
    likely = f"max {number(least + near)}, or steps {number(count)}"
    return _in_basis(file, "max", fault, "prices at equal whole distances: max - min divisible by steps - 1", likely)


def _in_basis(file: File, name: str, fault: str, allowed: str, likely: str | None) -> Finding:
    value = file.value().members[name].value
    basis_shown = file.shown(file.value())
    return Finding(value.at, f"basis.{name}", fault, allowed, basis_shown, likely)


def kind(file: File) -> Finding:
    """Code 12: the kind is not known."""
    node = file.node()
    value = node.value.members["kind"].value
    if node.kind == "limited":
        fault = f"{file.words()}: version 1 knows no kind limited"
        return Finding(value.at, file.path_to("kind"), fault, 'limited concentrators need "version": 2', file.shown(value), '"version": 2')
    fault = f"{file.words()}: the kind is not known"
    return Finding(value.at, file.path_to("kind"), fault, listed(schema.kinds(), "or"), file.shown(value), close(node.kind, schema.kinds()))
