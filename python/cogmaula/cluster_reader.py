"""Reads a cluster file into a `Cluster`.

It looks only at what a `Cluster` cannot hold: the names of members, and objects and lists in their places. All else goes through as
it is, so that the program says what it says of the file.
"""

from __future__ import annotations

import json
from collections.abc import Callable
from dataclasses import MISSING, fields
from typing import Any

from .cluster import Basis, Cluster
from .errors import Unreadable
from .members import kept
from .nodes import KINDS, Node
from .phases import Event, Events, Join, Leave, Phase, State, Tick

# The forms of a new state. If an event has several, it is read by the first of these, and the others are members that are not known.
FORMS = ("value", "demand", "points")


def cluster_of(text: str | bytes) -> Cluster:
    """The cluster of a text. Raises Unreadable."""
    document = _object("", _json(text), ("version", "basis", "nodes", "phases"))
    basis = _object("basis", document["basis"], ("min", "max", "steps"))
    nodes = [node_of(f"nodes[{at}]", value) for at, value in enumerate(_list("nodes", document["nodes"]))]
    phases = [_phase(f"phases[{at}]", value) for at, value in enumerate(_list("phases", document["phases"]))]
    return Cluster(kept(Basis, **basis), nodes, phases, document["version"])


def _whole(digits: str) -> int | float:
    """A whole number. -0 is none for the program, so it stays apart from 0."""
    return -0.0 if digits == "-0" else int(digits)


def _json(text: str | bytes) -> Any:
    """The JSON value of a text."""
    try:
        words = text.decode() if isinstance(text, bytes) else text
        return json.loads(words, parse_int=_whole if "-0" in words else None)
    except UnicodeDecodeError as error:
        raise Unreadable("", f"the bytes are not UTF-8 at byte {error.start}") from None
    except RecursionError:
        raise Unreadable("", "the nesting is too deep") from None
    except ValueError as error:
        raise Unreadable("", f"no JSON: {error}") from None


def _object(path: str, value: Any, members: tuple[str, ...]) -> dict[str, Any]:
    """An object that has exactly these members."""
    if not isinstance(value, dict):
        raise Unreadable(path, "an object is due")
    for name in members:
        if name not in value:
            raise Unreadable(path, f"the member {name} is missing")
    for name in value:
        if name not in members:
            raise Unreadable(path, f"the member {name!r} is not known")
    return value


def _list(path: str, value: Any) -> list[Any]:
    if not isinstance(value, list):
        raise Unreadable(path, "a list is due")
    return value


def _bid(path: str, value: dict[str, Any]) -> dict[str, Any]:
    """The members of an object, with its bid as tuples if it has one."""
    if isinstance(value.get("demand", []), list) and _are_pairs(value.get("points", [])):
        pairs = {"points": tuple(map(tuple, value["points"]))} if "points" in value else {}
        demands = {"demand": tuple(value["demand"])} if "demand" in value else {}
        return {**value, **demands, **pairs}
    raise Unreadable(path, "demand is no list, or points is no list of pairs")


def _are_pairs(value: Any) -> bool:
    return isinstance(value, list) and all(isinstance(pair, list) and len(pair) == 2 for pair in value)


def node_of(path: str, value: Any) -> Node:
    if not isinstance(value, dict):
        raise Unreadable(path, "an object is due")
    kind = value.get("kind")
    if not isinstance(kind, str) or kind not in KINDS:
        raise Unreadable(path, f"no kind of node is {kind!r}" if "kind" in value else "the member kind is missing")
    named = [field for field in fields(KINDS[kind]) if field.default is MISSING or field.name == "parent"]
    members = ["name", "kind", *(field.name for field in named if field.name != "name")]
    if kind == "manual":
        members.append(next((word for word in ("demand", "points") if word in value), "demand"))
    own = dict(_bid(path, _object(path, value, tuple(members))))
    del own["kind"]
    return kept(KINDS[kind], **own)


def _event(path: str, value: Any) -> Event:
    if not isinstance(value, dict):
        raise Unreadable(path, "an object is due")
    if len(value) == 2 and "state" in value and value.get("value") is not None:
        # Nearly all events of a long script are of this form.
        return kept(State, device=value["state"], value=value["value"])
    makers: dict[str, Callable[[str], Event]] = {"join": Join, "leave": Leave}
    for word, maker in makers.items():
        if word in value:
            return maker(_object(path, value, (word,))[word])
    form = next((form for form in FORMS if form in value), "value")
    own = _bid(path, _object(path, value, ("state", form)))
    if own[form] is None:
        raise Unreadable(path, f"{form} is null")
    return kept(State, device=own["state"], **{form: own[form]})


def _phase(path: str, value: Any) -> Phase:
    if not isinstance(value, dict):
        raise Unreadable(path, "an object is due")
    if "events" in value:
        place = f"{path}.events"
        events = _list(place, _object(path, value, ("events",))["events"])
        return Events([_event(f"{place}[{at}]", event) for at, event in enumerate(events)])
    return kept(Tick, minutes=_object(path, value, ("tick",))["tick"])
