"""The script of a cluster: phases, each a list of events or a tick."""

from __future__ import annotations

import json
from collections.abc import Iterable
from dataclasses import dataclass
from functools import cache, cached_property
from typing import Any

from .members import Demand, Points, look


@dataclass(frozen=True)
class Join:
    """The device becomes a member, with the state that it had last, at first its start."""

    device: str

    def members(self) -> dict[str, Any]:
        """The members of the event in the cluster file."""
        return {"join": self.device}


@dataclass(frozen=True)
class Leave:
    """The device's membership ends. It keeps its state."""

    device: str

    def members(self) -> dict[str, Any]:
        """The members of the event in the cluster file."""
        return {"leave": self.device}


@dataclass(frozen=True)
class State:
    """A member has a new state: a `value` in the unit of its start, or for a manual device its `demand` or `points`."""

    device: str
    value: int | None = None
    demand: Demand | None = None
    points: Points | None = None

    def __post_init__(self) -> None:
        """Keeps each member as its type, lists as tuples. Raises TypeError."""
        look(self)

    def members(self) -> dict[str, Any]:
        """The members of the event in the cluster file."""
        if self.demand is None and self.points is None and self.value is not None:
            return {"state": self.device, "value": self.value}
        given = {"value": self.value, "demand": self.demand, "points": self.points}
        return {"state": self.device, **{name: value for name, value in given.items() if value is not None}}


Event = Join | Leave | State


@cache
def _as_json(name: str) -> str:
    """A name of a device as JSON. A script says each a thousand times."""
    return json.dumps(name)


def _event_line(event: Event) -> str:
    """The event as JSON."""
    if type(event) is State and type(event.value) is int and type(event.device) is str and event.demand is None and event.points is None:
        # Nearly all events of a long script are of this form.
        return f'{{"state": {_as_json(event.device)}, "value": {event.value}}}'
    return json.dumps(event.members())


@dataclass(frozen=True)
class Events:
    """A phase of events, in their order. It takes no time."""

    events: tuple[Event, ...]

    def __init__(self, events: Iterable[Event] = ()) -> None:
        object.__setattr__(self, "events", tuple(events))

    def members(self) -> dict[str, Any]:
        """The members of the phase in the cluster file."""
        return {"events": [event.members() for event in self.events]}

    @cached_property
    def line(self) -> str:
        """The phase as JSON in a line. It is kept, since a script in parts is measured, run and billed."""
        return f'{{"events": [{", ".join(map(_event_line, self.events))}]}}'


@dataclass(frozen=True)
class Tick:
    """A phase in which so many minutes pass, and the states that change by themselves."""

    minutes: int

    def __post_init__(self) -> None:
        """Keeps the minutes as a whole number. Raises TypeError."""
        look(self)

    def members(self) -> dict[str, Any]:
        """The members of the phase in the cluster file."""
        return {"tick": self.minutes}

    @property
    def line(self) -> str:
        """The phase as JSON in a line."""
        return json.dumps(self.members())


Phase = Events | Tick
