"""Whether the members that a constructor is given have their type, told with the class and the member."""

from __future__ import annotations

import operator
from collections.abc import Callable, Iterable
from dataclasses import MISSING, fields
from typing import Any, NamedTuple, TypeVar

T = TypeVar("T")
Demand = tuple[int, ...]
Points = tuple[tuple[int, int], ...]


def whole(place: str, value: object) -> int:
    """The whole number that a value is, such as one of NumPy. Raises TypeError for all else, also for True and "5"."""
    try:
        if isinstance(value, bool):
            raise TypeError
        return operator.index(value)  # type: ignore[arg-type]
    except TypeError:
        raise TypeError(f"{place} is {value!r}: a whole number is due") from None


def text(place: str, value: object) -> str:
    """The text that a value is. Raises TypeError for all else."""
    if not isinstance(value, str):
        raise TypeError(f"{place} is {value!r}: a text is due")
    return value


def demand(place: str, given: Iterable[object]) -> Demand:
    """A demand for each step, as a tuple. Raises TypeError."""
    return tuple(whole(f"{place}[{at}]", value) for at, value in enumerate(given))


def points(place: str, given: Iterable[Iterable[object]]) -> Points:
    """Pairs of a price and a demand, as tuples. Raises TypeError."""
    found = []
    for at, them in enumerate(given):
        pair = tuple(them)
        if len(pair) != 2:
            raise TypeError(f"{place}[{at}] has {len(pair)} numbers: a pair of a price and a demand is due")
        found.append((whole(f"{place}[{at}]", pair[0]), whole(f"{place}[{at}]", pair[1])))
    return tuple(found)


# What keeps a value as the type of its member.
_KEEP: dict[str, Callable[[str, Any], object]] = {"int": whole, "str": text, "Demand": demand, "Points": points}


class Rule(NamedTuple):
    """What a frozen dataclass says of a member: its name, the class and the name as errors tell them, its type, and whether None is one."""

    name: str
    place: str
    keep: Callable[[str, Any], object]
    is_optional: bool


# Of each class what `rules_of` and `defaults_of` gave: a script makes thousands of events.
_RULES: dict[type, tuple[Rule, ...]] = {}
_DEFAULTS: dict[type, dict[str, Any]] = {}


def rules_of(kind: type) -> tuple[Rule, ...]:
    """The rule of each member of a frozen dataclass."""
    if kind not in _RULES:
        words = [(field.name, str(field.type)) for field in fields(kind)]
        _RULES[kind] = tuple(
            Rule(name, f"{kind.__name__}.{name}", _KEEP[word.removesuffix(" | None")], word.endswith(" | None")) for name, word in words
        )
    return _RULES[kind]


def defaults_of(kind: type) -> dict[str, Any]:
    """What each member of a frozen dataclass is if nothing is given; None without a default."""
    if kind not in _DEFAULTS:
        _DEFAULTS[kind] = {field.name: None if field.default is MISSING else field.default for field in fields(kind)}
    return _DEFAULTS[kind]


def look(owner: Any) -> None:
    """Looks at each member of a frozen dataclass, and keeps it as its type. Raises TypeError with the class and the member."""
    members = vars(owner)
    for name, place, keep, is_optional in rules_of(type(owner)):
        found = members[name]
        if found is not None or not is_optional:
            # As the dataclass is frozen, it takes no assignment.
            members[name] = keep(place, found)


def kept(kind: type[T], **members: Any) -> T:
    """An object of a frozen dataclass with these members as they are, of whatever type: the program looks at them."""
    made = object.__new__(kind)
    vars(made).update(defaults_of(kind), **members)
    return made
