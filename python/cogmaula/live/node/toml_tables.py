"""Reads settings: the tables of a TOML file, and each table as the dataclass that declares its members.

All settings files are read here: of nodes, hubs, agents, trees and the history. A refusal names the place, what was given there, and
what may be given. Debian's pydantic (1.10) refuses `min = "2"` without what was given.
"""

from __future__ import annotations

import os
import tomllib
import types
import typing
from collections.abc import Mapping, Sequence
from dataclasses import MISSING, Field, fields
from pathlib import Path
from typing import Any, TypeVar

from .node_errors import BadSettings

T = TypeVar("T")
# What a member of each type takes, in words. Members of other types are made by who reads the file, and are taken as they are.
_WORDS: dict[type, str] = {str: "a text", int: "a whole number", float: "a number", bool: "true or false"}


def read_tables(path: str | os.PathLike[str], names: Sequence[str]) -> dict[str, dict[str, Any]]:
    """The tables of a file. Raises BadSettings if it is no TOML or has another table than these, and OSError."""
    try:
        told = tomllib.loads(Path(path).read_text())
    except (tomllib.TOMLDecodeError, UnicodeDecodeError) as error:
        raise BadSettings(f"{path}: {error}") from None
    for name, table in told.items():
        if name not in names or not isinstance(table, dict):
            words = [f"[{known}]" for known in names]
            raise BadSettings(f"{path}: {name} is not known there: a file has the tables {', '.join(words[:-1])} and {words[-1]}")
    return told


def table_of(value: object, name: str) -> Mapping[str, Any]:
    """A value that has to be a table of this name. Raises BadSettings."""
    if not isinstance(value, Mapping):
        raise BadSettings(f"{name} is {value!r}, and no table: write [{name}] and its members below")
    return value


def value_of(kind: type[T], table: Mapping[str, Any], name: str) -> T:
    """The value of a dataclass that a table of this name tells. Raises BadSettings."""
    known = _members_of(kind)
    for member, value in table.items():
        if member not in known:
            raise BadSettings(f"{name}.{member} is not known: {', '.join(sorted(known))} are")
    require_types(kind, table, name)
    lacking = [f"{name}.{member}" for member, (field, _) in known.items() if member not in table and _is_needed(field)]
    if lacking:
        raise BadSettings(f"{', '.join(lacking)} {'is' if len(lacking) == 1 else 'are'} missing")
    return kind(**table)


def require_types(kind: type[Any], table: Mapping[str, Any], name: str) -> None:
    """Raises BadSettings if a member of a table is of another type than the dataclass declares. Members that it has not are passed over."""
    known = _members_of(kind)
    for member, value in table.items():
        if member in known:
            _require_type(f"{name}.{member}", value, known[member][1])


def _members_of(kind: type[Any]) -> dict[str, tuple[Field[Any], Any]]:
    """The members of a dataclass that a table may have, each with its type."""
    hints = _hints_of(kind)
    return {field.name: (field, hints[field.name]) for field in fields(kind) if field.init}


class _NotInTables:
    """What only a checker of types knows, such as a type of a package that is loaded late. No table has such a value."""


def _hints_of(kind: type[Any]) -> dict[str, Any]:
    """The type of each member of a dataclass."""
    unknown: dict[str, Any] = {}
    while True:
        try:
            return typing.get_type_hints(kind, localns=unknown)
        except NameError as error:
            if error.name in unknown:
                raise
            unknown[error.name] = _NotInTables


def _is_needed(field: Field[Any]) -> bool:
    return field.default is MISSING and field.default_factory is MISSING


def _require_type(name: str, value: object, hint: Any) -> None:
    """Raises BadSettings if a value is none of what the type of a member takes."""
    is_union = isinstance(hint, types.UnionType) or typing.get_origin(hint) is typing.Union
    kinds = typing.get_args(hint) if is_union else (hint,)
    scalars = [kind for kind in kinds if kind in _WORDS]
    if not scalars or set(kinds) - {*scalars, types.NoneType} or (value is None and types.NoneType in kinds):
        return
    if not any(_is_of(value, kind) for kind in scalars):
        raise BadSettings(f"{name} is {value!r}: give {' or '.join(_WORDS[kind] for kind in scalars)}")


def _is_of(value: object, kind: type) -> bool:
    """Whether a value of a file is of this type. A whole number is a number too, and true is none."""
    return type(value) is kind or (kind is float and type(value) is int)
