"""What cluster.schema.json says of each member: its limits and its meaning. The messages of `explain` come from there."""

from __future__ import annotations

import json
from functools import cache
from pathlib import Path
from typing import Any


@cache
def schema() -> dict[str, Any]:
    """The schema of a cluster file."""
    found: dict[str, Any] = json.loads((Path(__file__).parent / "cluster.schema.json").read_text())
    return found


@cache
def forms() -> dict[str, dict[str, Any]]:
    """The form of each object, by its name in the schema, such as battery, basis, join and manual_by_demand."""
    parts: dict[str, dict[str, Any]] = schema()["$defs"]
    return {"document": schema(), **{name: part for name, part in parts.items() if "properties" in part}}


def members_of(form: str) -> list[str]:
    """The members of a form, in the order in which the program looks at them."""
    return list(forms()[form]["properties"])


def rule_of(form: str, member: str) -> dict[str, Any]:
    """What the schema says of a member, with what it refers to."""
    told: dict[str, Any] = forms()[form]["properties"][member]
    name = told.get("$ref", "").removeprefix("#/$defs/")
    return {**schema()["$defs"][name], **told} if name else told


def limits_of(form: str, member: str) -> tuple[int, int]:
    """The least and the greatest value of a number. Raises KeyError if the schema gives none."""
    told = rule_of(form, member)
    return told["minimum"], told["maximum"]


def counts_of(form: str, member: str) -> int:
    """The most items of a list. Raises KeyError if the schema gives none."""
    return int(rule_of(form, member)["maxItems"])


def kinds() -> list[str]:
    """The word of each kind of node."""
    found: list[str] = schema()["$defs"]["node"]["properties"]["kind"]["enum"]
    return found
