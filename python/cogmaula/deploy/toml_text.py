"""TOML as text: tables of texts, numbers, truths and lists of these."""

from __future__ import annotations

import json
from collections.abc import Mapping
from typing import Any


def toml_text(tables: Mapping[str, Mapping[str, Any]]) -> str:
    """A file of these tables. A table in a table, such as that of one child, comes behind it; what is None is left out."""
    lines: list[str] = []
    for name, table in tables.items():
        _write(lines, name, table)
    return "\n".join(lines).lstrip("\n") + "\n"


def _write(lines: list[str], name: str, table: Mapping[str, Any]) -> None:
    members = {key: value for key, value in table.items() if value is not None and not isinstance(value, Mapping)}
    if members:
        lines += ["", f"[{name}]", *(f"{key} = {_value(value)}" for key, value in members.items())]
    for key, value in table.items():
        if isinstance(value, Mapping):
            _write(lines, f"{name}.{key}", value)


def _value(value: object) -> str:
    if isinstance(value, list | tuple):
        return f"[{', '.join(map(_value, value))}]"
    # JSON writes texts, numbers and truths as TOML does, but for the one sign that JSON leaves as it is.
    return json.dumps(value, ensure_ascii=False).replace("\x7f", "\\u007f")
