"""The settings of a site: many nodes that run in one process, over one connection. docs/LIVE.md has them in a table."""

from __future__ import annotations

import os
from collections.abc import Mapping
from dataclasses import dataclass, replace
from pathlib import Path
from typing import Any, cast

from ..node.node_errors import BadSettings
from ..messages.frames import SORTS, Sort
from ..node.node_settings import BrokerSettings, Settings, settings_of
from ..node.toml_tables import read_tables, table_of, value_of
from ..messages.topics import require_name

TABLES = ("site", "basis", "broker", "prices", "nodes")
# What a table of a node has beside the members of the table [node] of a node's own file.
_TABLES_OF_NODE = ("children", "device", "page", "prices")


@dataclass(frozen=True)
class SiteSettings:
    """A site.

    name:  names the connection, and lines
    nodes: the settings of each node, with the broker and the login of the site
    """

    name: str
    broker: BrokerSettings
    nodes: tuple[Settings, ...]

    def __post_init__(self) -> None:
        """Raises BadSettings."""
        require_name(self.name, "site.name")
        if not self.nodes:
            raise BadSettings("the site has no node: write a table [nodes.NAME] for each")
        for member in ("name", "state"):
            found = [getattr(node, member) for node in self.nodes]
            for value in found:
                if found.count(value) > 1:
                    raise BadSettings(f"two nodes have the {member} {value}: give each its own")

    def require_files(self) -> None:
        """Raises BadSettings if a file that a node needs is missing or cannot be read."""
        for node in {(node.live, node.broker): node for node in self.nodes}.values():
            node.require_files()

    def with_passwords_in(self, folder: str) -> SiteSettings:
        """The same settings, with each file of a password in this folder, under the name that it has where the settings say."""

        def moved(path: str | None) -> str | None:
            return None if path is None else str(Path(folder) / Path(path).name)

        broker = replace(self.broker, password_file=moved(self.broker.password_file))
        pages = [None if node.page is None else replace(node.page, password_file=moved(node.page.password_file)) for node in self.nodes]
        return replace(self, broker=broker, nodes=tuple(replace(node, broker=broker, page=page) for node, page in zip(self.nodes, pages, strict=True)))


@dataclass(frozen=True)
class _Head:
    """The table [site]: its name, the folder that has a folder of each node, and the program `live`."""

    name: str
    state: str
    live: str | None = None


def site_settings_of(tables: Mapping[str, Mapping[str, Any]]) -> SiteSettings:
    """The settings that the tables `site`, `basis`, `broker`, `prices` and `nodes.NAME` tell. Raises BadSettings."""
    head = value_of(_Head, tables.get("site", {}), "site")
    broker = value_of(BrokerSettings, tables.get("broker", {}), "broker")
    return SiteSettings(head.name, broker, tuple(_node(head, tables, name, table) for name, table in tables.get("nodes", {}).items()))


def _node(head: _Head, tables: Mapping[str, Mapping[str, Any]], name: str, table: object) -> Settings:
    """The settings of one node. Raises BadSettings, with its name."""
    node = dict(table_of(table, f"nodes.{name}"))
    sort = node.pop("sort", None)
    if sort not in SORTS:
        raise BadSettings(f"nodes.{name}.sort is {sort!r}: give {', '.join(SORTS[:-1])} or {SORTS[-1]}")
    common = {name: tables[name] for name in ("basis", "broker", "prices") if name in tables}
    own = {name: node.pop(name) for name in _TABLES_OF_NODE if name in node}
    node = {"state": str(Path(head.state) / name), **({} if head.live is None else {"live": head.live}), **node, "name": name}
    try:
        return settings_of(cast(Sort, sort), {**common, **own, "node": node})
    except BadSettings as error:
        raise BadSettings(f"nodes.{name}: {error}") from None


def read_site(path: str | os.PathLike[str]) -> SiteSettings:
    """The settings of a file. Raises BadSettings if it is none, and OSError."""
    return site_settings_of(read_tables(path, TABLES))
