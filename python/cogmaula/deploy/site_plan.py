"""The sites of a market's file: nodes of one machine that run in one process, over one connection to the broker."""

from __future__ import annotations

from collections.abc import Collection, Mapping, Sequence
from dataclasses import dataclass
from typing import Any

from ..live.node.node_errors import BadSettings
from ..live.node.toml_tables import table_of, value_of
from ..live.messages.topics import require_name


@dataclass(frozen=True)
class SitePlan:
    """A site, and its table [sites.NAME].

    name:  the site, which is also its login at the broker
    nodes: the names of its nodes
    host:  the machine that it runs on; None takes the one that its nodes name, or else one of its own
    """

    name: str
    nodes: tuple[str, ...]
    host: str | None = None

    def to_table(self) -> dict[str, Any]:
        """The members of its table."""
        return {"host": self.host, "nodes": list(self.nodes)}


@dataclass(frozen=True)
class _SiteTable:
    """What a table [sites.NAME] may have."""

    nodes: list[Any]
    host: str | None = None


def site_plan_of(name: str, table: object) -> SitePlan:
    """The site of a table. Raises BadSettings."""
    place = f"sites.{name}"
    require_name(name, "a site")
    told = value_of(_SiteTable, table_of(table, place), place)
    if not isinstance(told.nodes, list) or not told.nodes or not all(isinstance(node, str) for node in told.nodes):
        raise BadSettings(f'{place}.nodes is {told.nodes!r}: give the names of its nodes, such as ["house", "store"]')
    return SitePlan(name, tuple(told.nodes), told.host)


def require_sites(sites: Sequence[SitePlan], hosts: Mapping[str, str | None]) -> None:
    """Raises BadSettings unless each site has nodes of the file, which are in no other site and name no other machine.

    hosts: the machine that each node names, by the node's name
    """
    seen: dict[str, str] = {}
    for site in sites:
        for node in site.nodes:
            _require_node(site, node, hosts)
            if node in seen:
                where = "twice" if seen[node] == site.name else f"and sites.{seen[node]}.nodes has it too"
                raise BadSettings(f"sites.{site.name}.nodes has {node}, {where}: a node runs in one site, so name it once")
            seen[node] = site.name
        machines = dict.fromkeys(host for host in (site.host, *(hosts[node] for node in site.nodes)) if host is not None)
        if len(machines) > 1:
            raise BadSettings(f"sites.{site.name} would run on {' and '.join(machines)}: a site is one process, so give it and its nodes one host")


def _require_node(site: SitePlan, node: str, known: Collection[str]) -> None:
    if node not in known:
        raise BadSettings(f"sites.{site.name}.nodes has {node}, which is no node of the file: give the auctioneer, a relay or a device of it")
