"""The files of a market's sites: settings, and units of systemd."""

from __future__ import annotations

import tomllib
from collections.abc import Iterable
from string import Template
from typing import Any

from ..live.node.node_errors import BadSettings
from ..live.site.site import files_of
from ..live.site.site_settings import site_settings_of
from .files import ETC, Places, text_of
from .node_files import MADE, WATCHED, broker_table, tables_of
from .site_plan import SitePlan
from .toml_text import toml_text
from .market_file import Tree

# The memory of a site in MiB: without a node, of each node with its process of `live`, and of each page. A device takes a fifth of one.
WITHOUT, BY_NODE, BY_PAGE = 256, 1, 256
# The threads and processes of a site: without a node, of each node, and of each page.
TASKS, TASKS_OF_NODE, TASKS_OF_PAGE = 32, 1, 16
# The seconds within which a site ends: its nodes say their last words, and it waits until the broker has them.
PATIENCE = 15


def _table_of_node(tree: Tree, name: str, places: Places) -> dict[str, Any]:
    """The table [nodes.NAME] of a site: that of the node by itself, with its further tables in it."""
    member = tree.member(name)
    tables = tables_of(tree, member, places)
    node = {word: value for word, value in tables["node"].items() if word not in ("name", "state")}
    return {"sort": member.sort, **node, **{word: tables[word] for word in ("page", "device", "children") if word in tables}}


def settings_text(tree: Tree, site: SitePlan, places: Places) -> str:
    """A site's settings. Raises BadSettings if the market's file has a wrong one."""
    tables: dict[str, dict[str, Any]] = {
        "site": {"name": site.name, "state": places.state(site.name)},
        "basis": dict(vars(tree.basis)),
        "broker": broker_table(tree, site.name, places.etc(site.name)),
        "prices": dict(vars(tree.prices)),
        "nodes": {name: _table_of_node(tree, name, places) for name in site.nodes},
    }
    text = f"{MADE} The site {site.name}.\n{toml_text(tables)}"
    try:
        site_settings_of(tomllib.loads(text))
    except BadSettings as error:
        raise BadSettings(f"{site.name}: {error}") from None
    return text


def unit_of(site: SitePlan) -> str:
    """The name of a site's unit."""
    return f"market-site-{site.name}"


def unit_text(tree: Tree, site: SitePlan, logins: Iterable[str]) -> str:
    """A site's unit, which hands it the passwords of these logins."""
    nodes = [tree.member(name) for name in site.nodes]
    pages = sum(node.page is not None for node in nodes)
    words = {
        "what": f"Site {site.name} of a market",
        "name": site.name,
        "command": f"{tree.market.command} site {ETC}/{site.name}.toml --password-folder %d",
        "credentials": "".join(f"LoadCredential={login}.password:{ETC}/{login}.password\n" for login in logins),
        "memory": f"{WITHOUT + len(nodes) * BY_NODE + pages * BY_PAGE}M",
        "tasks": str(TASKS + len(nodes) * TASKS_OF_NODE + pages * TASKS_OF_PAGE),
        # It may not raise the limit itself.
        "files": f"LimitNOFILE={files_of(node.sort for node in nodes)}\n",
        "patience": str(PATIENCE),
        "told": WATCHED,
        "after": "",
        "ends": "2 5",
    }
    return Template(text_of("unit.service")).substitute(words)
