"""The file that names a market: its tree, machines, limits and logins. docs/LIVE.md has its tables."""

from __future__ import annotations

import os
import re
import shutil
from collections.abc import Iterable, Mapping
from dataclasses import dataclass, field, replace
from functools import cached_property
from typing import Any, Literal, cast
from urllib.parse import urlsplit

from ..cluster import Basis
from ..live.node.node_errors import BadSettings
from ..live.messages.frames import CHILDREN, Sort
from ..live.broker.rights import (
    Place,
    Right,
    rights_of_control,
    rights_of_grid_operator,
    rights_of_node,
    rights_of_operator,
    rights_of_reader,
    rights_of_site,
    united,
)
from ..live.node.node_settings import PriceSettings
from ..live.node.toml_tables import read_tables, require_types, table_of, value_of
from ..live.messages.topics import Topics, require_name
from .site_plan import SitePlan, require_sites, site_plan_of

TABLES = ("market", "basis", "broker", "prices", "auctioneer", "relays", "devices", "sites", "logins")
# The most relays between a device and the auctioneer: deeper trees may not settle by what is proved of them.
MOST_RELAYS = 6
# Names of folders beside those of nodes, sites and logins.
TAKEN = ("broker", "authority", "state")
# The database of a history that is a file of SQLite on its machine.
SQLITE = "sqlite"
# The service of the broker's clients, beside the market in containers.
CLIENT = "client"
# What a node's own login is followed by in the name of a further one.
CONTROL, PAGE = ".control", ".page"
_OWN = ("parent", "child", "least", "greatest", "host", "control", "page", "device")


@dataclass(frozen=True)
class BrokerPlan:
    """Where the market's broker is, and the limits that it has.

    host:             its name or address as nodes write it, which its certificate names
    port:             of MQTT by TLS
    max_connections:  the most connections; None takes twice what the tree needs, at least 256
    max_queued_bytes: the most bytes that wait for one login; None takes what a page of the whole tree needs, at least 1 MiB
    memory_limit:     the most bytes of memory; None takes what these need
    front:            whether haproxy is before the broker; None puts it there unless all is for this machine alone
    control_port:     of the controls' listener at the front; None takes the one behind `port`
    per_address:      the most connections of one address at each listener, and new ones in ten seconds; None takes what the tree needs
    """

    host: str = "127.0.0.1"
    port: int = 8883
    max_connections: int | None = None
    max_queued_bytes: int | None = None
    memory_limit: int | None = None
    front: bool | None = None
    control_port: int | None = None
    per_address: int | None = None

    def __post_init__(self) -> None:
        """Raises BadSettings."""
        if self.host == CLIENT:
            raise BadSettings(f"broker.host is {CLIENT}, which is the service of clients in compose.yaml: give the broker another name")
        if not 1 <= self.port <= 65_535:
            raise BadSettings(f"broker.port is {self.port}: give 1 to 65535")
        if not 1 <= self.port_of_controls <= 65_535 or self.port_of_controls == self.port:
            raise BadSettings(f"broker.control_port is {self.port_of_controls}: give 1 to 65535, and not that of broker.port")
        for name in ("max_connections", "max_queued_bytes", "memory_limit", "per_address"):
            value = getattr(self, name)
            if value is not None and value < 1:
                raise BadSettings(f"broker.{name} is {value}: give 1 or more")

    @property
    def port_of_controls(self) -> int:
        """The port of the controls' listener at the front."""
        return self.control_port if self.control_port is not None else self.port + (1 if self.port < 65_535 else -1)


@dataclass(frozen=True)
class MarketPlan:
    """What all nodes have in common.

    prefix:  the first levels of all topics
    command: the command cogmaula on the machines of nodes, by default where it is on this one
    here:    whether all is for this machine alone: then each file stays in the folder that it is made in
    """

    prefix: str = "market"
    command: str = field(default_factory=lambda: shutil.which("cogmaula") or "/usr/bin/cogmaula")
    here: bool = False


@dataclass(frozen=True)
class Member:
    """A node of the tree.

    parent:  the name of the node above, and `child` the number there; None of the auctioneer
    least:   the least power in watts that it may bid at its parent, and `greatest` the greatest; None without a bound
    host:    the machine that it runs on, None for one of its own
    control: whether a device's control has a login of its own
    page:    the table `page` of its settings, None without a page
    device:  the table `device` of its settings, the kind of a device, None if its control offers otherwise or names it
    more:    further members of the table `node` of its settings
    """

    sort: Sort
    name: str
    parent: str | None = None
    child: int | None = None
    least: int | None = None
    greatest: int | None = None
    host: str | None = None
    control: bool = False
    page: Mapping[str, Any] | None = None
    device: Mapping[str, Any] | None = None
    more: Mapping[str, Any] = field(default_factory=dict)


@dataclass(frozen=True)
class Login:
    """Somebody who logs in at the broker and is no node: an operator, a reader, or a grid operator of these relays.

    database: of a reader that keeps the history of the market: SQLITE, or the URL of a database of PostgreSQL; None if it keeps none
    """

    name: str
    role: Literal["operator", "reader", "grid operator"]
    relays: tuple[str, ...] = ()
    database: str | None = None


@dataclass(frozen=True)
class Tree:
    """A market. Each node but the auctioneer has a number below its parent."""

    market: MarketPlan
    basis: Basis
    broker: BrokerPlan
    members: tuple[Member, ...]
    logins: tuple[Login, ...] = ()
    prices: PriceSettings = field(default_factory=PriceSettings)
    sites: tuple[SitePlan, ...] = ()

    def __post_init__(self) -> None:
        """Raises BadSettings."""
        names = [member.name for member in self.members] + [site.name for site in self.sites] + [login.name for login in self.logins]
        for name in names:
            if names.count(name) > 1 or name in TAKEN:
                raise BadSettings(f"{name} is {'there twice' if name not in TAKEN else 'a name of another folder'}: give another name")
        self._require_tree()
        require_sites(self.sites, {member.name: member.host for member in self.members})
        for login in self.logins:
            relays = [member.name for member in self.members if member.sort == "relay" and member.more.get("limits_from")]
            if lacking := [relay for relay in login.relays if relay not in relays]:
                raise BadSettings(f"logins.{login.name} limits {', '.join(lacking)}, no relay with limits_from = true")
            if (login.role == "grid operator") != bool(login.relays):
                raise BadSettings(f"logins.{login.name}: relays go with the role grid operator")

    def _require_tree(self) -> None:
        """Raises BadSettings unless each node has a place of its own below another one, and the auctioneer above it."""
        known, places = {member.name: member for member in self.members}, set()
        for member in self.members:
            if member.parent is None:
                continue
            above = known.get(member.parent)
            if above is None or above.sort == "device":
                raise BadSettings(f"{member.name} has the parent {member.parent}, which is no relay and no auctioneer of the file")
            if (member.parent, member.child) in places or member.child is None:
                raise BadSettings(f"child {member.child} of {member.parent} is there twice: give {member.name} another number, or none")
            places.add((member.parent, member.child))
            seen = {member.name}
            while above is not None and above.parent is not None:
                if above.name in seen:
                    raise BadSettings(f"{member.name} is below itself")
                seen.add(above.name)
                above = known.get(above.parent)
            if len(seen) - (member.sort == "device") > MOST_RELAYS:
                raise BadSettings(f"{member.name} is below more than {MOST_RELAYS} relays: give it a parent nearer to the auctioneer")

    @property
    def has_front(self) -> bool:
        """Whether haproxy is before the broker."""
        return self.broker.front if self.broker.front is not None else not self.market.here

    def port_of(self, login: str) -> int:
        """The port of the broker at which a login comes in."""
        return self.broker.port_of_controls if self.has_front and login.endswith(CONTROL) else self.broker.port

    def member(self, name: str) -> Member:
        """A node by its name. Raises BadSettings."""
        found = next((member for member in self.members if member.name == name), None)
        if found is None:
            raise BadSettings(f"no node is called {name}")
        return found

    def children(self, name: str) -> list[Member]:
        """The nodes directly below one, by their numbers."""
        return sorted((member for member in self.members if member.parent == name), key=lambda member: member.child or 0)

    @property
    def alone(self) -> list[Member]:
        """The nodes that run by themselves, in no site."""
        return [member for member in self.members if self.site_of(member.name) is None]

    def site_of(self, name: str) -> SitePlan | None:
        """The site that a node runs in, None if it runs by itself."""
        return self._sites.get(name)

    def folder_of(self, name: str) -> str:
        """The folder of a node's files, and its login at the broker: those of its site, or else its own."""
        site = self.site_of(name)
        return name if site is None else site.name

    def host_of(self, member: Member) -> str | None:
        """The machine that the file names for a node or for its site, None if it names none."""
        site = self.site_of(member.name)
        return member.host if site is None or site.host is None else site.host

    def _sites_of(self, nodes: Iterable[str]) -> frozenset[str]:
        """The sites in which some nodes run."""
        return frozenset(site.name for node in nodes if (site := self.site_of(node)) is not None)

    @cached_property
    def _sites(self) -> dict[str, SitePlan]:
        return {node: site for site in self.sites for node in site.nodes}

    @property
    def topics(self) -> Topics:
        """The topics of the market."""
        return Topics(self.market.prefix)

    def rights(self) -> dict[str, list[Right]]:
        """What each login at the broker may do, by its name. That of a site has the rights of all its nodes."""
        topics = self.topics
        found: dict[str, list[Right]] = {}
        places = [(member.parent, member.child) for member in self.members if member.parent is not None and member.child is not None]
        for member in self.members:
            children = {below.child: below.name for below in self.children(member.name) if below.child is not None}
            near = self._sites_of([*children.values(), *([] if member.parent is None else [member.parent])])
            place = Place(member.sort, member.name, member.parent, member.child, children, bool(member.more.get("limits_from")), near)
            found.setdefault(self.folder_of(member.name), []).extend(rights_of_node(topics, place))
            if member.control:
                found[member.name + CONTROL] = rights_of_control(topics, member.name, self._sites_of([member.name]))
            if member.page is not None and member.page.get("whole"):
                found[member.name + PAGE] = rights_of_reader(topics)
        for site in self.sites:
            found[site.name] = united([*found[site.name], *rights_of_site(topics, site.name)])
        for login in self.logins:
            match login.role:
                case "operator":
                    found[login.name] = rights_of_operator(topics, places)
                case "reader":
                    found[login.name] = rights_of_reader(topics)
                case _:
                    found[login.name] = rights_of_grid_operator(topics, login.relays, self._sites_of(login.relays))
        return found

    def with_device(self, device: Member, site: str | None = None) -> Tree:
        """The tree with one more device, which runs in a site or by itself.

        Without a number it gets the one behind the greatest of its parent. Raises BadSettings.
        """
        parent = self.member(device.parent or "")
        if device.child is None:
            numbers = [child.child or 0 for child in self.children(parent.name)]
            number = max(numbers, default=0) + 1
            number += number == _giver_of(parent)
            device = replace(device, child=_require_child(number, device.name))
        if site is not None and site not in (known := [one.name for one in self.sites]):
            raise BadSettings(f"no site is called {site}: {f'give {chr(32).join(known)}' if known else 'the market has none'}")
        sites = tuple(replace(one, nodes=(*one.nodes, device.name)) if one.name == site else one for one in self.sites)
        return replace(self, members=(*self.members, device), sites=sites)

    def to_tables(self) -> dict[str, dict[str, Any]]:
        """The tables of a file that names this market, with all numbers."""
        found: dict[str, dict[str, Any]] = {part: dict(vars(getattr(self, part))) for part in ("market", "basis", "broker", "prices")}
        for member in self.members:
            own = {name: getattr(member, name) for name in ("parent", "child", "least", "greatest", "host")}
            told = {**own, "control": member.control or None, **member.more, "page": member.page, "device": member.device}
            if member.sort == "auctioneer":
                found["auctioneer"] = {"name": member.name, **told}
            else:
                found.setdefault(f"{member.sort}s", {})[member.name] = told
        if self.sites:
            found["sites"] = {site.name: site.to_table() for site in self.sites}
        if self.logins:
            found["logins"] = {
                login.name: {"role": login.role, "relays": list(login.relays) or None, "database": login.database} for login in self.logins
            }
        return found


def _giver_of(member: Member) -> int:
    """The number below a node that is kept free for limits, 0 if none is."""
    return int(member.more.get("giver", CHILDREN)) if member.more.get("limits_from") else 0


def _require_child(number: int, name: str) -> int:
    if not 1 <= number <= CHILDREN:
        raise BadSettings(f"{name} would be child {number}: its parent has no number left. Give it another parent, or child = NUMBER")
    return number


def read_tree(path: str | os.PathLike[str]) -> Tree:
    """The market that a file names. Raises BadSettings if it is none, and OSError."""
    tables = read_tables(path, TABLES)
    try:
        return tree_of(tables)
    except BadSettings as error:
        raise BadSettings(f"{path}: {error}") from None


def tree_of(tables: Mapping[str, Any]) -> Tree:
    """The market that the tables of a file name. Raises BadSettings."""
    for name, table in tables.items():
        if name not in TABLES or not isinstance(table, Mapping):
            raise BadSettings(f"{name} is not known there: a file has the tables {', '.join(TABLES)}")
    market = value_of(MarketPlan, tables.get("market", {}), "market")
    basis = value_of(Basis, tables.get("basis", {}), "basis")
    broker = value_of(BrokerPlan, tables.get("broker", {}), "broker")
    prices = value_of(PriceSettings, tables.get("prices", {}), "prices")
    first = dict(tables.get("auctioneer", {}))
    root = _member("auctioneer", first.pop("name", "auctioneer"), first, "auctioneer")
    members = [root]
    for sort, word in (("relay", "relays"), ("device", "devices")):
        for name, table in tables.get(word, {}).items():
            place = f"{word}.{name}"
            members.append(_member(cast(Sort, sort), name, {"parent": root.name, **table_of(table, place)}, place))
    logins = [_login(name, table_of(table, f"logins.{name}")) for name, table in tables.get("logins", {}).items()]
    sites = [site_plan_of(name, table) for name, table in tables.get("sites", {}).items()]
    return Tree(market, basis, broker, tuple(_numbered(members)), tuple(logins), prices, tuple(sites))


def _member(sort: Sort, name: str, table: Mapping[str, Any], place: str) -> Member:
    """The node of a table, whose place is its name in the file. Raises BadSettings."""
    require_name(name, f"a {sort}")
    own = {word: table[word] for word in _OWN if word in table}
    page = own.get("page")
    if isinstance(page, str):
        own["page"] = {"listen": page, "whole": True}
    elif page is not None:
        own["page"] = dict(table_of(page, f"{place}.page"))
    if "device" in own:
        own["device"] = dict(table_of(own["device"], f"{place}.device"))
    require_types(Member, own, place)
    if own.get("control") and sort != "device":
        raise BadSettings(f"control of {name} is for a device: take it out")
    if wrong := {"name", "state", "new_session", "leave", "children"} & table.keys():
        raise BadSettings(f"{name} has {', '.join(sorted(wrong))}, which no file of a tree has: take it out")
    return Member(sort, name, more={key: value for key, value in table.items() if key not in _OWN}, **own)


def _login(name: str, table: Mapping[str, Any]) -> Login:
    require_name(name, "a login")
    role, relays = table.get("role"), table.get("relays", [])
    database = table.get("database")
    if role not in ("operator", "reader", "grid operator") or table.keys() - {"role", "relays", "database"}:
        raise BadSettings(
            f'logins.{name} has a role, "operator", "reader" or "grid operator". The last one has relays = ["NAME"], and a reader may have a database'
        )
    if database is not None and (role != "reader" or not _is_database(database)):
        raise BadSettings(f'logins.{name}.database is {database!r}: give a reader "sqlite", or postgresql://USER@HOST/NAME without a password')
    if not isinstance(relays, list) or not all(isinstance(relay, str) for relay in relays):
        raise BadSettings(f"logins.{name}.relays is {relays!r}: give a list of names")
    return Login(name, role, tuple(relays), database)


def _is_database(database: object) -> bool:
    """Whether a history may be kept there. A URL is a word of a unit, which each user of the machine may read."""
    if not isinstance(database, str) or not re.fullmatch(r"[!-~]+", database):
        return False
    try:
        told = urlsplit(database)
        return database == SQLITE or (told.scheme == "postgresql" and told.password is None and not set("\"'\\$") & set(database))
    except ValueError:
        return False


def _numbered(members: list[Member]) -> list[Member]:
    """The nodes, each with a number below its parent: its own, or else the first that is free there. Raises BadSettings."""
    givers = {member.name: _giver_of(member) for member in members}
    taken: dict[str, set[int]] = {member.name: {givers[member.name]} for member in members}
    for member in members:
        if member.parent is not None and member.child is not None:
            taken.setdefault(member.parent, set()).add(_require_child(member.child, member.name))
    found = []
    for member in members:
        if member.parent is not None and member.child is None:
            numbers = taken.setdefault(member.parent, set())
            free = next(number for number in range(1, CHILDREN + 2) if number not in numbers)
            numbers.add(free)
            found.append(replace(member, child=_require_child(free, member.name)))
        else:
            found.append(member)
    return found
