"""The settings of a node: from a TOML file, from options, or from Python. docs/LIVE.md has them in a table."""

from __future__ import annotations

import os
import shutil
from collections.abc import Mapping
from dataclasses import dataclass, field
from functools import cached_property
from pathlib import Path
from typing import Any

from ...cluster import Basis
from ...program import live_command
from .node_errors import BadFrame, BadSettings
from ..messages.frames import CHILDREN, MOST, Sort, are_limits, is_basis
from ..device.device_kinds import DeviceKind
from ..page.page_settings import PageSettings
from .market_times import Times
from .safely import read_password
from .toml_tables import read_tables, table_of, value_of
from ..messages.topics import OF_CHILDREN, Topics, require_name, require_prefix

PASSWORD_VARIABLE = "COGMAULA_PASSWORD"
# For how many seconds an offer holds by default after the control's last word: a control that hangs does not count for ever.
OFFER_VALIDITY = 900.0
# The least size of a file of a recording, in bytes.
LEAST_SIZE = 1_024


@dataclass(frozen=True)
class BrokerSettings:
    """How to reach the broker.

    port:          by default 8883 with TLS and 1883 without
    tls:           whether the connection is by TLS; a CA or a certificate makes it so
    ca:            the file of the CA that signed the broker's certificate; without it those of the system count
    certificate:   the file of the node's own certificate, and `key` that of its key
    password_file: a file whose first line is the password; else the environment variable COGMAULA_PASSWORD
    keepalive:     seconds; a connection that is silent for 1.5 times as long is lost
    """

    host: str = "127.0.0.1"
    port: int | None = None
    prefix: str = "market"
    user: str | None = None
    password_file: str | None = None
    tls: bool = False
    ca: str | None = None
    certificate: str | None = None
    key: str | None = None
    keepalive: int = 10

    def __post_init__(self) -> None:
        """Raises BadSettings."""
        require_prefix(self.prefix)
        if self.port is not None and not 1 <= self.port <= 65_535:
            raise BadSettings(f"broker.port is {self.port}: give 1 to 65535")
        if not 1 <= self.keepalive <= 65_535:
            raise BadSettings(f"broker.keepalive is {self.keepalive}: give 1 to 65535 seconds")
        if (self.certificate is None) != (self.key is None):
            raise BadSettings("broker.certificate and broker.key go together: give both or neither")

    @property
    def with_tls(self) -> bool:
        """Whether the connection is by TLS."""
        return self.tls or self.ca is not None or self.certificate is not None

    @property
    def port_due(self) -> int:
        """The port, by default that of MQTT with or without TLS."""
        return self.port or (8883 if self.with_tls else 1883)

    @property
    def address(self) -> str:
        """The broker as lines name it."""
        return f"{self.host}:{self.port_due}"

    def password(self) -> str | None:
        """The password now, or None. Raises OSError if its file cannot be read, or others may read or write it."""
        if self.password_file is not None:
            return read_password(self.password_file)
        return os.environ.get(PASSWORD_VARIABLE)


def _require_child_pause(pause: float | None, what: str) -> None:
    if pause is not None and not 0 <= pause <= 1e9:
        raise BadSettings(f"{what} {pause}: give 0 seconds or more")


@dataclass(frozen=True)
class ChildSettings:
    """What a parent's file says of one child.

    child:    its number
    least:    the least power in watts that it may bid, and `greatest` the greatest
    sort:     what it is, device or relay; None goes by what it says itself. A relay is never let go
    pause:    the seconds between two bids of it that count; None takes child_pause of the node
    """

    child: int
    least: int = -MOST
    greatest: int = MOST
    sort: str | None = None
    pause: float | None = None

    def __post_init__(self) -> None:
        """Raises BadSettings."""
        if self.sort not in (None, "device", "relay"):
            raise BadSettings(f"child {self.child} is a {self.sort!r}: give device or relay")
        _require_child_pause(self.pause, f"child {self.child} has a pause of")
        if not 1 <= self.child <= CHILDREN:
            raise BadSettings(f"children has the child {self.child}: give 1 to {CHILDREN}")
        if not are_limits(self.least, self.greatest):
            raise BadSettings(f"child {self.child} has least {self.least} and greatest {self.greatest}: give -{MOST} to 0 and 0 to {MOST} watts")


@dataclass(frozen=True)
class PriceSettings:
    """How a node tells its children their prices: together by one message, or each child by a topic of its own."""

    together: bool = True


@dataclass(frozen=True)
class Settings:
    """One node of a market.

    name:     the node in topics
    state:    the folder of its stored Resume
    basis:    the market's prices
    live:     the program `live`
    parent:   the name of the node above, of a relay and a device
    child:    its own number there, 1 to 256
    floor:    the least power that a relay announces, in watts, at most 0; ceiling the greatest, at least 0
    period:   the seconds from one Clear or Send to the next, by the clock; None asks after news
    pause:    the least seconds between two of them if they come after news
    child_pause: of a parent, the least seconds between two bids of one child that count
    limits_from: whether a relay takes limits that are given while the market lives, as of a grid operator
    giver:    the child number that is kept free for them
    validity, heartbeat, grace: the times of the market that an auctioneer tells, in seconds; None takes the default. See Times
    fallback: the power in watts that a device's control is told while the market is silent
    device:   the kind of a device whose control says its state; None if it offers otherwise, or names the kind itself
    offer_validity: the seconds after which a device whose control offers nothing leaves, not even the same again; None keeps its bid
    deviation: by how many watts a device may take something else than it is told; None lets nothing follow from what it measures
    deviation_seconds: for how long; twice as long, and it counts as what it measures
    prices:   of a parent, how it tells prices
    children: of a parent, the bounds of children
    new_session: whether an auctioneer begins a new session
    leave:    whether a device leaves, or a relay lets all of its devices go, and the node then ends
    page:     the page that the node serves, None for no page
    record:   the folder of the node's recording; None records nothing
    record_size:  the bytes after which a file of the recording ends and the next begins
    record_files: how many files of the node are kept there, the newest; None keeps all
    """

    sort: Sort
    name: str
    state: str
    basis: Basis
    live: str = "live"
    parent: str | None = None
    child: int | None = None
    floor: int = -MOST
    ceiling: int = MOST
    period: float | None = None
    pause: float = 1.0
    child_pause: float = 0.0
    limits_from: bool = False
    giver: int = CHILDREN
    validity: float | None = None
    heartbeat: float | None = None
    grace: float | None = None
    fallback: int = 0
    offer_validity: float | None = OFFER_VALIDITY
    deviation: float | None = None
    deviation_seconds: float = 60.0
    new_session: bool = False
    leave: bool = False
    record: str | None = None
    record_size: int = 67_108_864
    record_files: int | None = None
    broker: BrokerSettings = field(default_factory=BrokerSettings)
    page: PageSettings | None = None
    prices: PriceSettings = field(default_factory=PriceSettings)
    children: tuple[ChildSettings, ...] = ()
    device: DeviceKind | None = None

    def __post_init__(self) -> None:
        """Raises BadSettings."""
        require_name(self.name, "name")
        self._require_place()
        self._require_times()
        self._require_basis()
        self._require_limits()
        self._require_children()
        self._require_page_login()
        if (self.new_session and self.sort != "auctioneer") or (self.leave and self.sort == "auctioneer"):
            raise BadSettings("new_session is for an auctioneer, and leave for a device or a relay")
        if self.device is not None and self.sort != "device":
            raise BadSettings(f"the table device is for a device, and this is {self.name}, of sort {self.sort}: take it out")
        if self.record_size < LEAST_SIZE:
            raise BadSettings(f"record_size is {self.record_size}: give {LEAST_SIZE} bytes or more")
        if self.record_files is not None and self.record_files < 1:
            raise BadSettings(f"record_files is {self.record_files}: give 1 or more")

    @property
    def is_fence(self) -> bool:
        """Whether this is a life of a relay in which it lets all of its devices go, bids without them, and ends."""
        return self.leave and self.sort == "relay"

    @property
    def place_of_limits(self) -> int:
        """The child number in whose place a relay is given limits, 0 if it is not given any."""
        return self.giver if self.limits_from else 0

    @property
    def terms(self) -> tuple[int, int, int]:
        """What all processes of a relay have to agree on: FLOOR, CEILING and GIVER of its service, 0 without GIVER."""
        return self.floor, self.ceiling, self.place_of_limits

    @property
    def times(self) -> Times:
        """The times of the market that an auctioneer tells. Raises BadSettings."""
        return Times.of(self.validity, self.heartbeat, self.grace)

    def _require_limits(self) -> None:
        if not are_limits(self.floor, self.ceiling):
            raise BadSettings(f"floor and ceiling are {self.floor} and {self.ceiling}: give -{MOST} to 0 and 0 to {MOST} watts")
        if self.limits_from and self.sort != "relay":
            raise BadSettings("limits_from is for a relay: take it out")
        if not 1 <= self.giver <= CHILDREN:
            raise BadSettings(f"giver is {self.giver}: give 1 to {CHILDREN}, a number that no child has")
        if abs(self.fallback) > MOST:
            raise BadSettings(f"fallback is {self.fallback}: give a power within ±{MOST} watts")

    def _require_children(self) -> None:
        if self.children and self.sort == "device":
            raise BadSettings("a device has no children: take them out")
        numbers = [child.child for child in self.children]
        for child in numbers:
            if numbers.count(child) > 1:
                raise BadSettings(f"child {child} is there twice in children: take one out")
            if child == self.place_of_limits:
                raise BadSettings(f"child {child} is the place in which limits are given: give another giver")

    def _require_page_login(self) -> None:
        """Raises BadSettings if the page reads by the node's own login: a broker lets each login have one connection."""
        if self.page is not None and self.page.whole and self.broker.user is not None and self.page.user in (None, self.broker.user):
            raise BadSettings("page.whole reads by a connection of its own: give page.user and page.password_file, a login of its own")

    def require_files(self) -> None:
        """Raises BadSettings if a file that the node needs is missing or cannot be read: the program live, the CA, the password, the key."""
        if shutil.which(self.live) is None:
            raise BadSettings(f"node.live is {self.live!r}, and there is no such program: give the program live by --live")
        broker = self.broker
        files = {"ca": broker.ca, "certificate": broker.certificate, "key": broker.key, "password_file": broker.password_file}
        for name, path in files.items():
            if path is None:
                continue
            try:
                if name == "password_file":
                    read_password(path)
                else:
                    Path(path).open("rb").close()
            except OSError as error:
                raise BadSettings(f"broker.{name} is {path}, which cannot be read: {error.strerror}") from None

    def _require_place(self) -> None:
        if self.sort == "auctioneer":
            if self.parent is not None or self.child is not None:
                raise BadSettings("an auctioneer has no parent and no child number: take them out")
            return
        if self.parent is None or self.child is None:
            raise BadSettings(f"a {self.sort} needs parent, the name of the node above, and child, its own number there")
        if require_name(self.parent, "parent") == self.name:
            raise BadSettings(f"parent is the node itself, {self.name}")
        if not 1 <= self.child <= CHILDREN:
            raise BadSettings(f"child is {self.child}: give 1 to {CHILDREN}")

    def _require_times(self) -> None:
        for name, value, least in (("period", self.period, 0.01), ("pause", self.pause, 0), ("offer_validity", self.offer_validity, 0.01)):
            if value is not None and not least <= value <= 1e9:
                raise BadSettings(f"{name} is {value}: give {least} seconds or more")
        if not 0 < self.deviation_seconds <= 1e9 or (self.deviation is not None and not 0 <= self.deviation <= MOST):
            raise BadSettings(f"deviation is {self.deviation} and deviation_seconds {self.deviation_seconds}: give watts of 0 or more, and seconds above 0")
        _require_child_pause(self.child_pause, "child_pause is")
        if self.sort == "device" and self.child_pause:
            raise BadSettings("a device has no children: take child_pause out")
        if self.sort == "device" and self.validity is not None:
            raise BadSettings("validity of a device is offer_validity now: write that. The market's own validity is the auctioneer's")
        if self.sort != "auctioneer" and (self.validity, self.heartbeat, self.grace) != (None, None, None):
            raise BadSettings("validity, heartbeat and grace are the auctioneer's, which tells them to all: take them out")
        self.times  # noqa: B018 - it raises

    def _require_basis(self) -> None:
        basis = self.basis
        if is_basis(basis):
            return
        if 2 <= basis.steps <= 1_000 and -MOST <= basis.min < basis.max <= MOST:
            raise BadSettings(f"the basis is {basis}: max - min has to be a multiple of steps - 1")
        raise BadSettings(f"the basis is {basis}: give 2 to 1000 steps from min to a greater max, within ±{MOST}")

    @property
    def shows_itself(self) -> bool:
        """Whether the node has a page that shows what the node itself hears."""
        return self.page is not None and not self.page.whole

    @cached_property
    def topics(self) -> Topics:
        """The topics of the market."""
        return Topics(self.broker.prefix)

    def own_topic(self, what: str) -> str:
        """One of the node's own topics: `bid`, `price`, `lapsed` and `refused` are its parent's, the others such as `state` its own."""
        found = self._own_topics.get(what)
        if found is None:
            found = self._own_topics[what] = self._own_topic_of(what)
        return found

    def _own_topic_of(self, what: str) -> str:
        if what in OF_CHILDREN:
            assert self.parent is not None and self.child is not None
            return self.topics.at(self.parent, what, self.child)
        return self.topics.of(self.name, what)

    @cached_property
    def _own_topics(self) -> dict[str, str]:
        """The own topics that were asked for: a node asks for them at each look at the clock."""
        return {}

    @property
    def command(self) -> list[str]:
        """The command line of the node's service."""
        match self.sort:
            case "auctioneer":
                return [self.live, "auctioneer"]
            case "device":
                return [self.live, "device", str(self.child)]
            case _:
                place = [str(self.giver)] if self.limits_from else []
                return [self.live, "relay", str(self.child), str(self.floor), str(self.ceiling), *place]


# The tables of a node's file.
TABLES = ("node", "basis", "broker", "page", "prices", "children", "device")


def read_toml(path: str | os.PathLike[str]) -> dict[str, dict[str, Any]]:
    """The tables of a node's file. Raises BadSettings and OSError."""
    return read_tables(path, TABLES)


def settings_of(sort: Sort, tables: Mapping[str, Mapping[str, Any]]) -> Settings:
    """The settings that the tables `node`, `basis`, `broker`, `page`, `prices`, `children` and `device` tell. Raises BadSettings."""
    node = dict(tables.get("node", {}))
    if "live" not in node:
        node["live"] = live_command()
    basis = value_of(Basis, tables.get("basis", {}), "basis")
    broker = value_of(BrokerSettings, tables.get("broker", {}), "broker")
    page = value_of(PageSettings, tables["page"], "page") if "page" in tables else None
    if {"sort", *TABLES[1:]} & node.keys():
        raise BadSettings(f"node has a member sort, {', '.join(TABLES[1:-1])} or {TABLES[-1]}: the command says the sort, and the others are tables")
    prices = value_of(PriceSettings, tables.get("prices", {}), "prices")
    parts: dict[str, Any] = {"sort": sort, "basis": basis, "broker": broker, "page": page, "prices": prices}
    parts["children"] = children_of(tables.get("children", {}))
    try:
        parts["device"] = DeviceKind.of(tables["device"]) if "device" in tables else None
    except BadFrame as error:
        raise BadSettings(f"device: {error}") from None
    return value_of(Settings, {**node, **parts}, "node")


def children_of(tables: Mapping[str, Any]) -> tuple[ChildSettings, ...]:
    """The bounds of children that the tables `children.NAME` tell, in the order of the children. Raises BadSettings."""
    found = []
    for name, table in tables.items():
        place = f"children.{name}"
        found.append(value_of(ChildSettings, table_of(table, place), place))
    return tuple(sorted(found, key=lambda child: child.child))
