"""The settings of a hub, from a TOML file or from options. docs/HUB.md has them in a table."""

from __future__ import annotations

import ipaddress
import os
import re
from collections.abc import Mapping
from dataclasses import dataclass, field
from pathlib import Path
from typing import Any

from ..cluster import Basis
from ..live.node.node_errors import BadSettings
from ..live.page.page_settings import PageSettings
from ..live.node.node_settings import Settings
from ..live.node.market_times import MARGIN, VALIDITY, Times
from ..live.node.toml_tables import read_tables, value_of
from ..live.messages.topics import Topics, require_name
from ..program import live_command
from .agent_messages import Cluster

TABLES = ("hub", "basis", "page")
# The bytes of a file of a recording: a hub has many nodes, and a file is compressed once it has ended.
RECORD_SIZE = 4_194_304
# For how many seconds a bid holds by default after the agent's last one.
OFFER_VALIDITY = 300.0
_ADDRESS = re.compile(r"(?:\[([0-9A-Fa-f:.]+)\]|([^\[\]:]+)):([0-9]{1,5})")


@dataclass(frozen=True)
class Address:
    """Where the hub listens. The port 0 takes a free one."""

    host: str
    port: int

    def __str__(self) -> str:
        return f"[{self.host}]:{self.port}" if ":" in self.host else f"{self.host}:{self.port}"

    @staticmethod
    def of(text: str) -> Address:
        """The address that a text such as 127.0.0.1:8443 or [::1]:8443 is. Raises BadSettings."""
        found = _ADDRESS.fullmatch(text)
        if found is None or int(found[3]) > 65_535:
            raise BadSettings(f"the address is {text!r}: write HOST:PORT, such as 127.0.0.1:8443 or [::1]:8443")
        return Address(found[1] or found[2], int(found[3]))

    @property
    def is_loopback(self) -> bool:
        """Whether this machine alone reaches it."""
        try:
            return ipaddress.ip_address(self.host).is_loopback
        except ValueError:
            return self.host == "localhost"


@dataclass(frozen=True)
class HubSettings:
    """One hub.

    state:       the folder of what its nodes keep over a restart
    agents:      the file of tokens
    basis:       the market's prices
    name:        the auctioneer in topics
    live:        the program `live`
    listen:      the addresses for WebSocket
    listen_tcp:  those for lines over TCP
    certificate: the file of the hub's certificate and those above it, and `key` that of its key; with them all is by TLS
    insecure:    whether to listen without TLS where other machines reach it
    gone:        the seconds after which an agent that is disconnected leaves the market
    offer_validity: the seconds after which an agent that is connected and bids nothing leaves the market, as one that hangs
    deviation:   by how many watts a device may take something else than it is told, and `deviation_seconds` for how long; None for no bound
    validity:    the seconds for which a priceUpdate holds without a newer one, and `heartbeat` those between two
    period:      the seconds from one clearing to the next, by the clock; None clears after news
    pause:       the least seconds between two clearings after news
    clusterId, commodity, currency: how the market names itself to agents; the first is by default the hub's name
    new_session: whether the market begins a new session
    record:      the folder of the recordings of all nodes; None records nothing
    record_size: the bytes after which a file of a recording ends, is compressed, and the next begins
    record_files: how many files of each node are kept there, the newest; None keeps all
    page:        the page of the market, None for no page
    """

    state: str
    agents: str
    basis: Basis
    name: str = "hub"
    live: str = "live"
    listen: tuple[str, ...] = ()
    listen_tcp: tuple[str, ...] = ()
    certificate: str | None = None
    key: str | None = None
    insecure: bool = False
    gone: float = MARGIN * VALIDITY
    offer_validity: float = OFFER_VALIDITY
    deviation: float | None = None
    deviation_seconds: float = 60.0
    validity: float = VALIDITY
    heartbeat: float | None = None
    period: float | None = None
    pause: float = 1.0
    clusterId: str = ""
    commodity: str = "electricity"
    currency: str = "EUR"
    new_session: bool = False
    record: str | None = None
    record_size: int = RECORD_SIZE
    record_files: int | None = None
    page: PageSettings | None = None
    addresses: tuple[Address, ...] = field(init=False)
    addresses_tcp: tuple[Address, ...] = field(init=False)

    def __post_init__(self) -> None:
        """Raises BadSettings."""
        object.__setattr__(self, "addresses", tuple(map(Address.of, self.listen)))
        object.__setattr__(self, "addresses_tcp", tuple(map(Address.of, self.listen_tcp)))
        if not (self.listen or self.listen_tcp):
            raise BadSettings('the hub listens nowhere: give listen or listen_tcp, such as listen = ["127.0.0.1:8443"]')
        if (self.certificate is None) != (self.key is None):
            raise BadSettings("hub.certificate and hub.key go together: give both or neither")
        for address in self.addresses + self.addresses_tcp:
            if not (self.certificate or self.insecure or address.is_loopback):
                raise BadSettings(
                    f"the hub would listen at {address} without TLS, where other machines reach it: give certificate and key, "
                    "or say insecure = true"
                )
        if not MARGIN * self.validity <= self.gone <= 1e9:
            raise BadSettings(
                f"hub.gone is {self.gone:g} and hub.validity {self.validity:g}: give a gone of {MARGIN * self.validity:g} seconds or more, so that "
                "an agent has fallen back before it leaves"
            )
        if self.page is not None and (self.page.whole or self.page.user is not None):
            raise BadSettings("page.whole and page.user are for a node at a broker: a hub shows its whole market")
        # Those of the nodes are refused here, and not when the first agent comes.
        self.of_auctioneer()
        self.of_agent("agent", 1)

    @property
    def times(self) -> Times:
        """The times of the market."""
        return self.of_auctioneer().times

    @property
    def topics(self) -> Topics:
        """The topics of the market."""
        return self.of_auctioneer().topics

    @property
    def cluster(self) -> Cluster:
        """How the market names itself to agents."""
        return Cluster(self.clusterId or self.name, self.commodity, self.currency)

    @property
    def folder_of_agents(self) -> Path:
        """The folder that has a folder of each agent."""
        return Path(self.state) / "agents"

    @property
    def _recording(self) -> dict[str, Any]:
        return {"record": self.record, "record_size": self.record_size, "record_files": self.record_files}

    def of_auctioneer(self) -> Settings:
        """The settings of the auctioneer's node."""
        folder = str(Path(self.state) / "auctioneer")
        more: dict[str, Any] = {"period": self.period, "pause": self.pause, "new_session": self.new_session}
        more |= {"validity": self.validity, "heartbeat": self.heartbeat, "grace": self.gone, **self._recording}
        return Settings("auctioneer", self.name, folder, self.basis, self.live, **more)

    def of_agent(self, agent: str, child: int) -> Settings:
        """The settings of an agent's node. Raises BadSettings."""
        folder = str(self.folder_of_agents / agent)
        more: dict[str, Any] = {"parent": self.name, "child": child, "offer_validity": self.offer_validity, **self._recording}
        more |= {"deviation": self.deviation, "deviation_seconds": self.deviation_seconds}
        return Settings("device", require_name(agent, "the agent"), folder, self.basis, self.live, **more)


def hub_settings_of(tables: Mapping[str, Mapping[str, Any]]) -> HubSettings:
    """The settings that the tables `hub`, `basis` and `page` tell. Raises BadSettings."""
    hub = dict(tables.get("hub", {}))
    if "live" not in hub:
        hub["live"] = live_command()
    for name in ("listen", "listen_tcp"):
        hub[name] = _texts(hub.get(name, []), f"hub.{name}")
    if {"basis", "page", "addresses", "addresses_tcp"} & hub.keys():
        raise BadSettings("hub has a member basis, page, addresses or addresses_tcp: the first two are tables, and addresses are in listen")
    basis = value_of(Basis, tables.get("basis", {}), "basis")
    page = value_of(PageSettings, tables["page"], "page") if "page" in tables else None
    return value_of(HubSettings, {**hub, "basis": basis, "page": page}, "hub")


def read_hub_toml(path: str | os.PathLike[str]) -> dict[str, dict[str, Any]]:
    """The tables of a hub's file. Raises BadSettings and OSError."""
    return read_tables(path, TABLES)


def _texts(value: object, name: str) -> tuple[str, ...]:
    """A text, or a list of them."""
    found = [value] if isinstance(value, str) else value
    if not isinstance(found, list | tuple) or not all(isinstance(word, str) for word in found):
        raise BadSettings(f"{name} is {value!r}: give a list of addresses")
    return tuple(found)
