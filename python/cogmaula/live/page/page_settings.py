"""The settings of a page that shows a market: the table `page` of a node's file. docs/LIVE.md has them."""

from __future__ import annotations

import ipaddress
from dataclasses import dataclass
from urllib.parse import urlsplit

from ..node.node_errors import BadSettings


@dataclass(frozen=True)
class PageSettings:
    """Where a page is served, and what it shows.

    listen:        the address and the port, such as 127.0.0.1:8080
    insecure:      whether another address than loopback is meant, since the page has no login
    origin:        the address that browsers have for the page, if a proxy stands before it, such as https://market.example
    whole:         whether the page shows the whole market, by a reading connection of its own
    user:          the login of that connection, and `password_file` the file of its password; else those of the node
    """

    listen: str = "127.0.0.1:8080"
    insecure: bool = False
    origin: str | None = None
    whole: bool = False
    user: str | None = None
    password_file: str | None = None

    def __post_init__(self) -> None:
        """Raises BadSettings."""
        if not 0 <= self.port <= 65_535:
            raise BadSettings(f"page.listen is {self.listen!r}: give a port from 0 to 65535")
        if not self.is_loopback and not self.insecure:
            raise BadSettings(
                f"page.listen is {self.listen!r}, which others reach, and the page has no login: listen at 127.0.0.1 and put a proxy "
                "with a login before it, or give insecure = true"
            )
        if (self.user is None) != (self.password_file is None):
            raise BadSettings("page.user and page.password_file go together: give both or neither")
        if self.user is not None and not self.whole:
            raise BadSettings("page.user is the login that reads the whole market: give whole = true, or take it out")
        if self.origin is not None and not self._is_origin(self.origin):
            raise BadSettings(f"page.origin is {self.origin!r}: give the scheme, the host and the port, as in https://market.example")

    @staticmethod
    def _is_origin(text: str) -> bool:
        parts = urlsplit(text)
        return parts.scheme in ("http", "https") and bool(parts.netloc) and text == f"{parts.scheme}://{parts.netloc}"

    @property
    def host(self) -> str:
        """The address that is listened at."""
        return self._parts()[0]

    @property
    def port(self) -> int:
        """The port that is listened at. With 0 the system chooses one."""
        return self._parts()[1]

    def _parts(self) -> tuple[str, int]:
        """The address and the port. Raises BadSettings."""
        host, colon, port = self.listen.rpartition(":")
        host = host.removeprefix("[").removesuffix("]")
        if not colon or not port.isascii() or not port.isdigit() or len(port) > 5:
            raise BadSettings(f"page.listen is {self.listen!r}: give an address and a port, as in 127.0.0.1:8080")
        try:
            if host != "localhost":
                ipaddress.ip_address(host)
        except ValueError:
            raise BadSettings(f"page.listen is {self.listen!r}: give an address such as 127.0.0.1, and no name") from None
        return host, int(port)

    @property
    def is_loopback(self) -> bool:
        """Whether only this machine reaches the page."""
        return self.host == "localhost" or ipaddress.ip_address(self.host).is_loopback
