"""What a site says of its own process at the broker: that it is up, and by the last will of its one connection that it is not."""

from __future__ import annotations

import secrets
from typing import Literal

from ...logs import NodeLog
from ..broker.broker_link import Message, Publication
from ..messages.messages import LOST, SiteMessage
from ..node.node_settings import BrokerSettings
from ..node.sessions import now_text
from ..messages.topics import Topics

# The seconds after which a state that did not come back is told.
PATIENCE = 10.0


class SiteLife:
    """One process of a site. All calls are of the loop's thread, but for `will`. Times are seconds of a clock that only rises."""

    def __init__(self, name: str, settings: BrokerSettings, log: NodeLog) -> None:
        """Takes the name of the site, its broker, and a log."""
        self.name = name
        self.topic = Topics(settings.prefix).site(name)
        # The run of each node of the site.
        self.run = secrets.token_hex(8)
        self._settings = settings
        self._log = log
        self._started = now_text()
        # Since when what was published last did not come back, and whether that was told.
        self._since: float | None = None
        self._told: bytes = b""
        self._is_warned = False

    def _of(self, state: Literal["up", "down"], why: str, lost: bool = False) -> Publication:
        return Publication(self.topic, SiteMessage(state, self.run, self._started, now_text(), why, lost).to_bytes())

    def will(self) -> Publication:
        """The last will of a connection that is made now."""
        return self._of("down", LOST, lost=True)

    def begins(self, now: float) -> Publication:
        """What a new connection tells first."""
        told = self._of("up", "")
        self._since, self._told = now, told.payload
        return told

    def ends(self, why: str) -> Publication:
        """What the site tells last."""
        self._since = None
        return self._of("down", why)

    def hear(self, message: Message) -> None:
        """Takes what comes back."""
        if message.payload == self._told:
            self._since = None

    def tick(self, now: float) -> None:
        """Says once that the broker does not let the site tell whether it is up."""
        if self._since is not None and now > self._since + PATIENCE and not self._is_warned:
            self._is_warned = True
            user = self._settings.user or "this site"
            self._log.warning(
                f"{self._settings.address} does not give {self.topic} back: let {user} write and read this topic, in the broker's list of rights. "
                "Until then the states of its nodes stay up if its process dies"
            )
