"""What a node publishes, each message with the session that it is of."""

from __future__ import annotations

from .broker_link import Link, Publication
from ..children.children import FORM, SESSION, TIME
from ..messages.messages import VERSION


class Publisher:
    """The publications of one node. All calls are of the node's one thread."""

    def __init__(self, link: Link) -> None:
        """Takes the node's connection."""
        self._link = link
        self._session = ""

    def begin(self, session: str) -> None:
        """Publishes as of this session from now on, by its id, also behind its end."""
        self._session = session

    def publish(self, topic: str, payload: bytes, moment: str, more: tuple[tuple[str, str], ...] = ()) -> None:
        """Publishes what is of the session, or of the one before. `moment` is the time that it tells (RFC 3339)."""
        self._link.publish(Publication(topic, payload, ((TIME, moment), (SESSION, self._session), (FORM, str(VERSION)), *more)))

    def clear(self, topic: str) -> None:
        """Clears a topic, unless it was cleared before."""
        kept = self._link.kept(topic)
        if kept is None or kept.payload:
            self._link.publish(Publication(topic, b""))

    def clear_told(self, topic: str) -> None:
        """Clears a topic if something was published there, and nothing has cleared it."""
        kept = self._link.kept(topic)
        if kept is not None and kept.payload:
            self.clear(topic)
