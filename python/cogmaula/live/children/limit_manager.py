"""The limits of a relay while it works: those that it is given, what it tells of them, and the alarm if they cannot be kept."""

from __future__ import annotations

from ..node.node_errors import BadMessage
from ..messages.frames import Limits, OutOfLimits, RelayResume
from .given_limits import GivenLimits
from ..node.session_store import SessionStore
from ..node.node_parts import NodeParts
from ..node.sessions import now_text
from ..node.store import Given

# The seconds after a bid for which the service may still say that its sum is out of limits.
SETTLES = 0.5


class LimitManager:
    """The limits of one relay in one session. All calls are of the node's one thread; times are seconds of a clock that only rises."""

    def __init__(self, parts: NodeParts, keeping: SessionStore, resume: RelayResume | None) -> None:
        """Begins a session with what is stored of it and its Resume."""
        settings = parts.settings
        self._settings = settings
        self._keeping = keeping
        self._publisher = parts.publisher
        self._log = parts.log
        self._feed = parts.feed
        self._has_news = parts.asking.has_news
        self.given = GivenLimits(settings.floor, settings.ceiling, settings.place_of_limits)
        self.given.begin(keeping.stored.given, resume)
        # The newest bid whose sum was out of limits, and when a later one counts as within them.
        self._out = 0
        self._within_at: float | None = None
        self._tell()

    @property
    def frames(self) -> list[bytes]:
        """The frames that give the newest limits again, for a service that starts."""
        given = self.given.given
        return [] if given is None else [Limits(given.number, given.floor, given.ceiling).to_bytes()]

    @property
    def alarm(self) -> str:
        """What is wrong, "" if the limits are kept."""
        floor, ceiling = self.given.newest
        return "" if self.given.is_kept else f"no price brings the power within {floor} to {ceiling} W"

    def take(self, data: bytes) -> None:
        """Takes a message of the one who gives limits. What is wrong with it is told there."""
        try:
            self._give(self.given.taken(data))
        except BadMessage as error:
            self._log.of_stranger("limits").warning(f"limits are not taken: {error}")
            self.given.refuse(str(error))
        self._tell()

    def _give(self, given: Given | None) -> None:
        """Stores limits under a number of their own, and then feeds them."""
        if given is None:
            return
        self._keeping.change(given=given)
        self.given.gives(given)
        self._log.of_stranger("limits given").info(f"the limits are {given.floor} to {given.ceiling} W from the next bid on")
        self._has_news()
        self._feed(Limits(given.number, given.floor, given.ceiling).to_bytes())

    def tick(self, now: float) -> None:
        """Takes the settings' own limits again once the given ones end, and lets an alarm end."""
        if self.given.is_over:
            self._give(self.given.over())
            self._publisher.clear(self._settings.own_topic("limits"))
            self._tell()
        if self._within_at is not None and now >= self._within_at:
            self._within_at = None
            self.given.is_kept = True
            self._log.info("the limits are kept again")
            self._tell()

    def bids(self, number: int, now: float) -> None:
        """Notes that a bid was sent. If it is out of limits, the service says so directly behind it."""
        if not self.given.is_kept and number != self._out:
            self._within_at = now + SETTLES

    def out_of_limits(self, frame: OutOfLimits) -> None:
        """Takes what the service says of a bid."""
        self._out, self._within_at = frame.number, None
        if self.given.is_kept:
            self.given.is_kept = False
            self._log.error(f"ALARM: {self.alarm}, in bid {frame.number}")
            self._tell()

    def resumed(self, resume: RelayResume) -> None:
        """Goes by a newer Resume, and tells the clearing from which on setpoints keep the limits."""
        if self.given.resumed(resume):
            self._tell()

    def _tell(self) -> None:
        if self._settings.limits_from:
            self._publisher.publish(self._settings.own_topic("limits/state"), self.given.to_bytes(), now_text())
