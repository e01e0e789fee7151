"""Whether a node hears its market: heartbeats come down the tree, and a device's bid is renewed.

The auctioneer makes a heartbeat each few seconds. A relay passes the newest one on while its service works. So a new heartbeat tells that
the whole path above lives. Which one is new is told by counts, and never by a clock, which may be set back. Its age is counted from when
this node heard it. Times without a zone here are seconds of a clock that only rises.
"""

from __future__ import annotations

import json
from dataclasses import dataclass, field
from datetime import datetime, timedelta, timezone
from typing import Any

from ... import clock
from .node_errors import BadMessage
from ..messages.messages import object_of
from .sessions import now_text, time_of, time_text
from .market_times import Times


# How many renewals are remembered at most, beside the newest, until a heartbeat says that the parent has heard them.
KEPT = 15


@dataclass(frozen=True, order=True)
class Heartbeat:
    """A heartbeat of the auctioneer. The greater one is the newer one, by `start` and then by `count`.

    start: how often the auctioneer has started, as its state tells it
    count: of this heartbeat since that start, from 1
    time:  when it was made by the auctioneer's clock (RFC 3339), which may be wrong
    """

    start: int
    count: int
    time: str = field(compare=False)

    def to_bytes(self) -> bytes:
        """The message."""
        return json.dumps({"time": self.time, "start": self.start, "count": self.count}).encode()

    @staticmethod
    def of(data: bytes) -> Heartbeat:
        """The heartbeat that a message tells. Raises BadMessage."""
        told = object_of(data, "the heartbeat")
        if not isinstance(told.get("time"), str):
            raise BadMessage("the heartbeat has no time")
        time_of(told["time"])
        return Heartbeat(_count(told, "start"), _count(told, "count"), told["time"])


def _count(told: dict[str, Any], name: str) -> int:
    value = told.get(name)
    if type(value) is not int or value < 0:
        raise BadMessage(f"the heartbeat has no whole number {name}")
    return value


class Silence:
    """What a node knows of the life of its market."""

    def __init__(self) -> None:
        """Has heard nothing, and waits for its first session as long as the default says."""
        self.begin(Times(), clock.now())

    def begin(self, times: Times, now: float) -> None:
        """Begins a session, as if a heartbeat had come now."""
        self.times = times
        # The newest heartbeat, when it came, the same by the clock of this machine (RFC 3339), and when the bid was sent that the
        # parent has heard, as far as is known.
        self.newest: Heartbeat | None = None
        self.heard = self._renewed = now
        # When the bids were sent that the broker has confirmed, and of which nobody knows whether the parent has heard them.
        self._confirmed: list[float] = []
        self.heard_at, self._began = "", now_text()
        # Since when the device is let go (RFC 3339), "" if it counts, why, and under which number it counts as gone.
        self.let_go_since = self._why = ""
        self._gone = 0

    def hear(self, beat: Heartbeat, now: float, retained: bool) -> bool:
        """Takes a heartbeat, and says whether it is newer than the one before.

        A heartbeat that the broker had kept may be old. Its age alone is taken from the clocks of two machines. It counts as heard no later
        than now, and no earlier than the one before it.
        """
        if self.newest is not None and beat <= self.newest:
            return False
        wall, heard = datetime.now(timezone.utc), now
        if retained:
            heard -= max(0.0, (wall - time_of(beat.time)).total_seconds())
            heard = heard if self.newest is None else max(heard, self.heard)
        self.newest, self.heard, self.heard_at = beat, heard, time_text(wall - timedelta(seconds=now - heard))
        # A parent that sent a heartbeat had heard what was on its way long before.
        known = [sent for sent in self._confirmed if sent <= heard - self.times.lag]
        self._renewed = max([self._renewed, *known])
        self._confirmed = self._confirmed[len(known) :]
        return True

    def bids(self, now: float) -> None:
        """Notes that the node begins to bid: the parent counts nothing of it yet, and the first bid has validity to be heard."""
        self._renewed, self._confirmed = max(self._renewed, now), []

    def renewed(self, sent: float) -> None:
        """Notes that the broker has confirmed the node's bid, which was sent then.

        The broker is not the parent, which may hang. So the bid counts once a heartbeat has come that the parent sent after it.
        """
        if not self._confirmed or sent > self._confirmed[-1]:
            self._confirmed = [*self._confirmed[-KEPT:], sent]

    def let_go(self, number: int, why: str) -> None:
        """Notes that the parent has let the device go, which counts as gone under this number."""
        self._gone = max(self._gone, number)
        if not self.let_go_since:
            self.let_go_since, self._why = now_text(), why

    def counts(self, number: int) -> None:
        """Notes that a clearing counted the device's bid of this number."""
        if number > self._gone:
            self.let_go_since = self._why = ""

    def is_silent(self, now: float, renews: bool) -> bool:
        """Whether the control has to fall back. `renews` says whether the node has a bid, whose renewals the broker has to confirm."""
        return bool(self.let_go_since) or now >= self._ends(renews)

    def _ends(self, renews: bool) -> float:
        """When it has to fall back if nothing newer comes: validity after the heartbeat or the renewal that counts, whichever is older."""
        newest = min(self.heard, self._renewed) if renews else self.heard
        return newest + self.times.validity

    @property
    def since(self) -> str:
        """Since when it is silent: when the newest heartbeat was heard, or when the device was let go (RFC 3339)."""
        return self.let_go_since or self.heard_at or self._began

    @property
    def why(self) -> str:
        """Why it is silent, in words."""
        return self._why or f"no heartbeat of the auctioneer came for {self.times.validity:g} s"

    def holds(self, now: float, renews: bool) -> float:
        """For how many seconds a setpoint holds that is told now, to a millisecond."""
        return max(0.0, round(self._ends(renews) - now, 3))

    def until(self, now: float, renews: bool) -> str:
        """Until when a setpoint holds that is told now, by the clock of this machine (RFC 3339).

        A node that dies renews no more, and its parent counts from its last renewal. So the control of a node with a bid falls back by
        itself before the parent lets the device go.
        """
        return time_text(datetime.now(timezone.utc) + timedelta(seconds=self._ends(renews) - now))
