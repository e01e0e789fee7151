"""The heartbeats of a node: the auctioneer makes them, a relay passes them on, and a device renews its bid as often."""

from __future__ import annotations

import math

from ..broker.broker_link import Link, Publication
from ..messages.frames import Bid
from ..broker.publisher import Publisher
from .sessions import now_text
from .node_settings import Settings
from .silence import Heartbeat, Silence
from .market_times import Times


class HeartbeatSender:
    """The heartbeats of one node. All calls are of the node's one thread; times are seconds of a clock that only rises."""

    def __init__(self, settings: Settings, publisher: Publisher, link: Link) -> None:
        """Takes what the node has."""
        self._settings = settings
        self._publisher = publisher
        self._link = link
        self.silence = Silence()
        # The heartbeat that was passed on last; the auctioneer's start, and how many heartbeats it has made since.
        self._passed: Heartbeat | None = None
        self._start = self._made = 0
        self._next = -math.inf
        # The bid that was published last, and when.
        self._bid: Publication | None = None
        self._sent = 0.0

    def begin(self, times: Times, now: float, start: int) -> None:
        """Begins a session. `start` is the count of the node's starts, by which the auctioneer's heartbeats rise from start to start."""
        self.silence.begin(times, now)
        self._start = start
        self._passed, self._next, self._bid = None, -math.inf, None

    def hear(self, data: bytes, now: float, retained: bool) -> None:
        """Takes a heartbeat of the parent. Raises BadMessage."""
        if data:
            self.silence.hear(Heartbeat.of(data), now, retained)

    def tick(self, now: float, is_up: bool) -> None:
        """Does what is due. `is_up` says whether the node's service works: without it no heartbeat goes further down."""
        match self._settings.sort:
            case "auctioneer":
                if is_up and now >= self._next:
                    self._next = now + self.silence.times.heartbeat
                    self._made += 1
                    self.silence.hear(Heartbeat(self._start, self._made, now_text()), now, False)
                    self._pass_on()
            case "relay":
                if is_up and self.silence.newest != self._passed and now <= self.silence.heard + self.silence.times.heartbeat:
                    self._pass_on()
            case _:
                self._renew(now, is_up)

    def _pass_on(self) -> None:
        self._passed = self.silence.newest
        if self._passed is not None:
            self._publisher.publish(self._settings.own_topic("heartbeat"), self._passed.to_bytes(), now_text())

    @property
    def has_bid(self) -> bool:
        """Whether a device has a bid, which it renews."""
        kept = self._link.kept(self._settings.own_topic("bid"))
        return kept is not None and kept.payload[:1] == bytes([Bid.KIND])

    def _renew(self, now: float, is_up: bool) -> None:
        topic = self._settings.own_topic("bid")
        kept = self._link.kept(topic)
        if kept is None or not self.has_bid:
            self._bid = None
            return
        if self._bid is None:
            self.silence.bids(now)
        if kept is not self._bid:
            self._bid, self._sent = kept, now
        elif is_up and self._link.is_settled and now >= self._sent + self.silence.times.heartbeat:
            self.renew(now)
        if not self._link.is_unconfirmed([topic]):
            self.silence.renewed(self._sent)

    def renew(self, now: float) -> None:
        """Publishes the device's bid again, as it is."""
        if self._bid is not None and self.has_bid:
            self._sent = now
            self._link.publish(self._bid)


