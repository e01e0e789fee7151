"""What a node does with its service: starts it, feeds it, asks it, starts it anew, and hands what it writes to the session."""

from __future__ import annotations

import json
from collections.abc import Callable

from ... import clock
from ...logs import NodeLog
from .ask_schedule import AskSchedule
from .heartbeat_sender import HeartbeatSender
from ..children.kept_bids import BidLog
from ..broker.broker_link import Link
from ..device.control import Control
from ..device.control_feed import ControlFeed
from ..device.deviation import Deviation, Measured
from .counting import Counts
from .node_errors import LiveError
from ..messages.frames import Clear, DeviceResume, Resume, ResumeGone, Send, frames_of
from .node_parts import NodeParts
from ..device.offers import Offers
from ..broker.publisher import Publisher
from .recording import Recording
from .served_session import ServedSession
from .service import Came, Ended, MakeService, Service, ServiceProcess
from .sessions import now_text
from .node_settings import Settings
from .store import Store, Stored
from .market_times import Times

# The pauses in seconds before a service is started anew that ended soon: the first, and the longest. Soon is below the third.
FIRST_PAUSE, LONGEST_PAUSE, LIVED = 0.5, 60.0, 10.0
# The seconds after which a service that does not answer is ended, and the seconds within which it ends by itself.
PATIENCE, LAST_SECONDS = 10.0, 0.3


class ServiceRunner:
    """The service of one node. All calls are of the node's one thread; times are seconds of a clock that only rises."""

    def __init__(
        self,
        settings: Settings,
        store: Store,
        link: Link,
        control: Control | None,
        log: NodeLog,
        notify: Callable[[Came | Ended], None],
        make_service: MakeService | None = None,
    ) -> None:
        """Takes what the node has.

        notify:       is called with what the service does, from other threads too, to come back by `take`
        make_service: starts another service than one whose bytes two threads move
        """
        self._settings = settings
        self._link = link
        self._log = log
        self._notify = notify
        self._make_service: MakeService = make_service or Service
        self._publisher = Publisher(link)
        self._asking = AskSchedule(settings.period, settings.pause)
        self._recording = Recording(settings)
        self.offers = Offers(settings.basis, settings.offer_validity, log, settings.device, self._answer)
        self.beating = HeartbeatSender(settings, self._publisher, link)
        self.deviation = Deviation(settings.deviation, settings.deviation_seconds)
        self.controlling = ControlFeed(settings, self._publisher, self.offers, self.beating.silence, control, log, self.deviation)
        self._is_alarmed, self._counted = False, self.deviation.counts
        self.counts = Counts()
        self._parts = NodeParts(
            settings=settings,
            store=store,
            link=link,
            log=log,
            publisher=self._publisher,
            offers=self.offers,
            asking=self._asking,
            recording=self._recording,
            bids=BidLog(store.files, settings.basis.steps),
            beating=self.beating,
            controlling=self.controlling,
            counts=self.counts,
            feed=self._feed,
            is_up=lambda: self.service is not None,
        )
        self.service: ServiceProcess | None = None
        # What the node has of its session, None between sessions.
        self.session: ServedSession | None = None
        # Why there is no service, "" if there is one.
        self.why_down = "it waits for its session"
        self._restart_at = self._pause = self._born = self._came_at = 0.0

    # From a session's begin to its end.

    def begin(self, stored: Stored, resume: Resume | None, times: Times, now: float, start: int, known: str = "") -> ServedSession:
        """Begins a session with what is stored of it, and the times of the market.

        start: how often the node has started
        known: of the bids in the Resume, what the broker's copy of it tells

        Raises OSError, and then the node has to end.
        """
        self._publisher.begin(stored.session.id)
        self.beating.begin(times, now, start)
        self.offers.begin(resume if isinstance(resume, DeviceResume | ResumeGone) else None, now, stored.references, stored.until)
        self.offers.digest = self.offers.digest or stored.offer
        self.controlling.begin(now, stored.setpoint is not None)
        self.session = ServedSession(self._parts, stored, resume, times, now, known)
        return self.session

    @property
    def limits(self) -> tuple[int, int]:
        """The least and the greatest power that a relay announces now, in watts: between sessions those of its settings."""
        return (self._settings.floor, self._settings.ceiling) if self.session is None else self.session.limiting.given.newest

    @property
    def alarm(self) -> str:
        """What is wrong in the session, "" if nothing is."""
        return "" if self.session is None else "; ".join(filter(None, (self.session.alarm, self.deviation.alarm)))

    def measures(self, told: Measured, now: float) -> None:
        """Takes what the control says of its device."""
        self.deviation.hear(told, now)

    def _follow(self, now: float) -> None:
        """Lets a device that does not follow count as what it measures."""
        deviation = self.deviation
        deviation.tick(now)
        if bool(deviation.alarm) != self._is_alarmed:
            self._is_alarmed = bool(deviation.alarm)
            if deviation.alarm:
                self._log.warning(deviation.alarm)
            else:
                self._log.info("the device follows again")
        if deviation.counts != self._counted:
            self._counted = deviation.counts
            what = "its own bid counts again" if self._counted is None else f"it counts as {self._counted} W at every price, since it does not follow"
            self._log.warning(what)
            self.offers.count_as(self._counted)

    def silent_since(self, now: float) -> str | None:
        """Since when the node hears no heartbeat, or is let go (RFC 3339), None if neither is so."""
        silence = self.beating.silence
        is_silent = self._settings.sort != "auctioneer" and silence.is_silent(now, self._settings.sort == "device" and self.beating.has_bid)
        return silence.since if is_silent else None

    @property
    def asks_at(self) -> float | None:
        """When a parent asks its service next, None as long as that is not known."""
        session = self.session
        if self.service is None or session is None or session.pending or session.waits(clock.now()):
            return None
        return self._asking.due_at()

    @property
    def is_awaited(self) -> bool:
        """Whether something else is due soon by the clock: a session, a service, or a bid whose pause is not over."""
        return self.service is None or self.session is None or self.session.letting.has_waiting or self.session.waits(clock.now())

    @property
    def has_left(self) -> bool:
        """Whether a device has left the market, or a relay that leaves counts no device."""
        return self.session is not None and self.session.has_left

    def end(self, why: str) -> None:
        """Ends the service and the session. Raises OSError."""
        service, self.service = self.service, None
        session, self.session = self.session, None
        if service is not None:
            service.close(LAST_SECONDS)
        try:
            if session is not None:
                session.keeping.make_safe()
        finally:
            self.why_down = why
            self._parts.bids.close()
            self._recording.ends(why)
            self._recording.close()

    # The process.

    def _feed(self, data: bytes) -> None:
        if self.service is not None and data:
            self._recording.fed(data)
            self.service.feed(data)

    def take(self, event: Came | Ended) -> None:
        """Takes what the service did. What an earlier one did is dropped."""
        if event.service is not self.service:
            return
        if isinstance(event, Ended):
            self._ended(event.why)
        elif self.session is not None:
            self._came_at = clock.now()
            self.session.take(event.frames)

    def work(self) -> None:
        """Handles what the service wrote, as far as the broker has confirmed what is before."""
        if self.session is not None:
            self.session.work()

    def tick(self, now: float) -> None:
        """Starts the service anew, asks it, and ends one that does not answer. To be called after each event, and by a clock."""
        session = self.session
        if session is None:
            if self._settings.sort == "device":
                # A control is told that the market is silent also while no session has begun.
                self.beating.tick(now, False)
                self.controlling.tick(now, self.beating.has_bid)
            return
        session.work()
        if self._settings.sort == "device":
            self._follow(now)
            session.keep_offer(now)
        if self.service is None and now >= self._restart_at and session.is_known():
            self.start(session, now)
        session.tick(now)
        if self.service is not None:
            session.feed_heard(now)
            self._ask(session, self.service, now)

    def _ask(self, session: ServedSession, service: ServiceProcess, now: float) -> None:
        """Asks the service what is due, and ends it if it does not answer."""
        if self._settings.sort == "device":
            wanted = self.offers.due(now, self.controlling.may_leave(now))
            for data in [b""] if wanted is None else [frame.to_bytes() for frame in frames_of(wanted)]:
                self._feed(data)
        elif not session.pending and not session.waits(now) and self._asking.is_due(now):
            self._asking.asked(now)
            session.children.asks()
            self._feed((Clear() if self._settings.sort == "auctioneer" else Send()).to_bytes())
        since = self.offers.since if self._settings.sort == "device" else self._asking.since
        if since is not None and now > max(since, self._came_at) + PATIENCE and not session.pending:
            self._log.warning(f"the service has not answered for {PATIENCE:g} s: it is ended")
            self._came_at = now
            service.kill()

    def start(self, session: ServedSession, now: float) -> None:
        """Starts the service from the newest Resume of the session, and feeds it the newest of all that was heard."""
        self._born = self._came_at = now
        settings = self._settings
        self._recording.starts(session.stored)
        try:
            self.service = self._make_service(settings.command, settings.sort, settings.basis, session.stored.frame, self._notify)
        except LiveError as error:
            self._ended(str(error))
            return
        self.why_down = ""
        session.starts(now)

    def _ended(self, why: str) -> None:
        """Lets the service start anew, at once or after a pause that grows if it does not live long."""
        now = clock.now()
        self.counts.restarts += 1
        self.service = None
        if self.session is not None:
            self.session.pending.clear()
        self._recording.ends(why)
        self._pause = 0.0 if now > self._born + LIVED else min(max(FIRST_PAUSE, 2 * self._pause), LONGEST_PAUSE)
        self._restart_at = now + self._pause
        self.why_down = f"the service has ended, {why}"
        self._log.warning(f"{self.why_down}; it starts anew from its newest Resume in {self._pause:g} s")

    def _answer(self, why: str) -> None:
        """Tells a control at its topic why its offer was dropped; "" for one that was taken."""
        topic = self._settings.own_topic("answer")
        if why:
            self._publisher.publish(topic, json.dumps({"why": why, "time": now_text()}).encode(), now_text())
        else:
            self._publisher.clear_told(topic)
