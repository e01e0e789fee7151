"""A node of the live market: joins a service, which is a process of `live`, to an MQTT broker.

One thread does all the work, event by event. This file has the node's connection and how it enters a session; service_runner.py has
its service, and served_session.py what it has in a session.
"""

from __future__ import annotations

import hashlib
import logging
import queue
import secrets
from collections.abc import Callable
from typing import Literal

from ... import clock
from ...version import build
from ...logs import NodeLog
from .starting_point import StartingPoint, resume_of
from ..broker.broker import Broker
from ..broker.broker_link import Arrived, Confirmed, Event, Link, Message, Publication, Settled
from ..device.control import Control, StandardControl
from ..device.deviation import Measured
from .counting import NodeFacts
from .node_errors import BadFrame, BadMessage, LiveError, NodeRefused
from ..messages.frames import CHILDREN, MOST, Leave, RelayResume
from ..messages.messages import LOST, BasisMessage, StateMessage
from .parent import Parent
from .served_session import ServedSession
from .service import Came, Ended, MakeService
from .service_runner import LAST_SECONDS, ServiceRunner
from .sessions import Session, now_text
from .node_settings import Settings
from ..page.page_feed import PageFeed
from ..site.site_life import SiteLife
from .store import Store

# The seconds between looks at the clock, if nothing else happens.
TICK = 0.05
# The seconds from one reading of all that the broker retains to the next, of a parent and of a device, those without a look at the clock
# after which it is read sooner, and those to wait then, so that what is queued has come.
READ_AGAIN, READ_AGAIN_DEVICE, GAP, SOON = 120.0, 600.0, 2.0, 1.0
# The least seconds between two measured powers of the control that are told at the topic.
BETWEEN_MEASURED = 1.0


class _Stop:
    """The node is to end."""


class _Offered:
    """The control has offered this."""

    def __init__(self, data: bytes) -> None:
        self.data = data


# Makes a connection that calls its first argument for events, and the second for lines.
MakeLink = Callable[[Callable[[Event], None], NodeLog], Link]


class Node:
    """A node, from its start to its end. `run` does the work, and `stop` ends it from anywhere."""

    def __init__(
        self,
        settings: Settings,
        control: Control | None = None,
        log: NodeLog | None = None,
        make_link: MakeLink | None = None,
        tick: float = TICK,
        turns: Callable[[], None] = lambda: None,
        make_service: MakeService | None = None,
        wake: Callable[[], None] = lambda: None,
        site: SiteLife | None = None,
    ) -> None:
        """Takes the node's place on disk. `make_node` has the arguments.

        make_link:    makes another connection than a broker's
        tick:         the seconds between looks at the clock, if nothing else happens
        make_service: starts another service than one whose bytes two threads move
        wake:         is called once there is something for `turn` to take, from any thread
        site:         the process of the site that it runs in, None if it has one of its own
        """
        self.settings = settings
        self._tick = tick
        self._turns = turns
        self._wake = wake
        self._log = log or NodeLog(logging.getLogger(__name__), settings.name)
        self._log_of_changes = self._log.of_changes()
        self._events: queue.SimpleQueue[Event | Came | Ended | _Offered | _Stop] = queue.SimpleQueue()
        self._site = None if site is None else site.name
        self._run_id, self._started = secrets.token_hex(8) if site is None else site.run, now_text()
        self._seen: dict[str, Message] = {}
        self._state_told: tuple[object, ...] = ()
        self._begun = ""
        # The children that counted in the session before, until the next one has begun.
        self._counted: frozenset[int] = frozenset()
        # When it told last what its device measured.
        self._measured_at = -BETWEEN_MEASURED
        # When the node looked last, and when it reads again what the broker retains.
        self._looked = clock.now()
        self._gap = max(GAP, 2 * tick)
        self._between = READ_AGAIN_DEVICE if settings.sort == "device" else READ_AGAIN
        # Nodes that start together do not read together.
        self._read_at = self._looked + self._between * (0.5 + secrets.randbelow(500) / 1_000)
        if control is None and settings.sort == "device" and not settings.leave:
            control = StandardControl()
        self._control = control
        self._link: Link = (make_link or self._broker)(self._put, self._log)
        self._store = Store(settings.state, settings.name, settings.sort)
        self._starts, self._is_first = self._store.next_start(), True
        self.showing = PageFeed(settings, self._log, lambda: [self.facts()])
        self.serving = ServiceRunner(settings, self._store, self._link, control, self._log, self._put, make_service)
        self._parent: Parent | None = None
        if settings.parent is not None and settings.child is not None:
            place = (settings.parent, settings.child)
            self._parent = Parent(settings, *place, self.serving.beating, self._also_read, self._log, self._log_of_changes)

    @property
    def session(self) -> Session | None:
        """The session that the node is in, None between sessions. It may be asked from any thread."""
        served = self.serving.session
        return None if served is None else served.stored.session

    def _broker(self, notify: Callable[[Event], None], log: NodeLog) -> Link:
        client_id = f"cogmaula.{self.settings.broker.prefix.replace('/', '.')}.{self.settings.name}"
        return Broker(self.settings.broker, client_id, notify, log)

    def _also_read(self, topic: str) -> None:
        self._link.also_read(topic)

    # The work, and its end.

    def run(self) -> None:
        """Works until `stop` is called, or a device or a relay that was to leave has left.

        Raises NodeRefused if a person has to look first, another LiveError, or OSError, such as that of a full disk.
        """
        why = "it failed"
        try:
            self.start()
            while not (self.settings.leave and self.serving.has_left):
                self._turns()
                event = self._next_event()
                if isinstance(event, _Stop):
                    break
                self._take(event)
                self._look()
            why = "stopped"
            session = self.serving.session
            if self.settings.leave and session is not None and session.has_left:
                is_now = "counts no device" if self.settings.is_fence else "is gone"
                why = f"it has left: child {self.settings.child} of {self.settings.parent} {is_now} as of number {session.last}"
                self._log.info(why)
        except (LiveError, OSError) as error:
            why = str(error)
            raise
        finally:
            self.end(why)

    def start(self) -> None:
        """Connects, serves the page and hears the control from now on. `run` does it; who calls `turn` does it before."""
        self._link.start(self._subscriptions(), lambda: self._state("down", LOST, lost=True), self._marker, self._written())
        self.showing.start()
        if self._control is not None:
            self._control.start(lambda data: self._put(_Offered(data)), self._log)

    def turn(self) -> None:
        """Takes all that has come, and looks at the clock once. Raises what `run` raises, and then `end` is due."""
        while not self._events.empty():
            self._take(self._events.get())
        self._look()

    def end(self, why: str) -> None:
        """Ends the connection, the service and the page, and lets go of the folder. Raises OSError."""
        self._link.close(self._state("down", why), 2 * LAST_SECONDS)
        try:
            self.serving.end(why)
        finally:
            self._store.close()
            self.showing.close(LAST_SECONDS)

    def stop(self) -> None:
        """Ends `run`, from any thread or from the handler of a signal."""
        self._put(_Stop())

    def facts(self) -> NodeFacts:
        """What the node tells of itself now. It may be called from any thread."""
        serving, session = self.serving, self.serving.session
        return NodeFacts(
            node=self.settings.name,
            sort=self.settings.sort,
            why_down=serving.why_down,
            is_connected=self._link.is_settled,
            counts=serving.counts,
            stores=self._store.saves,
            store_seconds=self._store.seconds,
            lapsed=0 if session is None else len(session.stored.lapsed),
            heartbeat=serving.beating.silence.heard_at,
            loop_age=clock.now() - serving.counts.turned,
        )

    def _put(self, event: Event | Came | Ended | _Offered | _Stop) -> None:
        """Takes an event, from any thread."""
        self._events.put(event)
        self._wake()

    def _look(self) -> None:
        """Does what is due by the clock, and tells what changed."""
        now = self.serving.counts.turned = clock.now()
        self._link.tick()
        self._read_again(now)
        self.showing.tick(self._link.is_settled)
        self.serving.tick(now)
        self._tell_state()

    def _next_event(self) -> Event | Came | Ended | _Offered | _Stop | None:
        try:
            return self._events.get(timeout=self._tick)
        except queue.Empty:
            return None

    def _read_again(self, now: float) -> None:
        """Reads what the broker retains again: now and then, and after a pause in which it may have dropped messages for this node."""
        if now > self._looked + self._gap or self._link.has_lost:
            self._read_at = min(self._read_at, now + SOON)
        self._looked = now
        if now >= self._read_at:
            self._read_at = now + self._between
            self._link.read_again()

    def _take(self, event: Event | Came | Ended | _Offered | _Stop | None) -> None:
        match event:
            case Settled():
                self._take_messages()
                self._settle()
            case Arrived():
                self._take_messages()
            case Confirmed():
                self.serving.work()
            case Came() | Ended():
                self.serving.take(event)
            case _Offered():
                self._take_offered(event.data)

    def _take_offered(self, data: bytes) -> None:
        """Takes a line of the control. What it says ends no node."""
        try:
            measured = Measured.of_line(data)
            if measured is None:
                self.serving.offers.take(data, clock.now())
            else:
                self._take_measured(measured)
        except BadMessage as error:
            self._log.of_stranger("the control").warning(f"a line of the control is not taken: {error}")
        except (LiveError, OSError):
            raise
        except Exception as error:  # noqa: BLE001 - whatever a line leads to, the next one counts
            self._log.of_stranger("the control").error(f"an offer is not taken: {type(error).__name__}: {error}")

    def _take_measured(self, measured: Measured) -> None:
        """Takes what the control says of its device, and tells it at the topic that a history reads."""
        now = clock.now()
        self.serving.measures(measured, now)
        if measured.power is not None and now >= self._measured_at + BETWEEN_MEASURED:
            self._measured_at = now
            self._link.publish(Publication(self.settings.own_topic("measured"), measured.to_bytes(now_text())))

    def _subscriptions(self) -> list[str]:
        """The topics that the node reads: what is for it, and its own, to go on from and to see that the broker takes them."""
        settings, topics = self.settings, self.settings.topics
        found = [topics.basis, settings.own_topic("state"), settings.own_topic("resume")]
        if settings.sort == "device":
            found += [settings.own_topic(kind) for kind in ("offer", "answer", "setpoint", "lapsed", "measured")]
        else:
            found += [topics.bid(settings.name, child) for child in range(1, CHILDREN + 1) if child != settings.place_of_limits]
            found += [topics.at(settings.name, kind, "+") for kind in ("drop", "lapsed", "refused")]
            found.append(settings.own_topic("heartbeat"))
        if settings.limits_from:
            found += [settings.own_topic("limits"), settings.own_topic("limits/state")]
        if settings.shows_itself:
            found += self._prices()
        if settings.parent is not None:
            found += [settings.own_topic(kind) for kind in ("bid", "price", "refused")]
            found += [topics.of(settings.parent, kind) for kind in ("state", "heartbeat", "prices")]
        return found

    def _prices(self) -> list[str]:
        """The topics of the prices for the node's children, which it alone writes."""
        settings = self.settings
        topics = settings.topics
        return [] if settings.sort == "device" else [topics.price(settings.name, "+"), topics.prices(settings.name)]

    def _written(self) -> list[str]:
        """The topics that need not all be read back: the prices, unless the node's page shows what it hears."""
        return [] if self.settings.shows_itself else self._prices()

    # The node's state.

    def _state(self, state: Literal["up", "down"], why: str, lost: bool = False) -> Publication:
        settings = self.settings
        session = "" if self.session is None else self.session.id
        floor, ceiling = self.serving.limits
        limits = (floor if floor > -MOST else None, ceiling if ceiling < MOST else None)
        life = (self.serving.alarm, self.serving.silent_since(clock.now()))
        more = (settings.sort, settings.parent, settings.child, *limits, *life)
        message = StateMessage(
            state, self._run_id, self._started, session, now_text(), why, *more, starts=self._starts, lost=lost, site=self._site, build=build()
        )
        return Publication(settings.own_topic("state"), message.to_bytes())

    def _marker(self) -> Publication:
        """The state as it is, told anew for each connection."""
        why = self.serving.why_down
        return self._state("down" if why else "up", why)

    def _tell_state(self) -> None:
        """Publishes the state if it changed."""
        serving = self.serving
        limits, silent = serving.limits, serving.silent_since(clock.now())
        state = (self.session, self._starts, serving.why_down, limits, serving.alarm, silent)
        if state != self._state_told:
            self._state_told = state
            self._link.publish(self._marker())

    # Messages of the broker.

    def _take_messages(self) -> None:
        found = [message for message in self._link.taken() if not self._is_known(message)]
        self.showing.take(found)
        self._seen.update({message.topic: message for message in found})
        if self.serving.session is None:
            if self._link.is_settled and any(message.topic == self.settings.topics.basis for message in found):
                self._begin()
            return
        for message in found:
            # A new basis ends the session.
            if self.serving.session is not None:
                self._take_safely(self.serving.session, message)

    def _is_known(self, message: Message) -> bool:
        """Whether the broker tells again what it had kept and told before."""
        known = self._seen.get(message.topic)
        is_same = known is not None and (known.payload, known.properties) == (message.payload, message.properties)
        return is_same and message.retained and message.topic != self.settings.topics.basis

    def _take_safely(self, session: ServedSession, message: Message) -> None:
        """Takes a message of a node that is in a session. What it says ends no node: one that cannot be taken is dropped with a line.

        Raises what ends a node for reasons of its own: another LiveError, such as that it is not alone, and OSError, such as of a full disk.
        """
        try:
            self._take_message(session, message)
        except (BadMessage, BadFrame) as error:
            self._log.of_stranger(message.topic).warning(f"{message.topic} is not taken: {error}")
        except (LiveError, OSError):
            raise
        except Exception as error:  # noqa: BLE001 - whatever a message leads to, the next one counts
            self._log.of_stranger(message.topic).error(f"{message.topic} is not taken: {type(error).__name__}: {error}")

    def _take_message(self, session: ServedSession, message: Message) -> None:
        """Takes a message of a node that is in a session."""
        settings, topics, topic = self.settings, self.settings.topics, message.topic
        if (child := topics.child_of(topic, settings.name, "bid")) is not None:
            session.letting.take_bid(child, message, clock.now())
        elif (child := topics.child_of(topic, settings.name, "drop")) is not None:
            if message.payload and not message.retained:
                session.letting.drop(child)
        elif (child := topics.child_of(topic, settings.name, "price")) is not None:
            session.pricing.keep_price(child, message)
        elif settings.sort != "device" and topic == topics.prices(settings.name):
            session.pricing.keep_table(message)
        elif topic == topics.basis:
            self._take_basis(session)
        elif self._parent is not None and self._parent.take(session, message):
            pass
        elif topic == settings.own_topic("offer"):
            self._take_offer(session, message)
        elif settings.sort == "device" and topic == settings.own_topic("measured"):
            self._hear_measured(message)
        elif settings.limits_from and topic == settings.own_topic("limits"):
            session.limiting.take(message.payload)
        elif settings.sort != "device" and topic.endswith("/state") and topic != settings.own_topic("state"):
            session.letting.take_state(message, clock.now())
        elif topic.endswith("/site"):
            self._take_site(session, message)
        elif topic in [settings.own_topic(kind) for kind in ("state", "resume")] or topic == self._bid_topic:
            self._require_alone(session)

    def _hear_measured(self, message: Message) -> None:
        """Takes what the control says of its device by the topic. What the broker had kept may be old."""
        try:
            if message.payload and not message.retained:
                self.serving.measures(Measured.of_topic(message.payload), clock.now())
        except BadMessage as error:
            self._log.of_stranger("the control").warning(f"{message.topic} is not taken: {error}")

    def _take_site(self, session: ServedSession, message: Message) -> None:
        """Takes the state of a site, in which the parent or children may run."""
        if self._parent is not None:
            self._parent.take_site(message)
        if self.settings.sort != "device":
            session.letting.take_state(message, clock.now())

    @property
    def _bid_topic(self) -> str:
        return "" if self.settings.parent is None else self.settings.own_topic("bid")

    def _take_offer(self, session: ServedSession, message: Message) -> None:
        """Takes an offer of the topic. One that was known before, and that the broker kept, does not say that the control lives."""
        if not message.payload or self.settings.leave:
            return
        offers, digest = self.serving.offers, hashlib.sha256(message.payload).hexdigest()
        if not message.retained or message.expiry is not None or digest != offers.digest:
            offers.digest = digest
            offers.take(message.payload, clock.now(), message.expiry)
        elif session.resume is None and not offers.has_offered:
            offers.take_kept(message.payload, clock.now())

    # Sessions.

    @property
    def _beginning(self) -> StartingPoint:
        return StartingPoint(self.settings, self._store, self._seen, self._log_of_changes)

    def _settle(self) -> None:
        """Begins, or goes on after a connection was lost."""
        session = self.serving.session
        if session is None:
            self._begin()
            return
        self._require_alone(session)
        self._take_basis(session)
        self._link.publish_all()

    def _count_start(self) -> None:
        """Lets this start count more than each that the broker knows of, once in a process: the disk may be another one."""
        known = self._beginning.starts(self._run_id)
        if self._is_first and known >= self._starts:
            self._starts = self._store.next_start(known)
        self._is_first = False

    def _require_alone(self, session: ServedSession) -> None:
        self._beginning.require_alone(session.stored.session, self._run_id, self._starts, session.last)

    def _begin(self) -> None:
        """Enters a session, if the broker and the disk tell one."""
        self._count_start()
        beginning = self._beginning
        stored = beginning.of_auctioneer() if self.settings.sort == "auctioneer" else beginning.of_other()
        if stored is None:
            return
        resume = resume_of(self.settings, stored.frame)
        beginning.require_alone(stored.session, self._run_id, self._starts, 0 if resume is None else resume.last)
        if self.settings.leave and resume is None:
            raise NodeRefused(
                f"{self.settings.name} has nothing to leave: no Resume of it in session {stored.session.id} is on this disk or at the broker. "
                f"If {self.settings.parent} counts it still: {self._remedy}"
            )
        if self.settings.sort == "auctioneer" or stored.frame:
            self._store.save(stored)
        is_later, self._begun = self._session_before() not in ("", stored.session.id), stored.session.id
        self._tell_basis(stored.session)
        told = beginning.basis()
        times = self.settings.times if self.settings.sort == "auctioneer" or told is None else told.times
        known = beginning.bids_of_sum(stored.session, stored.frame)
        counted = self._counted_before(stored.session)
        session = self.serving.begin(stored, resume, times, clock.now(), self._starts, known)
        if counted and resume is None:
            session.waits_for(counted, clock.now(), times.grace)
            self._log.info(f"sends no sum before children {', '.join(map(str, sorted(counted)))} are heard: they may hold setpoints of the session before")
        if self.settings.is_fence:
            session.letting.let_all_go("its relay has left")
        elif self.settings.leave:
            self.serving.offers.want(Leave())
        elif is_later and self.settings.sort == "device":
            self.serving.controlling.tell_session(stored.session)
        # Whether the market lives, and counts this device, is known before the control is told anything.
        first = [f"/{ending}" for ending in ("heartbeat", "lapsed/" + str(self.settings.child))]
        messages = sorted(self._seen.values(), key=lambda message: not message.topic.endswith(tuple(first)))
        self._take_all(session, [message for message in messages if message.topic.endswith(tuple(first))])
        self._tell_state()
        if session.is_known():
            self.serving.start(session, clock.now())
        self._take_all(session, [message for message in messages if not message.topic.endswith(tuple(first))])

    @property
    def _remedy(self) -> str:
        """What to do about a node that counts at its parent and whose Resume is lost."""
        is_relay = self.settings.sort == "relay"
        return "begin a new session" if is_relay else f"cogmaula market drop {self.settings.parent} {self.settings.child}"

    def _counted_before(self, session: Session) -> frozenset[int]:
        """The children that a relay counted in the session before, in this process or by the disk. They may hold setpoints of it."""
        counted, self._counted = self._counted, frozenset()
        if self.settings.sort != "relay" or counted:
            return counted
        newest = self._store.newest()
        if newest is None or newest.session.order >= session.order:
            return frozenset()
        resume = resume_of(self.settings, newest.frame)
        numbers = enumerate(resume.numbers, 1) if isinstance(resume, RelayResume) else ()
        return frozenset(child for child, number in numbers if number) - newest.lapsed.keys()

    def _session_before(self) -> str:
        """The id of the session before, in this process or on disk, "" without one."""
        newest = None if self._begun else self._store.newest()
        return self._begun if newest is None else newest.session.id

    def _take_all(self, session: ServedSession, messages: list[Message]) -> None:
        for message in messages:
            if message.topic != self.settings.topics.basis:
                self._take_safely(session, message)

    def _take_basis(self, session: ServedSession) -> None:
        """Takes the basis that the broker tells, in a session."""
        told, own = self._beginning.basis(), session.stored.session
        if told is None or told.session.order < own.order:
            self._tell_basis(own)
        elif told.session == own:
            self._beginning.require_basis(told)
            if self.settings.sort != "auctioneer":
                session.take_times(told.times)
        elif self.settings.sort == "auctioneer":
            raise NodeRefused(f"another auctioneer has begun session {told.session.id}: end one of the two")
        else:
            self._log.info(f"session {own.id} is over: session {told.session.id} has begun")
            self._counted = session.counted if self.settings.sort == "relay" else frozenset()
            self.serving.end("it waits for its session")
            self._begin()

    def _tell_basis(self, session: Session) -> None:
        """Publishes the basis of a session, if this is the auctioneer."""
        if self.settings.sort == "auctioneer":
            told = BasisMessage(self.settings.basis, session, self.settings.times)
            self._link.publish(Publication(self.settings.topics.basis, told.to_bytes()))


def make_node(
    settings: Settings,
    control: Control | None = None,
    log: NodeLog | None = None,
    turns: Callable[[], None] = lambda: None,
) -> Node:
    """A node of the live market, to be worked by `run`.

    control: of a device, by default standard input and output
    log:     takes the lines, by default the logger of this module, with the name of the node
    turns:   is called at each turn of the node's loop

    Raises BadStore if another process has the folder of its state, NoPackage if paho is missing, and OSError.
    """
    return Node(settings, control, log, turns=turns)
