"""What a node has in one session: it is made when the session begins, and let go when it ends.

Here is what the node hears for its service, and what the service writes, frame by frame. A Resume is stored, on disk and then at the
broker, before a frame behind it is published. A relay's or a device's Resume is stored only after the broker has confirmed the prices or
the setpoint before it. So after a crash between the two they are given again. The recording comes first: it has a frame before that is
fed or handled, and it is on disk before a Resume is stored.
"""

from __future__ import annotations

import math
from collections import deque
from collections.abc import Collection, Iterable
from dataclasses import replace

from ... import clock
from ..broker.broker_link import Publication
from ..children.children import BIDS_OF_SUM, NODE, OWN_BID, RELAYS, SORT, VALID, Children
from .node_errors import LiveError, OtherTerms
from ..messages.frames import (
    RESUMES,
    AuctioneerResume,
    Bid,
    DeviceResume,
    Dropped,
    Fault,
    Frame,
    Gone,
    Hello,
    NotCaughtUp,
    NotChanged,
    Old,
    OtherBasis,
    OutOfLimits,
    OutOfNumbers,
    Price,
    RelayResume,
    Resume,
    ResumeGone,
    Setpoint,
    TooMuch,
    WindowFull,
    frame_of,
    size_of,
)
from ..children.jumps import most_by_time
from .session_store import SessionStore
from ..children.child_manager import ChildManager
from ..children.limit_manager import LimitManager
from .node_parts import NodeParts
from .price_feed import PriceFeed
from ..children.pricing import Pricing
from ..device.refused_bid import RefusedBid
from .sessions import now_text
from .store import Stored
from .market_times import Times

# The seconds between two lines about children that are awaited.
BETWEEN_LINES = 60.0


class ServedSession:
    """One session of one node. All calls are of the node's one thread; times are seconds of a clock that only rises."""

    def __init__(self, parts: NodeParts, stored: Stored, resume: Resume | None, times: Times, now: float, known: str = "") -> None:
        """Takes the parts of the node, what is stored of the session, its Resume, and the times of the market.

        known: of the bids in the Resume, what the broker's copy of it tells

        Raises OSError.
        """
        settings = parts.settings
        self._parts = parts
        self._settings = settings
        self._log = parts.log
        self.resume = resume
        self.keeping = SessionStore(parts.store, stored)
        kept = [] if settings.sort == "device" else parts.bids.begin(stored.session)
        self.children = Children(settings.name, settings.topics, settings.basis.steps, parts.log)
        numbers = resume.numbers if isinstance(resume, RelayResume | AuctioneerResume) else ()
        self.children.begin(stored.session, kept, known, numbers)
        self.pricing = Pricing(parts, stored.session, self.children.is_gone)
        self.letting = ChildManager(parts, self.keeping, self.children, self.pricing, times)
        self.letting.begin(resume if isinstance(resume, RelayResume | AuctioneerResume) else None, kept, now)
        self.limiting = LimitManager(parts, self.keeping, resume if isinstance(resume, RelayResume) else None)
        self.prices = PriceFeed()
        self.refused_bid = RefusedBid(parts.offers, parts.offers.answer, parts.log)
        # An Old that says that the device was let go, and whether the service has still to be fed it.
        self._old: Old | None = None
        self._is_old_due = False
        # The children that are awaited, and from when on a line may say so.
        self._lacking: list[int] = []
        self._lines_from = 0.0
        # The number of the Bid or Gone that was published last, and how many prices were of another basis.
        self._bid = self.other_basis = 0
        # What is wrong with the index of the parent's newest price, "" if nothing is.
        self.far = ""
        # The children that the session before counted and that were not heard in this one, and until when they may hold its setpoints.
        self._held: frozenset[int] = frozenset()
        self._held_until = -math.inf
        # The frames of the service that were not handled yet.
        self.pending: deque[Frame] = deque()
        # Whether the broker has what was stored before this life.
        self._is_known = False
        if stored.frame:
            self._publish_resume()
        if stored.bid:
            self._publish_bid(stored.bid)

    def is_known(self) -> bool:
        """Whether the broker has the node's state, its Resume and a relay's last Bid, as they were when the session began: then it may act.

        So at most one number of a relay is stored whose Bid is not at the broker, however often the relay is killed.
        """
        if not self._is_known:
            settings = self._settings
            topics = [settings.own_topic(kind) for kind in ("state", "resume", *(["bid"] if settings.sort == "relay" else []))]
            self._is_known = not self._parts.link.is_unconfirmed(topics)
        return self._is_known

    @property
    def stored(self) -> Stored:
        """What is stored of the session."""
        return self.keeping.stored

    def take_times(self, times: Times) -> None:
        """Goes by other times of the market from now on."""
        self._parts.beating.silence.times = times
        self.letting.lapses.take_times(times)

    @property
    def counted(self) -> frozenset[int]:
        """The children that count: they bid, and were not let go."""
        return frozenset(bid.child for bid in self.children.newest if isinstance(bid, Bid)) - self.stored.lapsed.keys()

    def waits_for(self, children: frozenset[int], now: float, grace: float) -> None:
        """Sends no sum before these children are heard, which may hold setpoints of the session before, for so many seconds at most."""
        self._held, self._held_until = children, now + grace

    def waits(self, now: float) -> bool:
        """Whether a relay does not send yet, since a child of the session before is not heard: its sum would lack what that may take."""
        if self._held:
            self._held = frozenset(child for child in self._held if not self.children.number(child)) if now < self._held_until else frozenset()
        return bool(self._held)

    @property
    def last(self) -> int:
        """The last number of the newest Resume, 0 without one."""
        return 0 if self.resume is None else self.resume.last

    @property
    def alarm(self) -> str:
        """What is wrong with a relay's limits or the basis of its prices, and whom a parent waits for; "" if nothing is."""
        basis = f"{self.other_basis} prices were of another basis" if self.other_basis else ""
        parts = (self._words_of_lacking, self.limiting.alarm, basis, self.children.alarm, self.far)
        return "; ".join(words for words in parts if words)

    @property
    def _words_of_lacking(self) -> str:
        children = ", ".join(map(str, self._lacking))
        return f"waits for the bids of children {children}, which were in the newest sum" if children else ""

    @property
    def has_left(self) -> bool:
        """Whether a device has no offer, or a relay counts no device, and the broker has its Resume and its last Bid or Gone."""
        topics = [self._settings.own_topic(kind) for kind in ("bid", "resume")]
        is_told = self._bid == self.last and not self._parts.link.is_unconfirmed(topics)
        is_out = self.letting.are_all_gone if self._settings.is_fence else self._parts.offers.is_out
        return self._parts.is_up() and is_out and is_told

    # What the node hears, for its service.

    def hear_old(self, old: Old) -> None:
        """Takes an Old of the parent: it has let this device go."""
        if self._settings.sort != "device" or old.kept <= self.last:
            return
        self._parts.beating.silence.let_go(old.kept, f"{self._settings.parent} has let it go")
        self._old, self._is_old_due = old, True
        self._feed_old()

    def hear_lapse(self, number: int, why: str, now: float) -> None:
        """Takes that the parent has let this device go, as of this number: its bid is told again, so that an Old comes."""
        if number > self.last:
            self._parts.beating.silence.let_go(number, f"{self._settings.parent} has let it go, {why}")
            self._parts.beating.renew(now)

    def hear_refusal(self, number: int, why: str) -> None:
        """Takes that the parent did not take this device's bid of this number, which counts if it is the newest."""
        if isinstance(self.resume, DeviceResume) and number == self.last:
            self.refused_bid.refuse(number, why, self.resume, self._before)

    @property
    def _before(self) -> DeviceResume | None:
        """The Resume of the offer that counts if the newest is refused."""
        if not self.stored.before:
            return None
        frame = frame_of(self.stored.before, RESUMES["device"], self._settings.basis.steps)
        return frame if isinstance(frame, DeviceResume) else None

    def hear_price(self, price: Price, moment: str) -> None:
        """Takes a Price of the parent, unless a newer one came. `moment` is when its clearing was, "" if that was not told."""
        most = most_by_time(self.stored.session)
        if most is not None and price.index > most:
            self.far = f"{self._settings.parent} gave clearing {price.index}, and at most {most} can be: its login may be stolen"
            self._log.of_stranger("clearings too far").error(f"ALARM: {self.far}. It is not taken")
            return
        self.far = ""
        self.prices.hear(price, moment)
        self._feed_price(clock.now())

    def feed_heard(self, now: float) -> None:
        """Feeds what was heard and is due."""
        self._feed_old()
        self._feed_price(now)

    def _feed_old(self) -> None:
        if self._is_old_due and self._old is not None and self._parts.is_up() and not self.pending:
            self._is_old_due = False
            if self._old.kept > self.last:
                self._parts.feed(self._old.to_bytes())

    def _feed_price(self, now: float) -> None:
        """Feeds the newest Price once the broker has all that answers the one before. Prices between the two are passed over."""
        if self._parts.is_up() and not self.pending:
            price = self.prices.due(now, self._parts.beating.silence.times.heartbeat)
            if price is not None:
                self._parts.feed(price.to_bytes())

    # The service's start and end, and what it is asked.

    def starts(self, now: float) -> None:
        """Feeds a service that has started from the newest Resume the newest of all that was heard."""
        parts = self._parts
        parts.asking.forget()
        for data in (*self.letting.bounds, *self.limiting.frames):
            parts.feed(data)
        for data in (*(bid.to_bytes() for bid in self.children.newest), *self.letting.expiries):
            parts.asking.has_news()
            parts.feed(data)
        self._is_old_due = self._old is not None
        self.prices.starts()
        self.feed_heard(now)
        parts.offers.forget()

    def tick(self, now: float) -> None:
        """Tells below that the market lives, and lets go of children that do not. A relay that leaves tells nothing below."""
        if self._settings.is_fence:
            return
        parts = self._parts
        parts.beating.tick(now, parts.is_up())
        if self._settings.sort == "device":
            parts.controlling.tick(now, parts.beating.has_bid, self.stored.setpoint)
            return
        self.letting.tick(now, parts.link.is_settled)
        self.pricing.tick(now)
        if self._settings.sort == "relay":
            self.limiting.tick(now)

    def keep_offer(self, now: float) -> None:
        """Stores what changed of the device's offer without a new number: its reference, and until when it holds."""
        offers = self._parts.offers
        if offers.references != self.stored.references:
            self._parts.controlling.keep_references(self.keeping, self.last)
        if offers.has_later_end(self.stored.until, now):
            self.keeping.change(**self._offer(now))

    def _offer(self, now: float) -> dict[str, str]:
        """What is stored of the newest offer."""
        return {"offer": self._parts.offers.digest, "until": self._parts.offers.ends_at(now)}

    # The frames of the service.

    def take(self, frames: Iterable[Frame]) -> None:
        """Takes what the service wrote."""
        self.pending.extend(frames)
        self.work()

    def work(self) -> None:
        """Handles the service's frames in their order, up to a Resume that has to wait for the broker."""
        while self.pending:
            frame = self.pending[0]
            if isinstance(frame, RelayResume | DeviceResume | ResumeGone):
                self.pricing.flush()
                if self._parts.link.is_unconfirmed(self._told_below()):
                    return
            prices = self._cut_prices()
            if prices:
                self._parts.recording.wrote(prices)
                self._pass_on(prices)
                continue
            if isinstance(frame, RelayResume) and frame.last > self.last:
                if len(self.pending) < 2:
                    return
                self._keep_with_bid(frame, self.pending[1])
                continue
            frame = self.pending.popleft()
            self._parts.recording.wrote([frame])
            self._handle(frame)
        self.pricing.flush()

    def _keep_with_bid(self, resume: RelayResume, bid: Frame) -> None:
        """Handles a relay's Resume under a new number and the Bid behind it: the two are stored in one write, and then the Bid is sent.

        Raises LiveError if the service wrote something else, and OSError.
        """
        if not isinstance(bid, Bid) or bid.number != resume.last:
            raise LiveError(f"the service wrote a Resume of number {resume.last} without the Bid behind it: is it the program live of this version?")
        for frame in (self.pending.popleft(), self.pending.popleft()):
            self._parts.counts.wrote(frame, 0)
        self._parts.recording.wrote([resume, bid])
        self._keep(resume, bid)
        self._send(bid)

    def _cut_prices(self) -> list[Price]:
        """Takes the Prices that come next, one directly behind the other: those of a clearing are recorded and handled together."""
        prices: list[Price] = []
        while self.pending and isinstance(frame := self.pending[0], Price):
            prices.append(frame)
            self.pending.popleft()
        return prices

    def _pass_on(self, prices: list[Price]) -> None:
        """Tells children their prices. A relay that leaves tells none."""
        self._parts.counts.passed(len(prices))
        if not self._settings.is_fence:
            self.pricing.pass_on_all(prices, self._time_of, clock.now())

    def _told_below(self) -> Collection[str]:
        """The topics that the broker has to confirm before a Resume behind them is stored."""
        is_relay = self._settings.sort == "relay"
        return self.pricing.topics if is_relay else [self._settings.own_topic("setpoint")]

    def _handle(self, frame: Frame) -> None:
        self._parts.counts.wrote(frame, self._count_lacking if isinstance(frame, NotCaughtUp) else 0)
        match frame:
            case RelayResume() | AuctioneerResume() | DeviceResume() | ResumeGone():
                self._keep(frame)
            case Bid() | Gone():
                self._send(frame)
            case Old() if self._settings.is_fence:
                pass
            case Setpoint():
                moment, has_bid = self._time_of(frame.index), self._parts.beating.has_bid
                self._parts.controlling.setpoint(self.keeping, frame, moment, clock.now(), has_bid)
            case Old():
                self.letting.old(frame)
            case TooMuch():
                self.letting.too_much(frame)
            case OutOfLimits():
                self.limiting.out_of_limits(frame)
            case Dropped():
                self.prices.not_taken(frame.number, frame.index)
                if isinstance(self.resume, DeviceResume):
                    self.refused_bid.dropped(frame.number, self.resume, self._before)
            case OtherBasis():
                self.prices.not_taken(frame.number, frame.index)
                self.other_basis += 1
                log = self._log.of_stranger("prices of another basis")
                log.warning(f"the price of clearing {frame.index} is of another basis, and is not taken: give {self._settings.parent} this basis")
            case NotChanged():
                self._parts.asking.answered()
                self._lacking = []
            case WindowFull():
                self._parts.asking.answered(again=True)
                self._lacking = []
                self._parts.offers.refused(clock.now())
            case NotCaughtUp():
                self._parts.asking.answered(again=True)
                self._say_lacking()
            case OutOfNumbers():
                self._parts.asking.answered()
                self._parts.offers.ended()
                self._log.error("no number is left: begin a new session at the auctioneer")
            case Fault():
                self._log.error(f"the service refused the frame at byte {frame.offset}")
                if frame.offset == size_of(Hello, 0) and self.stored.frame:
                    raise OtherTerms(
                        f"the service refuses the Resume of session {self.stored.session.id}: give this node the limits and the program "
                        "live that it was made with, or begin a new session at the auctioneer by --new-session"
                    )

    def _send(self, bid: Bid | Gone) -> None:
        """Publishes a Bid or a Gone, whose Resume is stored."""
        self._publish_bid(bid.to_bytes())
        self._bid = bid.number
        self._parts.asking.answered()
        self.limiting.bids(bid.number, clock.now())
        if isinstance(bid, Gone):
            self._parts.link.publish(Publication(self._settings.own_topic("setpoint"), b""))

    def _publish_bid(self, bid: bytes) -> None:
        self._parts.publisher.publish(self._settings.own_topic("bid"), bid, now_text(), self._sender)

    @property
    def _count_lacking(self) -> int:
        """How many children were in the newest sum and are not heard."""
        return len(self.children.lacking(self.resume.numbers)) if isinstance(self.resume, RelayResume | AuctioneerResume) else 0

    @property
    def _sender(self) -> tuple[tuple[str, str], ...]:
        """What a bid says of the node that sent it."""
        settings = self._settings
        who = ((SORT, settings.sort), (NODE, settings.name))
        return who if settings.sort == "relay" else (*who, (VALID, f"{self._parts.beating.silence.times.grace:g}"))

    def _keep(self, resume: Resume, bid: Bid | None = None) -> None:
        """Stores a Resume, before any frame behind it is handled. Raises OSError, and then the node has to end.

        bid: the Bid of a relay's new number, which is stored with it

        The bids of the children that are in it are safe on disk before. If a device's Resume differs only in the price, it is noted, and
        stored with the next change: a device may come back with an older price.
        """
        before, self.resume = self.resume, resume
        noted: dict[str, object] = {"basis": self._settings.basis, "frame": resume.to_bytes(), "time": now_text()}
        if isinstance(before, DeviceResume) and isinstance(resume, DeviceResume) and is_of_another_price(before, resume):
            self.keeping.note(**noted)
            self._parts.offers.resumed(resume)
            return
        if isinstance(resume, DeviceResume | ResumeGone):
            references = self._parts.offers.references_with(resume)
            setpoint = None if isinstance(resume, ResumeGone) else self.stored.setpoint
            noted |= {"setpoint": setpoint, "references": references}
            noted |= self._offer(clock.now())
            if isinstance(before, DeviceResume) and before.last < resume.last:
                counts = self.refused_bid.offer_before(before, self._before)
                noted["before"] = b"" if counts is None else counts.to_bytes()
            elif isinstance(resume, ResumeGone):
                noted["before"] = b""
        if bid is not None:
            noted["bid"] = bid.to_bytes()
        self._parts.recording.make_safe()
        if isinstance(resume, RelayResume | AuctioneerResume):
            self._parts.bids.make_safe(self.children.asked)
        self.keeping.change(**noted)
        self._parts.recording.stored()
        self._lacking = []
        self._publish_resume()
        match resume:
            case DeviceResume() | ResumeGone():
                self._parts.offers.resumed(resume)
            case AuctioneerResume():
                self._parts.asking.answered()
                self.letting.resumed(resume)
            case RelayResume():
                self.letting.resumed(resume)
                self.limiting.resumed(resume)

    def _publish_resume(self) -> None:
        """Hands a copy of the Resume to the broker, with the children that are relays, and of the bids in it the digests."""
        stored = self.stored
        more = ((RELAYS, " ".join(map(str, stored.relays))),) if stored.relays else ()
        words = self.children.words_of_asked
        bids = ((BIDS_OF_SUM, words),) if words else ()
        own = ((OWN_BID, stored.bid.hex()),) if stored.bid else ()
        self._parts.publisher.publish(self._settings.own_topic("resume"), stored.frame, stored.time, more + bids + own)

    def _time_of(self, index: int) -> str:
        """When the clearing of this index was, "" if that was not told."""
        if self._settings.sort == "auctioneer":
            return self.stored.time
        return self.prices.times.get(index, "")

    def _say_lacking(self) -> None:
        """Notes which children are awaited, and says so, not more often than once in a while."""
        now = clock.now()
        if not isinstance(self.resume, RelayResume | AuctioneerResume):
            return
        self._lacking = self.children.lacking(self.resume.numbers)
        if now >= self._lines_from:
            self._lines_from = now + BETWEEN_LINES
            self._log.warning(f"{self._words_of_lacking}: are their nodes up?")


def is_of_another_price(before: DeviceResume, now: DeviceResume) -> bool:
    """Whether two Resumes of a device differ at most in the price that was taken."""
    return replace(before, index=0) == replace(now, index=0)
