"""What a parent does with its children: it hears their bids, bounds them, lets devices go, and lets them come back."""

from __future__ import annotations

import json
from collections.abc import Iterable

from ... import clock
from ...logs import NodeLog
from ..broker.broker_link import Message
from .children import SORT, Children, Heard
from ..node.node_errors import BadMessage, BadSettings
from ..messages.frames import AuctioneerResume, Bound, Expire, Gone, Old, RelayResume, TooMuch
from ..node.session_store import SessionStore
from .lapses import Lapses
from ..messages.messages import LapseMessage
from ..node.node_parts import NodeParts
from ..node.node_states import NodeStates
from .pricing import Pricing
from ..node.sessions import now_text
from ..node.market_times import Times
from ..messages.topics import require_name

# The most names of nodes that are taken of one child: their states are read.
NAMES = 4


class ChildManager:
    """The children of one node in one session. All calls are of the node's one thread; times are seconds of a clock that only rises."""

    def __init__(self, parts: NodeParts, keeping: SessionStore, children: Children, pricing: Pricing, times: Times) -> None:
        """Takes the parts of the node, and what it has of the session."""
        settings = parts.settings
        self._settings = settings
        self._keeping = keeping
        self._publisher = parts.publisher
        self._link = parts.link
        self._children = children
        self._pricing = pricing
        self._log = parts.log
        self._feed = parts.feed
        self._has_news = parts.asking.has_news
        self.lapses = Lapses()
        self.lapses.begin(times)
        self._numbers: tuple[int, ...] = ()
        self._are_missed = False
        self._of_child = {child.child: child for child in settings.children}
        # Of each child the newest message that came before its pause was over, and when that is.
        self._waiting: dict[int, Message] = {}
        self._not_before: dict[int, float] = {}
        self._names = parts.names
        self._states = NodeStates(settings.topics, parts.link.also_read)

    def begin(self, resume: RelayResume | AuctioneerResume | None, kept: Iterable[Heard], now: float) -> None:
        """Begins with the Resume, and the bids that the disk has of the children: they count as if they were heard now."""
        self._numbers = () if resume is None else resume.numbers
        self._are_missed = resume is not None
        # A device gives even numbers. So an odd one says that it was let go, as by a fence, of which this disk does not know.
        numbers = enumerate(self._numbers, 1) if isinstance(resume, RelayResume) else ()
        gone = {child: number for child, number in numbers if number % 2 and self._is_device(child)}
        if gone.keys() - self._lapsed.keys():
            self._keeping.change(lapsed={**gone, **self._lapsed})
        for heard in kept:
            self._note_sender(heard, now)

    def resumed(self, resume: RelayResume | AuctioneerResume) -> None:
        """Goes by a newer Resume."""
        self._numbers = resume.numbers

    @property
    def _lapsed(self) -> dict[int, int]:
        """The number under which each child that was let go counts as gone."""
        return dict(self._keeping.stored.lapsed)

    def _is_device(self, child: int) -> bool:
        """Whether a child may be let go: it is no relay, and not the place in which limits are given."""
        known = self._of_child.get(child)
        if child == self._settings.place_of_limits:
            return False
        return child not in self._keeping.stored.relays if known is None or known.sort is None else known.sort == "device"

    def _is_relay(self, child: int, message: Message) -> bool:
        """Whether a message of a child is of a relay, by the settings of this node or else by the message."""
        known = self._of_child.get(child)
        if known is not None and known.sort is not None:
            return known.sort == "relay"
        return message.properties.get(SORT) == "relay"

    @property
    def has_waiting(self) -> bool:
        """Whether a bid waits until the pause of its child is over."""
        return bool(self._waiting)

    @property
    def bounds(self) -> list[bytes]:
        """The frames that bound children, for a service that starts."""
        return [Bound(child.child, child.least, child.greatest).to_bytes() for child in self._settings.children]

    @property
    def expiries(self) -> list[bytes]:
        """The frames that let children go again, for a service that starts."""
        return [Expire(child).to_bytes() for child in sorted(self._lapsed)]

    # Bids.

    def take_bid(self, child: int, message: Message, now: float) -> None:
        """Takes a message on the topic of a child's bids. One that renews a bid is not fed, unless the child was let go.

        A relay that leaves hears the relays below it alone.
        """
        if self._settings.is_fence and self._is_device(child):
            return
        if child == self._settings.place_of_limits:
            self._stranger(child).warning(f"{message.topic} is not taken: child {child} is the place in which limits are given")
            return
        if now < self._not_before.get(child, now):
            self._waiting[child] = message
            self.lapses.lives(child, now)
            return
        heard = self._children.taken(child, message, self._is_relay(child, message))
        if heard is not None and isinstance(heard.frame, Gone):
            self._pricing.clear(child)
        if heard is None or (message.retained and not heard.is_new):
            return
        self._note_sender(heard, now)
        lapsed = self._lapsed.get(child, 0)
        if lapsed and heard.frame.number > lapsed:
            self._comes_back(child)
        elif not heard.is_new and not lapsed:
            return
        elif lapsed:
            self.lapses.forget(child)
        if heard.is_new:
            self._not_before[child] = now + self._pause_of(child)
        self._clear("refused", child)
        self._has_news()
        self._feed(heard.frame.to_bytes())
        if heard.is_new and heard.frame.number <= lapsed:
            # The service did not know of it, as after a restart: it is let go again, and the bid behind that is answered by an Old.
            self._feed(Expire(child).to_bytes())
            self._feed(heard.frame.to_bytes())

    def _pause_of(self, child: int) -> float:
        """The seconds that have to pass between two bids of a child that count."""
        known = self._of_child.get(child)
        return self._settings.child_pause if known is None or known.pause is None else known.pause

    def _note_sender(self, heard: Heard, now: float) -> None:
        child, relays = heard.frame.child, self._keeping.stored.relays
        known = self._of_child.get(child)
        sort = heard.sort if known is None or known.sort is None else known.sort
        if sort == "relay" and child not in relays:
            self._keeping.change(relays=tuple(sorted({*relays, child})))
        if sort != "device" or isinstance(heard.frame, Gone):
            self.lapses.forget(child)
            return
        self.lapses.heard(child, heard.node, now)
        names = self._names.setdefault(child, set())
        if heard.node in names or len(names) >= NAMES:
            return
        names.add(heard.node)
        try:
            self._link.also_read(self._settings.topics.of(require_name(heard.node, "node"), "state"))
        except BadSettings:
            self._stranger(child).warning(f"child {child} does not say a name: its last will is not seen")

    def _stranger(self, child: int) -> NodeLog:
        """The log for lines that a child causes."""
        return self._log.of_stranger(f"child {child}")

    def _clear(self, what: str, child: int) -> None:
        """Clears a topic of a child, if something was published there."""
        self._publisher.clear_told(self._settings.topics.at(self._settings.name, what, child))

    def too_much(self, frame: TooMuch) -> None:
        """Tells that the service did not take a bid, which is outside the child's bound."""
        self._children.too_much(frame.child, frame.number)
        bound = next((child for child in self._settings.children if child.child == frame.child), None)
        told = {"number": frame.number, "time": now_text()}
        if bound is not None:
            told |= {"least": bound.least, "greatest": bound.greatest}
            why = f"outside {bound.least} to {bound.greatest} watts"
        else:
            why = "too much"
        log = self._stranger(frame.child)
        log.warning(f"bid {frame.number} of child {frame.child} is {why}: it does not count, and the one before does")
        topic = self._settings.topics.at(self._settings.name, "refused", frame.child)
        self._publisher.publish(topic, json.dumps({**told, "why": why}).encode(), now_text())

    # ChildManager go.

    def take_state(self, message: Message, now: float) -> None:
        """Takes the state of a child's node, or of the site of some."""
        try:
            found = self._states.take(message)
        except BadMessage as error:
            self._log.of_stranger(message.topic).warning(f"{message.topic} is not taken: {error}")
            return
        for name, told in found.items():
            if told is not None and told.parent == self._settings.name and told.child is not None:
                self.lapses.state(name, told.child, told.state == "up", now)

    def drop(self, child: int) -> None:
        """Lets a child go by the word of an operator, if it is a device that bids."""
        if not self._is_device(child):
            self._stranger(child).warning(f"child {child} is not let go: it is a relay, or the place in which limits are given")
        elif child in self._lapsed:
            self._tell_lapse(child, "it was let go before")
            self._has_news()
            self._feed(Expire(child).to_bytes())
        elif not self._number(child):
            self._stranger(child).warning(f"child {child} is not let go: it has not bid in this session")
        else:
            self._let_go(child, "by the word of an operator")

    def let_all_go(self, why: str) -> None:
        """Lets each device go that is in the newest sum."""
        for child, number in enumerate(self._numbers, 1):
            if number and self._is_device(child):
                self._let_go(child, why)

    @property
    def are_all_gone(self) -> bool:
        """Whether the newest sum has each child that was let go as gone."""
        return all(self._numbers[child - 1] == number for child, number in self._lapsed.items())

    def tick(self, now: float, is_connected: bool) -> None:
        """Lets go who is due."""
        self.lapses.connected(is_connected, now)
        for child in [child for child in self._waiting if now >= self._not_before[child]]:
            self.take_bid(child, self._waiting.pop(child), now)
        if self._are_missed:
            lacking = self._children.lacking(self._numbers)
            missed = [child for child in lacking if self._is_device(child) and child not in self._lapsed]
            self.lapses.missed(missed, now)
            self._are_missed = bool(lacking)
        for child, why in self.lapses.due(now).items():
            self._let_go(child, why)

    def _number(self, child: int) -> int:
        """The newest number that is known of a child, 0 without one."""
        return max(self._children.number(child), self._numbers[child - 1] if self._numbers else 0)

    def _let_go(self, child: int, why: str) -> None:
        """Stores that a child is let go, and then lets it go: so that a restart does it again."""
        self._keeping.change(lapsed={**self._lapsed, child: self._number(child) | 1})
        self.lapses.forget(child)
        self._pricing.clear(child)
        self._stranger(child).warning(f"child {child} is let go, {why}: its bid does not count any more")
        self._tell_lapse(child, why)
        self._has_news()
        self._feed(Expire(child).to_bytes())

    def _tell_lapse(self, child: int, why: str) -> None:
        told = LapseMessage(self._lapsed[child], why, now_text())
        self._publisher.publish(self._settings.topics.at(self._settings.name, "lapsed", child), told.to_bytes(), told.time)

    def _comes_back(self, child: int) -> None:
        self._stranger(child).info(f"child {child} is back")
        self._keeping.change(lapsed={lapsed_child: number for lapsed_child, number in self._lapsed.items() if lapsed_child != child})
        self._publisher.clear(self._settings.topics.at(self._settings.name, "lapsed", child))

    def old(self, frame: Old) -> None:
        """Hands an Old to a device that was let go and lives: by it the device bids anew."""
        if self._is_device(frame.child) and 0 < self._children.number(frame.child) < frame.kept:
            self._pricing.pass_on(frame, now_text(), clock.now())
