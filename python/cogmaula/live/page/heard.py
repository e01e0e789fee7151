"""What the newest messages of a market tell, read by their topics: the session that counts, and what of it each topic holds."""

from __future__ import annotations

from collections.abc import Callable, Mapping
from dataclasses import dataclass
from typing import TypeVar

from ..broker.broker_link import Message
from ..children.children import SESSION, TIME
from ..node.node_errors import BadFrame, BadMessage
from ..messages.frames import BIDS, PRICES, Bid, Gone, Kinds, Old, Price, frame_of
from ..messages.messages import BasisMessage, LapseMessage, SetpointMessage, SilentMessage, SiteMessage, StateMessage, control_message_of
from ..messages.price_table import PriceTable
from ..node.sessions import time_of
from ..messages.topics import Topics

Told = TypeVar("Told")
# A parent's name, and the number of a child there.
Place = tuple[str, int]


@dataclass(frozen=True)
class NotTaken:
    """A message that is not what its topic holds, and why."""

    topic: str
    why: str


def time_or_none(text: str) -> str | None:
    """A time of a message, None if it is none."""
    try:
        time_of(text)
    except BadMessage:
        return None
    return text


class Heard:
    """The messages of a market.

    basis:     the basis and the session, None before they are told; then no bid, price or setpoint is read
    states:    by the name of a node, as that of its site tells it too; None if its message is no state
    bids:      by its place, the newest Bid or Gone of a child, and when it was sent
    prices:    by its place, the newest Price for a child, and when the market cleared
    setpoints: by the name of a device
    silent:    by the name of a device, that its control is told that the market is silent
    lapsed:    by its place, that a child was let go
    not_taken: the messages that are none of these
    """

    def __init__(self, prefix: str, messages: Mapping[str, Message], own: str | None = None) -> None:
        """Reads the messages. Those of other topics than those of docs/LIVE.md are left out.

        own: the node that they are for, None if they are all of the market. Its parent's table also has the prices of its siblings, which
             are left out: of them it hears nothing else
        """
        self._topics = Topics(prefix)
        self.basis: BasisMessage | None = None
        self.states: dict[str, StateMessage | None] = {}
        self._sites: dict[str, SiteMessage] = {}
        self.bids: dict[Place, tuple[Bid | Gone, str | None]] = {}
        self.prices: dict[Place, tuple[Price, str | None]] = {}
        self.setpoints: dict[str, SetpointMessage] = {}
        self.silent: dict[str, SilentMessage] = {}
        self.lapsed: dict[Place, LapseMessage] = {}
        self.not_taken: list[NotTaken] = []
        if (message := messages.get(self._topics.basis)) is not None:
            self._read_basis(message)
        for topic in sorted(messages):
            if messages[topic].payload:
                self._read(messages[topic])
        for name, told in self.states.items():
            if told is not None and told.site is not None and (site := self._sites.get(told.site)) is not None:
                self.states[name] = site.state_of(told)
        state = None if own is None else self.states.get(own)
        if state is not None and state.parent is not None:
            self.prices = {place: told for place, told in self.prices.items() if place[0] != state.parent or place[1] == state.child}

    @property
    def session(self) -> str | None:
        """The id of the session, None before it is told."""
        return None if self.basis is None else self.basis.session.id

    def _read_basis(self, message: Message) -> None:
        told = self._read_as(message, BasisMessage.of) if message.payload else None
        if told is not None and (told.basis.steps < 2 or told.basis.max <= told.basis.min):
            self._refuse(message, f"it has no prices: {told.basis}")
        else:
            self.basis = told

    def _read(self, message: Message) -> None:
        parts = self._topics.parts_of(message.topic)
        if parts is None:
            return
        node, word, child = parts
        if child is not None and word in ("bid", "price"):
            self._read_frame(message, (node, child), BIDS if word == "bid" else PRICES)
        elif child is not None:
            if word == "lapsed" and self._is_of_session(message):
                lapse = self._read_as(message, LapseMessage.of)
                if lapse is not None:
                    self.lapsed[node, child] = lapse
        elif word == "prices":
            self._read_table(message, node)
        elif word == "state":
            self.states[node] = self._read_as(message, StateMessage.of)
        elif word == "site":
            site = self._read_as(message, SiteMessage.of)
            if site is not None:
                self._sites[node] = site
        elif word == "setpoint" and self._is_of_session(message):
            setpoint = self._read_as(message, control_message_of)
            if isinstance(setpoint, SilentMessage):
                self.silent[node] = setpoint
            elif isinstance(setpoint, SetpointMessage):
                self.setpoints[node] = setpoint

    def _is_of_session(self, message: Message) -> bool:
        session = message.properties.get(SESSION, "")
        if self.session is not None and session != self.session:
            self._refuse(message, f"it is of session {session or '(none)'} and not {self.session}")
        return self.session is not None and session == self.session

    def _read_frame(self, message: Message, place: Place, kinds: Kinds) -> None:
        """Reads the frame of a child, if it is one of this session."""
        if self.basis is None or not self._is_of_session(message):
            return
        steps = self.basis.basis.steps
        frame = self._read_as(message, lambda data: frame_of(data, kinds, steps))
        time = time_or_none(message.properties.get(TIME, ""))
        if isinstance(frame, Bid | Gone | Price | Old) and frame.child != place[1]:
            self._refuse(message, f"it names child {frame.child}")
        elif isinstance(frame, Bid | Gone):
            self.bids[place] = frame, time
        elif isinstance(frame, Price):
            self._keep_price(place, frame, time)

    def _read_table(self, message: Message, node: str) -> None:
        """Reads the prices for all children of a node, if they are of this session."""
        if self.basis is None or not self._is_of_session(message):
            return
        table = self._read_as(message, PriceTable.of)
        time = time_or_none(message.properties.get(TIME, ""))
        for price in [] if table is None else table.prices():
            self._keep_price((node, price.child), price, time)

    def _keep_price(self, place: Place, price: Price, time: str | None) -> None:
        """Keeps a price, unless a newer one is known: a child may have one by a topic of its own and one in its parent's table."""
        known = self.prices.get(place)
        if known is None or known[0].index <= price.index:
            self.prices[place] = price, time

    def _read_as(self, message: Message, read: Callable[[bytes], Told]) -> Told | None:
        try:
            return read(message.payload)
        except (BadFrame, BadMessage) as error:
            self._refuse(message, str(error))
        except Exception as error:  # noqa: BLE001 - one message takes no other from the page
            self._refuse(message, f"it cannot be read: {type(error).__name__}")
        return None

    def _refuse(self, message: Message, why: str) -> None:
        self.not_taken.append(NotTaken(message.topic, why))
