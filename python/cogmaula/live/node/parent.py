"""The node above, as a node hears it at the broker: its prices, its heartbeats, its words to this child, and its state."""

from __future__ import annotations

from collections.abc import Callable

from ... import clock
from ...logs import NodeLog
from .heartbeat_sender import HeartbeatSender
from ..broker.broker_link import Message
from ..children.children import SESSION, TIME
from .node_errors import BadFrame, BadMessage
from ..messages.frames import PRICES, Old, Price, frame_of
from ..messages.messages import VERSION, object_of
from .node_states import NodeStates
from ..messages.price_table import price_for
from .served_session import ServedSession
from .node_settings import Settings


class Parent:
    """The parent of one node. All calls are of the node's one thread."""

    def __init__(
        self, settings: Settings, name: str, child: int, beating: HeartbeatSender, also_read: Callable[[str], None], log: NodeLog, of_changes: NodeLog
    ) -> None:
        """Takes the settings of the node, the parent's name, the node's own number there, and the node's heartbeats.

        also_read:  reads one more topic, the state of the parent's site
        of_changes: takes a line that is said again only if another one came between
        """
        self._settings = settings
        self._name = name
        self._child = child
        self._beating = beating
        self._log = log
        self._stranger = log.of_stranger(name)
        self._of_changes = of_changes
        # Its state as it was told last, "" if it was not.
        self._state = ""
        topics = settings.topics
        self._states = NodeStates(topics, also_read)
        self._topic_of_state = topics.of(name, "state")
        # How each message of a session is taken, by its topic.
        self._takes: dict[str, Callable[[ServedSession, Message], None]] = {
            topics.prices(name): self._take_table,
            settings.own_topic("price"): self._take_price,
            topics.of(name, "heartbeat"): self._take_heartbeat,
            settings.own_topic("lapsed"): self._take_lapse,
            settings.own_topic("refused"): self._take_refusal,
        }

    def take(self, session: ServedSession, message: Message) -> bool:
        """Takes a message of the parent, in a session of the node, and says whether it was one."""
        take = self._takes.get(message.topic)
        if take is None and message.topic != self._topic_of_state:
            return False
        try:
            if take is None:
                self._take_state(message)
            elif message.payload and message.properties.get(SESSION) == session.stored.session.id:
                take(session, message)
        except (BadFrame, BadMessage) as error:
            self._log.of_stranger(message.topic).warning(f"{message.topic} is not taken: {error}")
        return True

    def _take_price(self, session: ServedSession, message: Message) -> None:
        """Takes a Price or an Old of the node's own topic. Raises BadFrame."""
        price = frame_of(message.payload, PRICES, self._settings.basis.steps)
        assert isinstance(price, Price | Old)
        if price.child != self._child:
            raise BadFrame(f"it names child {price.child}")
        if isinstance(price, Old):
            session.hear_old(price)
        else:
            session.hear_price(price, message.properties.get(TIME, ""))

    def _take_table(self, session: ServedSession, message: Message) -> None:
        """Takes the own Price of the parent's table. Raises BadFrame."""
        price = price_for(message.payload, self._child)
        if price is not None:
            session.hear_price(price, message.properties.get(TIME, ""))

    def _take_heartbeat(self, _session: ServedSession, message: Message) -> None:
        """Takes a heartbeat. Raises BadMessage."""
        self._beating.hear(message.payload, clock.now(), message.retained)

    def _take_lapse(self, session: ServedSession, message: Message) -> None:
        """Takes that the parent has let this child go. Raises BadMessage."""
        number, why = _word_of(message)
        if type(number) is int:
            session.hear_lapse(number, why, clock.now())

    def _take_refusal(self, session: ServedSession, message: Message) -> None:
        """Takes that a bid of this child is too much. Raises BadMessage."""
        number, why = _word_of(message)
        self._stranger.warning(f"{self._name} does not take bid {number}: it is {why}. The one before counts")
        if type(number) is int:
            session.hear_refusal(number, why)

    def take_site(self, message: Message) -> None:
        """Takes the state of a site, which may be the parent's."""
        try:
            self._take_state(message)
        except BadMessage as error:
            self._log.of_stranger(message.topic).warning(f"{message.topic} is not taken: {error}")

    def _take_state(self, message: Message) -> None:
        """Says what changed of the parent's state. Raises BadMessage."""
        found = self._states.take(message)
        if self._name not in found:
            return
        told = found[self._name]
        if told is not None and told.version != VERSION:
            self._of_changes.error(f"{self._name} is of version {told.version}, and this node of {VERSION}: install this version there")
        if told is not None and told.state != (self._state or "up"):
            if told.state == "up":
                self._stranger.info(f"{self._name} is up again")
            else:
                self._stranger.warning(f"{self._name} is down: {told.why}")
        self._state = "" if told is None else told.state


def _word_of(message: Message) -> tuple[object, str]:
    """The number of a bid that a word of the parent names, and why. Raises BadMessage."""
    told = object_of(message.payload, "the word of the parent")
    return told.get("number"), str(told.get("why", ""))[:200]
