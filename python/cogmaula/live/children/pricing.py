"""What a parent tells its children: the newest Price for each, in one table for all, or each by a topic of its own. A message for each
device and clearing was the limit of a market.

What is not new is not told. A Price with the number and the step of the one before gives the child the same power. In a topic of its
own such a Price waits for one heartbeat. In the table the index moves for all, and the child's node decides what is new for its service.
"""

from __future__ import annotations

import math
from collections.abc import Callable, Collection, Iterable

from ..broker.broker_link import Message, Publication
from .children import SESSION, TIME
from ..node.node_errors import BadFrame
from ..messages.frames import PRICES, Old, Price, frame_of
from ..node.node_parts import NodeParts
from ..messages.price_table import PriceTable
from ..node.sessions import Session


class Pricing:
    """The prices of one node for its children in one session. All calls are of the node's one thread; times are seconds of a clock that only rises."""

    def __init__(self, parts: NodeParts, session: Session, is_gone: Callable[[int], bool]) -> None:
        """Begins a session. `is_gone` says whether a child has left: it is told no price."""
        settings = parts.settings
        self._settings = settings
        self._publisher = parts.publisher
        self._link = parts.link
        self._silence = parts.beating.silence
        self._log = parts.log
        self._session = session.id
        self._is_gone = is_gone
        self._topic_of_table = settings.topics.prices(settings.name)
        # The newest table, when its clearing was, and whether it has still to be published.
        self._table: PriceTable | None = None
        self._time = ""
        self._is_due = False
        # Of each child that has a topic of its own: what that holds, when it was told, and a price that waits since it is not new.
        self._told: dict[int, Price | Old] = {}
        self._told_at: dict[int, float] = {}
        self._waiting: dict[int, tuple[Price, str]] = {}
        self._topics: dict[int, str] = {}

    @property
    def topics(self) -> Collection[str]:
        """The topics of what was told, which the broker has to confirm before a Resume behind it is stored."""
        return [self._topic_of_table, *self._topics.values()]

    # What the service writes.

    def pass_on(self, price: Price | Old, moment: str, now: float) -> None:
        """Tells a child its Price or Old, unless the child has left or has a newer one. What goes into the table waits for `flush`.

        moment: when the clearing was (RFC 3339)
        """
        if self._is_gone(price.child):
            return
        if isinstance(price, Old):
            # A child that was let go has no price.
            self._waiting.pop(price.child, None)
            self._publish(price, moment, now)
        elif self._settings.prices.together:
            self._add(price, moment)
        else:
            self._tell(price, moment, now)

    def pass_on_all(self, prices: Iterable[Price], time_of: Callable[[int], str], now: float) -> None:
        """Does what `pass_on` does for each, with less work for those of one clearing. `time_of` tells when a clearing was, by its index."""
        table = None
        for price in prices:
            if self._is_gone(price.child):
                continue
            if not self._settings.prices.together:
                self._tell(price, time_of(price.index), now)
            elif table is not None and table.is_of_clearing(price):
                table.numbers[price.child] = price.number
                self._clear_topic(price.child)
            else:
                table = self._add(price, time_of(price.index))

    def _add(self, price: Price, moment: str) -> PriceTable | None:
        """Puts a Price into the table, and gives that. None if the table is of a newer clearing."""
        table = self._table
        if table is not None and price.index < table.index:
            return None
        if table is None or not table.is_of_clearing(price):
            table = self._table = PriceTable(price.index, price.step, price.basis)
        table.numbers[price.child] = price.number
        self._time, self._is_due = moment, True
        self._clear_topic(price.child)
        return table

    def _tell(self, price: Price, moment: str, now: float) -> None:
        told = self._told.get(price.child)
        if isinstance(told, Price) and told.index > price.index:
            return
        self._drop(price.child)
        is_same = isinstance(told, Price) and is_of_same_power(told, price)
        if is_same and now < self._told_at.get(price.child, -math.inf) + self._silence.times.heartbeat:
            self._waiting[price.child] = price, moment
        else:
            self._waiting.pop(price.child, None)
            self._publish(price, moment, now)

    def _publish(self, price: Price | Old, moment: str, now: float) -> None:
        self._told[price.child], self._told_at[price.child] = price, now
        self._publisher.publish(self._topic_of(price.child), price.to_bytes(), moment)

    def flush(self) -> None:
        """Publishes the table, if it changed."""
        if self._is_due and self._table is not None:
            self._is_due = False
            payload = self._table.to_bytes() if self._table.numbers else b""
            self._publisher.publish(self._topic_of_table, payload, self._time)

    def tick(self, now: float) -> None:
        """Tells what has waited for a heartbeat, and the table if a child left it."""
        for child in [child for child in self._waiting if now >= self._told_at[child] + self._silence.times.heartbeat]:
            self._publish(*self._waiting.pop(child), now)
        self.flush()

    # What the broker retains, and children that leave.

    def keep_price(self, child: int, message: Message) -> None:
        """Takes a price of this node that the broker retains, as if it had been published now.

        So it is published again if the broker loses it. The price of a child that has left is cleared.
        """
        topic = self._topic_of(child)
        if not message.payload or self._link.kept(topic) is not None:
            return
        if self._is_gone(child) or not self._is_of_session(message):
            self._link.publish(Publication(topic, b""))
            return
        try:
            told = frame_of(message.payload, PRICES, self._settings.basis.steps)
        except BadFrame as error:
            self._log.of_stranger(topic).warning(f"{topic}: what the broker retains is no price, and is cleared: {error}")
            self._link.publish(Publication(topic, b""))
            return
        assert isinstance(told, Price | Old)
        self._told[child] = told
        self._link.publish(Publication(topic, message.payload, tuple(message.properties.items())))

    def keep_table(self, message: Message) -> None:
        """Takes the table of this node that the broker retains, as if it had been published now, without children that have left."""
        if not message.payload or self._table is not None or self._link.kept(self._topic_of_table) is not None:
            return
        if not self._is_of_session(message):
            self._link.publish(Publication(self._topic_of_table, b""))
            return
        try:
            self._table = PriceTable.of(message.payload)
        except BadFrame as error:
            log = self._log.of_stranger(self._topic_of_table)
            log.warning(f"{self._topic_of_table}: what the broker retains is cleared: {error}")
            self._link.publish(Publication(self._topic_of_table, b""))
            return
        self._time = message.properties.get(TIME, "")
        self._link.publish(Publication(self._topic_of_table, message.payload, tuple(message.properties.items())))
        for child in [child for child in self._table.numbers if self._is_gone(child)]:
            self._drop(child)

    def _is_of_session(self, message: Message) -> bool:
        return message.properties.get(SESSION) == self._session

    def clear(self, child: int) -> None:
        """Clears the price of a child that has left, or was let go."""
        self._waiting.pop(child, None)
        self._told.pop(child, None)
        self._drop(child)
        if not self._settings.prices.together or self._link.kept(self._topic_of(child)) is not None:
            self._publisher.clear(self._topic_of(child))

    def _drop(self, child: int) -> None:
        """Takes a child out of the table."""
        if self._table is not None and self._table.numbers.pop(child, None) is not None:
            self._is_due = True

    def _clear_topic(self, child: int) -> None:
        """Clears a child's own topic, if it holds something: the table has the price from now on."""
        if child in self._told:
            del self._told[child]
            self._publisher.clear(self._topic_of(child))

    def _topic_of(self, child: int) -> str:
        topic = self._topics.get(child)
        if topic is None:
            topic = self._topics[child] = self._settings.topics.price(self._settings.name, child)
        return topic


def is_of_same_power(before: Price, price: Price) -> bool:
    """Whether a Price gives a child what the one before gave: it answers the same bid, by the same step, in the same basis."""
    of_before = (before.number, before.step, before.least, before.greatest, before.steps)
    return of_before == (price.number, price.step, price.least, price.greatest, price.steps)
