"""The topics of a market at its broker. docs/LIVE.md has them in a table."""

from __future__ import annotations

import re
from dataclasses import dataclass

from ..node.node_errors import BadSettings
from .frames import CHILDREN
from .price_table import LONGEST as LONGEST_TABLE

_NAME = re.compile(r"[A-Za-z0-9_-]{1,64}")
_CHILD = re.compile(r"[1-9][0-9]{0,2}")
# The words of topics that have a topic for each child.
OF_CHILDREN = ("bid", "price", "lapsed", "refused", "drop")
# Names that stand for something else in a topic.
_TAKEN = {"basis"}
# The most bytes of a message, by the word of its topic: a bid has 1,000 steps at most, and an offer tells each of them in JSON.
_LONGEST = {
    "state": 4_096,
    "site": 1_024,
    "resume": 4_096,
    "heartbeat": 256,
    "limits": 2_048,
    "limits/state": 2_048,
    "offer": 16_384,
    "answer": 1_024,
    "setpoint": 1_024,
    "measured": 256,
    "bid": 4_096,
    "price": 64,
    "prices": LONGEST_TABLE,
    "lapsed": 1_024,
    "refused": 1_024,
    "drop": 256,
}
_LONGEST_BASIS = 1_024


def require_name(text: str, what: str) -> str:
    """The name of a node. Raises BadSettings if it is no name."""
    if not _NAME.fullmatch(text) or text in _TAKEN:
        raise BadSettings(f"{what} is {text!r}: give 1 to 64 letters, digits, _ and -, and not {' or '.join(sorted(_TAKEN))}")
    return text


def require_prefix(text: str) -> str:
    """The prefix of a market's topics, such as `market` or `towns/delft`. Raises BadSettings if it is none."""
    if not all(_NAME.fullmatch(word) for word in text.split("/")):
        raise BadSettings(f"the prefix is {text!r}: give names of letters, digits, _ and -, with / between them")
    return text


@dataclass(frozen=True)
class Topics:
    """The topics below a prefix."""

    prefix: str

    @property
    def basis(self) -> str:
        """The basis and the session, published by the auctioneer."""
        return f"{self.prefix}/basis"

    def of(self, node: str, what: str) -> str:
        """A topic of one node, such as its `state`, `resume` or `heartbeat`."""
        return f"{self.prefix}/{node}/{what}"

    def site(self, name: str) -> str:
        """The state of a site, which is that of each of its nodes. Its word is another one than that of a node's: both may have one name."""
        return self.of(name, "site")

    def at(self, parent: str, what: str, child: int | str) -> str:
        """A topic of one child at its parent: `bid`, `price`, `lapsed`, `refused` or `drop`. The child + stands for all."""
        return f"{self.prefix}/{parent}/{what}/{child}"

    def bid(self, parent: str, child: int | str) -> str:
        """The newest Bid or Gone of a child, for its parent."""
        return self.at(parent, "bid", child)

    def price(self, parent: str, child: int | str) -> str:
        """The newest Price for a child, of its parent."""
        return self.at(parent, "price", child)

    def prices(self, parent: str) -> str:
        """The table of the newest prices of a node, for all of its children."""
        return self.of(parent, "prices")

    def longest(self, topic: str) -> int:
        """The most bytes that a message of a topic may have, 0 for a topic that no market has."""
        if topic == self.basis:
            return _LONGEST_BASIS
        parts = self.parts_of(topic)
        if parts is not None:
            return _LONGEST.get(parts[1], 0)
        return _LONGEST["limits/state"] if topic.endswith("/limits/state") and topic.startswith(f"{self.prefix}/") else 0

    def parts_of(self, topic: str) -> tuple[str, str, int | None] | None:
        """The node of a topic, its word such as `state` or `bid`, and of a topic of a child its number. None if it is no such topic."""
        below = topic.removeprefix(f"{self.prefix}/")
        node, _, rest = below.partition("/")
        word, has_child, _ = rest.partition("/")
        if below == topic or not _NAME.fullmatch(node) or node in _TAKEN:
            return None
        if not has_child:
            return node, word, None
        child = self.child_of(topic, node, word) if word in OF_CHILDREN else None
        return None if child is None else (node, word, child)

    def child_of(self, topic: str, node: str, what: str) -> int | None:
        """The child that a topic of this node, such as one of its bids, is of, or None if it is no such topic."""
        above, _, name = topic.rpartition("/")
        if above != f"{self.prefix}/{node}/{what}" or not _CHILD.fullmatch(name):
            return None
        child = int(name)
        return child if child <= CHILDREN else None
