"""Who may read and write which topic of a market at its broker: the one list, of which a broker's file of rights is made.

What a login writes are exact topics, so that none can fill the broker with others. An operator alone, who clears what members left, writes
topics of each form that a market has. In what a login reads a + may stand for one level.
"""

from __future__ import annotations

from collections.abc import Iterable, Mapping
from dataclasses import dataclass, field
from typing import Literal

from ..messages.frames import Sort
from ..messages.topics import Topics

Access = Literal["read", "write", "readwrite"]
Words = tuple[tuple[Access, str], ...]


@dataclass(frozen=True)
class Right:
    """That a login may read, write, or read and write the topics that a pattern of MQTT has."""

    access: Access
    topic: str

    def allows(self, access: Literal["read", "write"], topic: str) -> bool:
        """Whether it lets a message of this topic be read or written."""
        if access not in self.access:
            return False
        levels, words = self.topic.split("/"), topic.split("/")
        if levels[-1] == "#":
            levels, words = levels[:-1], words[: len(levels) - 1]
        return len(levels) == len(words) and all(level in ("+", word) for level, word in zip(levels, words, strict=True))


@dataclass(frozen=True)
class Place:
    """A node in its tree.

    parent:      the name of the node above, and `child` the number there; None of the auctioneer
    children:    the nodes directly below: the name of each number
    limits_from: whether a relay takes limits while the market lives
    sites:       the sites in which its parent and its children run
    """

    sort: Sort
    name: str
    parent: str | None = None
    child: int | None = None
    children: Mapping[int, str] = field(default_factory=dict)
    limits_from: bool = False
    sites: frozenset[str] = frozenset()


# What nodes may do with the topics below their own name.
_OF_NODE: Words = (("readwrite", "state"), ("readwrite", "resume"))
_OF_PARENT: Words = (("readwrite", "heartbeat"), ("readwrite", "prices"), ("read", "bid/+"), ("read", "drop/+"))
_OF_EACH_CHILD: Words = (("readwrite", "price"), ("readwrite", "lapsed"), ("readwrite", "refused"))
_OF_LIMITED: Words = (("readwrite", "limits"), ("readwrite", "limits/state"))
_OF_DEVICE: Words = (("readwrite", "setpoint"), ("readwrite", "answer"), ("readwrite", "measured"), ("read", "offer"))
_OF_CONTROL: Words = (("write", "offer"), ("write", "measured"), ("read", "setpoint"), ("read", "answer"), ("read", "state"))
# What a child may do with the topics below its parent's name: those of its own number, and those that are for all children.
_OF_CHILD: Words = (("read", "state"), ("read", "heartbeat"), ("read", "prices"))
_OF_NUMBER: Words = (("readwrite", "bid"), ("read", "price"), ("read", "refused"))
_OF_DEVICE_NUMBER: Words = (("read", "lapsed"),)

# What a page of a whole market reads, and what a history does, below the prefix: neither offers nor Resumes.
# The state of a site comes behind those of its nodes, which it changes.
SHOWN = ("basis", "+/state", "+/site", "+/bid/+", "+/price/+", "+/prices", "+/setpoint", "+/lapsed/+")
KEPT = (*SHOWN, "+/limits/state", "+/measured")
# What an operator may write below the prefix, to clear it. A broker cannot tell a clearing from
# another message.
CLEARED = (
    "basis",
    *(
        f"+/{word}"
        for word in (
            *("state", "site", "resume", "heartbeat", "prices", "limits", "limits/state", "offer"),
            *("setpoint", "measured", "answer"),
            *(f"{word}/+" for word in ("bid", "price", "lapsed", "refused")),
        )
    ),
)


def _below(topics: Topics, node: str, words: Iterable[tuple[Access, str]]) -> list[Right]:
    return [Right(access, topics.of(node, what)) for access, what in words]


def rights_of_node(topics: Topics, place: Place) -> list[Right]:
    """What the login of a node may do."""
    is_device = place.sort == "device"
    found = [Right("readwrite" if place.sort == "auctioneer" else "read", topics.basis)]
    found += _below(topics, place.name, _OF_NODE + (_OF_DEVICE if is_device else _OF_PARENT))
    if place.limits_from:
        found += _below(topics, place.name, _OF_LIMITED)
    if place.parent is not None and place.child is not None:
        found += _below(topics, place.parent, _OF_CHILD)
        words = _OF_NUMBER + (_OF_DEVICE_NUMBER if is_device else ())
        found += [Right(access, topics.at(place.parent, what, place.child)) for access, what in words]
    for child, name in place.children.items():
        found += [Right(access, topics.at(place.name, what, child)) for access, what in _OF_EACH_CHILD]
        # A parent sees which of its children are down.
        found.append(Right("read", topics.of(name, "state")))
    return found + _reads_of_sites(topics, place.sites)


def _reads_of_sites(topics: Topics, sites: Iterable[str]) -> list[Right]:
    """That the states of these sites may be read."""
    return [Right("read", topics.site(site)) for site in sorted(sites)]


def rights_of_site(topics: Topics, name: str) -> list[Right]:
    """What the login of a site may do beside what its nodes may."""
    return [Right("readwrite", topics.site(name))]


def united(rights: Iterable[Right]) -> list[Right]:
    """What a login may do that has all of these rights, each topic once: that of a site has those of its nodes."""
    found: dict[str, Access] = {}
    for right in rights:
        is_same = found.setdefault(right.topic, right.access) == right.access
        found[right.topic] = right.access if is_same else "readwrite"
    return [Right(access, topic) for topic, access in found.items()]


def rights_of_control(topics: Topics, device: str, sites: Iterable[str] = ()) -> list[Right]:
    """What the login of a device's own control may do. `sites` has the one in which the device's node runs, if there is one."""
    return [Right("read", topics.basis), *_below(topics, device, _OF_CONTROL), *_reads_of_sites(topics, sites)]


def rights_of_reader(topics: Topics) -> list[Right]:
    """What the login of a page or a history may do, which is told of the whole market."""
    return [Right("read", f"{topics.prefix}/{kind}") for kind in KEPT]


def rights_of_operator(topics: Topics, children: Iterable[tuple[str, int]]) -> list[Right]:
    """What an operator may do: read all, clear what a topic retains, and let these children go, each by its parent's name and its number."""
    clears = [Right("write", f"{topics.prefix}/{form}") for form in CLEARED]
    drops = [Right("write", topics.at(parent, "drop", child)) for parent, child in children]
    return [Right("read", f"{topics.prefix}/#"), *drops, *clears]


def rights_of_grid_operator(topics: Topics, relays: Iterable[str], sites: Iterable[str] = ()) -> list[Right]:
    """What a grid operator may do, who limits these relays for a while. `sites` are those in which they run."""
    words: Words = (("write", "limits"), ("read", "limits/state"), ("read", "state"))
    return [*(right for relay in relays for right in _below(topics, relay, words)), *_reads_of_sites(topics, sites)]
