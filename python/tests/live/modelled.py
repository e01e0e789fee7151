"""Recordings of drawn markets, in which services are those of checks/oracle/nodes.py, and nobody waits for anybody.

What happens is drawn: offers, sends, clears, frames that come late, again or never, devices that are let go, limits that change,
bounds, kills between any two lines, and Resumes of which the price is an older one. So the recordings are those of runs of the
network by docs/RELAY.md, and need no program.
"""

from __future__ import annotations

import json
import random
from dataclasses import dataclass, field

from pretended import SESSION

from checks.oracle import frames
from checks.oracle.nodes import RESUME, RESUME_GONE, node_of
from cogmaula.cluster import Basis
from cogmaula.live.messages.frames import MOST, WRITES, Bound, Clear, Expire, Hello, Leave, Limits, Offer, Send, Splitter
from test_judge_any import BIDS, PRICES, exact

BASIS = Basis(0, 6, 4)
NO_LIMITS = (-MOST, MOST)


@dataclass
class Modelled:
    """A node: its place, its service with the frames that wait to be handled, its lines, and what it sent."""

    sort: str
    parent: str | None = None
    child: int | None = None
    limits: tuple = NO_LIMITS
    giver: int = 0
    given: list = field(default_factory=list)
    stream: frames.Stream | None = None
    written: list = field(default_factory=list)
    lines: list = field(default_factory=list)
    sent: list = field(default_factory=list)
    stored: bytes = b""
    waits: bytes | None = None
    resumes: list = field(default_factory=lambda: [b""])

    def arguments(self):
        own = [self.sort] if self.child is None else [self.sort, str(self.child)]
        giver = [str(self.giver)] if self.giver else []
        return own + ([*map(str, self.limits), *giver] if self.sort == "relay" else [])


class DrawnMarket:
    """Nodes by their names, each parent before its children. A bound of all children holds if one is named, in watts."""

    def __init__(self, nodes, seed, bound=None):
        self.nodes, self.random, self.bound = nodes, random.Random(seed), bound
        for name in nodes:
            self.start(name, b"")

    def line(self, name, what, **members):
        told = {"at": "2026-01-31T06:30:00.000000Z", "what": what, **members}
        self.nodes[name].lines.append(json.dumps(told).encode() + b"\n")

    def start(self, name, resume):
        node = self.nodes[name]
        place = {"node": name, "sort": node.sort, "arguments": node.arguments(), "parent": node.parent, "child": node.child}
        basis = {"min": BASIS.min, "max": BASIS.max, "steps": BASIS.steps}
        self.line(name, "start", **place, **basis, session=SESSION.id, begun=SESSION.begun, resume=resume.hex() or None)
        node.stream, node.written, node.stored, node.waits = frames.Stream(node_of(node.arguments())), [], resume, None
        self.take(node, Hello(BASIS.min, BASIS.max, BASIS.steps).to_bytes() + resume)
        for child in self.children(name) if self.bound is not None else []:
            self.feed(name, Bound(child, -self.bound, self.bound).to_bytes())

    def children(self, name, sort="device"):
        return [node.child for node in self.nodes.values() if node.parent == name and node.sort == sort]

    def take(self, node, data):
        node.written += [frame.to_bytes() for frame in Splitter(WRITES[node.sort], BASIS.steps).feed(node.stream.feed(data))]
        assert not node.stream.is_bad

    def feed(self, name, data):
        self.line(name, "in", frame=data.hex())
        self.take(self.nodes[name], data)

    def handle(self, name):
        """A node does the next thing: it notes that a Resume is stored, or handles a frame."""
        node = self.nodes[name]
        if node.waits is not None:
            self.line(name, "stored")
            node.stored, node.waits = node.waits, None
        elif node.written:
            data = node.written.pop(0)
            self.line(name, "out", frame=data.hex())
            if data[0] in (RESUME, RESUME_GONE):
                node.waits = data
                node.resumes.append(data)
            else:
                node.sent.append(data)

    def handle_all(self, name):
        while self.nodes[name].written or self.nodes[name].waits is not None:
            self.handle(name)

    def kill(self, name):
        """A node stops, maybe before it has done all, and starts with its newest Resume, or an older one of another price alone."""
        node = self.nodes[name]
        if self.random.random() < 0.5:
            self.asks(name)
        for _ in range(self.random.randint(0, 3)):
            self.handle(name)
        newest = self.random.choice([node.stored] if node.waits is None else [node.stored, node.waits])
        self.start(name, self.random.choice([resume for resume in node.resumes if exact(resume)[0] == exact(newest)[0]]))

    def deliver(self, name):
        """A node is given a frame that its parent or a child sent it, the newest or any."""
        parent = self.nodes[name].parent
        if self.random.random() < 0.5:
            to, kinds, sent = parent, BIDS, self.nodes[name].sent
        else:
            to, kinds, sent = name, PRICES, [frame for frame in self.nodes[parent].sent if self.is_for(frame, name)]
        found = [frame for frame in sent if frame[0] in kinds]
        if found:
            self.feed(to, found[-1] if self.random.random() < 0.7 else self.random.choice(found))

    def is_for(self, data, name):
        return data[0] in PRICES and int.from_bytes(data[1:3], "big") == self.nodes[name].child

    def asks(self, name):
        """The control of a device offers or leaves, and a carrier asks a relay or the auctioneer."""
        sort = self.nodes[name].sort
        if sort == "device":
            powers = sorted((self.random.randint(-3, 3) * 100 for _ in range(BASIS.steps)), reverse=True)
            if self.random.random() < 0.4:
                # An offer that it may have made before.
                powers = [200, 100, -100, -200]
            self.feed(name, (Leave() if self.random.random() < 0.2 else Offer(tuple(powers))).to_bytes())
        else:
            self.feed(name, (Clear() if sort == "auctioneer" else Send()).to_bytes())

    def lets_go(self, name):
        """A parent lets one of its devices go."""
        children = self.children(name)
        if children:
            self.feed(name, Expire(self.random.choice(children)).to_bytes())

    def gives(self):
        """A relay whose limits may change is given others, or older ones again."""
        for name, node in self.nodes.items():
            if not node.giver or self.random.random() < 0.3:
                continue
            if not node.given or self.random.random() < 0.7:
                floor, ceiling = self.random.choice([node.limits, NO_LIMITS, (-5_000, 6_000)])
                node.given.append(Limits(2 * len(node.given) + 2, floor, ceiling))
            self.feed(name, self.random.choice([node.given[-1], *node.given[-2:]]).to_bytes())

    def step(self):
        name = self.random.choice(list(self.nodes))
        what = self.random.random()
        if what < 0.04:
            self.kill(name)
        elif what < 0.08:
            self.lets_go(name)
        elif what < 0.12:
            self.gives()
        elif what < 0.4:
            self.asks(name)
        elif self.nodes[name].parent is not None:
            self.deliver(name)
        # A node that stops may have handled a part alone.
        if self.random.random() < 0.1:
            self.handle(name)
        else:
            for node_name in self.nodes:
                self.handle_all(node_name)

    def write(self, folder):
        folder.mkdir(parents=True)
        for name, node in self.nodes.items():
            (folder / f"{name}.{SESSION.id}.000001.frames").write_bytes(b"".join(node.lines))
        return folder


def nodes_of(*places):
    """The nodes of a tree, of the name, the sort, the parent and of a relay its limits and giver. Children count in the order given."""
    nodes, counts = {"auctioneer": Modelled("auctioneer")}, {}
    for name, sort, parent, *limits in places:
        counts[parent] = counts.get(parent, 0) + 1
        nodes[name] = Modelled(sort, parent, counts[parent], *limits)
    return nodes
