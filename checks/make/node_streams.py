"""Random streams for the nodes of docs/RELAY.md, which come back with what they gave to be kept."""

import struct

from checks.make import control_rows
from checks.make.node_bytes import (
    CLEAR, LAST_NUMBER, LEAVE, MOST, SEND, bid, bound, expire, gone, hello, limits, offer, old, price, resume_gone,
)
from checks.make.streams import spoilt
from checks.oracle import frames, node_frames, nodes


class Drawing:
    """A random stream of a node, drawn frame by frame. It looks at the model of the node, so that what it draws matters."""

    def __init__(self, chance, arguments, steps, resume=b""):
        self.chance, self.arguments, self.steps = chance, arguments, steps
        self.basis = (0, 3 * (steps - 1), steps)
        self.node = nodes.node_of(arguments)
        self.giver = getattr(self.node, "giver", 0)
        self.parts, self.written, self.stream = [], b"", frames.Stream(self.node)
        self.widest = chance.choice([3, 100, MOST])
        children = chance.choice([(1,), (1, 2), (1, 2, 255, 256), (7, chance.randint(1, 256))])
        self.children = [child for child in children if child != self.giver] or [3]
        self.prices = chance.choice([0.01, 0.2, 0.4])
        self.add(hello(steps, *self.basis[:2]))
        if resume:
            self.add(resume)
        if arguments[0] != "device" and chance.random() < 0.3:
            self.add(self.bound())

    def add(self, part):
        self.parts.append(part)
        self.written += self.stream.feed(part)

    def demands(self):
        return sorted((self.chance.randint(-self.widest, self.widest) for _ in range(self.steps)), reverse=True)

    def bound(self):
        return bound(self.chance.choice(self.children), -self.chance.choice([0, self.widest, MOST]), self.chance.choice([0, self.widest, MOST]))

    def number_for(self, child, step):
        """A number of a child, mostly one that is new, or that the node sent something of."""
        kept, sent = self.node.kept(child), self.node.numbers.get(child, 0)
        number = self.chance.choice([*[max(kept + step, sent)] * 8, sent + step, sent - step, kept, kept - step, kept + 1000])
        return min(max(number, 1), LAST_NUMBER)

    def of_child(self):
        """A Bid or a Gone, sometimes an Expire, a Bound, or of the giver Limits."""
        what, child = self.chance.random(), self.chance.choice(self.children)
        if what < 0.1:
            return expire(child)
        if what < 0.13:
            return self.bound()
        if what < 0.25 and self.giver:
            number = min(max(self.number_for(self.giver, 2) // 2 * 2, 2), LAST_NUMBER - 1)
            floor, ceiling = (self.chance.choice([0, self.widest // 3, self.widest, MOST]) for _ in range(2))
            return limits(number, -floor, ceiling)
        number = self.number_for(child, self.chance.choice([1, 2]))
        return gone(child, number) if what < 0.4 else bid(child, number, *self.demands())

    def of_parent(self):
        """A Price, mostly of an index that is new and of a number that may be answered, or an Old."""
        node, chance = self.node, self.chance
        if chance.random() < 0.1:
            near = min(max(node.last + chance.randint(-2, 3), 0), LAST_NUMBER)
            return old(node.child, chance.choice([near, near, chance.randint(0, LAST_NUMBER)]))
        waiting = getattr(node, "waiting", None)
        known = [node.index, waiting.index] if waiting else [node.index]
        index = chance.choice(known) + chance.choice([1, 1, 1, 2, 5, 0, -1])
        least = min(node.answered, node.last)
        number = chance.choice([node.last, node.last, node.answered, chance.randint(least, node.last), least - 1, node.last + 1])
        if self.arguments[0] == "device" and node.offers:
            number = chance.choice([number, *node.offers])
        basis = (*self.basis[:1], self.basis[1] + 3, self.steps + 1) if chance.random() < 0.05 else self.basis
        step = chance.randrange(basis[2])
        return price(node.child, min(max(number, 1), LAST_NUMBER), min(max(index, 0), LAST_NUMBER), step, basis)

    def of_relay(self):
        what = self.chance.random()
        if what < self.prices:
            return self.of_parent()
        return SEND if what > 0.6 else self.of_child()

    def of_auctioneer(self):
        return CLEAR if self.chance.random() < 0.3 else self.of_child()

    def points(self):
        many = self.chance.choice([1, 2, 2, 5, 64])
        prices = sorted(self.chance.randint(*self.basis[:2]) for _ in range(many))
        return control_rows.points(*zip(prices, sorted((self.chance.randint(-self.widest, self.widest) for _ in range(many)), reverse=True)))

    def kind(self):
        chance, low = self.chance, self.chance.randint(-50, 50)
        number, power = chance.randrange(6), chance.randint(0, self.widest)
        if number == control_rows.BATTERY:
            return control_rows.kind(number, chance.choice([1, 100, MOST]), power, chance.randint(0, self.widest), chance.choice([0, 1, 1000]))
        kept = number < control_rows.BATTERY
        return control_rows.kind(number, *((low, low + chance.choice([1, 7, 99]), power, 1, 2) if kept else ()))

    def state(self):
        """A state of the kind, or a new kind if there is none."""
        node = self.node.kind
        if node is None:
            return self.kind()
        if "low" in node:
            return control_rows.state(self.chance.randint(node["low"] - 1, node["high"] + 1))
        return control_rows.state(self.chance.randint(0, node.get("capacity", self.widest)))

    def of_device(self):
        what = self.chance.random()
        if what < self.prices:
            return self.of_parent()
        if what > 0.9:
            return LEAVE if what > 0.93 else self.kind()
        return self.chance.choice([lambda: offer(*self.demands()), self.points, self.state])()

    def go_on(self, number):
        draw = {"relay": self.of_relay, "auctioneer": self.of_auctioneer, "device": self.of_device}[self.arguments[0]]
        for _ in range(number):
            self.add(draw())
        return self


def resume_length(arguments, steps):
    return {"relay": 1065, "auctioneer": 1039, "device": 19 + 4 * steps}[arguments[0]]


def lengths_of(arguments, steps):
    """The bytes of each frame that a node writes, except those of one byte."""
    fixed = {
        frames.GONE: 7, frames.OLD: 7, frames.FAULT: 9, node_frames.DROPPED: 9, node_frames.SETPOINT: 15, node_frames.TOO_MUCH: 7,
        node_frames.PRICE: 23, node_frames.OTHER_BASIS: 9, node_frames.RESUME_GONE: 19, node_frames.OUT_OF_LIMITS: 5,
    }
    return fixed | {frames.BID: 7 + 4 * steps, node_frames.RESUME: resume_length(arguments, steps)}


def answers_in(written, arguments, steps):
    """The whole frames among the answers of a node."""
    lengths, at, found = lengths_of(arguments, steps), 0, []
    while at < len(written) and at + (length := lengths.get(written[at], 1)) <= len(written):
        found.append(written[at : at + length])
        at += length
    return found


def resumes_in(written, arguments, steps):
    """The frames of the kinds Resume and ResumeGone among the answers of a node."""
    return [answer for answer in answers_in(written, arguments, steps) if answer[0] in (node_frames.RESUME, node_frames.RESUME_GONE)]


def moved(chance, resume, arguments):
    """A Resume with another price or with other numbers, such as come near the end of numbers, or never."""
    what = chance.random()
    last = struct.pack(">I", LAST_NUMBER - chance.randint(0, 3))
    if arguments[0] == "auctioneer":
        return resume[:-1024] + bytes(1024) if what > 0.5 else resume[:1] + last + resume[5:]
    if arguments[0] == "relay":
        if what < 0.5:
            return resume[:5] + bytes(8) + resume[13:]
        if what < 0.7:
            return resume[:1] + last + last + resume[9:]
        return resume[:1] + last + resume[5:] if what < 0.85 else resume[:-1024] + bytes(1024)
    # Own numbers of a device are even.
    last = struct.pack(">I", LAST_NUMBER - 1 - 2 * chance.randint(0, 5))
    if what < 0.4:
        return resume[:5] + bytes(4) + resume[9:]
    if resume[0] == node_frames.RESUME_GONE and what < 0.6:
        return resume[:1] + bytes(4) + resume[5:]
    return resume[:1] + last + resume[5:]


def random_command(chance):
    floor, ceiling = -chance.choice([0, 1, 50, MOST]), chance.choice([0, 1, 50, MOST])
    child = str(chance.choice([1, 2, 256]))
    relay = ["relay", child, str(floor), str(ceiling)]
    return chance.choice([relay, [*relay, str(chance.choice([1, 2, 9, 256]))], ["auctioneer"], ["device", child]])


def random_frames(chance, arguments):
    """The number of steps and the frames of a stream; three in four come back with what a stream before gave to be kept."""
    steps = chance.choice([2, 2, 3, 10, 100])
    drawn, lives = Drawing(chance, arguments, steps), chance.choice([0, 1, 1, 2])
    drawn.go_on(chance.choice([5, 20, 60]))
    for _ in range(lives):
        kept = resumes_in(drawn.written, arguments, steps)
        resume = chance.choice(kept[-3:]) if kept else b""
        if resume and chance.random() < 0.3:
            resume = moved(chance, resume, arguments)
        drawn = Drawing(chance, arguments, steps, resume).go_on(chance.choice([5, 20, 60]))
    return steps, drawn.parts


def bad_frame(chance, arguments, steps):
    """A frame that no node reads, or not this one, or with a field that is refused."""
    falling = sorted((chance.randint(-9, 9) for _ in range(steps)), reverse=True)
    child, basis = int(arguments[1]) if arguments[1:] else 1, (0, 3 * (steps - 1), steps)
    of_giver = [frame for child in map(int, arguments[4:]) for frame in (expire(child), gone(child, 2), bound(child, -1, 1))]
    return chance.choice(of_giver + [
        hello(), b"\x00", b"\x05", b"\x06", b"\x08", b"\x0c", b"\x10", b"\xff", SEND if arguments[0] != "relay" else LEAVE,
        CLEAR if arguments[0] != "auctioneer" else SEND, b"\x19" + bytes(resume_length(arguments, steps) - 1), resume_gone(1, 1),
        expire(0), expire(257), bound(1, 1, 5), bound(1, -5, -1), limits(3, -5, 5), limits(2, 5, 5),
        price(child, 1, 1, 3, (0, 8, 3)), price(child, 1, 1, 0, (0, 9, 3)),
        bid(0, 1, *falling), bid(257, 1, *falling), bid(1, 0, *falling), bid(9, 9, *falling[:-1], falling[0] + 1),
        gone(0, 1), gone(1, 0), offer(*falling[:-1], falling[0] + 1), offer(MOST + 1, *falling[1:]),
        price(child + 1, 1, 1, 0, basis), price(child, 0, 1, 0, basis), price(child, 1, 1, steps, basis), old(child - 1, 1),
        control_rows.points((1, 1), (0, 1)), control_rows.points((0, 1), (1, 2)), control_rows.points((basis[1] + 1, 0)),
        control_rows.points((basis[0] - 1, 0)), control_rows.points((0, MOST + 1)), control_rows.kind(6), control_rows.kind(4, 1),
        control_rows.kind(0, 5, 5, 1, 1, 1), control_rows.kind(3, 9, 1, 1, 1, 1), control_rows.state(-MOST - 1), b"\x80", b"\xc1",
    ])


def random_stream(chance):
    """The arguments and the bytes of a stream, mostly a right one."""
    arguments = random_command(chance)
    steps, parts = random_frames(chance, arguments)
    return arguments, spoilt(chance, parts, bad_frame(chance, arguments, steps))
