"""Frames of bytes: how a stream of them is cut and answered, and the frames that all services have. By docs/SERVE.md alone.

A service answers frames one by one. It has `forms()`, which tells of each kind that may come next the format of its fields and
what is made of them, `basis`, the Hello once it came, and `to(frame)`, the bytes of the answers to a frame.
"""

import os
import struct
from dataclasses import dataclass

from checks.facts import (
    DEMAND_LIMIT, DONE, LEAST_STEPS, MOST_NODES, MOST_STEPS, READ_FAULT, REFUSED, STREAM_LIMIT, TOO_LONG, USAGE, WRITE_FAULT,
)

HELLO, BID, GONE, CLEAR, PRICE, NOT_CHANGED, OLD, FAULT = range(1, 9)
CHILDREN, STEPS, MOST = MOST_NODES, (LEAST_STEPS, MOST_STEPS), DEMAND_LIMIT
LIMIT, PIECE = STREAM_LIMIT, 65_536


@dataclass(frozen=True)
class Hello:
    least: int
    greatest: int
    steps: int

    def is_right(self, _):
        fits = STEPS[0] <= self.steps <= STEPS[1] and -MOST <= self.least < self.greatest <= MOST
        return fits and (self.greatest - self.least) % (self.steps - 1) == 0


def is_bid(demands, basis):
    """Whether there is a demand for each step, none above the one before, and each within the limit."""
    falls = all(a >= b for a, b in zip(demands, demands[1:]))
    return len(demands) == basis.steps and falls and all(abs(demand) <= MOST for demand in demands)


@dataclass(frozen=True)
class Bid:
    child: int
    number: int
    demands: tuple

    def is_right(self, basis):
        return 1 <= self.child <= CHILDREN and self.number > 0 and is_bid(self.demands, basis)


@dataclass(frozen=True)
class Gone:
    child: int
    number: int

    def is_right(self, _):
        return 1 <= self.child <= CHILDREN and self.number > 0


class Right:
    """A frame without a field that could be refused."""

    def is_right(self, _):
        return True


@dataclass(frozen=True)
class Clear(Right):
    pass


HELLO_FORM = {HELLO: (">iiH", Hello)}


def bid_forms(steps):
    """The frames that a parent reads of its children."""
    return {
        BID: (f">HI{steps}i", lambda child, number, *demands: Bid(child, number, demands)),
        GONE: (">HI", Gone),
    }


class Bad(Exception):
    """No frame stands here."""


def frame_at(data, at, service):
    """The frame at a place and the place behind it, or None if more bytes are needed to tell."""
    if at == len(data):
        return None
    form = service.forms().get(data[at])
    if form is None:
        raise Bad
    end = at + 1 + struct.calcsize(form[0])
    if end > len(data):
        return None
    frame = form[1](*struct.unpack(form[0], data[at + 1 : end]))
    if not frame.is_right(service.basis):
        raise Bad
    return frame, end


def fault_at(offset):
    return struct.pack(">BQ", FAULT, offset)


def old(child, kept):
    return struct.pack(">BHI", OLD, child, kept)


def price(child, number, index, step):
    """A Price of `serve`. That of a node of a tree has the basis too."""
    return struct.pack(">BHIIH", PRICE, child, number, index, step)


def bid(child, number, demands):
    return struct.pack(f">BHI{len(demands)}i", BID, child, number, *demands)


def gone(child, number):
    return struct.pack(">BHI", GONE, child, number)


def clearing_step(total):
    return next((at for at, demand in enumerate(total) if demand <= 0), len(total) - 1)


def sum_of(bids, steps):
    """The demands of bids, added step by step."""
    return [sum(demands) for demands in zip(*bids)] or [0] * steps


class Stream:
    """The bytes that a service reads, cut into frames. It keeps the bytes that belong to no whole frame yet."""

    def __init__(self, service):
        self.service, self.kept, self.before, self.is_bad = service, b"", 0, False

    def feed(self, piece):
        """The answers to the frames that a further piece ends. A Fault is the last of them if a frame is bad."""
        data, at, written = self.kept + piece, 0, []
        try:
            while (found := frame_at(data, at, self.service)) is not None:
                frame, at = found
                written.append(self.service.to(frame))
        except Bad:
            self.is_bad = True
            written.append(fault_at(self.before + at))
        self.kept, self.before = data[at:], self.before + at
        return b"".join(written)

    def end(self):
        """The answer to the end of the stream: a Fault if it is within a frame."""
        self.is_bad = self.is_bad or bool(self.kept)
        return fault_at(self.before) if self.kept else b""


def answers_to(service, data, ended=True):
    """The status and the answers that the bytes of a stream have, if they are all that comes, or a read fails after them."""
    stream = Stream(service)
    written = stream.feed(data)
    if stream.is_bad:
        return REFUSED, written
    if len(data) > LIMIT:
        return TOO_LONG, written
    if not ended:
        return READ_FAULT, written
    written += stream.end()
    return (REFUSED if stream.is_bad else DONE), written


def write_all(data):
    while data:
        data = data[os.write(1, data) :]


def served(service):
    """Answers standard input on standard output, and gives the exit status."""
    stream, taken = Stream(service), 0
    while True:
        try:
            piece = os.read(0, PIECE)
        except OSError:
            return READ_FAULT
        taken += len(piece)
        try:
            write_all(stream.feed(piece) if piece else stream.end())
        except OSError:
            return WRITE_FAULT
        if stream.is_bad:
            return REFUSED
        if taken > LIMIT:
            return TOO_LONG
        if not piece:
            return DONE
