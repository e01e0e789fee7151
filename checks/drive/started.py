"""Nodes that are given a frame and give the answers to it: processes of the built program, or the model in this process."""

import os
import select
import subprocess

from checks.make.node_bytes import bid, bound, dropped, price, too_much
from checks.make.node_streams import answers_in
from checks.oracle import frames, nodes
from checks.oracle.cuts import AUCTIONEER

SECONDS = 20


class Wrong(Exception):
    """A node did what it should not."""


class Node:
    """A node of a tree, in a market of so many steps."""

    def __init__(self, place, steps):
        self.place, self.steps = place, steps

    def cut(self, data):
        """The whole answers among these bytes."""
        return answers_in(data, self.place.arguments(), self.steps)


class Model(Node):
    """A node of the model."""

    def __init__(self, place, steps):
        super().__init__(place, steps)
        self.stream = frames.Stream(nodes.node_of(place.arguments()))

    def answers(self, data, size=None):
        """The answers to these frames, or the whole ones of their first bytes, of which there are so many."""
        return self.cut(self.stream.feed(data)[:size])

    def stop(self):
        pass


class Process(Node):
    """A node of the built program.

    Whether an answer is still to come cannot be seen. So behind the frames goes one that changes nothing and has one answer: to a
    relay and a device a Price of index 0, which is never new, to the auctioneer a Bid beyond the bound of a child that there is not.
    """

    def __init__(self, program, place, steps):
        super().__init__(place, steps)
        self.child = subprocess.Popen(
            [program, *place.arguments()], stdin=subprocess.PIPE, stdout=subprocess.PIPE, stderr=subprocess.DEVNULL, bufsize=0
        )
        self.marker, self.last = price(place.child, 1, 0, 0, (0, steps - 1, steps)), dropped(1, 0)
        if place.kind == AUCTIONEER:
            self.stranger = next(number for number in range(1, frames.CHILDREN + 1) if number not in place.children)
            self.marker, self.last = bid(self.stranger, 1, *(1,) * steps), too_much(self.stranger, 1)

    def stop(self):
        self.child.kill()
        self.child.wait()
        self.child.stdin.close()
        self.child.stdout.close()

    def answers(self, data, size=None):
        """The answers to these frames, or the whole ones of the first bytes that come, of which there are so many."""
        if data[0] == frames.HELLO and self.place.kind == AUCTIONEER:
            data += bound(self.stranger, 0, 0)
        return self.until(data + self.marker, size)

    def until(self, data, size):
        try:
            self.child.stdin.write(data)
        except OSError:
            raise Wrong(f"{self.place} has ended with status {self.child.wait(SECONDS)}") from None
        read, out = b"", self.child.stdout
        while not read.endswith(self.last) or self.cut(read)[-1:] != [self.last]:
            if size is not None and len(read) >= size:
                return self.cut(read)
            most = 1 << 16 if size is None else size - len(read)
            piece = os.read(out.fileno(), most) if select.select([out], [], [], SECONDS)[0] else b""
            if not piece:
                raise Wrong(f"{self.place} answers {read[-60:].hex()} to {data[:60].hex()} and no more")
            read += piece
        return self.cut(read)[:-1]


def started(program, place, steps):
    """A node of the built program, or of the model if there is no program."""
    return Process(program, place, steps) if program else Model(place, steps)
