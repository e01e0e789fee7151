#!/usr/bin/env python3
"""Writes streams for a relay into a folder, as docs/RELAY.md has its frames.

    python3 bench/make_relay_stream.py FOLDER

- `relay_100_steps` has 200,000 bids of 100 steps from 256 children in turn. Behind every 256 of them come a Send, and a Price for the
  bid that the relay then makes: 82 MB.
- `relay_1000_steps` has 40,000 bids of 1000 steps in the same order: 160 MB.
- `relay_old` has a bid of each child, a Send and a Price, and then 200,000 bids of 100 steps under numbers that are not above the kept
  ones: 82 MB.

The relay is child 3 of its parent. The sum of the bids goes beyond ±50,000 watts on both sides, so limits there matter. The same
numbers give the same bytes.
"""

import os
import struct
import sys

from make_stream import BID, CHILDREN, HELLO, bids

PRICE, SEND = 23, 9
# The relay's own number at its parent.
OWN = 3
# The number of each child's only bid that counts in `relay_old`.
KEPT = 1_000_000


def hello(steps):
    return struct.pack(">BiiH", HELLO, 0, steps - 1, steps)


def price(number, steps):
    """The price for a bid of the relay; its index is the bid's number, and its step moves on with it."""
    return struct.pack(">BHIIHiiH", PRICE, OWN, number, number, number % steps, 0, steps - 1, steps)


def bids_in_turn(number, steps, number_of):
    """So many bids of the children in turn, each under the number that its place in the turn has."""
    demands = list(bids(steps))
    for at in range(number):
        # One more than there are children, so that a child's bids differ from each other.
        yield struct.pack(">BHI", BID, at % CHILDREN + 1, number_of(at)) + demands[at % len(demands)]


def rising(number, steps):
    """A stream of bids under rising numbers, with a Send and a Price behind each turn of the children."""
    yield hello(steps)
    for at, bid in enumerate(bids_in_turn(number, steps, lambda at: at // CHILDREN + 1), 1):
        yield bid
        if at % CHILDREN == 0:
            yield bytes([SEND]) + price(at // CHILDREN, steps)


def old(number, steps):
    """A stream of bids of which only the first of each child counts."""
    yield hello(steps)
    yield from bids_in_turn(CHILDREN, steps, lambda _: KEPT)
    yield bytes([SEND]) + price(1, steps)
    yield from bids_in_turn(number, steps, lambda at: at // CHILDREN + 1)


# The streams by their names.
STREAMS = {
    "relay_100_steps": lambda: rising(200_000, 100),
    "relay_1000_steps": lambda: rising(40_000, 1_000),
    "relay_old": lambda: old(200_000, 100),
}


def main(folder):
    for name, frames in STREAMS.items():
        with open(os.path.join(folder, name), "wb") as target:
            target.writelines(frames())


if __name__ == "__main__":
    main(*sys.argv[1:])
