#!/usr/bin/env python3
"""Writes a stream of bid frames to standard output, as `market serve` reads them (docs/SERVE.md).

    python3 bench/make_stream.py [BIDS [STEPS]] > stream

It has 1,000,000 bids of 100 steps from 256 children in turn, and asks for a clearing behind every 256 of them: 407 MB, to which
the answers are 1,000,000 prices less those of the last bids, 13 MB. The same numbers give the same bytes.
"""

import random
import struct
import sys

HELLO, BID, CLEAR = 1, 2, 4
CHILDREN = 256
SEED = 3


def bids(steps):
    """The demands of some bids, of devices that take and of devices that give, as bytes."""
    chance = random.Random(SEED)
    for child in range(CHILDREN + 1):
        most = 2_000 if child % 2 else 0
        demands = sorted((most - chance.randint(0, 2_000) for _ in range(steps)), reverse=True)
        yield struct.pack(f">{steps}i", *demands)


def main(number=1_000_000, steps=100):
    write = sys.stdout.buffer.write
    write(struct.pack(">BiiH", HELLO, 0, steps - 1, steps))
    demands = list(bids(steps))
    for at in range(number):
        write(struct.pack(">BHI", BID, at % CHILDREN + 1, at // CHILDREN + 1))
        # One more than there are children, so that a child's bids differ from each other.
        write(demands[at % len(demands)])
        if at % CHILDREN == CHILDREN - 1:
            write(bytes([CLEAR]))


if __name__ == "__main__":
    main(*map(int, sys.argv[1:]))
