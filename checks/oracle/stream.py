"""Answers a stream of bid frames by the definitions of frames and answers in docs/SERVE.md, and from nothing of the program.

As a program it takes the place of `market serve`: it reads standard input in pieces and answers as frames come, with the same
exit status.
"""

import sys

from checks.oracle import frames
from checks.oracle.frames import CLEAR, HELLO_FORM, NOT_CHANGED, Bid, Clear, Hello, bid_forms, clearing_step, old, price, sum_of


class Answers:
    """What each child bid last, and what follows from the frames."""

    def __init__(self):
        self.newest, self.changed, self.index, self.basis = {}, False, 0, None

    def forms(self):
        """Of each kind of frame that may come next the format of its fields, and what is made of them."""
        return HELLO_FORM if self.basis is None else bid_forms(self.basis.steps) | {CLEAR: (">", Clear)}

    def to(self, frame):
        """The bytes of the answers to a frame."""
        if isinstance(frame, Hello):
            self.basis = frame
            return b""
        if isinstance(frame, Clear):
            return self.cleared()
        kept = self.newest.get(frame.child)
        if kept and frame.number <= kept.number:
            return old(frame.child, kept.number)
        self.newest[frame.child], self.changed = frame, True
        return b""

    def cleared(self):
        if not self.changed:
            return bytes([NOT_CHANGED])
        self.changed, self.index = False, self.index + 1
        bids = [self.newest[child] for child in sorted(self.newest) if isinstance(self.newest[child], Bid)]
        step = clearing_step(sum_of([bid.demands for bid in bids], self.basis.steps))
        return b"".join(price(bid.child, bid.number, self.index, step) for bid in bids)


def answers_to(data, ended=True):
    """The status and the answers that the bytes of a stream have, if they are all that comes, or a read fails after them."""
    return frames.answers_to(Answers(), data, ended)


if __name__ == "__main__":
    sys.exit(frames.served(Answers()))
