"""A wire between namespaces that loses, repeats, delays and reorders frames, as `tc netem` does, in a thread of its own.

Not every kernel has netem. The faults are those of its words: a frame is lost, or sent twice, by chance. Each frame is delayed
by a time that jitters, except those that are to come out of order, which are sent at once.
"""

import errno
import fcntl
import heapq
import os
import random
import selectors
import struct
import threading
import time
from dataclasses import dataclass

TUNSETIFF, TAP, NO_HEADER = 0x400454CA, 0x0002, 0x1000
LONGEST = 2_048
BROADCAST = 0x01


@dataclass(frozen=True)
class Faults:
    """The chances that a frame is lost, sent twice or out of order, and the delay and its jitter in seconds, each way."""

    loss: float = 0.0
    duplicate: float = 0.0
    reorder: float = 0.0
    delay: float = 0.0
    jitter: float = 0.0


class Wire:
    """A wire that joins all that was added. Each frame goes to the one whose address it has, or to all others."""

    def __init__(self, seed=1):
        self.faults = Faults()
        self.frames = self.lost = self.repeated = self.early = 0
        self._chance = random.Random(seed)
        self._ends, self._places = [], {}
        self._due, self._order = [], 0
        self._selector = selectors.DefaultSelector()
        self._lock = threading.Lock()
        self._is_over = False
        self._thread = threading.Thread(target=self._work, daemon=True)
        self._thread.start()

    def add(self, name):
        """Makes an interface, and gives its name, which may be moved to a namespace. The wire keeps its other end."""
        end = os.open("/dev/net/tun", os.O_RDWR | os.O_NONBLOCK | os.O_CLOEXEC)
        told = f"wire{os.getpid() % 100_000}.{len(self._ends)}"
        fcntl.ioctl(end, TUNSETIFF, struct.pack("16sH", told.encode(), TAP | NO_HEADER))
        with self._lock:
            self._ends.append(end)
            self._selector.register(end, selectors.EVENT_READ)
        return told

    def begin(self, faults):
        """Begins to make faults, and to count frames."""
        self.frames = self.lost = self.repeated = self.early = 0
        self.faults = faults

    def counts(self):
        """How many frames there were, in words."""
        return f"{self.frames:,} frames, {self.lost:,} lost, {self.repeated:,} twice, {self.early:,} early"

    def close(self):
        """Ends the wire."""
        self._is_over = True
        self._thread.join()
        for end in self._ends:
            os.close(end)

    def _work(self):
        while not self._is_over:
            with self._lock:
                wait = min(0.05, max(0.0, self._due[0][0] - time.monotonic())) if self._due else 0.05
            if not self._ends:
                time.sleep(0.05)
                continue
            for key, _ in self._selector.select(wait):
                self._take(key.fd)
            now = time.monotonic()
            while self._due and self._due[0][0] <= now:
                _, _, end, frame = heapq.heappop(self._due)
                self._put(end, frame)

    def _take(self, begin):
        """Reads a frame and lets it travel, with faults."""
        try:
            frame = os.read(begin, LONGEST)
        except OSError as error:
            if error.errno in (errno.EAGAIN, errno.EIO, errno.EBADFD):
                return
            raise
        self._places[frame[6:12]] = begin
        known = None if frame[0] & BROADCAST else self._places.get(frame[:6])
        for end in [end for end in self._ends if end != begin] if known is None else [known]:
            self._travel(end, frame)

    def _travel(self, end, frame):
        told, chance = self.faults, self._chance.random
        self.frames += 1
        if chance() < told.loss:
            self.lost += 1
            return
        is_twice = chance() < told.duplicate
        self.repeated += is_twice
        for _ in range(1 + is_twice):
            is_early = chance() < told.reorder
            self.early += is_early
            after = 0.0 if is_early else max(0.0, told.delay + told.jitter * (2 * chance() - 1))
            self._order += 1
            heapq.heappush(self._due, (time.monotonic() + after, self._order, end, frame))

    @staticmethod
    def _put(end, frame):
        try:
            os.write(end, frame)
        except OSError as error:
            # A full or closed end loses the frame, as a wire may.
            if error.errno not in (errno.EAGAIN, errno.EIO, errno.EBADFD, errno.ENOBUFS):
                raise
