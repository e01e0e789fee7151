#!/usr/bin/env python3
"""Measures `live relay` beside the plain relay of `bench/plain_relay`: frames a second, the time to its own bid, and its memory.

    relay.py RUNS LIVE PLAIN FOLDER

LIVE and PLAIN are the programs; PLAIN may be `-`, and then it is left out. FOLDER has the streams of `make_relay_stream.py`.

Both relays run RUNS times on each stream, in turn, and the least time of the whole process counts. The answers of both have to be the
same. The time to a bid is taken over pipes: a Bid of a child and a Send are written to a relay that runs, and its own Bid is read
back. The memory is what of a relay is resident while it waits for a frame.
The status is 1 if answers differ or a run fails or hangs, else 2 if a goal is missed, else 0.
"""

import os
import re
import statistics
import struct
import subprocess
import sys
import threading
import time
from pathlib import Path

from compare import LONGEST_SECONDS, Failed, beside, load, name_of, quotient, runs_of, text_of, tried
from make_relay_stream import OWN, PRICE, SEND, STREAMS, bids_in_turn, hello, price
from make_stream import BID, CHILDREN

# How often longer than the plain relay `live relay` may take on a stream.
TIME_GOAL = 1.25
# How many bids are timed one by one, and how many steps they have.
TIMED, TIMED_STEPS = 2_000, 100
# How many more megabytes may be resident with 256 children of 1000 steps, and with all unanswered bids that a relay may have.
MEMORY_STEPS, MEMORY_GOAL = 1_000, 2.5
WINDOW = 8

LIMITS = ["-50000", "50000"]
LIVE, PLAIN = "live relay", "plain relay"
RESUME_BYTES, PRICE_BYTES = 41 + 4 * CHILDREN, 23


def commands_of(live, plain):
    """The commands of the relays, by their names."""
    commands = {LIVE: [live, "relay", str(OWN), *LIMITS]}
    return commands if plain == "-" else commands | {PLAIN: [plain, str(OWN), *LIMITS]}


def counted_frames(path, steps):
    """How many frames a stream has, and how many of them are bids."""
    sizes = {1: 11, BID: 7 + 4 * steps, PRICE: PRICE_BYTES, SEND: 1}
    with open(path, "rb") as source:
        data = source.read()
    at = frames = bids = 0
    while at < len(data):
        frames, bids = frames + 1, bids + (data[at] == BID)
        at += sizes[data[at]]
    return frames, bids


def steps_of(path):
    """The steps of a stream, by its Hello."""
    with open(path, "rb") as source:
        return struct.unpack(">BiiH", source.read(11))[3]


def measured_stream(commands, runs, path):
    """The lines of a stream, and whether the goal of the ratio is missed."""
    texts = {way: text_of(command, path) for way, command in commands.items()}
    if len(set(texts.values())) > 1:
        raise Failed(f"the answers of {LIVE} and of the plain relay differ")
    frames, bids = counted_frames(path, steps_of(path))
    taken = runs_of(commands, runs, path)
    lines = [f"{name_of(path)}: {frames:,} frames, {bids:,} bids, {os.path.getsize(path):,} bytes read, "
             f"{len(texts[LIVE]):,} bytes written"]
    least = {way: min(run.seconds for run in taken[way]) for way in commands}
    processors = {way: min(run.processor_seconds for run in taken[way]) for way in commands}
    for way, seconds in least.items():
        lines.append(f"    {way:<11} {1000 * seconds:8.1f} ms, {1000 * processors[way]:8.1f} ms of processors, "
                     f"{frames / seconds:,.0f} frames and {bids / seconds:,.0f} bids a second")
    if PLAIN not in least:
        return lines, False
    ratio, missed = beside(quotient(least[LIVE], least[PLAIN]), TIME_GOAL)
    computing, _ = beside(quotient(processors[LIVE], processors[PLAIN]), None)
    return [*lines, f"    {LIVE} / {PLAIN}: time {ratio}, time of processors {computing}"], missed


class RunningRelay:
    """A relay that runs, written to and read from over pipes. It is stopped if it runs too long."""

    def __init__(self, command):
        self.child = subprocess.Popen(command, stdin=subprocess.PIPE, stdout=subprocess.PIPE, bufsize=0)
        self.watchdog = threading.Timer(LONGEST_SECONDS, self.child.kill)

    def __enter__(self):
        self.watchdog.start()
        return self

    def __exit__(self, *_):
        self.watchdog.cancel()
        self.child.kill()
        self.child.stdin.close()
        self.child.stdout.close()
        self.child.wait()

    def tell(self, data):
        """Writes these bytes, all at once if the pipe takes them."""
        try:
            while data:
                data = data[self.child.stdin.write(data) :]
        except BrokenPipeError:
            raise Failed("a relay ended, or hangs, before it read what was told") from None

    def hear(self, length):
        """Reads so many bytes of answers."""
        read = b""
        while len(read) < length:
            piece = os.read(self.child.stdout.fileno(), length - len(read))
            if not piece:
                raise Failed("a relay ended, or hangs, before its answers came")
            read += piece
        return read

    def resident(self):
        """The memory that is resident now, in megabytes."""
        told = Path(f"/proc/{self.child.pid}/smaps_rollup").read_text()
        return int(re.search(r"^Rss: +(\d+) kB", told, re.M)[1]) / 1024


def own_bid(answers, steps):
    """The number of the relay's own bid, which stands behind what it keeps over a restart and ends the answers."""
    kind, child, number = struct.unpack_from(">BHI", answers, RESUME_BYTES)
    if (kind, child, len(answers)) != (BID, OWN, RESUME_BYTES + 7 + 4 * steps):
        raise Failed("a relay's answer to a Send is no bid of its own")
    return number


def times_to_bid(command):
    """The microseconds from a Bid with a Send to the relay's own bid, of many one after the other."""
    own_bytes = RESUME_BYTES + 7 + 4 * TIMED_STEPS
    prices_bytes = CHILDREN * PRICE_BYTES + RESUME_BYTES
    bids = list(bids_in_turn(CHILDREN + TIMED, TIMED_STEPS, lambda at: at // CHILDREN + 1))
    taken = []
    with RunningRelay(command) as relay:
        relay.tell(hello(TIMED_STEPS) + b"".join(bids[: CHILDREN - 1]))
        for at, bid in enumerate(bids[CHILDREN - 1 : CHILDREN + TIMED], 1):
            told = bid + bytes([SEND])
            begin = time.perf_counter_ns()
            relay.tell(told)
            answers = relay.hear(own_bytes)
            taken.append((time.perf_counter_ns() - begin) / 1_000)
            if own_bid(answers, TIMED_STEPS) != at:
                raise Failed("a relay's bids have other numbers than 1, 2, 3 and so on")
            # The window is emptied, so that the next bid has room.
            relay.tell(price(at, TIMED_STEPS))
            relay.hear(prices_bytes)
    return taken[1:]


def measured_answers(commands, name):
    """The line of the time to a bid; no goal is set for it."""
    told = []
    for way, command in commands.items():
        taken = sorted(times_to_bid(command))
        told.append(f"{way} median {statistics.median(taken):.1f}, 99th {taken[99 * len(taken) // 100 - 1]:.1f}")
    return [f"{name} in microseconds, of {TIMED:,}: {'; '.join(told)}"], False


def without_children(command):
    """The megabytes that a relay has that heard a Hello of two steps alone. A Send is answered, so it is known to wait."""
    with RunningRelay(command) as relay:
        relay.tell(hello(2) + bytes([SEND]))
        relay.hear(1)
        return relay.resident()


def with_children(command):
    """The megabytes that a relay has once it heard 256 children of 1000 steps, and as many of its bids as may be are unanswered."""
    bids = list(bids_in_turn(CHILDREN + WINDOW, MEMORY_STEPS, lambda at: at // CHILDREN + 1))
    with RunningRelay(command) as relay:
        relay.tell(hello(MEMORY_STEPS) + b"".join(bids[:CHILDREN]))
        for number, bid in enumerate(bids[CHILDREN:], 1):
            relay.tell(bid + bytes([SEND]))
            answers = relay.hear(RESUME_BYTES + 7 + 4 * MEMORY_STEPS)
            if own_bid(answers, MEMORY_STEPS) != number:
                raise Failed("a relay does not make each bid that it is asked for")
        return relay.resident()


def measured_memory(commands, name):
    """The lines of the memory, and whether the goal of `live relay` is missed."""
    lines, is_missed = [f"{name} in MB, with {CHILDREN} children of {MEMORY_STEPS} steps and without children:"], False
    for way, command in commands.items():
        more, less = with_children(command), without_children(command)
        told, missed = beside(more - less, MEMORY_GOAL if way == LIVE else None)
        lines.append(f"    {way:<11} {more:.2f} and {less:.2f}, difference {told}")
        is_missed = is_missed or missed
    return lines, is_missed


def main(runs, live, plain, folder):
    commands = commands_of(live, plain)
    print(f"a relay: {os.cpu_count()} processors, {load()}, least of {runs} runs", flush=True)
    statuses = [tried(measured_stream, commands, int(runs), os.path.join(folder, name)) for name in STREAMS]
    statuses.append(tried(measured_answers, commands, "from a bid to the relay's own"))
    statuses.append(tried(measured_memory, commands, "resident memory"))
    print(load())
    return 1 if 1 in statuses else max(statuses)


if __name__ == "__main__":
    sys.exit(main(*sys.argv[1:]))
