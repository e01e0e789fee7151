"""Compares the nodes of the built program `live` with checks/oracle/nodes.py, byte for byte, also by a reader that waits.

    python3 -m checks.drive.nodes LIVE MARKET [all]

The inputs are rows worked by hand (checks/make/nodes.py, with the examples of docs/RELAY.md), and random streams that often begin with a
stored Resume. Streams end or fail at each byte, and some arguments name no node. Nodes are killed between any two bytes and come back with
the newest whole Resume: no number is of two bids. What `live device` bids over a day of examples/village.json, by kinds, states and points,
is what the program MARKET bids (checks/drive/control.py). With `all` many more streams are tried, and those of a gigabyte.
"""

import os
import random
import select
import signal
import struct
import subprocess
import sys
import tempfile
import threading
import time
from pathlib import Path

from checks.drive import control, faults
from checks.drive.built import Hangs, differs, ended, sampled
from checks.make.control_rows import kind, points, state
from checks.make.node_bytes import (
    AUCTIONEER, CLEAR, DEVICE, GIVEN, LEAVE, RELAY, SEND, bid, bound, expire, fault, gone, hello, limits, offer, old, price, resume_gone,
)
from checks.make.node_streams import answers_in, random_frames, random_stream, resume_length, resumes_in
from checks.make.nodes import rows
from checks.make.streams import random_pieces
from checks.oracle import frames, nodes

SEED = 11
SECONDS = 20
RANDOM_STREAMS, MANY_RANDOM_STREAMS = 1_000, 20_000
# How many answers that cannot be written are tried of a stream, and how many streams are waited for.
SAMPLE, WAITED = 40, 30
# How many nodes are killed within their answers.
KILLS, MANY_KILLS = 200, 4_000
NO_TEXT = 8


def named(arguments, what):
    return f"{' '.join(arguments)}: {what}"


def try_rows(program):
    for name, arguments, data, status, answers in rows():
        due = status, answers
        yield named(arguments, f"{name}, by the page"), differs(nodes.answers_to(arguments, data), due)
        for size in (1, 7, 100_000) if status != frames.USAGE else (100_000,):
            pieces = [data[at : at + size] for at in range(0, len(data), size)]
            found = faults.in_pieces(program, arguments, pieces)
            yield named(arguments, f"{name}, in pieces of {size}"), differs(found, due)
    found = ended(program, ["device", b"\xff"], b"", SECONDS)
    yield "an argument that is no text", differs(found, (NO_TEXT, b""))


def try_random(program, number):
    for seed in range(number):
        chance = random.Random(f"{SEED} {seed}")
        arguments, data = random_stream(chance)
        due = nodes.answers_to(arguments, data)
        found = faults.in_pieces(program, arguments, list(random_pieces(data, chance)))
        yield named(arguments, f"random stream {seed}"), differs(found, due)
        if seed % 4 == 0:
            found = ended(program, arguments, data, SECONDS)
            yield named(arguments, f"random stream {seed}, at once"), differs(found, due)


def small_streams():
    """A stream of each node with each frame that it reads behind the Hello except a Resume."""
    other = (0, 18, 2)
    yield GIVEN, hello() + bound(1, -9, 9) + bid(1, 2, 5, -3) + bid(1, 4, 10, 0) + limits(2, 0, 1) + SEND + gone(2, 1) + expire(1) \
        + old(3, 1) + price(3, 1, 1, 1, other) + price(3, 1, 1, 1)
    yield AUCTIONEER, hello() + bound(1, -9, 9) + bid(1, 2, 5, -3) + CLEAR + gone(2, 1) + bid(1, 2, 5, -3) + bid(1, 4, 10, 0) + expire(1)
    yield DEVICE, hello() + offer(5, -3) + price(2, 2, 1, 1) + price(2, 2, 2, 1, other) + old(2, 3) + LEAVE
    yield DEVICE, hello() + resume_gone(4, 1) + kind(5) + state(9) + points((0, 5), (9, -3)) + LEAVE


def try_faults(program, folder):
    """Streams that end, or of which a read fails, at each byte; and answers that cannot be written from some byte on."""
    for arguments, data in small_streams():
        for length in range(len(data) + 1):
            found = ended(program, arguments, data[:length], SECONDS)
            yield named(arguments, f"an end after {length} bytes"), differs(found, nodes.answers_to(arguments, data[:length]))
            found = faults.failing_read(program, arguments, data[:length])
            due = nodes.answers_to(arguments, data[:length], ended=False)
            yield named(arguments, f"a failing read after {length} bytes"), differs(found, due)
        status, answers = nodes.answers_to(arguments, data)
        for size in sampled(range(len(answers) + 1), SAMPLE):
            found = faults.file_that_takes(program, arguments, data, size, folder)
            due = (frames.WRITE_FAULT, answers[:size]) if size < len(answers) else (status, answers)
            yield named(arguments, f"answers of which {size} bytes can be written"), differs(found, due)
        found = faults.reader_that_goes(program, arguments, data, 0)
        yield named(arguments, "nobody reads"), differs(found, (frames.WRITE_FAULT, b""))


def first_of_each(parts):
    """These frames, of those of one child and number only the first, and none of a parent's number: no number is of two bids."""
    seen, kept = set(), []
    for part in parts:
        child = {frames.BID: part[1:7], frames.GONE: part[1:7], nodes.LIMITS: part[1:5]}.get(part[0])
        if child is None or child[-1] % 2 == 0 and child not in seen:
            kept.append(part)
            seen.add(child)
    return kept


def of_two_bids(arguments, steps, *written):
    """A number under which a node bid two things in its lives, or None."""
    bids = {}
    for answer in (answer for data in written for answer in answers_in(data, arguments, steps)):
        if answer[0] in (frames.BID, frames.GONE) and bids.setdefault(answer[3:7], answer) != answer:
            return int.from_bytes(answer[3:7], "big")
    return None


def try_kills(program, number, folder):
    """Nodes that are killed between any two bytes of their answers, and come back with the newest whole Resume among these."""
    for seed in range(number):
        chance = random.Random(f"kills {SEED} {seed}")
        arguments = [GIVEN, AUCTIONEER, DEVICE][seed % 3]
        steps, parts = random_frames(chance, arguments)
        first = b"".join(parts := first_of_each(parts))
        answers = nodes.answers_to(arguments, first)[1]
        size = chance.randrange(len(answers)) if answers else 0
        status, written = faults.killed_at(program, arguments, first, size, folder)
        due = (-signal.SIGXFSZ, answers[:size]) if answers else (frames.DONE, b"")
        yield named(arguments, f"killed {seed} at byte {size}"), differs((status, written), due)
        kept = ([b"", *resumes_in(b"".join(parts[1:2]), arguments, steps)] + resumes_in(written, arguments, steps))[-1]
        later = [part for part in parts[1:] if part[0] not in (nodes.RESUME, nodes.RESUME_GONE)]
        second = parts[0] + kept + b"".join(later[chance.randint(0, len(later)) :])
        found, due = ended(program, arguments, second, SECONDS), nodes.answers_to(arguments, second)
        yield named(arguments, f"back {seed} from byte {size}"), differs(found, due)
        twice = of_two_bids(arguments, steps, written, found[1])
        yield named(arguments, f"the numbers of two lives {seed}"), twice and f"number {twice} is of two bids"


def start(program, arguments):
    return faults.start(program, arguments, stdin=subprocess.PIPE, bufsize=0)


def stop(child):
    """The exit status of a node once its input ended."""
    child.stdin.close()
    child.stdout.close()
    return child.wait(SECONDS)


def read_from(child, length):
    """So many bytes of the answers, or those that came in time."""
    read = b""
    while len(read) < length and select.select([child.stdout], [], [], SECONDS)[0]:
        piece = os.read(child.stdout.fileno(), length - len(read))
        if not piece:
            break
        read += piece
    return read


def waits(program, arguments, parts):
    """What is wrong if nothing is sent before the answers to what was sent have come, or None."""
    child, stream = start(program, arguments), frames.Stream(nodes.node_of(arguments))
    for number, part in enumerate(parts):
        due = stream.feed(part)
        child.stdin.write(part)
        found = read_from(child, len(due))
        if found != due:
            child.kill()
            stop(child)
            return f"frame {number} is answered by {found.hex()}, and {due.hex()} is due"
    status = stop(child)
    return None if status == frames.DONE else f"it ends with status {status}"


def try_waiting(program):
    for seed in range(WAITED):
        chance = random.Random(f"waiting {SEED} {seed}")
        arguments = [GIVEN, AUCTIONEER, DEVICE][seed % 3]
        parts = random_frames(chance, arguments)[1]
        yield named(arguments, f"answers that are waited for, {seed}"), waits(program, arguments, parts)


def try_open_ends(program):
    """Faults are told, and the program ends, while its input stays open; and a frame may come in two parts, with time between."""
    for arguments, data in small_streams():
        child = start(program, arguments)
        child.stdin.write(hello() + b"\x00")
        found = (child.wait(SECONDS), child.stdout.read())
        yield named(arguments, "a fault while the input stays open"), differs(found, (frames.REFUSED, fault(11)))
        stop(child)
        child, due = start(program, arguments), nodes.answers_to(arguments, data)
        child.stdin.write(data[:16])
        time.sleep(0.1)
        child.stdin.write(data[16:])
        found = read_from(child, len(due[1]))
        yield named(arguments, "a frame in two parts"), differs((stop(child), found), due)


def many_frames(number, steps=100):
    """So many bids of all children, with a Send behind every 256 and a price for it: pieces of bytes, and the answers' length."""
    demands = struct.pack(f">{steps}i", *range(steps // 2, -steps // 2, -1))
    yield hello(steps, 0, steps - 1), 0
    for at in range(number):
        yield bid(at % 256 + 1, at // 256 + 1) + demands, 0
        if at % 256 == 255:
            told = at // 256 + 1
            yield SEND + price(3, told, told, 1, (0, steps - 1, steps)), 2 * resume_length(RELAY, steps) + 7 + len(demands) + 256 * 23


def peak_after(program, number):
    """The peak of the resident memory of a relay in kilobytes once so many bids were answered, or None if not all answers came."""
    child = start(program, RELAY)
    parts = list(many_frames(number))
    due, read = sum(part[1] for part in parts), []

    def receive():
        left = due
        while left and (piece := child.stdout.read(min(left, 1 << 20))):
            left -= len(piece)
        read.append(left == 0)

    receiver = threading.Thread(target=receive)
    receiver.start()
    for at in range(0, len(parts), 256):
        child.stdin.write(b"".join(part[0] for part in parts[at : at + 256]))
    receiver.join(SECONDS)
    status = Path(f"/proc/{child.pid}/status").read_text()
    stop(child)
    return int(status.split("VmHWM:")[1].split()[0]) if read == [True] else None


def try_memory(program, few, many):
    first, last = peak_after(program, few), peak_after(program, many)
    right = first and last and last - first <= 1_024
    yield f"memory of a relay after {few} and {many} bids", None if right else f"{first} and {last} KB"
    print(f"peak of a relay's resident memory after {few} bids {first} KB, after {many} bids {last} KB")


def ends_after(program, arguments, frame, size):
    """The exit status and the number of answers if a stream has so many bytes, all behind the Hello of one frame of a byte."""
    child, received = start(program, arguments), []
    receiver = threading.Thread(target=lambda: received.append(count_answers(child)))
    receiver.start()
    try:
        child.stdin.write(hello())
        for _ in range((size - 11) >> 20):
            child.stdin.write(frame * (1 << 20))
        child.stdin.write(frame * ((size - 11) % (1 << 20)))
        child.stdin.close()
    except OSError:
        pass
    receiver.join()
    child.stdout.close()
    return child.wait(), received[0]


def count_answers(child):
    return sum(len(piece) for piece in iter(lambda: child.stdout.read(1 << 20), b""))


def try_longest(program):
    """A stream that is as long as it may be, and one with a byte more."""
    for arguments, frame in ((RELAY, SEND), (AUCTIONEER, CLEAR)):
        for size, status in ((frames.LIMIT, frames.DONE), (frames.LIMIT + 1, frames.TOO_LONG)):
            found = ends_after(program, arguments, frame, size)
            yield named(arguments, f"a stream of {size} bytes"), None if found == (status, size - 11) else f"it ends with {found}"


def tried(program, market, folder, everything):
    yield from try_rows(program)
    yield from control.try_village(program, market)
    yield from try_random(program, MANY_RANDOM_STREAMS if everything else RANDOM_STREAMS)
    yield from try_faults(program, folder)
    yield from try_kills(program, MANY_KILLS if everything else KILLS, folder)
    yield from try_waiting(program)
    yield from try_open_ends(program)
    yield from try_memory(program, 1_024, 102_400)
    if everything:
        yield from try_longest(program)


def main(program, market, everything):
    passed = failed = 0
    with tempfile.TemporaryDirectory() as name:
        try:
            for what, why in tried(program, market, Path(name), everything):
                passed, failed = passed + (why is None), failed + (why is not None)
                if why is not None:
                    print(f"{what}: {why}")
        except (Hangs, control.Ends, OSError, subprocess.TimeoutExpired) as why:
            failed += 1
            print(f"behind {passed + failed} checks: {why!r}")
    print(f"{passed} passed, {failed} failed")
    return 1 if failed else 0


if __name__ == "__main__":
    sys.exit(main(sys.argv[1], sys.argv[2], sys.argv[3:] == ["all"]))
