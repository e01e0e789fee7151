"""Compares `market serve` of the built program with checks/oracle/stream.py, byte for byte, and with a client that waits for answers.

The inputs are rows worked by hand in pieces of 1, 7, 100 and all bytes, and random streams with bad frames, cuts and turned bits. One stream
ends at each byte, or its reads or writes fail there. The client of examples/serve waits for each answer before it sends on. The peak of
memory after 102,400 bids may be a megabyte above that after 1,024. With `all` behind the program ten times as many streams are tried, and
both sides of the limit on bytes.
"""

import queue
import random
import subprocess
import sys
import tempfile
import threading
import time
from pathlib import Path

from checks import TOP
from checks.drive import faults
from checks.drive.built import Hangs, differs, ended
from checks.make.streams import CLEAR, bid, hello, many_frames, price, random_pieces, random_stream, rows, small_stream
from checks.oracle import frames, stream

sys.path.insert(0, str(TOP / "examples" / "serve"))
from client import Market, NotChanged, Old, Price

SEED = 7
SECONDS = 20
ROUNDS = 100


def try_rows(words):
    for name, data, status, answers in rows():
        yield f"{name}, by the definitions", differs(stream.answers_to(data), (status, answers))
        for size in (1, 7, 100, 100_000):
            pieces = [data[at : at + size] for at in range(0, len(data), size)]
            yield f"{name}, in pieces of {size}", differs(faults.in_pieces(words[0], words[1:], pieces), (status, answers))


def try_random(words, number):
    for seed in range(number):
        chance = random.Random(f"{SEED} {seed}")
        data = random_stream(chance)
        due = stream.answers_to(data)
        yield f"random stream {seed}", differs(faults.in_pieces(words[0], words[1:], list(random_pieces(data, chance))), due)
        if seed % 4 == 0:
            yield f"random stream {seed}, at once", differs(ended(words[0], words[1:], data, SECONDS), due)


def try_faults(words, folder):
    """Streams that end, or of which a read fails, at each byte; and answers that cannot be written from some byte on."""
    data = small_stream()
    for length in range(len(data) + 1):
        found = ended(words[0], words[1:], data[:length], SECONDS)
        yield f"an end after {length} bytes", differs(found, stream.answers_to(data[:length]))
        found = faults.failing_read(words[0], words[1:], data[:length])
        yield f"a failing read after {length} bytes", differs(found, stream.answers_to(data[:length], ended=False))
    status, answers = stream.answers_to(data)
    for size in range(len(answers) + 1):
        found = faults.file_that_takes(words[0], words[1:], data, size, folder)
        due = (frames.WRITE_FAULT, answers[:size]) if size < len(answers) else (status, answers)
        yield f"answers of which {size} bytes can be written", differs(found, due)
    found = faults.reader_that_goes(words[0], words[1:], data, 0)
    yield "nobody reads", differs(found, (frames.WRITE_FAULT, b""))


def start(words):
    return subprocess.Popen(words, stdin=subprocess.PIPE, stdout=subprocess.PIPE, stderr=subprocess.DEVNULL, bufsize=0)


def waited(market):
    return market.answer(timeout=SECONDS)


def try_client(words):
    """A client that sends nothing before the answer to what it sent has come, and so shows that answers come as frames do."""
    chance, child = random.Random(SEED), start(words)
    bids = {}
    with Market(child.stdout, child.stdin, -10, 10, 21) as market:
        for index in range(1, ROUNDS + 1):
            one = chance.choice([1, 2, 200])
            demands = sorted((chance.randint(-50, 50) for _ in range(21)), reverse=True)
            number = market.bid(one, demands)
            bids[one] = (number, demands)
            total = [sum(demands) for demands in zip(*(bid[1] for bid in bids.values()))]
            due = [Price(child, bids[child][0], index, frames.clearing_step(total)) for child in sorted(bids)]
            found = [waited(market) for _ in range(market.ask_to_clear())]
            yield f"client: clearing {index}", None if found == due else f"prices {found}, and {due} are due"
            market.bid(one, demands, number)
            found = waited(market)
            yield f"client: an old bid after clearing {index}", None if found == Old(one, number) else f"it is answered by {found}"
            found = [waited(market) for _ in range(market.ask_to_clear())]
            yield f"client: nothing new after clearing {index}", None if found == [NotChanged()] else f"it is answered by {found}"
    child.stdout.close()
    yield "client: the end", None if child.wait(SECONDS) == frames.DONE else "another status"


def try_open_ends(words):
    """Faults are told, and the program ends, while its input stays open; and a frame may come in two parts, with time between."""
    child = start(words)
    child.stdin.write(hello() + b"\x09")
    found = (child.wait(SECONDS), child.stdout.read())
    yield "a fault while the input stays open", differs(found, (frames.REFUSED, frames.fault_at(11)))
    child.stdin.close()
    child.stdout.close()
    child = start(words)
    whole = hello() + bid(1, 1, 5, -3) + CLEAR
    child.stdin.write(whole[:20])
    time.sleep(0.2)
    child.stdin.write(whole[20:])
    yield "a frame in two parts", differs((0, child.stdout.read(13)), (0, price(1, 1, 1, 1)))
    child.stdin.close()
    child.stdout.close()
    child.wait(SECONDS)


def peak_after(words, number):
    """The peak of the resident memory in kilobytes once so many frames were answered, or None if not all answers came."""
    child = start(words)
    due = 256 * 13 * (number // 256)
    read = []

    def receive():
        left = due
        while left and (piece := child.stdout.read(min(left, 1 << 20))):
            left -= len(piece)
        read.append(left == 0)

    receiver = threading.Thread(target=receive)
    receiver.start()
    piece = b""
    for frame in many_frames(number):
        piece += frame
        if len(piece) > 1 << 16:
            child.stdin.write(piece)
            piece = b""
    child.stdin.write(piece)
    receiver.join(SECONDS)
    status = Path(f"/proc/{child.pid}/status").read_text()
    child.stdin.close()
    child.stdout.close()
    child.wait(SECONDS)
    return int(status.split("VmHWM:")[1].split()[0]) if read == [True] else None


def try_memory(words, few, many):
    first, last = peak_after(words, few), peak_after(words, many)
    right = first and last and last - first <= 1_024
    yield f"memory after {few} and {many} frames", None if right else f"{first} and {last} KB"
    print(f"peak of the resident memory after {few} frames {first} KB, after {many} frames {last} KB")


def try_longest(words):
    """A stream that is as long as it may be, and one with a byte more."""
    def run(size):
        child = start(words)
        received = []
        receiver = threading.Thread(target=lambda: received.append(child.stdout.read()))
        receiver.start()
        piece = CLEAR * (1 << 20)
        try:
            child.stdin.write(hello())
            for _ in range((size - 11) >> 20):
                child.stdin.write(piece)
            child.stdin.write(CLEAR * ((size - 11) % (1 << 20)))
            child.stdin.close()
        except OSError:
            pass
        receiver.join()
        child.stdout.close()
        return child.wait(), len(received[0])

    for size, status in ((frames.LIMIT, frames.DONE), (frames.LIMIT + 1, frames.TOO_LONG)):
        found = run(size)
        yield f"a stream of {size} bytes", None if found == (status, size - 11) else f"it ends with {found}"


def tried(words, folder, everything):
    yield from try_rows(words)
    yield from try_random(words, 20_000 if everything else 2_000)
    yield from try_faults(words, folder)
    yield from try_client(words)
    yield from try_open_ends(words)
    yield from try_memory(words, 1_024, 102_400)
    if everything:
        yield from try_longest(words)


def main(program, everything):
    passed = failed = 0
    with tempfile.TemporaryDirectory() as name:
        try:
            for what, why in tried([program, "serve"], Path(name), everything):
                passed, failed = passed + (why is None), failed + (why is not None)
                if why is not None:
                    print(f"{what}: {why}")
        except (Hangs, OSError, queue.Empty, subprocess.TimeoutExpired) as why:
            failed += 1
            print(f"behind {passed + failed} checks: {why!r}")
    print(f"{passed} passed, {failed} failed")
    return 1 if failed else 0


if __name__ == "__main__":
    sys.exit(main(sys.argv[1], sys.argv[2:] == ["all"]))
