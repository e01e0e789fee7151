#!/usr/bin/env python3
"""Compares the plain relay of bench/plain_relay with checks/oracle/nodes.py, byte for byte.

    python3 bench/check_relay.py PROGRAM [STREAMS]

PROGRAM is the built program. It gets the rows of a relay that were worked out by hand, in pieces of 1, 7 and 100 bytes and whole, and
as many random streams, 1,000 if no number is given, each in random pieces and whole. The last line is 'N passed, M failed', and the
status is 1 if any failed.
"""

import random
import sys
from pathlib import Path

TOP = Path(__file__).resolve().parent.parent
sys.path.insert(0, str(TOP))

from checks.drive import faults
from checks.drive.built import differs, ended
from checks.make.node_streams import bad_frame, random_command, random_frames
from checks.make.nodes import rows
from checks.make.streams import random_pieces, spoilt
from checks.oracle import frames, nodes

SEED = 5
STREAMS = 1_000
PIECES = [1, 7, 100, 100_000]


def command_of_relay(chance):
    """A random command of a relay."""
    return next(command for command in iter(lambda: random_command(chance), None) if command[0] == "relay")


def stream_of_relay(chance):
    """The command and the bytes of a random stream to a relay, mostly a right one."""
    command = command_of_relay(chance)
    steps, parts = random_frames(chance, command)
    return command, spoilt(chance, parts, bad_frame(chance, command, steps))


def try_rows(program):
    """The rows by hand; those of a wrong command have a line of usage that is the program's own."""
    for name, command, data, status, answers in rows():
        if command[:1] != ["relay"] or status == frames.USAGE:
            continue
        for size in PIECES:
            pieces = [data[at : at + size] for at in range(0, len(data), size)]
            yield f"{name}, in pieces of {size}", differs(faults.in_pieces(program, command[1:], pieces), (status, answers))


def try_usage(program):
    """The rows of a wrong command, of which the status is compared."""
    for name, command, data, status, _ in rows():
        if command[:1] == ["relay"] and status == frames.USAGE:
            found = ended(program, command[1:], data)[0]
            yield f"{name} {command[1:]}", None if found == status else f"it ends with {found}"


def try_random(program, streams):
    """Random streams, in random pieces and whole."""
    for seed in range(streams):
        chance = random.Random(f"{SEED} {seed}")
        command, data = stream_of_relay(chance)
        due = nodes.answers_to(command, data)
        found = faults.in_pieces(program, command[1:], list(random_pieces(data, chance)))
        yield f"random stream {seed}, {command}", differs(found, due)
        yield f"random stream {seed}, {command}, whole", differs(ended(program, command[1:], data), due)


def main(program, streams=STREAMS):
    passed = failed = 0
    for tries in (try_rows(program), try_usage(program), try_random(program, int(streams))):
        for what, why in tries:
            passed, failed = passed + (why is None), failed + (why is not None)
            if why is not None:
                print(f"{what}: {why}")
    print(f"{passed} passed, {failed} failed")
    return 1 if failed else 0


if __name__ == "__main__":
    sys.exit(main(*sys.argv[1:]))
