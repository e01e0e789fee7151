"""Bytes from nowhere: mutates cluster files, envelopes, traces and streams of bids, and looks whether the program answers each
as it has to.

    python3 -m checks.drive.fuzz PROGRAM MINUTES [SEED]

What is due is worked out by checks/oracle/oracle.py, so each refusal, report, bill, answer and judgement is compared byte by byte; a
trace is judged. Of an input that is accepted the text is also compared with that of a second run. A failing input is kept in a
file that is named. The inputs follow from the seed and from the traces that the program makes, whose moves come in another
order each time: two runs of one seed begin alike, and may part later.
"""

import random
import sys
import tempfile
import time
from collections import Counter

from checks import CASES, TOP
from checks.drive.built import Hangs, ended
from checks.make.mutations import NUMBERS, exchanged_lines, mutated
from checks.make.streams import random_stream
from checks.oracle.oracle import due_of, envelope, why_wrong

SEED = 2012
SECONDS = 20


class Inputs:
    """Draws the inputs, each for a command."""

    def __init__(self, program, seed):
        self.chance = random.Random(seed)
        folders = (TOP / "examples", CASES / "run", CASES / "limits")
        files = [path.read_bytes() for folder in folders for path in sorted(folder.glob("*.json"))]
        self.files = [data for data in files if len(data) < 10_000]
        self.commands = ["run", "run", "trace", "bill", "ask", "ask", "check", "check", "serve", "serve", "free"]
        self.traces = {}
        self.program = program

    def rest_for(self, command, file):
        """What stands behind a file: targets, or a trace of it."""
        if command == "ask":
            targets = [self.chance.choice([*NUMBERS[:32], 5, -50, 100]) for _ in range(self.chance.randint(0, 6))]
            return b"".join(b"%d\n" % target for target in targets)
        if file not in self.traces:
            self.traces[file] = ended(self.program, ["trace"], file)[1]
        return self.traces[file]

    def next(self):
        """A command and its input."""
        chance = self.chance
        file, command = chance.choice(self.files), chance.choice(self.commands)
        if command == "serve":
            text = random_stream(chance)
            return command, mutated(text, chance, [text, file], structured=False) if chance.random() < 0.5 else text
        if command not in ("ask", "check"):
            return command, mutated(file, chance, self.files)
        rest = self.rest_for(command, file)
        part = chance.choice(["file", "rest", "rest", "all"])
        if part == "file":
            return command, envelope(mutated(file, chance, self.files), rest)
        if part == "all":
            return command, mutated(envelope(file, rest), chance, self.files, structured=False)
        if command == "check" and chance.random() < 0.5:
            return command, envelope(file, exchanged_lines(rest, chance))
        return command, envelope(file, mutated(rest, chance, [rest, b""], structured=False))


def why_failed(program, command, text):
    """What is wrong with the program's answer or None, and what is due."""
    due = due_of(command, text)
    try:
        found = ended(program, [command], text, SECONDS)
        why = why_wrong(command, text, found, due)
        if why is None and due[0] == 0 and command != "trace" and ended(program, [command], text, SECONDS) != found:
            why = "a second run writes another text"
    except Hangs as fault:
        why = str(fault)
    return why, due


def kept(text):
    with tempfile.NamedTemporaryFile(prefix="market-", delete=False) as file:
        file.write(text)
    return file.name


def tried(program, seconds=None, number=None, seed=SEED, counts=None):
    """Inputs for so many seconds, or so many of them: a name, and what is wrong or None."""
    inputs, begin, at = Inputs(program, seed), time.monotonic(), 0
    while at < number if number else time.monotonic() - begin < seconds:
        at += 1
        command, text = inputs.next()
        why, (status, due) = why_failed(program, command, text)
        if counts is not None:
            counts[f"{command} with status {status}"] += 1
            if due.startswith(b"refused "):
                counts[f"code {due.split()[1].decode():0>2}"] += 1
        yield f"{command} of input {at} of seed {seed}", why and f"{why}; the input is kept in {kept(text)}"


def told(counts):
    return ", ".join(f"{what} {number}" for what, number in sorted(counts.items()))


def main(program, minutes, seed=SEED):
    counts, passed, failed = Counter(), 0, 0
    for name, why in tried(program, seconds=60 * minutes, seed=seed, counts=counts):
        passed, failed = passed + (why is None), failed + (why is not None)
        if why:
            print(f"{name}: {why}", flush=True)
    print(told(counts))
    print(f"{passed} passed, {failed} failed")
    return 1 if failed else 0


if __name__ == "__main__":
    sys.exit(main(sys.argv[1], float(sys.argv[2]), *map(int, sys.argv[3:])))
