"""Runs each of the named programs on the cases of checks/make/cases.py, and compares what it writes and its exit status.

    python3 -m checks.drive.cases PROGRAM ..
"""

import os
import subprocess
import sys
from itertools import chain

from checks import CASES, TOP
from checks.make.cases import DONE, Case, cases


def ended(program, case):
    """The exit status, and what was written."""
    closed = [0] * (case.stdin is None) + [1] * (case.sink == "closed")
    settings = {"stderr": subprocess.DEVNULL, "preexec_fn": lambda: [os.close(number) for number in closed], "timeout": 120}
    opened = []
    try:
        if isinstance(case.stdin, bytes):
            settings["input"] = case.stdin
        elif case.stdin is not None:
            opened.append(os.open(case.stdin, os.O_RDONLY))
            settings["stdin"] = opened[0]
        if case.sink == "pipe":
            settings["stdout"] = subprocess.PIPE
        elif case.sink == "full":
            opened.append(os.open("/dev/full", os.O_WRONLY))
            settings["stdout"] = opened[-1]
        done = subprocess.run([program, *case.arguments], **settings)
        return done.returncode, done.stdout or b""
    finally:
        for number in opened:
            os.close(number)


def why_failed(program, case):
    """What is wrong with the program's answer, or None."""
    try:
        status, text = ended(program, case)
    except subprocess.TimeoutExpired:
        return "had not ended after 120 seconds"
    if status != case.status:
        return f"status {status}, and not {case.status}; it wrote {text[:120]!r}"
    if callable(case.stdout):
        return None if case.stdout(text) else f"wrote {text[:120]!r}"
    if case.stdout is not None and text != case.stdout:
        at = next((i for i, (a, b) in enumerate(zip(text, case.stdout)) if a != b), min(len(text), len(case.stdout)))
        return f"line {case.stdout[:at].count(10) + 1} differs: wrote {text[max(0, at - 60) : at + 60]!r}"
    return None


def demos(program):
    """The largest demo is the same each time."""
    front = b"demo size 200 number 7 nodes 210 phases 21 changes "
    first = ended(program, Case("", ["demo", "200", "7"], CASES, None, DONE))[1]
    yield Case("demo 200 7", ["demo", "200", "7"], CASES, lambda line: line.startswith(front) and line == first, DONE)


def main(programs):
    passed, failed = 0, 0
    for program in programs:
        for case in chain(cases(), demos(program)):
            why = why_failed(str(TOP / program), case)
            if why is None:
                passed += 1
            else:
                failed += 1
                print(f"{program}: {case.name}: {why}")
    print(f"{passed} passed, {failed} failed")
    return 1 if failed else 0


if __name__ == "__main__":
    sys.exit(main(sys.argv[1:]))
