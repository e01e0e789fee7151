"""Counts where the ends of `market free` come from: over the links of its nodes, or from the board beside them.

    python3 -m checks.drive.links OVER_LINKS

OVER_LINKS is the built program `over_links`, which runs a cluster file as `market free` does and counts. The ends are right in any
case, and no contract says that a phase settles. So each phase of each file has to come over its links, at rest and while each
processor has busy loops beside it, and the auctioneer's thread has to meet the last node's. How many phases there are, and how many
have changes, comes from checks/oracle/auction.py.
"""

import os
import sys
from pathlib import Path

from checks.drive.built import Hangs, ended
from checks.drive.schedules import busy, deep_file, end
from checks.make.cases import DONE, examples, stored_cases
from checks.make.limits import most_events, most_ticks, widest
from checks.oracle.auction import ends_of
from checks.oracle.scene import scene_of

# The commands whose input is a cluster file alone.
OF_A_FILE = (["run"], ["trace"], ["bill"], ["free"])
# The busy loops for each processor of a loaded machine.
LOOPS = 2


def stored_files():
    """Each cluster file that is stored and has a plan."""
    for case in [*stored_cases(), *examples()]:
        if case.status == DONE and case.arguments in OF_A_FILE and isinstance(case.stdin, Path) and case.stdin.is_file():
            yield case.name, case.stdin.read_bytes()


def files():
    """Each of them once, and made ones: all kinds under a deep tree, the most nodes, events and phases."""
    stored = {text: name for name, text in stored_files()}
    made = {deep_file(): "deep", widest(): "widest", most_events(5, 4_000): "most events", most_ticks(): "most ticks"}
    return {name: text for text, name in {**stored, **made}.items()}


def due_of(text):
    """The line that is due: each phase over the links, and two threads that meet if a phase has changes."""
    ends = ends_of(scene_of(text))
    before = [dict.fromkeys(ends[0].numbers, 0), *(end_of.numbers for end_of in ends)] if ends else []
    changed = sum(old != new for old, new in zip(before, before[1:]))
    return b"links %d board 0 changed %d met %d\n" % (len(ends), changed, 2 if changed else 0)


def why_wrong(program, text, due):
    """What is wrong with the counts of a file, or None."""
    try:
        found = ended(program, [], text)
    except Hangs as hangs:
        return str(hangs)
    return None if found == (DONE, due) else f"it ends with {found}, and due is {due}"


def main(program):
    texts = files()
    dues = {name: due_of(text) for name, text in texts.items()}
    passed = failed = 0
    for what, loops in (("at rest", 0), ("on a loaded machine", LOOPS * os.cpu_count())):
        load = busy(loops, 0)
        try:
            for name, text in texts.items():
                why = why_wrong(program, text, dues[name])
                if why is None:
                    passed += 1
                else:
                    failed += 1
                    print(f"{name} {what}: {why}")
        finally:
            end(load)
    print(f"{passed} passed, {failed} failed")
    return failed == 0 and passed > 0


if __name__ == "__main__":
    sys.exit(0 if main(*sys.argv[1:]) else 1)
