#!/usr/bin/env python3
"""Where a check of one crate spends its time: proves the crate from nothing and prints the seconds of its modules.

    python3 bench/profile.py CRATE [WORDS OF rt check]

`rt check` keeps each module that it has proved as a file, in the order in which it proves them on one processor, so that the
time between two files is the time of the later one. What the names say:

    F.Proof     the goals of the function F that the prover's own tactics answer
    F.Answers   the answers in proofs/F/Answers.antt
    F.Lts       what the borrow checker knows of F: it grows faster than a function's statements, its `?`, and what it owns
    F.Tie, ..   what is made of F's code and contract
    A           lemmas of proofs/A.antt
    specs.S     definitions of specs/S.antt, and contracts

A long run is proved by copies of the prover, some functions at a time; what begins a copy stands at the module that comes first.
So compare seconds of one run, and check what is dear alone: `python3 bench/profile.py CRATE --only PATH`.
With the word --test the tests of the crate are proved as well. The libraries below must have been checked once.
"""

import shutil
import subprocess
import sys
import time
from collections import defaultdict
from pathlib import Path

TOP = Path(__file__).resolve().parent.parent
LEAST = 0.3
KINDS = ("Proof", "Answers", "Lts", "Tie", "Goals", "Reads", "Kinds", "Mir", "Code")


def module_of(crate, path):
    """The name of the module that a kept file has, without what all names of the crate share."""
    name = path.name.removesuffix(".oantt").removesuffix(".decls")
    if name == f"Rattle-{crate}":
        return "(before the first)"
    for start, mark in ((f"Rattle-{crate}-proofs.", ""), (f"Rattle-{crate}-specs.", "specs."), (f"Rattle-{crate}.", "")):
        if name.startswith(start):
            return mark + name[len(start) :]
    return name


def seconds_of(crate, kept, began):
    """The seconds of each module, by the times at which its files were kept."""
    files = sorted((file.stat().st_mtime, file) for file in kept.rglob("*.oantt"))
    found, last = defaultdict(float), began
    for at, file in files:
        found[module_of(crate, file)] += max(0.0, at - last)
        last = max(last, at)
    return found


def main():
    if len(sys.argv) < 2:
        print(__doc__.strip())
        return 2
    crate, words = sys.argv[1], sys.argv[2:]
    folder = TOP / "crates" / crate
    kept = folder / "out" / "incremental"
    shutil.rmtree(kept, ignore_errors=True)
    began = time.time()
    check = subprocess.run(["rt", "check", "--jobs", "1", *words], cwd=folder, stdout=subprocess.DEVNULL)
    found = seconds_of(crate, kept, began)
    sums = defaultdict(float)
    for module, spent in found.items():
        last = module.rpartition(".")[2]
        sums[last if last in KINDS else "specs" if module.startswith("specs.") else "lemmas and others"] += spent
    for kind, spent in sorted(sums.items(), key=lambda pair: -pair[1]):
        print(f"{spent:8.1f}  {kind}")
    print()
    for module, spent in sorted(found.items(), key=lambda pair: -pair[1]):
        if spent >= LEAST:
            print(f"{spent:8.1f}  {module}")
    print(f"\n{sum(found.values()):.0f} seconds, status {check.returncode}")
    return check.returncode


if __name__ == "__main__":
    sys.exit(main())
