#!/usr/bin/env python3
"""Where the gate's time goes: runs `rt ci` at the top and prints processor seconds by crate and by kind of work.

    python3 bench/gate.py [--beside REVISION] [WORDS OF rt ci]

Once a second it reads the times of all processes that the gate has started, from /proc, so what begins and ends between two
looks is not counted. Kinds are told by how `rt` starts its prover: the proof of a crate, that of its tests, the check of the
crate that its must-fail edits begin with, and the tries of these edits. What the gate says is printed on standard error, and
two tables at the end on standard output: one by crates, and the dearest edits. The status is that of the gate.

With --beside it compares the whole with the table that docs/measured/GATE.md had in a revision, which may be of another machine.
The pace of this one is told by the proofs of the crates whose sources did not change since. A revision without that table is
refused before the gate begins. The comparison holds only if nothing was kept.
"""

import os
import re
import subprocess
import sys
import time
from collections import defaultdict
from pathlib import Path

TOP = Path(__file__).resolve().parent.parent
TICKS = os.sysconf("SC_CLK_TCK")
KINDS = ("code", "tests", "base", "edits")
# How many of the dearest edits are printed.
DEAREST = 40
PAGE = "docs/measured/GATE.md"
ROW = re.compile(r"\| `(\w+)` \|((?: *[\d,]* *\|)+)$", re.M)
SOURCES = re.compile(r"crates/(\w+)/(?:src|specs|proofs)/")


def processes():
    """The parent, the start and the processor seconds of each process, by its number."""
    found = {}
    for folder in Path("/proc").iterdir():
        if folder.name.isdigit():
            try:
                fields = (folder / "stat").read_text().rpartition(") ")[2].split()
            except OSError:
                continue
            found[int(folder.name)] = (int(fields[1]), fields[19], (int(fields[11]) + int(fields[12])) / TICKS)
    return found


def descendants(found, root):
    """The numbers of the processes below one."""
    below = defaultdict(list)
    for number, (parent, _, _) in found.items():
        below[parent].append(number)
    waiting = [root]
    while waiting:
        for number in below[waiting.pop()]:
            waiting.append(number)
            yield number


def work_of(number):
    """The crate, the kind and, for an edit, its file's name that a process of the prover works at; nothing for another process."""
    try:
        words = Path(f"/proc/{number}/cmdline").read_bytes().split(b"\0")
        folder = os.readlink(f"/proc/{number}/cwd")
    except OSError:
        return None
    if b"--crate-name" not in words:
        return None
    crate = words[words.index(b"--crate-name") + 1].decode()
    if "/rt-edit" not in folder:
        return crate, "tests" if b"--test" in words else "code", None
    # An edit is tried over a folder whose name is the edit's place; what edits begin with is in one named `seed`.
    over = Path(words[words.index(b"--incremental") + 1].decode()).name if b"--incremental" in words else ""
    edits = sorted((TOP / "crates" / crate / "must-fail").glob("*.edit"))
    if over.isdigit() and int(over) < len(edits):
        return crate, "edits", edits[int(over)].stem
    return crate, "base" if over == "seed" else "edits", None


def run(words):
    """Runs the gate; gives its status, its minutes, the seconds by crate and kind, and those of each edit."""
    began = time.monotonic()
    gate = subprocess.Popen(["rt", "ci", *words], cwd=TOP, stdout=sys.stderr)
    works, seconds = {}, {}
    while gate.poll() is None:
        found = processes()
        for number in descendants(found, gate.pid):
            _, start, spent = found[number]
            key = number, start
            if works.get(key) is None:
                works[key] = work_of(number)
            seconds[key] = spent
        time.sleep(1)
    table = defaultdict(lambda: dict.fromkeys(KINDS, 0.0))
    edits = defaultdict(float)
    for key, spent in seconds.items():
        if works[key]:
            crate, kind, edit = works[key]
            table[crate][kind] += spent
            if edit:
                edits[crate, edit] += spent
    return gate.returncode, (time.monotonic() - began) / 60, table, edits


def git(*words):
    """What git writes; it ends the script if it fails."""
    ran = subprocess.run(["git", *words], cwd=TOP, capture_output=True, text=True)
    if ran.returncode != 0:
        raise SystemExit(ran.stderr)
    return ran.stdout


def table_of(page):
    """The proof's seconds of each crate of a page's table, and the seconds of all its rows and kinds."""
    rows = {crate: [float(word.strip().replace(",", "") or 0) for word in cells.strip("|").split("|")] for crate, cells in ROW.findall(page)}
    # A fifth column has the sum of a row.
    return {crate: cells[0] for crate, cells in rows.items()}, sum(sum(cells[: len(KINDS)]) for cells in rows.values())


def beside(revision, page, table):
    """The line that compares a table with that of a page, by the pace of the crates that did not change since."""
    proofs, whole = table_of(page)
    changed = set(SOURCES.findall(git("diff", "--name-only", revision, "--", "crates")))
    same = [crate for crate in proofs if crate in table and crate not in changed and min(proofs[crate], table[crate]["code"]) > 0]
    before, now = sum(proofs[crate] for crate in same), sum(table[crate]["code"] for crate in same)
    if not same:
        return f"no crate is as it was in {revision}: no pace can be told"
    pace = now / before
    taken = sum(sum(row.values()) for row in table.values())
    return (
        f"The proofs of {len(same)} crates that are as they were took {before:.0f} s in the table of {revision} and {now:.0f} s here, a pace of "
        f"{pace:.2f}. At this pace all of that table is {whole * pace / 60:.0f} processor minutes; this run took {taken / 60:.0f}, "
        f"{taken / (whole * pace):.2f} times as much."
    )


def main():
    words, revision, page = sys.argv[1:], None, ""
    if words[:1] == ["--beside"]:
        if len(words) < 2:
            raise SystemExit(__doc__)
        revision, words = words[1], words[2:]
        page = git("show", f"{revision}:{PAGE}")
        if not ROW.search(page):
            raise SystemExit(f"{PAGE} of {revision} has no table")
    status, minutes, table, edits = run(words)
    order = [line.split(":")[0] for line in (TOP / "crates.txt").read_text().split("\n") if ":" in line]
    print("| Crate | Its proof s | That of its tests s | What its edits begin with s | Its edits s |")
    print("|---|---|---|---|---|")
    for crate in sorted(table, key=lambda crate: order.index(crate) if crate in order else len(order)):
        print(f"| `{crate}` | " + " | ".join(f"{table[crate][kind]:.0f}" for kind in KINDS) + " |")
    sums = [sum(row[kind] for row in table.values()) for kind in KINDS]
    print("| all | " + " | ".join(f"{sum_:.0f}" for sum_ in sums) + " |")
    print("\n| Edit | s |\n|---|---|")
    for (crate, edit), spent in sorted(edits.items(), key=lambda row: -row[1])[:DEAREST]:
        print(f"| `{crate}/{edit}` | {spent:.0f} |")
    print(f"\n{sum(sums) / 60:.0f} processor minutes in {minutes:.0f} minutes, status {status}")
    if revision:
        print(beside(revision, page, table))
    return status


if __name__ == "__main__":
    sys.exit(main())
