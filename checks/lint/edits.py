"""Which goal each must-fail edit leaves open, and where its refusal comes from.

    python3 -m checks.lint.edits [CRATE ..]   tries the edits of these crates, of all if no crate is named
    python3 -m checks.lint.edits --log FILE   reads what `rt must-fail` or `rt ci` wrote
    python3 -m checks.lint.edits --self-test  reads fixed lines, and compares docs/EDITS.md with the edits and functions that there are

It prints a row of a table for each edit and ends with 'N passed, M failed'. An edit fails if it was not refused, if
it is a bad edit, if no more is told than that a proof names what it took away or hangs on one that was rejected, and
if docs/EDITS.md names a clause of another function. An answer that does not fit is no proof that a goal is false: a right
rewriting can also leave one. So that page says for each edit which clause is false, and where.
"""

import re
import subprocess
import sys
from collections.abc import Iterable, Iterator
from dataclasses import dataclass
from pathlib import Path

from checks import TOP

TABLE = TOP / "docs" / "EDITS.md"

# Where a refusal comes from.
SOURCE = "a goal of the source"
ANSWER = "an answer that does not fit"
LEMMA = "a lemma that does not fit"
UNSAID = "not told"
GONE = "only a name that is gone"
HANGS = "only what hangs on a rejected proof"
PROVED = "not refused"
BAD = "a bad edit"
FAILURES = (GONE, HANGS, PROVED, BAD)

LINE = re.compile(r"(?:rt: )?must-fail (\w+)/([\w.-]+)\.edit: (.*)")
# A file in must-fail/ that is no edit, which only `rt ci` tells.
STRAY = re.compile(r"(?:rt: )?crates/(\w+)/must-fail/(\S+): BAD EDIT: ")
REFUSED = "refused, as it must be"
NOTE = re.compile(r"(?:note: )?(?:\./)?(\S+?):(\d+):\d+: (?:error: )?(.*)")
# The files that answer the goals of one function.
OF_FUNCTION = re.compile(r"proofs/(.+)/(?:Answers|Invariants|Proof)\.antt")
ROW = re.compile(r"\| `(\w+)/([\w.-]+)` \| (.+) \| (.+) \|")


@dataclass(frozen=True)
class Edit:
    """What came of one edit: the goal that is left open, and where the refusal comes from."""

    crate: str
    name: str
    goal: str
    origin: str

    def row(self) -> str:
        return f"| `{self.crate}` | `{self.name}` | {self.goal} | {self.origin} |"


def function_at(path: str) -> str:
    """The function whose proof stands at a path: `Basis::price` of basis/Basis/price."""
    *owners, name = path.split("/")
    owner = f"{owners[-1]}::" if owners and owners[-1][:1].isupper() else ""
    return f"{owner}{name}"


def goal_of(note: str) -> tuple[str, str]:
    """The goal that a note tells, and where the refusal comes from."""
    found = NOTE.match(note)
    if not found:
        return "", UNSAID
    file, line, said = found.groups()
    quoted = re.search(r"`([^`]+)`", said)
    hangs = re.match(r"\d+ declarations? that depends? on ", said)
    goal = f"`{quoted[1]}`" if quoted else "a goal"
    if file.startswith("src/"):
        # The name of the goal stands in brackets, and may be cut off.
        named = re.search(r"\(`([^`]+)`\)", said)
        return f"{f'`{named[1]}`' if named else 'a goal'} at `{file}:{line}`", SOURCE
    of_function = OF_FUNCTION.fullmatch(file)
    if of_function:
        return f"{goal} of `{function_at(of_function[1])}`", HANGS if hangs else ANSWER
    return f"{goal} in `{file}`", HANGS if hangs else LEMMA


def read_line(line: str) -> Edit | None:
    """What a line says of an edit; None of any other line."""
    stray = STRAY.match(line)
    if stray:
        return Edit(stray[1], stray[2], "", BAD)
    found = LINE.match(line)
    if not found:
        return None
    crate, name, said = found.groups()
    if said.startswith("NOT REFUSED"):
        return Edit(crate, name, "", PROVED)
    if not said.startswith(REFUSED):
        return Edit(crate, name, "", BAD)
    rest = said.removeprefix(REFUSED)
    if rest.startswith(" (only because"):
        return Edit(crate, name, goal_of(rest.partition("): ")[2])[0], GONE)
    goal, origin = goal_of(rest.removeprefix(": "))
    return Edit(crate, name, goal, origin)


def listed() -> list[tuple[str, str, str, str]]:
    """The rows of docs/EDITS.md."""
    return ROW.findall(TABLE.read_text())


def is_of_another(goal: str, clause: str) -> bool:
    """Whether a goal is of no function that the clause of a row names. The owner of a method is left out, since the proof of a
    trait's method has a name that also has the trait's."""
    of_goal = re.search(r" of `(?:\w+::)?(\w+)`", goal)
    return bool(of_goal and clause) and of_goal[1] not in re.findall(r"`(?:\w+::)?(\w+)`", clause)


def tried(crates: list[str]) -> Iterator[str]:
    """The lines of `rt must-fail` on these crates."""
    with subprocess.Popen(["rt", "must-fail", *crates], cwd=TOP, stdout=subprocess.PIPE, text=True, errors="replace") as ran:
        assert ran.stdout
        yield from ran.stdout


def print_table(lines: Iterable[str]) -> int:
    """Prints the table of what the lines say, and returns the status."""
    print("| Crate | Edit | Goal that is left open | Refused by |\n|---|---|---|---|")
    read: set[Edit] = set()
    for line in lines:
        edit = read_line(line.rstrip("\n"))
        if edit and edit not in read:
            print(edit.row(), flush=True)
            read.add(edit)
    clauses = {(crate, name): clause for crate, name, clause, _ in listed()}
    others = [edit for edit in read if is_of_another(edit.goal, clauses.get((edit.crate, edit.name), ""))]
    for other in others:
        print(f"docs/EDITS.md names a clause of another function than {other.goal}: {other.crate}/{other.name}.edit")
    failed = len({edit for edit in read if edit.origin in FAILURES}.union(others))
    print(f"{len(read) - failed} passed, {failed} failed")
    return 1 if failed or not read else 0


# Lines as rt writes them, and what is read of them.
KNOWN = [
    (
        "rt: must-fail pm_basis/wrong.edit: refused, as it must be: ./proofs/basis/Basis/price/Answers.antt:43:26: error: "
        "`returns-clause-price`: as printed, the two types first differ where one has `Prim",
        Edit("pm_basis", "wrong", "`returns-clause-price` of `Basis::price`", ANSWER),
    ),
    (
        "must-fail pm_io/wrong.edit: refused, as it must be: ./proofs/all/write_all/Invariants.antt:11:17: error: "
        "`loop-written-preserved`: `rw`: no part of the goal",
        Edit("pm_io", "wrong", "`loop-written-preserved` of `write_all`", ANSWER),
    ),
    (
        "rt: must-fail pm_basis/wrong.edit: refused, as it must be: note: src/basis.rt:87:5: it is not proved that what the "
        "function ensures holds when it returns (`returns-clause-from_min`); `search`",
        Edit("pm_basis", "wrong", "`returns-clause-from_min` at `src/basis.rt:87`", SOURCE),
    ),
    (
        "rt: must-fail pm_basis/wrong.edit: refused, as it must be: src/basis.rt:87:5: error: it is not proved that `a` fits",
        Edit("pm_basis", "wrong", "a goal at `src/basis.rt:87`", SOURCE),
    ),
    (
        "rt: must-fail pm_bid/wrong.edit: refused, as it must be: ./proofs/Sums.antt:9:1: error: `sum_rises`: no proof",
        Edit("pm_bid", "wrong", "`sum_rises` in `proofs/Sums.antt`", LEMMA),
    ),
    (
        "rt: must-fail pm_top/wrong.edit: refused, as it must be: ./proofs/top/file/Answers.antt:29:5: error: 2 declarations that "
        "depend on `is_due`, which was rejected, were not checked",
        Edit("pm_top", "wrong", "`is_due` of `file`", HANGS),
    ),
    ("rt: must-fail pm_bid/wrong.edit: refused, as it must be", Edit("pm_bid", "wrong", "", UNSAID)),
    (
        "rt: must-fail pm_bid/wrong.edit: refused, as it must be (only because a proof file names what the edit took away, so "
        "this says little of the contract: change a value and keep the names): ./proofs/head/new/Answers.antt:3:4: error: "
        "`returns-clause-new`: `c.head` has no field `gone`",
        Edit("pm_bid", "wrong", "`returns-clause-new` of `new`", GONE),
    ),
    (
        "rt: must-fail pm_bid/wrong.edit: NOT REFUSED: the crate is still proved with this edit",
        Edit("pm_bid", "wrong", "", PROVED),
    ),
    (
        "rt: must-fail pm_bid/wrong.edit: BAD EDIT: an 'old:' text is in src/head.rt 2 times, and not once",
        Edit("pm_bid", "wrong", "", BAD),
    ),
    (
        "rt: crates/pm_bid/must-fail/notes.txt: BAD EDIT: an edit stands right in must-fail/, and its name is of letters",
        Edit("pm_bid", "notes.txt", "", BAD),
    ),
    ("rt: pm_bid: trying its must-fail edits (9)", None),
    ("fn pm_bid::head::new: proved", None),
]


def crates() -> list[str]:
    """The crates of crates.txt, in its order."""
    text = (TOP / "crates.txt").read_text()
    return re.findall(r"(?m)^(\w+):", text)


# Goals, clauses of rows, and whether the goal is of another function.
COMPARED = [
    ("`returns-clause-price` of `Basis::price`", "`price` of `Basis::price`", False),
    ("`returns-clause-bound` of `MemSinkSink::write`", "`bound` of `MemSink::write`", False),
    ("`pass_to_last-requires-clause-childless` of `Market::pass`", "`childless` of `pass_to_last`, called by `Market::pass`", False),
    ("`returns-clause-price` of `Basis::price`", "the clause of `Basis::new`", True),
    ("`sum_rises` in `proofs/Sums.antt`", "the clause of `add_each`", False),
    ("`returns` of `rise`", "", False),
]


def misreadings() -> Iterator[str]:
    """The fixed lines that are not read as they should be."""
    for line, wanted in KNOWN:
        if read_line(line) != wanted:
            yield f"read as {read_line(line)}, and not as {wanted}: {line}"
    for goal, clause, wanted in COMPARED:
        if is_of_another(goal, clause) != wanted:
            yield f"{goal} is {'' if wanted else 'not '}of another function than {clause or 'no clause'}"


def unlisted() -> Iterator[str]:
    """What docs/EDITS.md has that is not just the edits that there are, in the order of crates.txt and of their names."""
    files = [(crate, path.stem) for crate in crates() for path in sorted((TOP / "crates" / crate / "must-fail").glob("*.edit"))]
    rows = [(crate, name) for crate, name, _, _ in listed()]
    for crate, name in files:
        if (crate, name) not in rows:
            yield f"docs/EDITS.md has no row of {crate}/{name}.edit: add one"
    for crate, name in rows:
        if (crate, name) not in files:
            yield f"docs/EDITS.md has a row of {crate}/{name}.edit, which is not there: take the row out"
    if sorted(files) == sorted(rows) and files != rows:
        yield "the rows of docs/EDITS.md are not in the order of crates.txt and of the names: sort them"


def unknown() -> Iterator[str]:
    """The rows that name a clause of a function which their crate does not have."""
    known = {crate: set(re.findall(r"\bfn (\w+)", "".join(sources(crate)))) for crate in crates()}
    for crate, name, clause, _ in listed():
        for function in re.findall(r"(?:of|by|in|from) `(?:\w+::)?(\w+)`", clause):
            if function not in known[crate]:
                yield f"docs/EDITS.md: the row of {crate}/{name}.edit names {function}, which is no function of {crate}: correct it"


def sources(crate: str) -> Iterator[str]:
    """The text of each file of a crate's code."""
    for path in sorted((TOP / "crates" / crate / "src").rglob("*.rt")):
        yield path.read_text()


def test_self() -> int:
    """Runs all comparisons, and returns the status."""
    passed, failed = 0, 0
    for check in (misreadings, unlisted, unknown):
        findings = list(check())
        for finding in findings:
            print(finding)
        failed += len(findings)
        passed += not findings
    print(f"{passed} passed, {failed} failed")
    return 1 if failed else 0


def main(words: list[str]) -> int:
    if words == ["--self-test"]:
        return test_self()
    if len(words) == 2 and words[0] == "--log":
        return print_table(Path(words[1]).read_text(errors="replace").splitlines())
    if any(word not in crates() for word in words):
        print(__doc__, file=sys.stderr)
        return 2
    return print_table(tried(words))


if __name__ == "__main__":
    sys.exit(main(sys.argv[1:]))
