"""Whether the pictures are those that the commands draw, and whether the auction behind the checks is right.

    python3 -m checks.lint.pictures         compares
    python3 -m checks.lint.pictures draw    writes the pictures and the page

Each picture and page of the list is made again by its command, with the proved program, and has to have the same bytes. And
checks/oracle/auction.py has to give the text of each cluster file that runs, and to refuse texts with a line changed, taken out or
added. It knows nothing of the program, so the texts due are worked out a second time. The diagrams of the pages are drawn again too
(checks/lint/diagrams.py).
"""

import json
import subprocess
import sys
import tempfile
from collections.abc import Iterator
from pathlib import Path

from checks import TOP
from checks.lint import diagrams
from checks.make.cases import DONE, examples, stored_cases
from checks.oracle.auction import Misfit, fitting_ends

# Debian's Python, to which the packages belong.
PYTHON = "/usr/bin/python3"
# What draws the same bytes.
MATPLOTLIB = "3.6.3"
MONEY = ["--start", "2026-06-21", "--currency", "EUR", "--per-kwh", "0.001"]
# The command for each picture and page, without -o.
MADE = {
    "pictures/balance.svg": ["draw", "clearing", "examples/balance.json"],
    "pictures/village.svg": ["draw", "run", "examples/village.json", "--phase", "3"],
    "pictures/limited_feeder.svg": ["draw", "run", "examples/limited_feeder.json", "--phase", "2"],
    "pictures/battery_day_bill.svg": ["draw", "bill", "examples/battery_day.json"],
    "pictures/battery_day_ask.svg": ["draw", "ask", "examples/battery_day.json", "--target", "-1000", "--target", "-2000"],
    "examples/neighbourhood/neighbourhood.html": ["report", "examples/neighbourhood/neighbourhood.json", *MONEY, "--connection", "connection"],
}


def told_by(*words: str) -> subprocess.CompletedProcess[str]:
    """What Debian's Python says to these words, with our package at hand."""
    return subprocess.run([PYTHON, *words], cwd=TOP / "python", capture_output=True, text=True, check=False)


def lacking() -> str:
    """Why no picture can be drawn or compared here, or an empty text."""
    if not Path(PYTHON).exists() or (told := told_by("-c", "import matplotlib; print(matplotlib.__version__)")).returncode:
        return "there is no matplotlib (Debian: python3-matplotlib)"
    if told.stdout.strip() != MATPLOTLIB:
        return f"matplotlib {told.stdout.strip()} draws other bytes than {MATPLOTLIB}"
    if told_by("-c", f"from cogmaula import Program; Program.find({str(TOP)!r})").returncode:
        return "no program is proved from the sources of today (./market prove)"
    return ""


def made(name: str, output: Path) -> str:
    """Makes a picture or a page, and says what is wrong, or gives an empty text."""
    words = [str(TOP / word) if word.startswith("examples/") else word for word in MADE[name]]
    done = told_by("-m", "cogmaula", *words, "-o", str(output), "--program", str(TOP))
    return "" if done.returncode == 0 else f"{name} is not made: {done.stderr.strip()}"


def others() -> Iterator[str]:
    """A line for each picture and page that its command makes otherwise."""
    with tempfile.TemporaryDirectory() as folder:
        for name in MADE:
            output = Path(folder) / Path(name).name
            if fault := made(name, output):
                yield fault
            elif not (TOP / name).exists() or (TOP / name).read_bytes() != output.read_bytes():
                yield f"{name} is not what its command makes: checks/run pictures draw writes it"


def draw_all() -> int:
    """Writes the pictures and the page."""
    why = lacking()
    faults = [why] if why else [fault for name in MADE if (fault := made(name, TOP / name))]
    for fault in faults:
        print(fault, file=sys.stderr)
    return 1 if faults else 0


def fits(file: dict, lines: list[str]) -> bool:
    """Whether the text fits the file."""
    try:
        fitting_ends(file, "".join(f"{line}\n" for line in lines))
    except Misfit:
        return False
    return True


def wrong_texts(lines: list[str]) -> Iterator[list[str]]:
    """The text without each of its first lines, with it twice, and with its last number raised."""
    for at, line in enumerate(lines[:20]):
        front, _, number = line.rpartition(" ")
        yield lines[:at] + lines[at + 1 :]
        yield lines[: at + 1] + lines[at:]
        yield [*lines[:at], f"{front} {int(number) + 1}", *lines[at + 1 :]]


def misfits() -> Iterator[list[str]]:
    """For each case that runs what is wrong with it: a line, or none."""
    for case in [*examples(), *stored_cases()]:
        if case.arguments == ["run"] and case.status == DONE:
            file, lines = json.loads(case.stdin.read_text()), case.stdout.decode().splitlines()
            right = fits(file, lines) and not any(fits(file, wrong) for wrong in wrong_texts(lines))
            yield [] if right else [f"{case.name}: the text does not fit, or a wrong one does"]


def main() -> int:
    """Compares, or draws."""
    if sys.argv[1:] == ["draw"]:
        return draw_all()
    findings = [*misfits(), *diagrams.findings()]
    if why := lacking():
        print(f"skipped: the pictures are not drawn again: {why}")
    else:
        wrong = list(others())
        findings += [[text] for text in wrong] + [[]] * (len(MADE) - len(wrong))
    for found in findings:
        for line in found:
            print(line)
    failed = sum(bool(finding) for finding in findings)
    print(f"{len(findings) - failed} passed, {failed} failed")
    return 1 if failed else 0


if __name__ == "__main__":
    sys.exit(main())
