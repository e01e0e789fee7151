#!/usr/bin/env python3
"""Proves and builds the program `measure`, which `bench/run.sh` runs beside `market`.

    python3 bench/measure.py PROGRAM

`measure` is no product, so the gate does not prove it. Its sources are in bench/measure, under names that end in `.txt`. This
script makes a copy of the repository's crates in a temporary folder, adds the crate, and proves, builds and runs it there by
`rt run`. If it writes what is due, the program is copied to the path PROGRAM. The libraries below are taken from what was proved
on the machine.

The status is 0 if the program was copied. Otherwise it is 1, and what `rt` said is printed on standard error.
"""

import shutil
import subprocess
import sys
import tempfile
from pathlib import Path

HERE = Path(__file__).resolve().parent / "measure"
TOP = HERE.parent.parent
# What the crate stands on, as crates.txt says it.
LINE = (
    "measure: pm_base pm_io pm_envelope pm_bid pm_plan pm_walk pm_check pm_cluster pm_market pm_cells pm_scene pm_tree "
    "anyhow thiserror\n"
)
SOURCES = (".rt.txt", ".antt.txt")


def assemble(folder: Path) -> Path:
    """Copies the crates into a folder, with `measure` beside them; gives the folder of the crate."""
    shutil.copytree(TOP / "crates", folder / "crates", ignore=shutil.ignore_patterns("out"))
    shutil.copy(TOP / "HANDLES", folder)
    (folder / "crates.txt").write_text((TOP / "crates.txt").read_text() + LINE)
    crate = folder / "crates" / "measure"
    shutil.copytree(HERE, crate, ignore=shutil.ignore_patterns("out"))
    for file in crate.rglob("*.txt"):
        if file.name.endswith(SOURCES):
            file.rename(file.with_suffix(""))
    return crate


def build(crate: Path) -> Path | None:
    """Proves, builds and runs the crate, and gives the program; says what `rt` said if it does not write what is due."""
    words = (crate / "args").read_text().split()
    with (crate / "stdin").open("rb") as given:
        ran = subprocess.run(["rt", "run", "--", *words], cwd=crate, stdin=given, capture_output=True, check=False)
    if ran.returncode == 0 and ran.stdout == (crate / "stdout").read_bytes():
        return crate / "out" / "measure"
    sys.stderr.buffer.write(ran.stdout + ran.stderr)
    return None


def main(target: str) -> int:
    with tempfile.TemporaryDirectory() as folder:
        program = build(assemble(Path(folder)))
        if program is None:
            return 1
        Path(target).parent.mkdir(parents=True, exist_ok=True)
        shutil.copy(program, target)
    return 0


if __name__ == "__main__":
    if len(sys.argv) != 2:
        sys.exit(str(__doc__))
    sys.exit(main(sys.argv[1]))
