#!/usr/bin/env python3
"""Proves and builds a program, with all processors: the crates that it stands on side by side, the longest chain first.

    python3 script/prove.py [market|live|over_links] [--jobs N] [--anew]

`rt run` proves one crate after the other, and `rt ci` also every test and every must-fail edit. This script asks the kit's
own calls behind `rt ci` for the proofs alone that the program stands on. Each crate is proved from nothing, and the program is
held to HANDLES.
What is proved is kept in crates/NAME/out/prove, so a run that is stopped goes on with the crates that were open, and by content for all
clones on the machine (script/kept.py); `--anew` takes nothing of either. What the kit says of a crate is in
crates/NAME/out/prove/log. Progress goes to standard error. The status is 0 only if all is proved and
the program is built, as crates/NAME/out/NAME. A kit without these calls is asked for `rt run` instead.
"""

import argparse
import copy
import hashlib
import importlib.util
import os
import queue
import re
import shutil
import signal
import subprocess
import sys
import threading
import time
from collections.abc import Callable
from importlib.machinery import SourceFileLoader
from pathlib import Path
from types import ModuleType
from typing import Any, NoReturn

sys.dont_write_bytecode = True
import kept  # noqa: E402

TOP = Path(__file__).resolve().parent.parent

# The programs: first the one that is meant if none is named, and last one for a check.
PROGRAMS = ("market", "live", "over_links")

# The seconds between two lines that say how far the proofs are.
PERIOD = 60

# Of the lines, so much has to be proved before the rest is estimated by it.
ENOUGH = 0.1

# The most processors that one proof takes well.
MOST_JOBS = 4

# Of the free memory so much is given to proofs. Of what the kit plans for a proof so much may come later: what was seen is
# a third of the plan at most.
SAFE = 0.85
STILL_TAKEN = 0.25

# The processor seconds that proofs took on one machine, a crate each line. Of a crate that is not there, so many for its lines of code
# and for the libraries below it.
SECONDS = TOP / "script" / "seconds.txt"
SECONDS_A_LINE = 0.2
LEAST_SECONDS = 15

# The priorities (nice) of proofs: of those that the longest chain waits for, of those with the longest chains beside it, as many as
# there are processors, and of the others.
PRIORITIES = (0, 5, 10)

# A crate is on the longest chain if this part of its length is above it.
NEARLY = 0.85

# What this script calls of the kit's `rt`, and of its crates.
CALLS = ("need", "handles_of", "rtlib", "Crate", "KIT")
CRATE_CALLS = ("below", "words", "call", "link")


def say(text: str) -> None:
    """Tells the user on standard error."""
    print(f"market: {text}", file=sys.stderr, flush=True)


def load_kit() -> Any | None:
    """The kit's `rt` as a module; nothing if it lacks a call that this script makes."""
    found = shutil.which("rt")
    if found is None:
        return None
    sys.dont_write_bytecode = True
    loader = SourceFileLoader("rt_of_kit", os.path.realpath(found))
    spec = importlib.util.spec_from_loader("rt_of_kit", loader)
    if spec is None:
        return None
    kit: ModuleType = importlib.util.module_from_spec(spec)
    try:
        loader.exec_module(kit)
    except (SyntaxError, OSError, ImportError):
        return None
    crate = getattr(kit, "Crate", None)
    has_all = all(hasattr(kit, name) for name in CALLS) and all(hasattr(crate, name) for name in CRATE_CALLS)
    return kit if has_all else None


class Progress:
    """How much is proved, in lines of code, and what is under way."""

    def __init__(self, lines: dict[str, int], kept: set[str]) -> None:
        self.lines = lines
        self.kept = sum(lines[name] for name in kept)
        self.proved = 0
        self.under_way: list[str] = []
        self.begun = time.monotonic()
        self.lock = threading.Lock()

    def minutes(self) -> float:
        """The minutes since the begin."""
        return (time.monotonic() - self.begun) / 60

    def tell(self, before: str = "") -> None:
        """Says how far the proofs are, at which crates, and about how long the rest takes by the pace so far."""
        whole = sum(self.lines.values())
        left = whole - self.kept - self.proved
        text = f"{before}{(whole - left) * 100 // whole} % of {whole} lines of code proved after {self.minutes():.1f} minutes"
        if self.under_way:
            text += f"; at {', '.join(self.under_way)}"
        if left and self.proved > ENOUGH * (left + self.proved):
            rest = round(self.minutes() * left / self.proved)
            text += f"; about {rest} minutes to go" if rest > 1 else "; about a minute to go"
        say(text)

    def run(self, name: str, work: Callable[[], bool]) -> bool:
        """Does the work at a crate, and counts its lines if the crate is then proved."""
        with self.lock:
            self.under_way.append(name)
        is_proved = work()
        with self.lock:
            self.under_way.remove(name)
            self.proved += self.lines[name] * is_proved
            self.tell(f"{name}: " if is_proved else "")
        return is_proved

    def tell_at_times(self) -> None:
        """Says how far the proofs are, each minute, for as long as the process runs."""
        while True:
            time.sleep(PERIOD)
            with self.lock:
                self.tell()


class Lanes:
    """Proofs that run side by side, each once those below it have ended, and first those with the longest chain above them.

    A proof takes one processor well, and up to four in some of its stages. So one more proof runs than there are processors, and
    those with the longest chains above them, as many as there are processors, wait for no other. What the longest chain waits for
    gets four jobs, and the others stand back for it: the more, the shorter their chains are.
    """

    def __init__(self, crates: list[Any], seconds: dict[str, float], processors: int, need: Callable[[Any], float]) -> None:
        self.waiting = list(crates)
        self.open = {str(crate.name) for crate in crates}
        self.processors = processors
        self.need = need
        # By its name, the memory of each proof that runs.
        self.running: dict[str, float] = {}
        self.ended: queue.Queue[tuple[Any, bool]] = queue.Queue()
        # The seconds from the beginning of a crate to the end of the longest chain above it.
        self.above: dict[str, float] = {name: seconds[name] for name in self.open}
        for crate in reversed(crates):
            for below in crate.below():
                if below.name in self.open:
                    self.above[below.name] = max(self.above[below.name], seconds[below.name] + self.above[crate.name])

    def run(self, prove: Callable[[Any, int], bool]) -> list[Any]:
        """Runs all proofs, and returns those that failed; once one did, none begins."""
        failed: list[Any] = []
        while (self.waiting and not failed) or self.running:
            if not failed:
                for crate, jobs, rank in self.choose():
                    threading.Thread(target=self.work, args=(crate, jobs, rank, prove), daemon=True).start()
            crate, is_proved = self.ended.get()
            self.end(crate, is_proved)
            if not is_proved:
                failed.append(crate)
        return failed

    def end(self, crate: Any, is_proved: bool) -> None:
        """Takes note that a proof ended."""
        del self.running[crate.name]
        if is_proved:
            self.open.remove(crate.name)

    def room(self, is_first: bool) -> float:
        """The memory for one more proof, in bytes. Those that run may still take a part of what the kit plans for them."""
        later = 0 if is_first else STILL_TAKEN * sum(self.running.values())
        return SAFE * free_memory() - later

    def seconds_above(self, crate: Any) -> float:
        """The seconds from the beginning of a crate to the end of the longest chain above it."""
        return self.above[str(crate.name)]

    def choose(self) -> list[tuple[Any, int, int]]:
        """The proofs that start now: of each the crate, its jobs, and its rank among the priorities."""
        ready = [crate for crate in self.waiting if not any(below.name in self.open for below in crate.below())]
        ready.sort(key=self.seconds_above, reverse=True)
        longest = max(self.above[name] for name in self.open)
        chosen = []
        for place, crate in enumerate(ready):
            is_first = self.above[crate.name] > NEARLY * longest
            before = sum(self.above[name] >= self.above[crate.name] for name in self.running)
            if len(self.running) > self.processors and not is_first and before >= self.processors:
                continue
            need = self.need(crate)
            if self.running and need > self.room(is_first):
                continue
            # There are four times as many jobs as processors, since a proof seldom takes all of its jobs.
            share = 4 * self.processors // (len(self.running) + len(ready) - place)
            jobs = min(MOST_JOBS, self.processors, max(1, share) if not is_first else self.processors)
            self.waiting.remove(crate)
            self.running[str(crate.name)] = need
            chosen.append((crate, jobs, 0 if is_first else 1 if before < self.processors else 2))
        return chosen

    def work(self, crate: Any, jobs: int, rank: int, prove: Callable[[Any, int], bool]) -> None:
        """Does one proof, on a thread of its own, whose priority is that of the processes that it starts."""
        is_proved = False
        try:
            if rank:
                os.setpriority(os.PRIO_PROCESS, threading.get_native_id(), PRIORITIES[rank])
            is_proved = prove(crate, jobs)
        finally:
            self.ended.put((crate, is_proved))


class Proofs:
    """The proofs of a program and of the crates below it, by the calls of the kit."""

    def __init__(self, kit: Any, name: str, is_anew: bool) -> None:
        self.kit = kit
        self.is_anew = is_anew
        # As `rt ci` sets the kit up: a library is built of its statements, and the program held to HANDLES.
        kit.rtlib.Crate = kit.Crate
        kit.Crate.cuts_libraries = True
        kit.Crate.allowed = kit.handles_of(str(TOP))
        self.program = kit.Crate(str(TOP / "crates" / name), str(TOP), {})
        self.crates = [*self.program.below(), self.program]
        for crate in self.crates:
            crate.rlib = f"{crate.folder}/out/prove/out/rlib/{crate.name}.rlib"
        self.sums = {crate.name: sum_of(crate) for crate in self.crates}
        self.stores = kept.stores_of(kit, self.crates)

    def built_program(self) -> Path:
        """Where the built program is."""
        return Path(self.program.folder) / "out" / str(self.program.name)

    def stamp_of(self, crate: Any) -> Path:
        """The file that says from which sources a crate was proved."""
        return Path(crate.folder) / "out" / "prove" / "stamp"

    def due_in_stamp(self, crate: Any) -> str:
        """What the stamp of a proved crate says: the kit, and a sum of the crate and of each below it, and of the built program."""
        names = [crate.name, *(crate_below.name for crate_below in crate.below())]
        lines = [Path(f"{self.kit.KIT}/KIT-ID").read_text().strip(), *(f"{name} {self.sums[name]}" for name in names)]
        if crate.name == self.program.name:
            lines.append(f"program {hashlib.sha256(self.built_program().read_bytes()).hexdigest()}")
        return "\n".join(lines)

    def is_kept(self, crate: Any) -> bool:
        """Whether an earlier run proved the crate from these sources, and what it built is there."""
        stamp = self.stamp_of(crate)
        made = self.built_program() if crate.name == self.program.name else Path(crate.rlib)
        return made.exists() and stamp.is_file() and stamp.read_text() == self.due_in_stamp(crate)

    def prove(self, crate: Any, jobs: int) -> bool:
        """Proves a crate from nothing and builds it, unless this machine keeps what an earlier proof of the same built."""
        stamp = self.stamp_of(crate)
        stamp.unlink(missing_ok=True)
        kept.clear(crate)
        is_kept = self.take(crate)
        if not is_kept:
            crate = copy.copy(crate)
            with stamp.with_name("log").open("w+", encoding="utf-8") as crate.out:
                if self.build(crate, jobs) != 0:
                    return False
        if sum_of(crate) == self.sums[crate.name]:
            stamp.write_text(self.due_in_stamp(crate))
            self.keep(crate, is_kept)
        return True

    def take(self, crate: Any) -> bool:
        """Takes what this machine keeps of an earlier proof of the crate, and returns whether there is something."""
        if self.stores is None or self.is_anew or not self.stores.take(crate):
            return False
        if crate.name == self.program.name:
            copy_program(self.kept_program(), self.built_program())
        self.stamp_of(crate).with_name("log").write_text("an earlier proof of the same files over the same libraries is kept on this machine\n")
        return True

    def keep(self, crate: Any, is_kept: bool) -> None:
        """Keeps what was proved just now for all clones, and takes note of it for the crates above."""
        if self.stores is None:
            return
        if crate.name == self.program.name and not is_kept:
            copy_program(self.built_program(), self.kept_program())
        self.stores.note(crate)
        if not is_kept:
            self.stores.keep(crate)

    def kept_program(self) -> Path:
        """Where the stores put the built program, and take it from."""
        return Path(self.program.folder) / "out" / "prove" / "out" / str(self.program.name)

    def build(self, crate: Any, jobs: int) -> int:
        """Asks the kit for the proof and the build, and returns the status."""
        rattle = self.kit.rtlib.RATTLE
        words = crate.words(["--jobs", str(jobs)], keeps=False)
        if crate.name != self.program.name:
            return int(crate.call(rattle, "build", *words, "--statements", "-o", crate.rlib))
        words += ["--toolchain", f"{self.kit.KIT}/toolchain", "--backend", "llvm"]
        status = crate.call(rattle, "build", *words, "-o", f"out/{crate.name}.o")
        return int(status or crate.link(f"out/{crate.name}.o", f"out/{crate.name}"))

    def run(self, processors: int) -> bool:
        """Proves what is not kept, side by side, and returns whether all is proved."""
        lines = {crate.name: lines_of(crate) for crate in self.crates}
        held = {crate.name for crate in self.crates if not self.is_anew and self.is_kept(crate)}
        for crate in self.crates:
            if crate.name in held and self.stores is not None:
                self.stores.note(crate)
        progress = Progress(lines, held)
        threading.Thread(target=progress.tell_at_times, daemon=True).start()
        progress.tell()
        measured = measured_seconds()
        seconds = {name: measured.get(name, LEAST_SECONDS + SECONDS_A_LINE * count) for name, count in lines.items()}
        lanes = Lanes([crate for crate in self.crates if crate.name not in held], seconds, processors, self.kit.need)
        failed = lanes.run(lambda crate, jobs: progress.run(crate.name, lambda: self.prove(crate, jobs)))
        for crate in failed:
            self.tell_of(crate)
        if self.stores is not None:
            self.stores.shrink()
        return not failed

    def tell_of(self, crate: Any) -> None:
        """Shows the end of what the kit said of a crate that is not proved."""
        log = self.stamp_of(crate).with_name("log")
        print("\n".join(log.read_text(errors="replace").splitlines()[-30:]), file=sys.stderr)
        say(f"{crate.name} is not proved: the end of {log.relative_to(TOP)} is above")


def free_memory() -> int:
    """The free memory in bytes."""
    found = re.search(r"MemAvailable:\s+(\d+)", Path("/proc/meminfo").read_text())
    return 1024 * int(found[1]) if found else 0


def files_of(crate: Any) -> list[Path]:
    """The files that a crate is proved from."""
    folders = (Path(crate.folder) / part for part in ("src", "specs", "proofs"))
    return sorted(path for folder in folders for path in folder.rglob("*") if path.is_file())


def lines_of(crate: Any) -> int:
    """How many lines of code a crate has. Its proof costs about so much, whatever lines of proof it has."""
    return sum(path.read_bytes().count(b"\n") for path in files_of(crate) if path.suffix == ".rt")


def copy_program(one: Path, other: Path) -> None:
    """Copies a built program, whole or not at all."""
    new = other.with_name(f"{other.name}.new")
    shutil.copy(one, new)
    new.replace(other)


def measured_seconds() -> dict[str, float]:
    """The processor seconds of each proof that was measured, by the crate's name."""
    rows = (line.split() for line in SECONDS.read_text().splitlines() if line and not line.startswith("#"))
    return {name: float(seconds) for name, seconds in rows}


def sum_of(crate: Any) -> str:
    """A sum of the names and contents of a crate's files, and of what crates.txt says of it."""
    whole = hashlib.sha256(repr(crate.said).encode())
    for path in files_of(crate):
        whole.update(f"{path.relative_to(crate.folder)}\0".encode() + hashlib.sha256(path.read_bytes()).digest())
    return whole.hexdigest()


def run_by_turns(name: str) -> bool:
    """Lets `rt run` prove one crate after the other, and build the program of this name."""
    say("this kit proves one crate after the other, so it takes longer")
    how: dict[str, Any] = {"cwd": TOP / "crates" / name, "stdin": subprocess.DEVNULL, "capture_output": True, "text": True, "errors": "replace"}
    ran = subprocess.run(["rt", "run"], check=False, **how)
    if f"rt: running out/{name}" in ran.stderr + ran.stdout:
        return True
    print(ran.stdout + ran.stderr, file=sys.stderr)
    return False


def end_at_once(status: int) -> NoReturn:
    """Ends the process and what it started, and leaves no link behind."""
    kept.remove_links(TOP / "crates")
    os._exit(status)


def main() -> int:
    """Proves and builds the program that the arguments name, and returns the status."""
    # It has no help, since the script takes status 0 for a proof.
    parser = argparse.ArgumentParser(prog="./market prove", add_help=False)
    parser.add_argument("program", nargs="?", choices=PROGRAMS, default=PROGRAMS[0])
    processors = sorted(os.sched_getaffinity(0))
    # How many processors to use; all, if not said.
    parser.add_argument("--jobs", type=int, default=len(processors))
    # Whether to prove all again, whatever is kept.
    parser.add_argument("--anew", action="store_true")
    given = parser.parse_args()
    if given.jobs < 1:
        parser.error("--jobs takes a number from 1 on")
    os.sched_setaffinity(0, processors[: given.jobs])
    os.chdir(TOP)
    kit = load_kit()
    if kit is None:
        return 0 if run_by_turns(given.program) else 1
    # The first call sets a signal's handler, which only the main thread may. What it starts ends with this process.
    kit.rtlib.guarded()
    for signal_number in (signal.SIGTERM, signal.SIGHUP, signal.SIGINT):
        signal.signal(signal_number, lambda number, _: end_at_once(128 + number))
    try:
        return 0 if Proofs(kit, given.program, given.anew).run(given.jobs) else 1
    finally:
        kept.remove_links(TOP / "crates")


if __name__ == "__main__":
    sys.exit(main())
