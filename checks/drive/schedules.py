"""Hostile schedules: one and two processors, low priority, 20 programs at once, 20 busy loops, threads that cannot be started, little
room for addresses. Each run has to give the text that it gives anywhere, and a trace that checks/oracle/judge.py finds legal."""

import itertools
import os
import resource
import shutil
import subprocess
from concurrent.futures import ThreadPoolExecutor

from checks import TOP
from checks.drive.built import SECONDS, ended
from checks.make.limits import DEPTH, chain, document, joins
from checks.oracle.oracle import due_of, envelope, why_wrong

DONE, USAGE, NO_MEMORY = 0, 2, 7
# What a thread takes of the address space: its stack, and a page that guards it.
THREAD = 270_336
# The busy loops of a loaded machine, each of which ends by itself, and how many programs run beside each other.
LOAD, LOAD_SECONDS = 20, 600
# A user to whom no process belongs, so that limits on the threads of a user are those of one program.
NOBODY = 61_234
DEVICES = 20


def deep_file():
    """Devices of all kinds under a chain of 6 concentrators, one of them limited, over ticks and events."""
    nodes = chain()
    nodes[-1] |= {"kind": "limited", "floor": -3_000, "ceiling": 2_000}
    for number in range(1, DEVICES + 1):
        kinds = [
            {"kind": "load", "start": 100 * number},
            {"kind": "battery", "capacity": 4_000, "charge": 900, "discharge": 700, "spread": 3, "start": 150 * number},
            {"kind": "freezer", "low": -2_200, "high": -1_800, "power": 300, "warm": 30, "cool": 80, "start": -2_200 + 20 * number},
            {"kind": "manual", "points": [[5, 50 * number], [35, -100 * number]]},
        ]
        nodes.append({"name": f"d{number}", "parent": f"c{1 + number % DEPTH}"} | kinds[number % 4])
    names = [f"d{number}" for number in range(1, DEVICES + 1)]
    leaves = {"events": [{"leave": name} for name in names[::3]]}
    return document((0, 39, 40), nodes, [joins(names), {"tick": 15}, leaves, {"tick": 30}, joins(names[::3]), {"tick": 1_440}])


def inputs():
    """Inputs with the texts due, of the trace the report."""
    village = (TOP / "examples" / "village.json").read_bytes()
    for name, file in (("village", village), ("deep", deep_file())):
        for command in ("run", "trace", "bill", "ask", "free"):
            text = envelope(file, b"0\n-1000\n1000\n") if command == "ask" else file
            yield f"{command} of {name}", command, text, due_of(command, text)


class Journals:
    """The traces seen of each input, to tell how many of them differ."""

    def __init__(self):
        self.seen = {}

    def add(self, name, text):
        self.seen.setdefault(name, []).append(hash(text))

    def told(self):
        return ", ".join(f"{name} {len(set(journals))} of {len(journals)}" for name, journals in self.seen.items())


def started(program, command, text, prepare, limit_seconds=SECONDS):
    child = subprocess.run([program, command], input=text, stdout=subprocess.PIPE, stderr=subprocess.DEVNULL, preexec_fn=prepare,
                           timeout=limit_seconds)
    return child.returncode, child.stdout


def repeated(program, what, prepare, times, journals, may_want_memory=False):
    """Each input so many times under a schedule: a name, and what is wrong or None."""
    for name, command, text, due in inputs():
        for number in range(times):
            found = started(program, command, text, prepare)
            if command == "trace" and found[0] == DONE:
                journals.add(name, found[1])
            wants = may_want_memory and found == (NO_MEMORY, b"")
            yield f"{what}: {name}", None if wants else why_wrong(command, text, found, due)


def on_processors(count):
    available = sorted(os.sched_getaffinity(0))[:count]
    return lambda: os.sched_setaffinity(0, available)


def when_idle():
    """Runs only when nothing else wants the processor."""
    os.sched_setscheduler(0, os.SCHED_IDLE, os.sched_param(0))


def busy(count, priority=10):
    """Busy loops of a priority (nice), which end by themselves if nobody ends them."""
    loop = f"exec timeout {LOAD_SECONDS} sh -c 'while :; do :; done'"
    return [subprocess.Popen(["nice", "-n", str(priority), "sh", "-c", loop], stdout=subprocess.DEVNULL, start_new_session=True) for _ in range(count)]


def end(loops):
    for process in loops:
        process.terminate()
        process.wait()


def beside_each_other(program, times, journals):
    """So many programs at once."""
    rows = list(itertools.chain.from_iterable([data] * times for data in inputs()))
    with ThreadPoolExecutor(LOAD) as pool:
        found = pool.map(lambda row: ended(program, [row[1]], row[2]), rows)
    for (name, command, text, due), one in zip(rows, found):
        if command == "trace" and one[0] == DONE:
            journals.add(name, one[1])
        yield f"{LOAD} at once: {name}", why_wrong(command, text, one, due)


def few_threads(limit):
    """A limit on the threads of the user, which is one of its own if the caller may choose."""
    def prepare():
        if os.geteuid() == 0:
            os.setgroups([])
            os.setgid(NOBODY)
            os.setuid(NOBODY)
        resource.setrlimit(resource.RLIMIT_NPROC, (limit, limit))

    return prepare


def copied(program, folder):
    """A copy of the program that every user can start."""
    os.chmod(folder, 0o755)
    copy = folder / "market"
    shutil.copyfile(program, copy)
    copy.chmod(0o755)
    return str(copy)


def refused_threads(program, folder, everything, journals):
    """From no further thread to as many as there are nodes."""
    copy = copied(program, folder)
    most = DEVICES + 8
    for limit in range(1, most + 1) if everything else (1, 2, 3, 5, 9, 14, most):
        yield from repeated(copy, f"at most {limit - 1} threads more", few_threads(limit), 4 if everything else 1, journals)


def least_room(program, arguments, text, status):
    """The least address space, to 64 KB, in which a run has a status."""
    low, high = 0, 1 << 32
    while high - low > 1 << 16:
        middle = (low + high) // 2
        found = subprocess.run([program, *arguments], input=text, stdout=subprocess.DEVNULL, stderr=subprocess.DEVNULL,
                               preexec_fn=little_room(middle), timeout=SECONDS)
        low, high = (low, middle) if found.returncode == status else (middle, high)
    return high


def little_room(size):
    return lambda: resource.setrlimit(resource.RLIMIT_AS, (size, size))


def rooms(program, everything, journals):
    """From an address space in which the program can just be loaded to one in which all threads can start."""
    least = least_room(program, [], b"", USAGE)
    most = least_room(program, ["run"], deep_file(), DONE) + (DEVICES + 8) * THREAD
    steps = 100 if everything else 5
    for step in range(steps + 1):
        size = least + step * (most - least) // steps
        yield from repeated(program, f"{size // 1024} KB of addresses", little_room(size), 1, journals, True)


def tried(program, folder, everything):
    journals = Journals()
    times = 50 if everything else 2
    for count in (1, 2):
        yield from repeated(program, f"on {count} processors", on_processors(count), times, journals)
    yield from repeated(program, "at the lowest priority", when_idle, times, journals)
    yield from beside_each_other(program, 5 * times, journals)
    loops = busy(LOAD)
    try:
        yield from repeated(program, f"at a load of {LOAD}", None, times, journals)
        yield from repeated(program, f"on one processor at a load of {LOAD}", on_processors(1), times, journals)
    finally:
        end(loops)
    yield from refused_threads(program, folder, everything, journals)
    yield from rooms(program, everything, journals)
    print(f"traces that differ, of those made: {journals.told()}")
