"""Runs the built programs where memory is wanting, and looks whether they end as they should: with the whole text, or with the
status of an allocation failure and no text. A trace is tried on files of which only one journal is legal.

    python3 -m checks.drive.memory MARKET LIVE [all]

Each allocation of a run is refused in turn, alone and with all that come after it; and the address space is limited, so
that some threads, or all, cannot be started. A service and a node of LIVE may have written a part of the answers before. Without `all` a
sample is tried, with it each number. checks/drive/refuse.c refuses the allocations; without a C compiler only the limits
are tried.
"""

import os
import resource
import shutil
import subprocess
import sys
import tempfile
from pathlib import Path

from checks import CASES, TOP
from checks.make.nodes import rows
from checks.make.streams import small_stream

DONE, NO_MEMORY = 0, 7
# The commands that answer a stream piece by piece.
SERVICES = ("serve", "relay", "auctioneer", "device")
# The streams of nodes that are tried: of the longest frames, and behind a Resume.
NODE_STREAMS = ("1000 steps", "a price that waits and is told", "the prices again", "let go with a full window")
SECONDS = 60
# How many allocations of a run are refused in a sample, and how many limits are tried.
SAMPLE = 12
LIMITS = 12
MEGABYTE = 1 << 20
# What the thread of a node takes of the address space: its stack of 262,144 bytes, and a page that guards it.
THREAD = 270_336


def run(program, arguments, text, settings=None, limit=None):
    """The exit status and what was written; a status of None if the run did not end in time."""
    def prepare():
        if limit is not None:
            resource.setrlimit(resource.RLIMIT_AS, (limit, limit))

    try:
        done = subprocess.run([program, *arguments], input=text, stdout=subprocess.PIPE, stderr=subprocess.DEVNULL,
                              env={**os.environ, **(settings or {})}, preexec_fn=prepare, timeout=SECONDS)
    except subprocess.TimeoutExpired:
        return None, b""
    return done.returncode, done.stdout


def is_right(arguments, ended, due):
    """Whether a run ended whole, or for want of memory: then without a text, or as a service with a part of the answers."""
    status, text = ended
    if status == NO_MEMORY and arguments[0] in SERVICES:
        return due.startswith(text)
    return ended in ((DONE, due), (NO_MEMORY, b""))


def sampled(count, everything):
    """The numbers from 1 to count that are tried."""
    if everything or count <= SAMPLE:
        return range(1, count + 1)
    return sorted({1 + place * (count - 1) // (SAMPLE - 1) for place in range(SAMPLE)})


def built_shim(folder):
    """The library that refuses allocations, or None if there is no compiler."""
    compiler = shutil.which("cc") or shutil.which("gcc") or shutil.which("clang")
    if compiler is None:
        return None
    library = folder / "refuse.so"
    subprocess.run([compiler, "-O1", "-shared", "-fPIC", "-o", library, TOP / "checks" / "drive" / "refuse.c"], check=True)
    return library


def count_of(program, arguments, text, library, folder):
    """How many allocations a run makes, and what it writes."""
    told = folder / "count"
    told.write_bytes(bytes(8))
    ended = run(program, arguments, text, {"LD_PRELOAD": str(library), "REFUSE_COUNT": str(told)})
    if ended[0] != DONE:
        raise SystemExit(f"{' '.join(arguments)} ends with status {ended[0]} though nothing is refused: the other trials need a whole run")
    return int.from_bytes(told.read_bytes(), sys.byteorder), ended[1]


def refusals(program, arguments, text, library, folder, everything):
    """Each refused allocation of a run: what it was, and whether the run ended as it should."""
    count, due = count_of(program, arguments, text, library, folder)
    for number in sampled(count, everything):
        for name in ("REFUSE_AT", "REFUSE_FROM"):
            ended = run(program, arguments, text, {"LD_PRELOAD": str(library), name: str(number)})
            told = f"{' '.join(arguments)}: {name} {number} of {count}: status {ended[0]}"
            yield told, is_right(arguments, ended, due)


def least_limit(program, arguments, text, due):
    """The least limit of the address space under which a run ends whole, to a megabyte."""
    low, high = 0, 1 << 32
    while high - low > MEGABYTE:
        middle = (low + high) // 2
        if run(program, arguments, text, limit=middle) == (DONE, due):
            high = middle
        else:
            low = middle
    return high


def limits(program, arguments, text, nodes, everything):
    """Limits of the address space from what no run can do with to what the threads of all nodes take."""
    due = run(program, arguments, text)[1]
    enough = least_limit(program, arguments, text, due)
    low, high = enough // 2, enough + nodes * THREAD
    steps = 10 * LIMITS if everything else LIMITS
    for step in range(steps + 1):
        limit = low + step * (high - low) // steps
        ended = run(program, arguments, text, limit=limit)
        yield f"{' '.join(arguments)}: {limit // 1024} KB: status {ended[0]}", is_right(arguments, ended, due)


def node_streams():
    """The arguments of a node and what it reads, of each stream that is tried."""
    found = [(name, arguments, data) for name, arguments, data, status, _ in rows() if name in NODE_STREAMS and status == DONE]
    if {name for name, _, _ in found} != set(NODE_STREAMS):
        raise SystemExit(f"checks/make/nodes.py has not each of the streams {', '.join(NODE_STREAMS)}")
    return [(arguments, data) for _, arguments, data in found]


def main(program, live, everything):
    two_bids = (CASES / "run" / "two_bids.json").read_bytes()
    lone_load = (CASES / "trace" / "only_trace.json").read_bytes()
    village = (TOP / "examples" / "village.json").read_bytes()
    deep = (CASES / "limits" / "load_under_6_concentrators.json").read_bytes()
    refused = [(["run"], two_bids), (["trace"], lone_load), (["run"], village), (["demo", "7", "7"], b"")]
    refused += [([command], deep) for command in ("run", "trace", "bill", "free")] + [(["ask"], b"%d\n" % len(deep) + deep + b"0\n100\n")]
    refused += [(["check"], (CASES / "check" / "two_bids_one_after_the_other.stdin").read_bytes()), (["serve"], small_stream())]
    tried = []
    with tempfile.TemporaryDirectory() as name:
        folder = Path(name)
        library = built_shim(folder)
        runs = [(program, *it) for it in refused] + [(live, *it) for it in node_streams()]
        for one, arguments, text in runs if library else []:
            tried += refusals(one, arguments, text, library, folder, everything)
    tried += limits(program, ["demo", "200", "7"], b"", 211, everything)
    failed = [told for told, right in tried if not right]
    for told in failed:
        print(told)
    print(f"{len(tried) - len(failed)} passed, {len(failed)} failed")
    return 1 if failed else 0


if __name__ == "__main__":
    sys.exit(main(sys.argv[1], sys.argv[2], sys.argv[3:] == ["all"]))
