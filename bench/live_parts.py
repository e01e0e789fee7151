"""What the parts of a live market cost: processor seconds and memory of their processes, from /proc."""

import os
import statistics
import subprocess
import sys
import time
from pathlib import Path

TICKS = os.sysconf("SC_CLK_TCK")


def children_of(number):
    """The numbers of the processes that a process has started."""
    found = []
    for path in Path(f"/proc/{number}/task").glob("*/children"):
        found += map(int, path.read_text().split())
    return found


def processor_seconds(numbers):
    """The processor seconds of these processes up to now, by their numbers. One that has ended is left out."""
    found = {}
    for number in numbers:
        try:
            fields = Path(f"/proc/{number}/stat").read_text().rpartition(") ")[2].split()
        except OSError:
            continue
        found[number] = (int(fields[11]) + int(fields[12])) / TICKS
    return found


def resident(number):
    """The resident memory of a process in MB: all of it, and its proportional share of what it has in common with others."""
    told = dict(line.split(":", 1) for line in Path(f"/proc/{number}/smaps_rollup").read_text().splitlines()[1:])
    return [int(told[word].split()[0]) / 1024 for word in ("Rss", "Pss")]


def memory_line(name, numbers):
    """A line of the memory of several processes of one kind."""
    found = [resident(number) for number in numbers]
    whole = [reading[0] for reading in found]
    shares = sum(reading[1] for reading in found)
    middle = statistics.median(whole)
    return f"    {name}: {len(found)}, each {middle:.1f} MB (most {max(whole):.1f}), by share together {shares:.1f} MB"


def times_text(seconds):
    """The median, the 95th percentile and the greatest of times, in words."""
    if not seconds:
        return "none"
    found = sorted(seconds)
    return f"median {statistics.median(found):.2f} s, 95 % {found[-(-95 * len(found) // 100) - 1]:.2f} s, most {found[-1]:.2f} s"


class Spent:
    """Processor seconds by part, from one look to the next. `parts` gives the numbers of the processes by name.

    What a process took that ends between two looks is not counted.
    """

    def __init__(self, parts):
        self._parts = parts
        self._before = self._now()

    def _now(self):
        return {name: processor_seconds(numbers) for name, numbers in self._parts.items()}

    def since(self, seconds):
        """The processors that each part took since the last look, in words."""
        now = self._now()
        found = {}
        for name, spent in now.items():
            before = self._before[name]
            found[name] = sum(seconds - before.get(number, 0.0) for number, seconds in spent.items()) / seconds
        self._before = now
        return ", ".join(f"{name} {number:.2f}" for name, number in found.items()) + f", together {sum(found.values()):.2f}"


def load():
    """The load of the last minute, in words."""
    return f"load {os.getloadavg()[0]:.1f}"


def store_ms(folder, count=50):
    """The milliseconds that a store of a Resume takes there, as the mean of some."""
    sys.path.insert(0, str(Path(__file__).resolve().parent.parent / "python"))
    from cogmaula.live.node.safely import replace_safely

    began = time.monotonic()
    for _ in range(count):
        replace_safely(folder / "probe", bytes(1_500))
    return (time.monotonic() - began) / count * 1_000


def file_system(folder):
    """The kind of the file system of a folder."""
    words = ["findmnt", "--noheadings", "--output", "FSTYPE", "--target", str(folder)]
    return subprocess.run(words, capture_output=True, text=True, check=True).stdout.strip()
