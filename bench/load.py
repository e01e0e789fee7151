#!/usr/bin/env python3
"""Measures `market run` and `market free` at rest, and on a machine that has ten times as much to do as it can.

    load.py RESTED LOADED MARKET PLAIN FOLDER [FILE ..]

MARKET is the program, and PLAIN the plain program of `bench/plain`, whose text is the one due. FOLDER has the files of
`make_files.py`; those that are compared are run, or those that are named. Each command runs RESTED times on each file with
nothing beside it, and LOADED times beside ten busy loops for each processor. The loops have the same priority and are in the
same session, so the system shares the processors out among all threads alike.

It prints the medians, and the longest beside the loops, also in times of the median at rest; the goal is 20. The status is 1 if
a text differs or a run fails or takes more than a minute, else 2 if the goal is missed, else 0.
"""

import contextlib
import os
import statistics
import subprocess
import sys
import time

from compare import COMPARED, LONGEST_SECONDS, Failed, beside, load, name_of, text_of

FILES = ["few", *COMPARED]
COMMANDS = ["run", "free"]
LOOPS_OF_A_PROCESSOR = 10
# How many times its time at rest a run may take beside the loops.
GOAL = 20


def seconds_of_run(command, data, due):
    """The seconds that a command takes on these bytes; its text must be the one due. It stays in the session of the loops."""
    words = " ".join(os.path.basename(word) for word in command)
    begin = time.perf_counter()
    try:
        done = subprocess.run(command, input=data, stdout=subprocess.PIPE, check=True, timeout=LONGEST_SECONDS)
    except subprocess.TimeoutExpired:
        raise Failed(f"{words} takes more than {LONGEST_SECONDS} seconds") from None
    except subprocess.CalledProcessError as error:
        raise Failed(f"{words} ends with status {error.returncode}") from None
    seconds = time.perf_counter() - begin
    if done.stdout != due:
        raise Failed(f"the text of {words} differs from that of the plain program")
    return seconds


def seconds_of(market, runs, data, due):
    """The seconds of so many runs of each command, in turn."""
    taken = {command: [] for command in COMMANDS}
    for _ in range(runs):
        for command in COMMANDS:
            taken[command].append(seconds_of_run([market, command], data, due))
    return taken


@contextlib.contextmanager
def busy_loops(count):
    """So many loops beside what is run meanwhile."""
    loops = [subprocess.Popen(["sh", "-c", "while :; do :; done"]) for _ in range(count)]
    try:
        time.sleep(2)
        yield
    finally:
        for loop in loops:
            loop.kill()
            loop.wait()


def measured(rested, loaded, market, plain, path):
    """Prints the lines of a file; whether the goal is missed."""
    with open(path, "rb") as source:
        data = source.read()
    due = text_of([plain], path)
    at_rest = seconds_of(market, rested, data, due)
    with busy_loops(LOOPS_OF_A_PROCESSOR * os.cpu_count()):
        loaded_times = seconds_of(market, loaded, data, due)
    misses = []
    for command in COMMANDS:
        median, longest = statistics.median(at_rest[command]), max(loaded_times[command])
        times, missed = beside(longest / median, GOAL)
        misses.append(missed)
        print(f"{name_of(path):<6} {command:<4} at rest {median:7.3f} s, beside the loops "
              f"{statistics.median(loaded_times[command]):7.3f} s, the longest {longest:7.3f} s, times at rest {times}", flush=True)
    return any(misses)


def main(rested, loaded, market, plain, folder, *names):
    print(f"{os.cpu_count()} processors, {load()}, {rested} runs at rest and {loaded} beside the loops, of each command on each file; "
          "medians", flush=True)
    statuses = []
    for name in names or FILES:
        path = os.path.join(folder, "compared", name + ".json")
        try:
            statuses.append(2 if measured(int(rested), int(loaded), market, plain, path) else 0)
        except Failed as failure:
            print(f"{name}: {failure}", flush=True)
            statuses.append(1)
    return 1 if 1 in statuses else max(statuses)


if __name__ == "__main__":
    sys.exit(main(*sys.argv[1:]))
