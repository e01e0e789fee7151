#!/usr/bin/env python3
"""Measures ways to run a cluster side by side on the files of `make_files.py`, and prints times, memory, ratios and counts.

    compare.py RUNS MARKET MEASURE PLAIN PLAIN_THREADS PLAIN_SERVE COUNTER FOLDER

MARKET and MEASURE are the programs, PLAIN, PLAIN_THREADS and PLAIN_SERVE are the plain programs of `bench/plain`,
`bench/plain_threads` and `bench/plain_serve`, and COUNTER is the library of `bench/count.c`; each of these four may be `-`, and
then what needs it is left out. FOLDER has the files, the stream of bids and the long trace of `make_trace.py`.

Each way runs RUNS times on a file, in turn with the others, and the least time of the whole process counts. The time of the
processors is told beside it, which other work on the machine disturbs less. A run before these gives the memory and the
text, and one after them the counts. On the largest files only the times of `market run` and of the plain program are taken,
and of the demo cluster also that of `market ask` with many targets; further that of `market check` on a trace of one of the
largest files and, beside the plain judge, on the long trace, of `market serve` beside its plain program on the stream, and of
messages over one link without a lock and with locks.
The status is 1 if a text differs or a run fails or hangs, else 2 if a goal is missed, else 0.
"""

import glob
import os
import signal
import statistics
import subprocess
import sys
import tempfile
import textwrap
import threading
import time
from dataclasses import dataclass

LONGEST_SECONDS = 60

# The files that are compared, in their order.
COMPARED = ["demo", "wide", "deep", "bursts", "chain", "calm"]

# The ways, by their names; `plain read` and `measure read` stop once the plan is made.
MARKET = "market run"
FREE = "market free"
PLAIN = "plain"
PLAIN_READING = "plain read"
PLAIN_THREADS = "plain threads"
WALK = "measure walk"
DRIVE = "measure drive"
READING = "measure read"

# How often longer than the plain program `market run` may take, by the file.
MARKET_GOALS = {"demo": 12, "wide": 5.5, "deep": 2, "bursts": 2, "calm": 2}
# How often longer than the plain program with a thread a node `market run` may take, in time and in time of processors.
THREADS_GOAL = 1.0
# How often longer than `market run` `market free` may take, by the file.
FREE_GOALS = {"demo": 3, "wide": 3, "deep": 10, "chain": 3, "calm": 3}
# How many targets are asked of the total of a file, how often longer than `market run` that may take, and by how much.
ASKED, TARGETS = "demo", 100_000
ASK_GOAL, ASK_SECONDS = 2, 0.050
# The file of which a trace is judged.
JUDGED = "1000_phases"
# How often longer than the plain judge `market check` may take on the long trace, in so many runs of each in turn, and how many
# megabytes more than the input has.
LONG_TRACE, LONG_RUNS = "star.check", 3
JUDGE_GOAL, JUDGE_MEGABYTES = 3, 200
# How many bids two threads pass over one link, each with a price that answers it: as many as a link is measured with.
LINK, LINK_BIDS = "one link", 120_000
LINK_KINDS = ["cells", "mutex"]
# How often more memory than the walk `market run` and the driven cluster may take.
MEMORY_GOAL = 3
# How often longer than the walk the driven cluster may take, the reading taken off both.
DRIVE_GOALS = {"demo": 2, "wide": 2, "deep": 2, "bursts": 2, "calm": 2}


class Failed(Exception):
    """A run failed or hangs, or a text differs."""


@dataclass
class Run:
    """What a run took."""

    seconds: float
    processor_seconds: float
    # How often a thread gave its processor up, and how often it was taken from one.
    left: int
    forced: int


def run(command, path, text, variables=None):
    """Runs a command on a file; `text` takes its output."""
    settings = {"start_new_session": True, "env": os.environ | (variables or {})}
    with open(path, "rb") as source:
        begin = time.perf_counter()
        child = subprocess.Popen(command, stdin=source, stdout=text, **settings)
        late = threading.Event()
        watchdog = threading.Timer(LONGEST_SECONDS, lambda: (late.set(), os.killpg(child.pid, signal.SIGKILL)))
        watchdog.start()
        _, status, usage = os.wait4(child.pid, 0)
        seconds = time.perf_counter() - begin
        watchdog.cancel()
        child.returncode = os.waitstatus_to_exitcode(status)
    words = " ".join(os.path.basename(word) for word in command)
    if late.is_set():
        raise Failed(f"{words} hangs: it does not end within {LONGEST_SECONDS} seconds")
    if child.returncode != 0:
        raise Failed(f"{words} ends with status {child.returncode}")
    return Run(seconds, usage.ru_utime + usage.ru_stime, usage.ru_nvcsw, usage.ru_nivcsw)


def text_of(command, path, variables=None):
    """The text that a command writes."""
    with tempfile.TemporaryFile() as text:
        run(command, path, text, variables)
        text.seek(0)
        return text.read()


def peak(command, path):
    """The peak memory of a run in megabytes, and its text."""
    with tempfile.NamedTemporaryFile("r") as told:
        text = text_of(["/usr/bin/time", "-f", "%M", "-o", told.name, *command], path)
        return int(told.read()) / 1024, text


def compare_texts(texts):
    """Fails if a text is not the one due: the report is the same, and the other ways tell the lines of its phases."""
    for way in (PLAIN, PLAIN_THREADS, FREE):
        if way in texts and texts[way] != texts[MARKET]:
            raise Failed(f"the texts of {MARKET} and {way} differ")
    phases = b"".join(line for line in texts[MARKET].splitlines(True) if line.startswith(b"phase "))
    for way in (WALK, DRIVE):
        if way in texts and texts[way] != phases:
            raise Failed(f"the texts of {MARKET} and {way} differ")


def runs_of(ways, runs, path):
    """The runs of each way, all ways in turn."""
    taken = {way: [] for way in ways}
    with open(os.devnull, "wb") as nowhere:
        for _ in range(runs):
            for way, command in ways.items():
                taken[way].append(run(command, path, nowhere))
    return taken


def quotient(over, under):
    """A ratio of seconds or of megabytes; None if less than a millisecond, or its like, would divide."""
    return over / under if under >= 0.001 else None


def beside(ratio, goal):
    """A ratio beside its goal, and whether the goal is missed; there may be no goal, and no ratio, which misses none."""
    if ratio is None:
        return "no ratio, since the divisor is too small", False
    if goal is None:
        return f"{ratio:.2f}", False
    missed = ratio > goal
    return f"{ratio:.2f} (goal {goal}{', MISSED' if missed else ''})", missed


def without_reading(seconds, plain):
    """The ratio of `market run` to a plain program, by seconds by the ways, with the reading of the file taken off each."""
    return quotient(seconds[MARKET] - seconds[READING], seconds[plain] - seconds[PLAIN_READING])


def ratio_lines(name, least, processors, peaks):
    """The lines of the ratios, and whether a goal is missed."""
    lines = []
    misses = []

    def told(ratio, goal=None):
        text, missed = beside(ratio, goal)
        misses.append(missed)
        return text

    if PLAIN in least:
        whole = told(quotient(least[MARKET], least[PLAIN]), MARKET_GOALS.get(name))
        computing = told(quotient(processors[MARKET], processors[PLAIN]))
        lines.append(f"{MARKET} / {PLAIN}: time {whole}, without the reading {told(without_reading(least, PLAIN))}, "
                     f"time of processors {computing}")
    if PLAIN_THREADS in least:
        time_taken, computing = (told(quotient(seconds[MARKET], seconds[PLAIN_THREADS]), THREADS_GOAL) for seconds in (least, processors))
        line = f"{MARKET} / {PLAIN_THREADS}: time {time_taken}, time of processors {computing}"
        if PLAIN_READING in least:
            line += f"; without the reading {told(without_reading(least, PLAIN_THREADS))}"
            line += f", time of processors {told(without_reading(processors, PLAIN_THREADS))}"
        lines.append(line)
    free = told(quotient(least[FREE], least[MARKET]), FREE_GOALS.get(name))
    lines.append(f"{FREE} / {MARKET}: time {free}, time of processors {told(quotient(processors[FREE], processors[MARKET]))}, "
                 f"memory {told(quotient(peaks[FREE], peaks[MARKET]))}")
    lines.append(f"{MARKET} / {WALK}: memory {told(quotient(peaks[MARKET], peaks[WALK]), MEMORY_GOAL)}")
    drive, walk = ((least[way] - least[READING]) for way in (DRIVE, WALK))
    computing = quotient(*(processors[way] - processors[READING] for way in (DRIVE, WALK)))
    lines.append(f"{DRIVE} / {WALK}: time without the reading {told(quotient(drive, walk), DRIVE_GOALS.get(name))}, "
                 f"time of processors {told(computing)}, memory {told(quotient(peaks[DRIVE], peaks[WALK]), MEMORY_GOAL)}")
    return lines, any(misses)


def moves_of(trace):
    """How many moves a run made, which the last line of its trace tells."""
    last = trace.rstrip(b"\n").rpartition(b"\n")[2].split()
    if len(last) != 2 or last[0] != b"moves":
        raise Failed("the trace does not end with a line of the number of its moves")
    return int(last[1])


def counted(command, counter, path, due):
    """What the counter counts in a run, which must write the text due."""
    with tempfile.NamedTemporaryFile("r") as told:
        if text_of(command, path, {"LD_PRELOAD": counter, "COUNTS": told.name}) != due:
            raise Failed("the text of a counted run differs from that of run")
        lines = [line.rsplit(" ", 1) for line in told.read().splitlines()]
    if not lines:
        raise Failed("bench/count.c told no counts")
    return ", ".join(f"{what} {int(number):,}" for what, number in lines)


def switches_of(taken):
    """How often the threads of a way were switched, in the median of its runs."""
    left = statistics.median_low(run.left for run in taken)
    forced = statistics.median_low(run.forced for run in taken)
    return f"{left:,} given up and {forced:,} forced"


def count_lines(command, counter, taken, path, due):
    """The lines of the counts of `market run`, and of the switches of the plain program with threads beside its own."""
    moves = moves_of(text_of([command[0], "trace"], path))
    lines = [f"moves {moves:,}, switches of threads {switches_of(taken[MARKET])} (medians)"]
    if PLAIN_THREADS in taken:
        lines.append(f"{PLAIN_THREADS}: switches of threads {switches_of(taken[PLAIN_THREADS])} (medians)")
    if counter:
        text = "counted in one more run: " + counted(command, counter, path, due)
        lines += textwrap.wrap(text, 110, subsequent_indent="    ", break_on_hyphens=False)
    return lines


def name_of(path):
    return os.path.basename(path).removesuffix(".json")


def measured(ways, runs, counter, path):
    """The lines of a file, and whether a goal is missed."""
    peaks, texts = {}, {}
    for way, command in ways.items():
        peaks[way], texts[way] = peak(command, path)
    compare_texts(texts)
    taken = runs_of(ways, runs, path)
    least = {way: min(run.seconds for run in taken[way]) for way in ways}
    processors = {way: min(run.processor_seconds for run in taken[way]) for way in ways}
    lines = [f"{name_of(path)}:"]
    for way in ways:
        lines.append(f"    {way:<13} {1000 * least[way]:8.1f} ms, {1000 * processors[way]:8.1f} ms of processors, "
                     f"{peaks[way]:5.1f} MB")
    told, missed = ratio_lines(name_of(path), least, processors, peaks)
    told += count_lines(ways[MARKET], counter, taken, path, texts[MARKET])
    return lines + [f"    {line}" for line in told], missed


def measured_largest(ways, runs, path):
    """The line of one of the largest files; no goal is set for it."""
    ways = {way: ways[way] for way in (MARKET, PLAIN) if way in ways}
    texts = {way: text_of(command, path) for way, command in ways.items()}
    compare_texts(texts)
    taken = runs_of(ways, runs, path)
    times = ", ".join(f"{way} {min(run.seconds for run in taken[way]):.3f} s" for way in ways)
    line = f"{name_of(path)}: {times}, {os.path.getsize(path):,} bytes read, {len(texts[MARKET]):,} bytes written"
    return [line], False


def envelope_of(path, folder):
    """A file with an envelope of the cluster file and of targets on both sides of nothing."""
    asked = os.path.join(folder, f"{name_of(path)}.ask")
    with open(path, "rb") as source, open(asked, "wb") as envelope:
        file = source.read()
        envelope.write(b"%d\n" % len(file) + file)
        envelope.writelines(b"%d\n" % (number * 7 - 3 * TARGETS) for number in range(TARGETS))
    return asked


def measured_targets(market, runs, folder, path):
    """The line of many targets, and whether their goal is missed."""
    asked = envelope_of(path, folder)
    answers = sum(line.startswith(b"target ") for line in text_of([market, "ask"], asked).splitlines())
    if answers != TARGETS:
        raise Failed(f"{answers} targets of {TARGETS} have an answer")
    times = {"run": [], "ask": []}
    with open(os.devnull, "wb") as nowhere:
        for _ in range(runs):
            for command, file in (("run", path), ("ask", asked)):
                times[command].append(run([market, command], file, nowhere).seconds)
    least = {command: min(taken) for command, taken in times.items()}
    goal = ASK_GOAL * least["run"] + ASK_SECONDS
    missed = least["ask"] > goal
    line = f"{name_of(path)}: {TARGETS:,} targets in {1000 * least['ask']:.1f} ms, {MARKET} in {1000 * least['run']:.1f} ms "
    return [line + f"(goal {1000 * goal:.1f} ms{', MISSED' if missed else ''})"], missed


def least_seconds(command, path, runs):
    """The least time of some runs."""
    with open(os.devnull, "wb") as nowhere:
        return min(run(command, path, nowhere).seconds for _ in range(runs))


def measured_trace(market, runs, folder, path):
    """The line of a trace that is judged; no goal is set for it."""
    trace = text_of([market, "trace"], path)
    moves, judged = moves_of(trace), os.path.join(folder, f"{name_of(path)}.check")
    with open(path, "rb") as source, open(judged, "wb") as envelope:
        file = source.read()
        envelope.write(b"%d\n" % len(file) + file + trace)
    if text_of([market, "check"], judged) != b"valid moves %d\n" % moves:
        raise Failed("market check does not find its trace valid")
    seconds = least_seconds([market, "check"], judged, runs)
    line = f"{name_of(path)}: a trace of {moves:,} moves and {len(trace):,} bytes judged in {seconds:.3f} s, "
    return [line + f"{moves / seconds:,.0f} moves a second"], False


def measured_judge(market, measure, path):
    """The lines of the long trace, judged with and without all that `market check` does beside the moves, and whether a goal is
    missed."""
    check, judge = "market check", "measure judge"
    ways = {check: [market, "check"], judge: [measure, "judge"]}
    megabytes, verdict = peak(ways[check], path)
    counted_moves = text_of(ways[judge], path)
    if verdict != b"valid " + counted_moves:
        raise Failed("market check and measure judge do not count the same moves")
    moves, size = moves_of(counted_moves), os.path.getsize(path)
    taken = runs_of(ways, LONG_RUNS, path)
    least = {way: min(run.seconds for run in taken[way]) for way in ways}
    ratio, is_slow = beside(quotient(least[check], least[judge]), JUDGE_GOAL)
    memory, is_large = beside(megabytes - size / 1024 ** 2, JUDGE_MEGABYTES)
    return [f"{name_of(path)}: {moves:,} moves in {size:,} bytes, {check} {least[check]:.3f} s, {judge} {least[judge]:.3f} s, "
            f"{moves / least[check]:,.0f} and {moves / least[judge]:,.0f} moves a second",
            f"    {check} / {judge}: time {ratio}; peak of memory of {check} beyond the input in MB {memory}"], is_slow or is_large


def measured_links(measure, runs, name):
    """The line of messages over one link, of which each was taken; no goal is set for it. The program reads nothing."""
    told = []
    for kind in LINK_KINDS:
        command = [measure, "link", kind, str(LINK_BIDS)]
        if text_of(command, os.devnull) != b"messages %d\n" % (2 * LINK_BIDS):
            raise Failed(f"not each message over a link of {kind} was taken")
        seconds = least_seconds(command, os.devnull, runs)
        told.append(f"{kind} {seconds:.3f} s, {2 * LINK_BIDS / seconds:,.0f} messages a second")
    return [f"{name}: {2 * LINK_BIDS:,} messages, " + "; ".join(told)], False


def measured_stream(market, plain, runs, path):
    """The line of the stream of bids; no goal is set for it."""
    ways = {"market serve": [market, "serve"]} | ({"plain serve": [plain]} if plain else {})
    texts = {way: text_of(command, path) for way, command in ways.items()}
    if len(set(texts.values())) > 1:
        raise Failed("the answers of market serve and of the plain program differ")
    times = ", ".join(f"{way} {least_seconds(command, path, runs):.3f} s" for way, command in ways.items())
    return [f"{name_of(path)}: {times}, {os.path.getsize(path):,} bytes read, {len(texts['market serve']):,} bytes written"], False


def ways_of(market, measure, plain, plain_threads):
    """The commands of the ways."""
    ways = {MARKET: [market, "run"], FREE: [market, "free"]}
    if plain:
        ways |= {PLAIN: [plain], PLAIN_READING: [plain, "read"]}
    if plain_threads:
        ways[PLAIN_THREADS] = [plain_threads]
    return ways | {way: [measure, way.split()[1]] for way in (WALK, DRIVE, READING)}


def load():
    return f"load {os.getloadavg()[0]:.1f}"


def tried(measure, *arguments):
    """Prints the lines of a file, and gives the status."""
    try:
        lines, missed = measure(*arguments)
    except Failed as failure:
        print(f"{name_of(arguments[-1])}: {failure}", flush=True)
        return 1
    print("\n".join(lines), flush=True)
    return 2 if missed else 0


def main(runs, market, measure, plain, plain_threads, plain_serve, counter, folder):
    optional = (plain, plain_threads, plain_serve, counter)
    plain, plain_threads, plain_serve, counter = (None if word == "-" else word for word in optional)
    ways = ways_of(market, measure, plain, plain_threads)
    print(f"{os.cpu_count()} processors, {load()}, least of {runs} runs", flush=True)
    largest = sorted(glob.glob(os.path.join(folder, "largest", "*.json")))
    statuses = [tried(measured_largest, ways, int(runs), path) for path in largest]
    paths = [os.path.join(folder, "compared", name + ".json") for name in COMPARED]
    statuses += [tried(measured, ways, int(runs), counter, path) for path in paths]
    asked = os.path.join(folder, "compared", ASKED + ".json")
    statuses.append(tried(measured_targets, market, int(runs), folder, asked))
    judged = os.path.join(folder, "largest", JUDGED + ".json")
    statuses.append(tried(measured_trace, market, int(runs), folder, judged))
    statuses.append(tried(measured_judge, market, measure, os.path.join(folder, LONG_TRACE)))
    statuses.append(tried(measured_links, measure, int(runs), LINK))
    statuses.append(tried(measured_stream, market, plain_serve, int(runs), os.path.join(folder, "stream")))
    print(load())
    return 1 if 1 in statuses else max(statuses)


if __name__ == "__main__":
    sys.exit(main(*sys.argv[1:]))
