"""The cases of the program: of checks/cases, of examples, and those made here, whose input is large or that have no file at all.

A case is a list of arguments, a standard input, the text due and the status due. checks/README.md says how the files of
checks/cases and examples make one.
"""

import tempfile
from dataclasses import dataclass

from checks import CASES, TOP
from checks.facts import DONE, MOST_TARGETS, READ_FAULT, REFUSED, TOO_LONG, WRITE_FAULT
from checks.facts import FILE_LIMIT as LIMIT
from checks.facts import INPUT_ASK as ASK_LIMIT
from checks.facts import INPUT_CHECK as CHECK_LIMIT
from checks.make import members, streams
from checks.make.limits import CHANGES, EVENTS, NODES, PHASES
from checks.oracle.accounts import bill_of
from checks.oracle.targets import answers_of, envelope

EXAMPLES = TOP / "examples"
# The text of each command on the example NAME.json stands beside it, under NAME with this ending.
TEXTS = {"run": ".txt", "free": ".txt"}
# Targets that each file is asked for, in watts.
TARGETS = [0, 1, -1, 100, -60, 2500, -2500, 1_000_000_000, -1_000_000_000]


@dataclass
class Case:
    name: str
    arguments: list
    # Bytes, a file's path, a folder's path (each read of it fails, so the status tells whether one was tried), or
    # None: closed.
    stdin: object
    # The text due, a function that tells whether a text is right, or None if standard output takes nothing.
    stdout: object
    status: int
    # "pipe", "full" or "closed".
    sink: str = "pipe"


def stored_cases():
    """The cases of checks/cases, one a name in a folder."""
    for folder in sorted(path for path in CASES.iterdir() if path.is_dir()):
        for name in sorted({path.stem for path in folder.iterdir() if path.suffix}):
            yield stored_case(folder, name)


def stored_case(folder, name):
    def text_of(what, default):
        """The text of the case's own file, else that of the folder's."""
        for path in (folder / f"{name}.{what}", folder / what):
            if path.is_file():
                return path.read_bytes()
        return default

    inputs = (folder / f"{name}.{ending}" for ending in ("json", "stdin"))
    stdin = next((path for path in inputs if path.is_file()), folder)
    arguments = text_of("args", b"run\n").decode().splitlines()
    return Case(f"{folder.name}/{name}", arguments, stdin, text_of("stdout", b""), int(text_of("status", b"0")))


def examples():
    """Each example with each command: each has to have its text."""
    for file in sorted([*EXAMPLES.glob("*.json"), *EXAMPLES.glob("cookbook/*.json")]):
        for command, ending in TEXTS.items():
            text = file.with_suffix(ending).read_bytes()
            yield Case(f"{command} of {file.relative_to(TOP)}", [command], file, text, DONE)


def file_of(name):
    """The file of a case, and the text due."""
    return ((CASES / "run" / f"{name}.{ending}").read_text() for ending in ("json", "stdout"))


def changed(file, old, new):
    assert old in file, old
    return file.replace(old, new, 1)


def run_of(name, file, text, status=DONE):
    return Case(name, ["run"], file.encode(), text.encode(), status)


def refused(name, file, line):
    return run_of(name, file, f"refused {line}\n", REFUSED)


def cut_files():
    """A file cut to each shorter length, and with a first byte that begins no character: it has no reading at all."""
    file = next(file_of("two_bids")).strip()
    for length in range(len(file)):
        yield refused(f"two_bids cut to {length} bytes", file[:length], "1 document")
    wrong = b"\xff" + file.encode()[1:]
    yield Case("two_bids with a first byte 255", ["run"], wrong, b"refused 1 document\n", REFUSED)


def large_files():
    """Both sides of the limits on nodes, events, changes, phases and bytes."""
    file, text = file_of("lone_load")
    load = '{"name":"load1","kind":"load","parent":"auctioneer","start":100}'
    loads = [load.replace("load1", f"load{number}") for number in range(1, NODES + 2)]
    yield run_of(f"{NODES} nodes", changed(file, load, ",".join(loads[:NODES])), text)
    yield refused(f"{NODES + 1} nodes", changed(file, load, ",".join(loads)), "11 document")

    join = '{"join":"load1"}'
    turn = f'{join},{{"leave":"load1"}}'
    nobody = "phase {} price 0 step 0 total 0 members 0\n"
    events = ",".join([turn] * (EVENTS // 2))
    yield run_of(f"{EVENTS:,} events", changed(file, join, events), f"{nobody.format(1)}end phases 1 changes {EVENTS}\n")
    yield refused(f"{EVENTS + 1:,} events", changed(file, join, f"{events},{join}"), "20 phase 1")

    phase = f'{{"events":[{join}]}}'
    five = ",".join(['{"events":[' + ",".join([turn] * (CHANGES // 10)) + "]}"] * 5)
    ends = "".join(nobody.format(number) for number in range(1, 6))
    yield run_of(f"{CHANGES:,} changes", changed(file, phase, five), f"{ends}end phases 5 changes {CHANGES}\n")
    yield refused(f"{CHANGES + 1:,} changes", changed(file, phase, f"{five},{phase}"), "20 phase 6")

    empty = '{"events":[]}'
    ends = "".join(nobody.format(number) for number in range(1, PHASES + 1))
    most = changed(file, phase, ",".join([empty] * PHASES))
    yield run_of(f"{PHASES:,} phases", most, f"{ends}end phases {PHASES} changes 0\n")
    many = changed(file, phase, ",".join([empty] * (PHASES + 1)))
    yield refused(f"{PHASES + 1:,} phases", many, "20 document")
    before = changed(many, '"start":100', '"start":-1')
    yield refused(f"{PHASES + 1:,} phases before a start that does not fit", before, "20 document")

    file, text = file_of("two_bids")
    yield run_of(f"{LIMIT:,} bytes", file.ljust(LIMIT), text)
    yield run_of(f"{LIMIT + 1:,} bytes", file.ljust(LIMIT + 1), f"too long, more than {LIMIT} bytes\n", TOO_LONG)


def edited_members():
    """Files that differ from a right one in one member."""
    for name, file, text in members.files():
        yield Case(f"members/{name}", ["run"], file, text.encode(), REFUSED if text.startswith("refused") else DONE)


def first_phases():
    """The village over its first two phases alone."""
    file, text = ((EXAMPLES / name).read_text() for name in ("village.json", "village.txt"))
    yield run_of(
        "the village's first two phases",
        file[: file.index(',\n{"events":[{"state":')] + "]}",
        text[: text.index("phase 3 ")] + "end phases 2 changes 11\n",
    )


def with_reports():
    """The examples and the files of checks/cases/run, each with its report."""
    for folder, ending in ((EXAMPLES, ".txt"), (CASES / "run", ".stdout")):
        for file in sorted(folder.glob("*.json")):
            yield file.name, file.read_text(), file.with_suffix(ending).read_text()


def bills_and_answers():
    """Of each file that has a report, the bill that follows from it, and what its bids answer to targets."""
    text = "".join(f"{target}\n" for target in TARGETS)
    for name, file, report in with_reports():
        yield Case(f"bill of {name}", ["bill"], file.encode(), bill_of(file, report).encode(), DONE)
        yield Case(f"ask of {name}", ["ask"], envelope(file, text), answers_of(file, TARGETS).encode(), DONE)


def asked():
    """Envelopes and lists of targets, and what is wrong with them."""
    file = next(file_of("two_bids"))
    curve = "curve step 0 price 0 from 100 to high\ncurve step 4 price 4 from -50 to 99\ncurve step 9 price 9 from low to -51\n"

    def ask(name, stdin, text, status):
        return Case(f"ask, {name}", ["ask"], stdin, text.encode(), status)

    answers = "target 0 price 4 step 4 total -50\ntarget 100 price 0 step 0 total 0\ntarget -60 price 9 step 9 total 10\n"
    yield ask("three targets", envelope(file, "0\n100\n-60\n"), curve + answers, DONE)
    yield ask("no target", envelope(file, ""), curve, DONE)
    lines = {"5\n05\n": 2, "-0\n": 1, "5": 1, "5\n\n": 2, "+5\n": 1, "5 \n": 1, "1000000001\n": 1, "0\n-1000000001\n": 2, "1\r\n": 1}
    for rest, line in lines.items():
        yield ask(f"targets {rest!r}", envelope(file, rest), f"refused 25 line {line}\n", REFUSED)
    many = "7\n" * MOST_TARGETS
    yield ask(f"{MOST_TARGETS:,} targets", envelope(file, many), curve + "target 7 price 4 step 4 total -57\n" * MOST_TARGETS, DONE)
    yield ask(f"{MOST_TARGETS + 1:,} targets", envelope(file, many + "7\n"), f"refused 25 line {MOST_TARGETS + 1}\n", REFUSED)

    size, body = len(file.encode()), file.encode()
    headers = [b"", b"%d" % size, b"0%d\n" % size, b"+%d\n" % size, b"%d\n" % (size + 1), b"%d\r\n" % size, b"%d\n" % (LIMIT + 1), b"\n"]
    for header in headers:
        yield ask(f"a first line {header!r}", header + body, "refused 23 document\n", REFUSED)
    yield ask("an empty file", b"0\n", "refused 1 document\n", REFUSED)
    yield ask("a file that is refused", envelope('{"version":1}', "05\n"), "refused 3 document\n", REFUSED)
    padded = file.ljust(LIMIT)
    yield ask("a file of 4,194,304 bytes", envelope(padded, "0\n"), curve + answers.splitlines(True)[0], DONE)
    longest = envelope(file, "").ljust(ASK_LIMIT, b"0")
    yield ask(f"{ASK_LIMIT:,} bytes", longest, "refused 25 line 1\n", REFUSED)
    yield ask(f"{ASK_LIMIT + 1:,} bytes", longest + b"0", f"too long, more than {ASK_LIMIT} bytes\n", TOO_LONG)


def longest_trace():
    """An envelope that is too long for `check`: a first line, and zeros that take no room on the disk."""
    with tempfile.NamedTemporaryFile() as file:
        file.write(b"0\n")
        file.truncate(CHECK_LIMIT + 1)
        file.flush()
        line = f"too long, more than {CHECK_LIMIT} bytes\n".encode()
        yield Case("check, 536,870,913 bytes", ["check"], file.name, line, TOO_LONG)


def served():
    """Streams of bids with the answers that are due."""
    for name, stream, status, answers in streams.rows():
        yield Case(f"serve, {name}", ["serve"], stream, answers, status)


def faults():
    """Standard input that cannot be read, and standard output that takes nothing."""
    file = next(file_of("two_bids")).encode()
    for command in ("run", "check", "serve"):
        yield Case(f"{command}, a closed standard input", [command], None, b"", READ_FAULT)
        yield Case(f"{command}, a folder as standard input", [command], CASES, b"", READ_FAULT)
    rows = [
        ("run", ["run"], file),
        ("a refusal", ["run"], file[:-2]),
        ("a file too long", ["run"], file.ljust(LIMIT + 1)),
        ("usage", ["run", "now"], CASES),
        ("demo", ["demo", "1", "7"], CASES),
        ("a valid trace", ["check"], CASES / "check" / "only_trace.stdin"),
        ("a trace with a bad line", ["check"], CASES / "check" / "bid_2.stdin"),
        ("a stream of bids", ["serve"], streams.small_stream()),
        ("a stream with a bad frame", ["serve"], streams.hello() + streams.hello()),
    ]
    for sink in ("full", "closed"):
        for name, arguments, stdin in rows:
            yield Case(f"{name}, standard output {sink}", arguments, stdin, None, WRITE_FAULT, sink)


def cases():
    yield from stored_cases()
    yield from examples()
    yield from edited_members()
    yield from first_phases()
    yield from cut_files()
    yield from large_files()
    yield from bills_and_answers()
    yield from asked()
    yield from longest_trace()
    yield from served()
    yield from faults()
