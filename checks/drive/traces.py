"""Compares `market check` of the built program with checks/oracle/judge.py on traces, right and wrong.

For each example and each small file of checks/cases/run there are the trace that `market trace` makes and some that are made
here, whose moves come in any order that is legal; and of each of them a variant for each line dropped, doubled, exchanged with
the next, or behind which the trace ends, for each number changed, and for bytes added or taken off. What each has to come to is
reasoned if that can be told from the change alone, and compared with the judge; then the program is compared with the judge.
If there are more variants than MOST, so many of them are tried, evenly; with `all` after the program each of them.
"""

import random
import re
import sys

from checks import CASES, TOP
from checks.drive.built import ended, sampled
from checks.make import journals
from checks.oracle import judge

SEED = 12
# Variants that are tried of one trace, and the lines of the longest report of checks/cases/run of which traces are made.
MOST = 60
LINES = 60
# How likely a kind of move is beside the others, for each trace that is made: as the threads do it; changes first, and
# prices and clearings seldom, so that windows are full; prices and clearings at once.
HASTES = [
    {},
    {"change": 30, "publish": 10, "clear": 0.2, "pass": 0.2},
    {"change": 0.2, "clear": 10, "pass": 10},
]
DONE, REFUSED = 0, 5


class Tried:
    """Counts what passed and what failed, and tells of each failure."""

    def __init__(self):
        self.passed = self.failed = 0

    def note(self, name, why):
        if why is None:
            self.passed += 1
        else:
            self.failed += 1
            print(f"{name}: {why}")


def envelope(file, trace):
    return b"%d\n" % len(file) + file + trace


def text_of(lines):
    return b"".join(line + b"\n" for line in lines)


def next_moves(market):
    """Each legal move."""
    moves = [("change", device, count + 1) for device, count in market.counts.items() if market.may_change(device, count + 1)]
    moves += market.node_moves()
    return moves or [("close", market.closed + 1)]


def made_trace(plan, haste, chance):
    """The lines of a trace whose moves come in a legal order that chance picks, and a law that a state on the way broke, or None."""
    market, lines, broken = judge.Market(plan), list(plan.report), None
    while not market.is_complete():
        moves = next_moves(market)
        broken = broken or broken_law(market, moves)
        (move,) = chance.choices(moves, [haste.get(move[0], 1) for move in moves])
        market.make(move)
        lines.append(market.line_of(move))
    moves = len(lines) - len(plan.report)
    if moves > bound(plan):
        broken = f"it has {moves} moves, and the bound is {bound(plan)}"
    return [*lines, b"moves %d" % moves], broken


def is_at_most(cut, other):
    return all(number <= other[device] for device, number in cut.items())


def broken_law(market, moves):
    """What of the laws that are proved of each state after a legal journal does not hold, or None."""
    cleared = market.published[judge.ROOT]
    for name, cuts in market.published.items():
        if not all(is_at_most(a, b) and a != b for a, b in zip(cuts, cuts[1:])):
            return f"what {name} published does not rise"
        answered = market.number_in(name, cleared[market.last(name)]) if name != judge.ROOT else len(cuts)
        if len(cuts) - 1 - answered > 8:
            return f"more than 8 numbers of {name} are unanswered"
    for name, learnt in market.learnt.items():
        if learnt > market.newest(name) or market.passed[name] != sorted(set(market.passed[name])):
            return f"a number of {name} falls"
        if not is_at_most(market.part(name, learnt), market.counts):
            return f"more is known of {name} than it did"
    if not is_at_most(market.plan.ends[market.closed], market.counts):
        return "a change of a closed phase is missing"
    is_idle = not any(move[0] not in ("change", "close") for move in moves)
    members = [device for device, count in market.counts.items() if market.plan.devices[device].member[count]]
    if is_idle and (cleared[-1] != market.counts or any(market.last(member) != len(cleared) - 1 for member in members)):
        return "nothing is pending, and the last clearing is not current"
    return None


def bound(plan):
    """The moves that no run of a plan is longer than, as docs/DEFINITIONS.md has it."""
    changes = sum(len(device.states) - 1 for device in plan.devices.values())
    return changes * (len(plan.parent) + 15) + len(plan.ends) - 1


def changed_numbers(line):
    """The line with one of its numbers raised by 1, lowered by 1, or 0."""
    for found in re.finditer(rb"(?<= )-?[0-9]+(?= |$)", line):
        number = int(found.group())
        for other in {number + 1, number - 1, 0} - {number}:
            yield line[: found.start()] + b"%d" % other + line[found.end() :]


def variants(lines):
    """A name and the text of each variant of a trace."""
    for at, line in enumerate(lines):
        front, back = lines[:at], lines[at + 1 :]
        yield f"ends before line {at + 1}", text_of(front)
        yield f"without line {at + 1}", text_of(front + back)
        yield f"line {at + 1} twice", text_of([*front, line, line, *back])
        if back:
            yield f"lines {at + 1} and {at + 2} exchanged", text_of([*front, back[0], line, *back[1:]])
        for other in changed_numbers(line):
            yield f"line {at + 1} as {other.decode()!r}", text_of([*front, other, *back])


def byte_variants(lines):
    """Those in which bytes are added or taken off."""
    text = text_of(lines)
    yield "without its last byte", text[:-1]
    yield "with a line added", text + b"close 1\n"
    yield "with an empty line added", text + b"\n"
    yield "with a byte added", text + b" "
    yield "with its lines ended by two bytes", text.replace(b"\n", b"\r\n")
    yield "with a byte that begins no character", text[:-3] + b"\xff" + text[-3:]
    yield "with a number that has a zero in front", re.sub(rb"(?m)^close 1$", b"close 01", text)
    yield "with two blanks", re.sub(rb"(?m)^close 1$", b"close  1", text)
    yield "empty", b""


def lines_of(text):
    """The lines of a text, each with its end if it has one."""
    return re.findall(rb"[^\n]*\n|[^\n]+", text)


def names_another_number(line, right):
    """Whether a line says the same as the right one except for a number that is determined there: all except the number of a `learn` and
    the index of a `pass`, of which several may be legal."""
    without = [re.sub(rb"(?<= )-?[0-9]+(?= |$)", b"", line_text) for line_text in (line, right)]
    if without[0] != without[1] or line.startswith(b"learn "):
        return False
    return not line.startswith(b"pass ") or line.split()[:3] == right.split()[:3]


def reasoned(right, report, text):
    """What is known of a text beside a right trace: the least number that its bad line can have, and the greatest, or None if
    it may also be right."""
    right, other = lines_of(text_of(right)), lines_of(text)
    least = next(at for at in range(max(len(right), len(other))) if right[at : at + 1] != other[at : at + 1]) + 1
    # A report has one text, and so has the end; what ends early lacks the line that was due there.
    if least <= report or least >= len(right) or least > len(other):
        return least, least
    line = other[least - 1]
    # A line is of some move, and no move is legal twice.
    if not line.endswith(b"\n") or line == right[least - 2] or names_another_number(line, right[least - 1]):
        return least, least
    # The last line has the number of moves, so with a line more or less a trace is never right.
    return least, len(other) + 1 if len(other) != len(right) else None


def why_unreasonable(found, lines, report, text, moves):
    """What is wrong with the judge's line on a variant, or None."""
    least, most = reasoned(lines, report, text)
    if found == f"valid moves {moves}\n":
        return None if most is None else f"the judge finds it right, and it is wrong at line {least}"
    number = int(found.split()[-1])
    if not least <= number <= (most or len(lines) + 1):
        return f"the judge names line {number}, and the first that can be bad is {least}, the last {most}"
    return None


def compare(program, tried, name, file, plan, trace):
    """Compares the program with the judge on a trace."""
    status, line = judge.verdict(plan, trace)
    found = ended(program, ["check"], envelope(file, trace))
    due = (status, line.encode())
    tried.note(name, None if found == due else f"the program ends with {found}, the judge with {due}")


def try_trace(program, tried, name, file, plan, lines, most):
    """Tries a right trace and its variants."""
    moves = len(lines) - len(plan.report) - 1
    line = judge.verdict(plan, text_of(lines))[1]
    tried.note(name, None if line == f"valid moves {moves}\n" else f"the judge says {line!r} of a right trace")
    compare(program, tried, name, file, plan, text_of(lines))
    for what, text in [*byte_variants(lines), *sampled(variants(lines), most)]:
        if text == text_of(lines):
            continue
        found = judge.verdict(plan, text)[1]
        tried.note(f"{name}, {what}", why_unreasonable(found, lines, len(plan.report), text, moves))
        compare(program, tried, f"{name}, {what}", file, plan, text)


def small_files():
    """The examples, and the files of checks/cases/run whose report is short."""
    yield from sorted((TOP / "examples").glob("*.json"))
    for file in sorted((CASES / "run").glob("*.json")):
        if file.with_suffix(".stdout").read_bytes().count(b"\n") <= LINES:
            yield file


def try_file(program, tried, path, most):
    """Tries the program's trace of a file, and those that are made here."""
    file, plan = path.read_bytes(), judge.plan_of(path.read_bytes())
    status, text = ended(program, ["trace"], file)
    tried.note(f"trace of {path.name}", None if status == DONE else f"status {status}")
    try_trace(program, tried, path.name, file, plan, text.split(b"\n")[:-1], most)
    chance = random.Random(f"{SEED} {path.name}")
    for number, haste in enumerate(HASTES, 1):
        lines, broken = made_trace(plan, haste, chance)
        name = f"made trace {number} of {path.name}"
        tried.note(name, broken)
        try_trace(program, tried, name, file, plan, lines, most // 3)


def rows():
    """The envelopes of checks/cases/check, each with the line due, worked by hand."""
    for text in sorted((CASES / "check").glob("*.stdin")):
        yield text.stem, text.read_bytes(), text.with_suffix(".stdout").read_bytes()


def beginnings():
    """Beginnings of journals, with the line that is bad or missing."""
    for case in journals.worked():
        yield case.name, envelope(case.file, case.trace()), b"invalid line %d\n" % case.bad_line()


def headers():
    """First lines that are no number of bytes."""
    file, trace = ((CASES / "trace" / f"only_trace.{ending}").read_bytes() for ending in ("json", "stdout"))
    size = len(file)
    body = file + trace
    for header in [b"", b"%d" % size, b"0%d\n" % size, b"+%d\n" % size, b" %d\n" % size, b"%d\r\n" % size, b"%d \n" % size,
                   b"-1\n", b"\n", b"4194305\n", b"%d\n" % (len(body) + 1), b"18446744073709551616\n", b"9" * 5000 + b"\n"]:
        yield f"a first line {header[:24]!r}", header + body, b"refused 23 document\n"
    yield "no input", b"", b"refused 23 document\n"


def refused_files():
    """Files that are refused, each with the line due."""
    for folder in ("refusals", "shape", "order"):
        for file in sorted((CASES / folder).glob("*.json")):
            yield f"{folder}/{file.stem}", envelope(file.read_bytes(), b""), file.with_suffix(".stdout").read_bytes()


def try_lines(program, tried):
    """Tries the program on inputs of which the line due stands beside them."""
    inputs = [*rows(), *beginnings(), *headers(), *refused_files()]
    for name, text, line in inputs:
        found = judge.answer(text)[1].encode()
        tried.note(f"judge: {name}", None if found == line else f"the judge says {found}, and {line} is due")
    for name, text, line in inputs:
        status = {b"v": DONE, b"i": judge.INVALID, b"r": REFUSED}[line[:1]]
        found = ended(program, ["check"], text)
        tried.note(f"check: {name}", None if found == (status, line) else f"it ends with {found}, and {(status, line)} is due")


def try_longest(program, tried):
    """An input that is as long as it may be, and one that is too long."""
    file = (CASES / "trace" / "only_trace.json").read_bytes()
    text = envelope(file, b"").ljust(judge.INPUT_LIMIT)
    for name, given, due in [
        ("536,870,912 bytes", text, (judge.INVALID, b"invalid line 1\n")),
        ("536,870,913 bytes", text + b" ", (judge.TOO_LONG, b"too long, more than 536870912 bytes\n")),
    ]:
        found = ended(program, ["check"], given)
        tried.note(f"check: {name}", None if found == due else f"it ends with {found}")


def main(program, everything):
    tried = Tried()
    try_lines(program, tried)
    for path in small_files():
        try_file(program, tried, path, 10**9 if everything else MOST)
    if everything:
        try_longest(program, tried)
    print(f"{tried.passed} passed, {tried.failed} failed")
    return 1 if tried.failed else 0


if __name__ == "__main__":
    sys.exit(main(sys.argv[1], sys.argv[2:] == ["all"]))
