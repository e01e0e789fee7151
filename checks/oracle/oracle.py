"""What each command has to answer to any input, worked out from the rules of docs/ and from nothing of the program."""

import re

from checks.facts import DEMAND_LIMIT as MOST_WATTS
from checks.facts import DONE, FILE_LIMIT, REFUSED, TOO_LONG
from checks.facts import INPUT_ASK as ASK_LIMIT
from checks.facts import MOST_TARGETS as TARGETS
from checks.oracle.auction import ends_of, lines_of
from checks.oracle import judge, stream
from checks.oracle.accounts import bill_of
from checks.oracle.scene import Refused, scene_of
from checks.oracle.targets import answers_of

TARGET = re.compile(rb"0|-?[1-9][0-9]{0,9}")


def report_of(scene):
    return "".join(f"{line}\n" for line in lines_of(scene, ends_of(scene)))


def too_long(limit):
    return TOO_LONG, f"too long, more than {limit} bytes\n".encode()


def refused(line):
    return REFUSED, f"{line}\n".encode()


def due_of_run(text):
    if len(text) > FILE_LIMIT:
        return too_long(FILE_LIMIT)
    return DONE, report_of(scene_of(text)).encode()


def due_of_bill(text):
    if len(text) > FILE_LIMIT:
        return too_long(FILE_LIMIT)
    report = report_of(scene_of(text))
    return DONE, bill_of(text.decode(), report).encode()


def targets_of(text):
    """The targets of a list, or the number of the first line that is no target."""
    *lines, rest = text.split(b"\n")
    for number, line in enumerate(lines, 1):
        if number > TARGETS or not TARGET.fullmatch(line) or abs(int(line)) > MOST_WATTS:
            return None, number
    return ([int(line) for line in lines], None) if not rest else (None, len(lines) + 1)


def due_of_ask(text):
    if len(text) > ASK_LIMIT:
        return too_long(ASK_LIMIT)
    parts = judge.opened(text)
    if parts is None:
        return refused("refused 23 document")
    scene_of(parts[0])
    targets, bad = targets_of(parts[1])
    if bad is not None:
        return refused(f"refused 25 line {bad}")
    return DONE, answers_of(parts[0].decode(), targets).encode()


def due_of_check(text):
    status, line = judge.answer(text)
    return status, line.encode()


DUE = {"run": due_of_run, "free": due_of_run, "bill": due_of_bill, "ask": due_of_ask, "check": due_of_check, "serve": stream.answers_to}


def due_of(command, text):
    """The exit status and the text due; of `trace` those of `run`, which its text begins with."""
    try:
        return DUE["run" if command == "trace" else command](text)
    except Refused as line:
        return refused(line)


def why_wrong(command, text, ended, due=None):
    """What is wrong with how a command ended on an input, or None."""
    status, written = ended
    due = due or due_of(command, text)
    if status != due[0]:
        return f"status {status}, and not {due[0]}; it wrote {written[:100]!r}"
    if command == "trace" and status == DONE:
        found = judge.verdict(judge.plan_of(text), written)[1]
        return None if found.startswith("valid ") else f"the judge says of the trace: {found.strip()}"
    if written == due[1]:
        return None
    at = next((number for number, (a, b) in enumerate(zip(written, due[1])) if a != b), min(len(written), len(due[1])))
    return f"line {due[1][:at].count(10) + 1} differs: it wrote {written[max(0, at - 40) : at + 40]!r}"


def envelope(file, rest):
    """An input that begins with a cluster file."""
    return b"%d\n" % len(file) + file + rest
