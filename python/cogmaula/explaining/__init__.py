"""Why the program refuses a file: the line and the column, the member, the rule in words, and what was likely meant.

The code and the place come from the program. This package only finds the place in the text, and words the rule of the page. So it
never says of a file that it is right or wrong.
"""

from __future__ import annotations

from collections.abc import Callable
from dataclasses import dataclass

from ..cluster import Source, bytes_of
from ..errors import Invalid, Refused, TooLong
from ..program import Program, found_program
from ..refusals import RULES
from . import inputs, script, shape, tree_refusals
from .findings import File, Finding, number, shortened
from .located import NoJson, read

EXPLAINERS: dict[int, Callable[[File], Finding]] = {
    2: shape.wrong_type,
    3: shape.missing,
    4: shape.unknown,
    5: shape.version,
    6: shape.basis,
    7: tree_refusals.name,
    8: tree_refusals.twice,
    9: tree_refusals.parent,
    10: tree_refusals.depth,
    11: tree_refusals.count,
    12: shape.kind,
    13: script.parameter,
    14: script.no_device,
    15: script.joined,
    16: script.not_joined,
    17: script.demand,
    18: script.points,
    19: script.state,
    20: script.too_many,
    22: tree_refusals.limited,
}


@dataclass(frozen=True)
class Explanation:
    """Why an input is refused.

    answer:  the program's line, such as `refused 4 node 2`
    code:    its code, or None if it is no refusal but a trace that is invalid, or an input that is too long
    line, column: where the fault is; both count from 1, columns in characters
    path:    the member, such as nodes[1].power, which counts from 0; empty for the whole document
    fault:   what is wrong
    rule:    the rule of the page, in words
    written: what is written there
    allowed: what may be written there
    likely:  what was likely meant, or None
    """

    answer: str
    code: int | None
    line: int
    column: int
    path: str
    fault: str
    rule: str
    written: str
    allowed: str
    likely: str | None

    def text(self, file: str) -> str:
        """The explanation in lines, the first of which begins FILE:LINE:COLUMN, as editors know it."""
        rows = [("member", self.path), ("rule", self.rule), ("written", self.written), ("allowed", self.allowed), ("likely", self.likely)]
        lines = [f"{file}:{self.line}:{self.column}: {self.answer}: {self.fault}"]
        return "\n".join([*lines, *(f"  {name + ':':9}{words}" for name, words in rows if words)]) + "\n"


def explain(source: Source, *, command: str = "run", program: Program | None = None) -> Explanation | None:
    """Why the program refuses an input, or None if it takes it.

    source:  a cluster file; for `ask` and `check` an envelope, and for `serve` a stream of frames
    command: the command that reads it: run, trace, bill, free, ask, check or serve

    Raises what `Program.answer` raises of other causes.
    """
    data = bytes_of(source)
    try:
        (program or found_program()).answer(command, data)
    except Refused as refused:
        return of_refusal(data, refused)
    except Invalid as invalid:
        answer, rule = f"invalid line {invalid.line}", "a trace is the report of its file and the moves of a legal run"
        return _explanation(answer, None, data, inputs.trace_line(data, invalid.line), rule)
    except TooLong as error:
        fault = f"the input has {number(len(data))} bytes, and the command takes at most {number(error.limit)}"
        allowed = "a shorter input: split the cluster, or its script by cogmaula chain"
        found = Finding(0, "", fault, allowed, shortened(data[:200].decode(errors="replace")))
        return _explanation(f"too long, more than {error.limit} bytes", None, data, found, "each command has a longest input")
    return None


def of_refusal(data: bytes, refused: Refused) -> Explanation:
    """The explanation of an input that the program refused so."""
    match refused.code:
        case 23:
            found = inputs.envelope(data)
        case 24:
            found = inputs.frame(data, refused)
        case 25:
            found = inputs.target(data, refused)
        case _:
            envelope = inputs.opened(data)
            begin, file = envelope if envelope else (0, data)
            found = _of_file(file, refused)
            if begin:
                # A column and a line count from the first line of the file itself.
                data = file
    return _explanation(refused.answer, refused.code, data, found, RULES[refused.code])


def _of_file(data: bytes, refused: Refused) -> Finding:
    """What is wrong with a cluster file that is refused."""
    try:
        text, document = read(data)
    except NoJson as error:
        text = data.decode(errors="replace")
        written = shortened(text[error.at : error.at + 40]) or "the end of the text"
        return Finding(error.at, "", f"no JSON: {error.why}", error.due, written)
    if refused.code not in EXPLAINERS:
        return Finding(0, "", "the program reads no JSON here", "one JSON value in UTF-8", shortened(text[:200]))
    return EXPLAINERS[refused.code](File(text, document, refused))


def _explanation(answer: str, code: int | None, data: bytes, found: Finding, rule: str) -> Explanation:
    """The explanation of a finding. Of a stream the place is a byte, and its line is 1."""
    before = data.decode(errors="replace")[: found.at] if code != 24 else " " * found.at
    line = before.count("\n") + 1
    column = found.at - (before.rfind("\n") + 1) + 1
    return Explanation(
        answer, code, line, column, found.path, found.fault, rule, found.written, found.allowed, found.likely
    )
