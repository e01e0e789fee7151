"""Explains what is wrong with an input that is no cluster file alone: the envelopes of `ask` and `check`, the stream of `serve`."""

from __future__ import annotations

import re

from ..errors import Refused
from ..program_limits import MOST_BYTES, MOST_TARGET, MOST_TARGETS
from .findings import Finding, number, shortened

HEAD = re.compile(rb"(0|[1-9][0-9]*)\n")


def opened(data: bytes) -> tuple[int, bytes] | None:
    """Where the cluster file of an envelope begins, and its bytes, or None if the input is no envelope."""
    found = HEAD.match(data)
    size = int(found[1]) if found else 0
    if not found or size > MOST_BYTES or len(data) < found.end() + size:
        return None
    return found.end(), data[found.end() : found.end() + size]


def envelope(data: bytes) -> Finding:
    """Code 23: the input does not begin with the number of a file's bytes, a line feed and so many bytes."""
    first = data.split(b"\n", 1)[0]
    written = shortened(first[:200].decode(errors="replace"))
    allowed = f"a line with the number of the file's bytes, at most {number(MOST_BYTES)}, then the file, then the rest"
    found = HEAD.match(data)
    if not found:
        likely = "(wc -c < FILE; cat FILE REST)" if first.lstrip().startswith(b"{") else None
        return Finding(0, "", "the first line is no number of bytes, in digits without a zero in front", allowed, written, likely)
    if int(found[1]) > MOST_BYTES:
        return Finding(0, "", "the first line is more bytes than a cluster file may have", allowed, written)
    behind = len(data) - found.end()
    fault = f"the first line says {number(int(found[1]))} bytes, and only {number(behind)} come behind it"
    return Finding(0, "", fault, allowed, written)


def target(data: bytes, refused: Refused) -> Finding:
    """Code 25: a line behind the file is no target."""
    found = opened(data)
    assert found is not None, "the program took the envelope"
    begin, file = found
    at = begin + len(file)
    line_number = refused.place.numbers[0]
    for _ in range(line_number - 1):
        at = data.index(b"\n", at) + 1
    end = data.find(b"\n", at)
    line = data[at : None if end < 0 else end]
    words = line[:200].decode(errors="replace")
    fault, likely = f"target {number(line_number)} {_why_no_target(line, end >= 0, line_number)}", None
    if re.fullmatch(rb"\s*[+-]?[0-9]+\s*", line) and abs(int(line)) <= MOST_TARGET and line_number <= MOST_TARGETS:
        likely = f"{int(line)}, and the end of the line"
    allowed = f"whole watts from {number(-MOST_TARGET)} to {number(MOST_TARGET)}, one a line, at most {number(MOST_TARGETS)} lines"
    return Finding(len(data[:at].decode(errors="replace")), "", fault, allowed, shortened(words), likely)


def _why_no_target(line: bytes, has_end: bool, line_number: int) -> str:
    """Why a line is no target."""
    if line_number > MOST_TARGETS:
        return "is one too many"
    if not re.fullmatch(rb"-?[0-9]+", line):
        return "is no whole number in digits" if line else "is empty"
    if re.match(rb"-?0[0-9]|-0", line):
        return "has a zero in front, or is -0"
    if abs(int(line)) > MOST_TARGET:
        return "is too large"
    return "is wrong" if has_end else "has no end of its line"


def trace_line(data: bytes, line_number: int) -> Finding:
    """What stands in the line of a trace that `check` finds invalid."""
    found = opened(data)
    begin = found[0] + len(found[1]) if found else 0
    lines = data[begin:].split(b"\n")
    line = lines[line_number - 1].decode(errors="replace") if line_number <= len(lines) else ""
    at = begin + sum(len(line) + 1 for line in lines[: line_number - 1])
    fault = f"line {number(line_number)} of the trace is wrong, unterminated or missing"
    allowed = "the line that a legal run of this file has there: the trace is not one of this file"
    return Finding(len(data[:at].decode(errors="replace")), "", fault, allowed, shortened(line) or "nothing")


def frame(data: bytes, refused: Refused) -> Finding:
    """Code 24: a frame of a stream is bad. Its place is an offset in bytes."""
    at = refused.place.numbers[0]
    written = data[at : at + 8].hex(" ") or "the end of the stream"
    fault = f"the frame at byte {number(at)} is bad"
    allowed = "a Hello first and only there, then Bids, Gones and Clears of the lengths and numbers that the stream's page gives"
    return Finding(at, "", fault, allowed, written)
