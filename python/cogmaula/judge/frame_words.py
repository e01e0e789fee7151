"""Frames in words, for the lines of a verdict."""

from __future__ import annotations

from ..live.node.node_errors import BadFrame
from ..live.messages.frames import (
    READS,
    WRITES,
    AuctioneerResume,
    Bid,
    Bound,
    DeviceResume,
    Dropped,
    Expire,
    Frame,
    Gone,
    Limits,
    Old,
    OtherBasis,
    OutOfLimits,
    Price,
    RelayResume,
    ResumeGone,
    Setpoint,
    Sort,
    Splitter,
    TooMuch,
)


def words_of(frame: Frame) -> str:
    """A frame as a line names it."""
    match frame:
        case Bid():
            return f"Bid {frame.number} of child {frame.child}"
        case Gone():
            return f"Gone {frame.number} of child {frame.child}"
        case Price():
            return f"Price for child {frame.child}: bid {frame.number}, clearing {frame.index}, step {frame.step}"
        case Old():
            return f"Old for child {frame.child}: number {frame.kept} is kept"
        case Expire():
            return f"Expire of child {frame.child}"
        case Limits():
            return f"Limits {frame.number}: {frame.floor} to {frame.ceiling} W"
        case Bound():
            return f"Bound of child {frame.child}: {frame.least} to {frame.greatest} W"
        case TooMuch():
            return f"TooMuch for child {frame.child}: bid {frame.number}"
        case OtherBasis():
            return f"OtherBasis: number {frame.number}, clearing {frame.index}"
        case OutOfLimits():
            return f"OutOfLimits: bid {frame.number}"
        case Setpoint():
            return f"Setpoint: offer {frame.number}, clearing {frame.index}, step {frame.step}, {frame.power} W"
        case Dropped():
            return f"Dropped: number {frame.number}, clearing {frame.index}"
        case RelayResume():
            return f"Resume with number {frame.last}, answered {frame.answered} by clearing {frame.index}"
        case AuctioneerResume():
            return f"Resume of clearing {frame.index}"
        case DeviceResume():
            return f"Resume with number {frame.last} and clearing {frame.index}"
        case ResumeGone():
            return f"ResumeGone with number {frame.last} and clearing {frame.index}"
        case _:
            return type(frame).__name__


def words_of_bytes(data: bytes, sort: Sort, steps: int) -> str:
    """What bytes are, as a frame that a node of this sort reads or writes, or in hexadecimal if they are none."""
    for kinds in (WRITES[sort], READS[sort]):
        try:
            frames = list(Splitter(kinds, steps).feed(data))
        except BadFrame:
            continue
        if len(frames) == 1 and frames[0].to_bytes() == data:
            return words_of(frames[0])
    return f"{data[:16].hex()}{'..' if len(data) > 16 else ''}, which is no frame"


def difference_of(found: bytes, due: bytes, sort: Sort, steps: int) -> str:
    """What was found and what is due, in words. Two frames of one name are told by the first byte in which they differ."""
    words = [words_of_bytes(frame, sort, steps) for frame in (found, due)]
    if words[0] != words[1]:
        return f"{words[0]} is recorded, and {words[1]} is due"
    at = next(index for index in range(min(len(found), len(due))) if found[index] != due[index])
    return f"{words[0]} is recorded, and another {words[1]} is due, which differs from byte {at} on"
