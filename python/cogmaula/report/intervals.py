"""When the ends of phases hold: the intervals of a run, and the spans of a bill."""

from __future__ import annotations

from collections.abc import Iterator, Sequence
from dataclasses import dataclass
from datetime import datetime

from ..cluster import Cluster
from ..data_frames import START
from ..moments import clock_marks
from ..phases import Tick

# Spans of so many minutes at most are equally long, whatever the clock shows.
HOUR = 60


@dataclass(frozen=True)
class Interval:
    """A tick: over it each member has the power and the price of the end of the phase before.

    begin, end: minutes after the start of the run
    phases:     how many phases come before the tick, which is the number of the phase whose end holds; 0 if the tick is the first
    """

    begin: int
    end: int
    phases: int


def intervals_of(cluster: Cluster) -> list[Interval]:
    """The ticks of a cluster, one behind another."""
    found: list[Interval] = []
    for at, phase in enumerate(cluster.phases):
        if isinstance(phase, Tick):
            begin = found[-1].end if found else 0
            found.append(Interval(begin, begin + phase.minutes, at))
    return found


def spans_of(intervals: Sequence[Interval], minutes: int, start: datetime = START) -> Iterator[tuple[int, int, int, int]]:
    """The intervals in spans of so many minutes: the begin and the end of each, its first phase, and the one behind its last.

    Phases count from 0. The phases of events before a tick belong to the span of the tick.
    A span is made of whole ticks. If a tick goes past the end of a span, the span goes with it.
    Spans of more than an hour go by the clock of the start, and whole days from midnight to midnight.
    """
    begin = first = 0
    marks = iter(ends_of_spans(minutes, intervals[-1].end, start) if intervals else ())
    mark = next(marks, 0.0)
    for at, interval in enumerate(intervals):
        if interval.end >= mark or at == len(intervals) - 1:
            yield begin, interval.end, first, interval.phases + 1
            begin, first = interval.end, interval.phases + 1
            while mark <= begin and at < len(intervals) - 1:
                mark = next(marks)


def ends_of_spans(minutes: int, last: int, start: datetime) -> Sequence[float]:
    """The minutes after the start at which spans end, the last of them at the end of all."""
    if minutes <= HOUR:
        return range(minutes, last + minutes, minutes)
    return [*clock_marks(start, minutes, last), float(last)]
