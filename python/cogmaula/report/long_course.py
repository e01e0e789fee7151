"""The course of a long run: means over hours or days, with the least and the greatest, in place of thousands of intervals."""

from __future__ import annotations

from collections.abc import Sequence
from dataclasses import dataclass
from datetime import datetime
from typing import Any

import numpy

from ..data_frames import START
from ..moments import DAY, clock_marks

# Above so many intervals a figure shows means. They are of hours, and of days if there are more hours than this.
MOST_INTERVALS = 2000


@dataclass(frozen=True)
class Course:
    """How intervals are shown.

    fine:  the edges of the intervals, in hours after the start
    edges: those of what is shown: the same, or hours, or days
    word:  hour or day if means are shown, else an empty text
    """

    fine: Any
    edges: Any
    word: str

    @staticmethod
    def of(ends: Sequence[float], start: datetime = START) -> Course:
        """The course of intervals that end so many minutes after the start. Days are those of the start's clock."""
        fine = numpy.array([0, *ends]) / 60
        if len(ends) <= MOST_INTERVALS:
            return Course(fine, fine, "")
        if fine[-1] <= MOST_INTERVALS:
            return Course(fine, numpy.unique([*numpy.arange(0, fine[-1], 1), fine[-1]]), "hour")
        midnights = numpy.array(clock_marks(start, DAY, float(fine[-1]) * 60)) / 60
        return Course(fine, numpy.array([0, *midnights, fine[-1]]), "day")

    def mean(self, values: Any) -> Any:
        """The mean over the time of each interval that is shown; values are in the last axis."""
        values = numpy.asarray(values, dtype=float)
        if not self.word:
            return values
        passed = numpy.concatenate([numpy.zeros((*values.shape[:-1], 1)), (values * numpy.diff(self.fine)).cumsum(axis=-1)], axis=-1)
        at = numpy.searchsorted(self.fine, self.edges, side="right") - 1
        inside = self.edges - self.fine[at]
        # The last edge is the end of the last interval, behind which nothing comes.
        rates = numpy.concatenate([values, numpy.zeros((*values.shape[:-1], 1))], axis=-1)
        whole = passed[..., at] + rates[..., at] * inside
        return numpy.diff(whole, axis=-1) / numpy.diff(self.edges)

    def least(self, values: Any) -> Any:
        """The least value in each interval that is shown."""
        return self._farthest(numpy.minimum, values)

    def greatest(self, values: Any) -> Any:
        """The greatest value in each interval that is shown."""
        return self._farthest(numpy.maximum, values)

    def _farthest(self, choose: Any, values: Any) -> Any:
        values = numpy.asarray(values, dtype=float)
        if not self.word:
            return values
        first = numpy.searchsorted(self.fine[1:], self.edges[:-1], side="right")
        last = numpy.searchsorted(self.fine[:-1], self.edges[1:], side="left")
        # A last value more, so that each place behind an interval is one of the list; it never counts.
        places = numpy.stack([first, last], axis=1).ravel()
        return choose.reduceat(numpy.append(values, values[-1:]), places)[::2]
