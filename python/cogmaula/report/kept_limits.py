"""How the limited groups kept their limits: the load of each, and when it was outside them."""

from __future__ import annotations

from collections.abc import Iterator, Sequence
from dataclasses import dataclass

from ..nodes import Limited
from ..runs import Run
from .intervals import Interval


@dataclass(frozen=True)
class Violation:
    """A span of time over which a group was outside one of its limits.

    begin, end: minutes after the start of the run
    limit:      the limit that it broke, in watts
    load:       the load farthest outside it, in watts
    """

    begin: int
    end: int
    limit: int
    load: int


@dataclass(frozen=True)
class Group:
    """A limited group over a run.

    loads:      the sum of the bids below it over each interval, in watts
    prices:     the price below it over each interval
    outside:    at how many phases' ends it was outside its limits, also of phases that last no time
    violations: when it was outside them, in the order of time
    """

    name: str
    floor: int
    ceiling: int
    loads: tuple[int, ...]
    prices: tuple[int, ...]
    outside: int
    violations: tuple[Violation, ...]

    @property
    def minutes_outside(self) -> int:
        """For how many minutes it was outside its limits."""
        return sum(violation.end - violation.begin for violation in self.violations)


def groups_of(run: Run, intervals: Sequence[Interval]) -> list[Group]:
    """The limited groups of a run, in the order of the file."""
    limited = [node for node in run.cluster.nodes if isinstance(node, Limited)]
    return [group_of(run, intervals, node, at) for at, node in enumerate(limited)]


def group_of(run: Run, intervals: Sequence[Interval], node: Limited, at: int) -> Group:
    """The limited group of a node, which comes at place `at` among those of each phase's end."""
    ends = run.group_loads[at]
    loads = tuple(ends[interval.phases - 1] if interval.phases else 0 for interval in intervals)
    outside = sum(not node.floor <= load <= node.ceiling for load in ends)
    violations = tuple(violations_of(intervals, loads, node.floor, node.ceiling))
    return Group(node.name, node.floor, node.ceiling, loads, tuple(run.held.prices[:, 1 + at].tolist()), outside, violations)


def violations_of(intervals: Sequence[Interval], loads: Sequence[int], floor: int, ceiling: int) -> Iterator[Violation]:
    """The spans over which the loads are above the ceiling or below the floor."""
    open_one: Violation | None = None
    for interval, load in zip(intervals, loads, strict=True):
        limit = ceiling if load > ceiling else floor if load < floor else None
        if open_one and (limit != open_one.limit or interval.begin != open_one.end):
            yield open_one
            open_one = None
        if limit is not None:
            farthest = farther(limit, load, open_one.load if open_one else load)
            open_one = Violation(open_one.begin if open_one else interval.begin, interval.end, limit, farthest)
    if open_one:
        yield open_one


def farther(limit: int, one: int, other: int) -> int:
    """Which of two loads is farther from a limit."""
    return one if abs(one - limit) >= abs(other - limit) else other
