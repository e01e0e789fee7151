"""Runs and workers that keep to a processor each, if the system lets them.

The threads of a run take turns under one lock. To wake a thread on another processor costs more than the move that it makes. So a run
on one processor takes about half the processor time, and several runs side by side use all processors.
"""

from __future__ import annotations

import ctypes
import itertools
import os
import signal
from collections.abc import Iterable, Iterator
from contextlib import contextmanager, suppress
from typing import Protocol

# Whose turn it is. It begins anywhere, so that processes beside each other take several.
_turns = itertools.count(os.getpid())
# What `prctl` is asked for: PR_SET_PDEATHSIG.
SET_DEATH_SIGNAL = 1


class Numbers(Protocol):
    """A queue of processors' numbers, between threads or processes."""

    def get(self) -> int:
        """Takes the next number."""

    def put(self, number: int) -> None:
        """Adds a number."""


def usable() -> list[int]:
    """The numbers of the processors that this thread may use; none if the system does not tell."""
    return sorted(os.sched_getaffinity(0)) if hasattr(os, "sched_getaffinity") else []


def count() -> int:
    """How many processors this thread may use, at least 1."""
    return len(usable()) or os.cpu_count() or 1


def dealt(queue: Numbers, workers: int) -> Numbers:
    """The queue with a processor for each of so many workers, one after another; -1 if the system does not tell them."""
    processors: Iterable[int] = usable() or [-1]
    numbers = list(processors)
    for at in range(workers):
        queue.put(numbers[at % len(numbers)])
    return queue


def keep_to_one(queue: Numbers) -> None:
    """Lets this thread, and what it starts, use the next processor of the queue alone. A system that refuses changes nothing."""
    number = queue.get()
    if number >= 0:
        try:
            os.sched_setaffinity(0, {number})
        except OSError:
            pass


@contextmanager
def on_one() -> Iterator[None]:
    """Lets this thread, and what it starts here, use one processor alone, each time the next. A system that refuses changes nothing."""
    numbers = usable()
    if len(numbers) < 2:
        yield
        return
    try:
        os.sched_setaffinity(0, {numbers[next(_turns) % len(numbers)]})
    except OSError:
        yield
        return
    try:
        yield
    finally:
        os.sched_setaffinity(0, numbers)


def end_with(parent: int) -> None:
    """Ends this process as soon as the one that started it ends, however it ends: a killed one can tell nobody. Linux alone knows how.

    parent: the number of that process
    """
    with suppress(OSError, AttributeError):
        ctypes.CDLL(None).prctl(SET_DEATH_SIGNAL, signal.SIGKILL)
    # It may have ended before it was asked for.
    if os.getppid() != parent:
        os._exit(1)
