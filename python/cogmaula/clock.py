"""The clock of time-outs: it only rises, nobody sets it, and it goes on while the machine sleeps."""

from __future__ import annotations

import time


def now() -> float:
    """The seconds since the machine started, with those in which it slept (CLOCK_BOOTTIME).

    A machine that sleeps takes no fallback. By this clock a setpoint that ended meanwhile has ended
    when the machine is back.
    """
    return time.clock_gettime(time.CLOCK_BOOTTIME)
