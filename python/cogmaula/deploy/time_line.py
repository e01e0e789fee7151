"""When each device of a market falls back and is let go, by its settings and clocks that may err."""

from __future__ import annotations

from collections.abc import Iterable
from typing import Any

from ..live.node.market_times import ERROR, Times
from .market_file import Member, Tree

HEADER = ("device", "parent", "told its fallback by", "let go from", "left for")


def time_line(tree: Tree) -> list[str]:
    """The lines of a tree: its times, and for each device after how many seconds it comes to what.

    They count from when the parent heard the device's bid last: just before its wire is cut, its node
    stops or its parent hangs. Raises BadSettings.
    """
    times = times_of(tree.members)
    of_market = f"validity {times.validity:g} s, heartbeat {times.heartbeat:g} s, grace {times.grace:g} s"
    told = [f"{of_market}; each clock may be wrong by {ERROR:.0%}"]
    rows = [HEADER, *(_row(times, member) for member in tree.members if member.sort == "device")]
    widths = [max(len(row[at]) for row in rows) for at in range(len(HEADER))]
    return told + ["  ".join(map(str.ljust, row, widths)).rstrip() for row in rows]


def times_of(members: Iterable[Member]) -> Times:
    """The times that the auctioneer of a tree tells. Raises BadSettings."""
    auctioneers = (dict(member.more) for member in members if member.sort == "auctioneer")
    more: dict[str, Any] = next(auctioneers, {})
    return Times.of(*(more.get(name) for name in ("validity", "heartbeat", "grace")))


def _row(times: Times, member: Member) -> tuple[str, ...]:
    fallback, lapse = times.latest_fallback, times.earliest_lapse
    seconds = (fallback, lapse, lapse - fallback)
    return member.name, str(member.parent), *(f"{found:.1f} s" for found in seconds)
