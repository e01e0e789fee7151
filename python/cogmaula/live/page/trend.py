"""The prices and powers of relays and the auctioneer over the last hours, as a page has heard them."""

from __future__ import annotations

from collections import deque
from typing import Any

from .view import MarketView

# The seconds between two points, and those that are kept.
GAP, KEPT = 15.0, 3 * 3600.0
# The most nodes that have a line.
MOST_NODES = 512

# When it was, in seconds since 1970, the price in price units and the power in watts; None where it is not known.
Point = tuple[float, int | None, int | None]


class Trend:
    """The lines of a market. All calls are of one thread."""

    def __init__(self, now: float) -> None:
        """Has no point. The first is due a gap after now, in seconds since 1970."""
        self._due = now + GAP
        self._lines: dict[str, deque[Point]] = {}

    def is_due(self, now: float) -> bool:
        """Whether the next point is to be taken."""
        return now >= self._due

    def take(self, now: float, view: MarketView) -> None:
        """Takes a point of each line, if one is due. A clock that was set back begins anew."""
        if self._due - GAP <= now < self._due:
            return
        self._due = now + GAP
        for node in view.nodes:
            if node.name is None or node.sort not in ("auctioneer", "relay"):
                continue
            if node.name not in self._lines and len(self._lines) >= MOST_NODES:
                continue
            line = self._lines.setdefault(node.name, deque(maxlen=int(KEPT / GAP)))
            point = (now, None if node.price is None else node.price.price, None if node.power is None else node.power.power)
            while line and line[-1][0] >= now:
                line.pop()
            line.append(point)
        for name in [name for name, line in self._lines.items() if line[-1][0] < now - KEPT]:
            del self._lines[name]

    def to_json(self) -> dict[str, Any]:
        """The lines by the names of nodes: lists of points."""
        return {"gap": GAP, "lines": {name: list(line) for name, line in self._lines.items()}}
