"""When a parent lets a child go: by its node's last will, by the age of its bid, or because a restarted parent misses it.

All times are seconds of a clock that only rises. Each begins anew with each connection to the broker, since nothing is heard without
one. So a child is never let go sooner than its own node, which hears nothing either, has told its control to fall back.
"""

from __future__ import annotations

from collections.abc import Iterable
from dataclasses import dataclass

from ..node.market_times import Times


@dataclass
class _Child:
    """A child that bids, a device.

    node:    the name of its node, "" if it did not say
    heard:   when its bid was heard
    """

    node: str
    heard: float


class Lapses:
    """Which devices of a parent are due to be let go."""

    def __init__(self) -> None:
        """Has no child yet."""
        self._times = Times()
        self._children: dict[int, _Child] = {}
        # Since when a node that says that it is this child is down.
        self._down: dict[tuple[str, int], float] = {}
        # The children that a restarted parent misses, and since when.
        self._missed: dict[int, float] = {}
        self._is_connected = True

    def begin(self, times: Times) -> None:
        """Forgets all children, and goes by these times."""
        self._times = times
        self._children.clear()
        self._missed.clear()

    def take_times(self, times: Times) -> None:
        """Goes by other times from now on."""
        self._times = times

    def heard(self, child: int, node: str, now: float) -> None:
        """Notes a bid of a device, also one that was heard before. It holds for `grace`, whatever the bid says of itself."""
        self._missed.pop(child, None)
        self._children[child] = _Child(node, now)

    def lives(self, child: int, now: float) -> None:
        """Notes a message of a child whose bid is known."""
        if child in self._children:
            self._children[child].heard = now

    def forget(self, child: int) -> None:
        """Notes that a child has left, was let go, or is no device."""
        self._children.pop(child, None)
        self._missed.pop(child, None)

    def state(self, node: str, child: int, is_up: bool, now: float) -> None:
        """Notes what the state of a child's node says."""
        if is_up:
            self._down.pop((node, child), None)
        else:
            self._down.setdefault((node, child), now)

    def missed(self, children: Iterable[int], now: float) -> None:
        """Notes which devices a restarted parent has not heard."""
        self._missed = {child: self._missed.get(child, now) for child in children}

    def connected(self, is_there: bool, now: float) -> None:
        """Notes whether the broker is there. What was counted before counts anew once it is back."""
        if is_there and not self._is_connected:
            for child in self._children.values():
                child.heard = now
            self._down = dict.fromkeys(self._down, now)
            self._missed = dict.fromkeys(self._missed, now)
        self._is_connected = is_there

    def due(self, now: float) -> dict[int, str]:
        """The children to let go now, and why."""
        if not self._is_connected:
            return {}
        grace, found = self._times.grace, {}
        for child, child_state in self._children.items():
            down = self._down.get((child_state.node, child))
            if down is not None and now >= down + grace:
                found[child] = f"its node {child_state.node} has been down for {grace:g} s"
            elif now >= child_state.heard + grace:
                found[child] = f"its bid was not renewed for {grace:g} s"
        for child, since in self._missed.items():
            if now >= since + grace:
                found[child] = f"it was in the newest sum, and was not heard for {grace:g} s since the restart"
        return found
