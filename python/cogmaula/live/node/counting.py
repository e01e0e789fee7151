"""What a node has done since its process started, in numbers. The node's one thread writes them, and any thread may read them."""

from __future__ import annotations

from dataclasses import dataclass

from ... import clock
from ..messages.frames import (
    AuctioneerResume,
    Bid,
    Dropped,
    Frame,
    Gone,
    NotCaughtUp,
    NotChanged,
    Old,
    OtherBasis,
    OutOfLimits,
    OutOfNumbers,
    Price,
    Setpoint,
    TooMuch,
    WindowFull,
)

# What a frame that the service writes says of a bid, and of a price.
OF_BIDS: dict[type, str] = {
    Bid: "sent",
    Gone: "left",
    NotChanged: "not_changed",
    NotCaughtUp: "not_caught_up",
    WindowFull: "window_full",
    OutOfNumbers: "out_of_numbers",
    OutOfLimits: "out_of_limits",
    TooMuch: "refused",
}
OF_PRICES: dict[type, str] = {Price: "passed", Setpoint: "setpoint", Dropped: "dropped", OtherBasis: "other_basis", Old: "old"}


class Counts:
    """The numbers of one node."""

    def __init__(self) -> None:
        """Has counted nothing."""
        self.clearings = self.restarts = 0
        # By outcome. All outcomes are there from the first on, so that others may read them at any time.
        self.bids = dict.fromkeys(OF_BIDS.values(), 0)
        self.prices = dict.fromkeys(OF_PRICES.values(), 0)
        # How many children a restarted parent waits for.
        self.waiting = 0
        # When the node's loop turned last, by a clock that only rises.
        self.turned = clock.now()

    def passed(self, count: int) -> None:
        """Counts so many Prices of the service for children."""
        self.prices[OF_PRICES[Price]] += count

    def wrote(self, frame: Frame, lacking: int) -> None:
        """Counts a frame of the service. `lacking` is how many children the node waits for, if it is not caught up."""
        if (outcome := OF_BIDS.get(type(frame))) is not None:
            self.bids[outcome] += 1
            self.waiting = lacking if isinstance(frame, NotCaughtUp) else 0
        elif (outcome := OF_PRICES.get(type(frame))) is not None:
            self.prices[outcome] += 1
        elif isinstance(frame, AuctioneerResume):
            self.clearings += 1
            self.waiting = 0


@dataclass(frozen=True)
class NodeFacts:
    """What a node tells of itself at one moment.

    why_down:      why it has no service, "" if it has one
    is_connected:  whether its broker is there
    counts:        what it has done
    stores:        how often it made something safe on disk, and `store_seconds` how long that took in all
    lapsed:        how many children are let go
    heartbeat:     when it made or heard the newest heartbeat, by its own clock (RFC 3339), "" before the first
    loop_age:      the seconds since its loop turned last
    """

    node: str
    sort: str
    why_down: str
    is_connected: bool
    counts: Counts
    stores: int
    store_seconds: float
    lapsed: int
    heartbeat: str
    loop_age: float

    def faults(self, patience: float) -> list[str]:
        """Why the node is not well, a line each. Its loop may take so many seconds for a turn."""
        found = [f"{self.node}: {self.why_down}"] if self.why_down else []
        if not self.is_connected:
            found.append(f"{self.node}: the broker is away")
        if self.loop_age > patience:
            found.append(f"{self.node}: its loop stands still for {self.loop_age:.0f} s")
        return found
