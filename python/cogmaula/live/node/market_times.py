"""The times of a market, which its auctioneer tells with the basis: for how long a setpoint holds, and when a device is let go."""

from __future__ import annotations

from dataclasses import dataclass

from .node_errors import BadSettings

# How much longer than validity grace has to be, at least: what is beyond the clocks' error is for the control's reaction.
MARGIN = 1.25
# How often a heartbeat has to come within validity, at least: a renewal of the bid counts only with a heartbeat behind it.
BEATS = 3
# The default of validity in seconds, and how often a heartbeat comes within it by default.
VALIDITY, USUAL_BEATS = 120.0, 4
# How far a clock may run fast or slow.
ERROR = 0.01
# The most seconds between two looks of a node at its clock, and those looks within validity, at least.
TICK, LOOKS = 1.0, 20
# The share of a heartbeat that messages may take on their way, up and down together.
LAG = 0.5


@dataclass(frozen=True)
class Times:
    """Seconds.

    validity:  for how long a setpoint holds without a newer heartbeat
    heartbeat: from one heartbeat to the next, and from one renewal of a bid to the next
    grace:     after how much silence of a device its parent lets it go
    """

    validity: float = VALIDITY
    heartbeat: float = VALIDITY / USUAL_BEATS
    grace: float = VALIDITY * MARGIN

    def __post_init__(self) -> None:
        """Raises BadSettings."""
        if not 0.01 <= self.validity <= 1e9 or not 0.01 <= self.heartbeat <= 1e9 or not 0.01 <= self.grace <= 1e9:
            raise BadSettings("validity, heartbeat and grace are seconds: give 0.01 or more")
        if self.heartbeat * BEATS > self.validity:
            raise BadSettings(f"validity is {self.validity:g} and heartbeat {self.heartbeat:g}: give a validity of {BEATS} heartbeats or more")
        if self.latest_fallback >= self.earliest_lapse or self.grace < MARGIN * self.validity:
            raise BadSettings(
                f"grace is {self.grace:g} and validity {self.validity:g}: by clocks that are wrong by {ERROR:.0%} a device falls back by "
                f"{self.latest_fallback:.4g} s and may be let go after {self.earliest_lapse:.4g} s. Give a grace of {MARGIN * self.validity:g} or "
                "more, so that a device has fallen back before it is let go, with time for its control"
            )

    @property
    def tick(self) -> float:
        """The most seconds between two looks of a device's node at its clock."""
        return min(TICK, self.validity / LOOKS)

    @property
    def lag(self) -> float:
        """The seconds that a renewal may take to the parent, and a heartbeat from there, together."""
        return LAG * self.heartbeat

    @property
    def latest_fallback(self) -> float:
        """After how many seconds a control is told its fallback at the latest, by a node's clock that is slow by ERROR."""
        return self.validity * (1 + ERROR) + self.tick

    @property
    def earliest_lapse(self) -> float:
        """After how many seconds a parent lets a device go at the earliest, by a clock that is fast by ERROR."""
        return self.grace * (1 - ERROR)

    @staticmethod
    def of(validity: float | None, heartbeat: float | None, grace: float | None) -> Times:
        """The times, with the defaults for those that are None. Raises BadSettings."""
        known = VALIDITY if validity is None else validity
        return Times(known, known / USUAL_BEATS if heartbeat is None else heartbeat, known * MARGIN if grace is None else grace)
