"""What a judgement says: valid, incomplete or invalid, with counts, what is missing, or the first fault."""

from __future__ import annotations

from dataclasses import asdict, dataclass
from typing import Any, Literal

from .recording_faults import Fault


@dataclass(frozen=True)
class Verdict:
    """A judgement of recordings.

    verdict:    valid, incomplete if something was not recorded, or invalid
    sessions:   how many sessions there are; all other numbers are of all of them
    nodes:      how many recordings of a node in a session there are
    lives:      how many times a service was started
    frames_in:  how many frames services were fed, and frames_out how many of them were handled
    taken:      how many frames in were sent by another node, and unmatched how many of these could not be looked up
    clearings:  how many clearings the auctioneer made
    setpoints:  how many setpoints devices were given
    missing:    in words, what was not recorded
    fault:      what is wrong first, None unless the verdict is invalid; then only what was judged before it is counted
    """

    verdict: Literal["valid", "incomplete", "invalid"]
    sessions: int = 0
    nodes: int = 0
    lives: int = 0
    frames_in: int = 0
    frames_out: int = 0
    taken: int = 0
    unmatched: int = 0
    clearings: int = 0
    setpoints: int = 0
    missing: tuple[str, ...] = ()
    fault: Fault | None = None

    def members(self) -> dict[str, Any]:
        """The judgement as an object of JSON."""
        return asdict(self) | {"missing": list(self.missing)}

    def text(self) -> str:
        """The judgement in lines."""
        if self.fault is not None:
            return f"invalid {self.fault}\n"
        lines = [
            f"{self.verdict} sessions {self.sessions} nodes {self.nodes} lives {self.lives} in {self.frames_in} "
            f"out {self.frames_out} taken {self.taken} unmatched {self.unmatched} clearings {self.clearings} "
            f"setpoints {self.setpoints}",
            *(f"missing {name}" for name in self.missing),
        ]
        return "\n".join(lines) + "\n"
