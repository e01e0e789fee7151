"""Limits that a relay is given while the market lives, as by a grid operator: what the topic says, and what the relay makes of it.

The node numbers them 2, 4, 6, .. and stores each number before its service is fed it, so that none is given twice.
"""

from __future__ import annotations

import json
from dataclasses import dataclass
from datetime import datetime, timezone

from ..node.node_errors import BadMessage
from ..messages.frames import RelayResume, are_limits
from ..messages.messages import object_of
from ..node.sessions import now_text, time_of
from ..node.store import Given

# The longest reference, in characters.
LONGEST = 256


@dataclass(frozen=True)
class LimitsMessage:
    """Limits as they are given.

    floor:     the least power in watts, and `ceiling` the greatest; None leaves that of the settings
    until:     until when they hold (RFC 3339), None without an end; then those of the settings come back
    reference: a word of the one who gives them, None without one
    """

    floor: int | None
    ceiling: int | None
    until: str | None = None
    reference: str | None = None

    def to_bytes(self) -> bytes:
        """The message."""
        return json.dumps(vars(self)).encode()

    @staticmethod
    def of(data: bytes) -> LimitsMessage:
        """The limits that a message tells. Raises BadMessage."""
        told = object_of(data, "the message")
        more = ", ".join(sorted(told.keys() - {"floor", "ceiling", "until", "reference"}))
        if more or not {"floor", "ceiling"} <= told.keys():
            raise BadMessage(f'write {{"floor": WATTS, "ceiling": WATTS}}, and maybe "until" and "reference"{": no " + more if more else ""}')
        for name in ("floor", "ceiling"):
            if told[name] is not None and type(told[name]) is not int:
                raise BadMessage(f"{name} is no whole number of watts")
        until, reference = told.get("until"), told.get("reference")
        if until is not None and not isinstance(until, str):
            raise BadMessage("until is no time as 2026-01-31T06:30:00Z")
        if until is not None:
            time_of(until)
        if reference is not None and not (isinstance(reference, str) and len(reference) <= LONGEST):
            raise BadMessage(f"reference is no text of at most {LONGEST} characters")
        return LimitsMessage(told["floor"], told["ceiling"], until, reference)


def is_over(until: str | None) -> bool:
    """Whether this moment has passed, by the clock of this machine. None never does."""
    return until is not None and time_of(until) <= datetime.now(timezone.utc)


class GivenLimits:
    """The limits of one relay in one session."""

    def __init__(self, floor: int, ceiling: int, giver: int) -> None:
        """Takes the limits of the settings, and the place in which others are given, 0 if none are."""
        self._floor, self._ceiling, self._giver = floor, ceiling, giver
        self.begin(None, None)

    def begin(self, given: Given | None, resume: RelayResume | None) -> None:
        """Goes by what is stored: the limits that were given last, and the Resume."""
        told = 0 if resume is None or not self._giver else resume.numbers[self._giver - 1]
        self.given = given
        if resume is not None and (given is None or given.number < told):
            # The node goes on from the broker's copy of its Resume.
            self.given = Given(told, resume.floor, resume.ceiling) if told else None
        # The first bid that was made under these limits, and the first clearing by it; 0 before that.
        self._bid = self.clearing = 0
        # Whether some step of the newest sum is within them.
        self.is_kept = True
        self.refused = ""
        self._refused_reference: str | None = None
        if resume is not None:
            self.resumed(resume)

    @property
    def newest(self) -> tuple[int, int]:
        """The floor and the ceiling that count from the next bid on, in watts."""
        return (self._floor, self._ceiling) if self.given is None else (self.given.floor, self.given.ceiling)

    def taken(self, data: bytes) -> Given | None:
        """The limits that a message gives under the next number, to be stored and fed. None if they are those that count already.

        Raises BadMessage if they are wrong or too late.
        """
        if not data:
            return self.over()
        message = LimitsMessage.of(data)
        self._refused_reference = message.reference
        before = self.given
        if is_over(message.until) and before is not None and before.until == message.until:
            # Those that count have ended, and the topic has them still.
            return self.over()
        if is_over(message.until):
            raise BadMessage(f"they come too late: {message.until} has passed")
        floor = self._floor if message.floor is None else message.floor
        ceiling = self._ceiling if message.ceiling is None else message.ceiling
        if not are_limits(floor, ceiling) or floor < self._floor or ceiling > self._ceiling:
            raise BadMessage(f"{floor} to {ceiling} watts are not within the relay's own {self._floor} to {self._ceiling}, with 0 between")
        self.refused = ""
        if before is not None and (floor, ceiling, message.until, message.reference) == (
            before.floor,
            before.ceiling,
            before.until,
            before.reference,
        ):
            return None
        return Given(self._next, floor, ceiling, message.until, message.reference)

    def refuse(self, why: str) -> None:
        """Notes that limits were refused, and why."""
        self.refused = why

    def over(self) -> Given | None:
        """The settings' own limits under the next number, None if they count already."""
        if self.newest == (self._floor, self._ceiling) and (self.given is None or self.given.until is None):
            return None
        return Given(self._next, self._floor, self._ceiling)

    @property
    def is_over(self) -> bool:
        """Whether the limits that were given have come to their end."""
        return self.given is not None and is_over(self.given.until)

    @property
    def _next(self) -> int:
        return 2 if self.given is None else self.given.number + 2

    def gives(self, given: Given) -> None:
        """Notes that these limits are stored, and are fed now."""
        self.given, self._bid, self.clearing = given, 0, 0

    def resumed(self, resume: RelayResume) -> bool:
        """Goes by a Resume, and says whether the clearing became known from which on setpoints keep the limits."""
        if self.given is None or not self._giver or resume.numbers[self._giver - 1] < self.given.number:
            return False
        if not self._bid:
            self._bid = resume.last
        if self.clearing or resume.answered < self._bid:
            return False
        self.clearing = resume.index
        return True

    @property
    def state(self) -> str:
        """What became of the newest limits, in a word."""
        if self.refused:
            return "refused"
        if not self.is_kept:
            return "not kept"
        return "settings" if self.given is None else "kept" if self.clearing else "waits"

    def to_bytes(self) -> bytes:
        """What is told under `limits/state`: the limits that count, and what became of the newest that were given."""
        floor, ceiling = self.newest
        given = self.given or Given(0, floor, ceiling)
        told = {
            "state": self.state,
            "floor": floor,
            "ceiling": ceiling,
            "until": given.until,
            "reference": self._refused_reference if self.refused else given.reference,
            "clearing": self.clearing or None,
            "why": self.refused,
            "time": now_text(),
        }
        return json.dumps(told).encode()
