"""What a node may come back with, by the law of the network: docs/NETWORK.md, "What must be stored".

The last number, with the offer or the numbers of the children and the limits, is exact: it is what was stored last, or was written
since and not yet noted as stored. The price that was taken may be of any age, or none.
"""

from __future__ import annotations

from dataclasses import replace

from ..live.messages.frames import AuctioneerResume, DeviceResume, Limits, RelayResume, Resume, ResumeGone
from .frame_words import words_of


def _exact(resume: Resume) -> Resume:
    """A Resume without the price that was taken."""
    match resume:
        case RelayResume():
            return replace(resume, answered=0, index=0)
        case DeviceResume() | ResumeGone():
            return replace(resume, index=0)
        case AuctioneerResume():
            return resume


def _price(resume: Resume) -> tuple[int, int]:
    """The number answered, of a relay alone, and the index of the price that was taken."""
    match resume:
        case RelayResume():
            return resume.answered, resume.index
        case DeviceResume() | ResumeGone():
            return 0, resume.index
        case AuctioneerResume():
            return 0, 0


class Keeping:
    """The Resumes of one node in one session. Calls come in the order of the recording, and give what is wrong, "" if nothing."""

    def __init__(self) -> None:
        """Nothing is stored."""
        self._stored: Resume | None = None
        self._waits: Resume | None = None
        # Whether the Bid of the Resume that waits was handled.
        self._has_bid = False
        self._prices = {(0, 0)}

    def starts(self, resume: Resume | None, is_late: bool = False) -> str:
        """A service starts from a Resume, or from none. If it is late, what was before it is not known."""
        allowed = [self._stored] if self._waits is None else [self._stored, self._waits]
        self._stored, self._waits = resume, None
        if resume is not None and is_late:
            self._prices.add(_price(resume))
        if is_late:
            return ""
        told = "no Resume" if resume is None else words_of(resume)
        if (None if resume is None else _exact(resume)) not in [None if words is None else _exact(words) for words in allowed]:
            due = " or ".join("none" if words is None else words_of(words) for words in allowed)
            return f"it starts with {told}, and stored was {due}: its newest has to come back"
        if resume is not None and _price(resume) not in self._prices:
            return f"it starts with {told}, and no Resume before had this price"
        return ""

    def writes(self, resume: Resume | None, bid: int = 0) -> str:
        """The node handles a Resume, or a frame that is none. One with another price alone need not be stored.

        bid: the number of a relay's Bid, 0 for another frame; the Bid of a Resume's number is stored with it
        """
        before = 0 if self._stored is None else self._stored.last
        if isinstance(self._waits, RelayResume) and before < self._waits.last == bid and not self._has_bid:
            self._has_bid = True
            return ""
        if self._waits is not None and self._stored is not None and _exact(self._waits) == _exact(self._stored):
            self._waits = None
        if self._waits is not None:
            return f"it is handled before the {words_of(self._waits)} is stored"
        if resume is not None:
            self._waits, self._has_bid = resume, False
            self._prices.add(_price(resume))
        return ""

    def stores(self) -> str:
        """The Resume that was handled last is stored."""
        if self._waits is None:
            return "a Resume is stored, and none was handled since the one that was stored before"
        self._stored, self._waits = self._waits, None
        return ""


class Giving:
    """The limits that one relay was given in one session. A number is of one floor and one ceiling, over restarts too."""

    def __init__(self) -> None:
        """Nothing was given."""
        self._given: dict[int, tuple[int, int]] = {}

    def resumes(self, resume: Resume | None) -> str:
        """A service starts from a Resume. That of a relay has the newest limits under the number of the place in which they are given."""
        if not isinstance(resume, RelayResume) or not resume.giver or not resume.numbers[resume.giver - 1]:
            return ""
        return self.takes(Limits(resume.numbers[resume.giver - 1], resume.floor, resume.ceiling))

    def takes(self, limits: Limits) -> str:
        """Limits are given. Gives what is wrong, "" if nothing."""
        now = limits.floor, limits.ceiling
        before = self._given.setdefault(limits.number, now)
        if now == before:
            return ""
        return f"limits {limits.number} are {now[0]} to {now[1]} W, and before in this session they were {before[0]} to {before[1]} W"
