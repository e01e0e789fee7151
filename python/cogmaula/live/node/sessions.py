"""Sessions of the auctioneer: one count of clearings from 1 on, and with it the numbers of all nodes."""

from __future__ import annotations

import re
import secrets
from dataclasses import dataclass
from datetime import datetime, timedelta, timezone

from .node_errors import BadMessage

# The most characters of a text that is no time in a line.
QUOTED = 64
_ID = re.compile(r"[0-9a-f]{16}")


def time_text(moment: datetime) -> str:
    """A moment as RFC 3339 in UTC, with milliseconds."""
    return moment.astimezone(timezone.utc).isoformat(timespec="milliseconds").replace("+00:00", "Z")


def time_of(text: str) -> datetime:
    """The moment that a text of RFC 3339 tells. Raises BadMessage."""
    quoted = repr(text[:QUOTED])
    try:
        found = datetime.fromisoformat(text)
        if found.tzinfo is not None:
            # In UTC it may be before the first year, or behind the last.
            found.astimezone(timezone.utc)
    except (ValueError, OverflowError):
        raise BadMessage(f"{quoted} is no time as 2026-01-31T06:30:00Z") from None
    if found.tzinfo is None:
        raise BadMessage(f"{quoted} has no zone: write 2026-01-31T06:30:00Z")
    return found


def now_text() -> str:
    """The time now."""
    return time_text(datetime.now(timezone.utc))


@dataclass(frozen=True)
class Session:
    """A session: its id, 16 hexadecimal digits, and when it began (RFC 3339, UTC)."""

    id: str
    begun: str

    def __post_init__(self) -> None:
        """Raises BadMessage if the id or the time has another form."""
        if not _ID.fullmatch(self.id):
            raise BadMessage(f"{self.id!r} is no session, which has 16 hexadecimal digits")
        time_of(self.begun)

    @property
    def order(self) -> tuple[datetime, str]:
        """What rises from session to session."""
        return time_of(self.begun), self.id


def new_session(before: Session | None) -> Session:
    """A new session, later than the one before."""
    now = datetime.now(timezone.utc)
    if before is not None:
        now = max(now, time_of(before.begun) + timedelta(milliseconds=1))
    return Session(secrets.token_hex(8), time_text(now))
