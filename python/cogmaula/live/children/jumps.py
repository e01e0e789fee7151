"""Numbers and indices that no honest node gives: a stolen login may write one near the last, and nothing newer would count.

A node numbers what it sends one by one, and waits after eight that are unanswered. So the next number of a child is near the last
one. And clearings take time, so the session's begin bounds their index.
"""

from __future__ import annotations

from datetime import datetime, timezone

from ..node.ask_schedule import AGAIN
from ..node.sessions import Session, time_of

# How far the next number may be beyond the newest, and an index beyond what time allows.
JUMP = 65_536
# The most clearings a second: an auctioneer waits so long between two.
CLEARINGS = round(1 / AGAIN)


def most_by_time(session: Session, now: datetime | None = None) -> int | None:
    """The greatest index that the clearings of a session may have by now, by this machine's clock.

    None if the clock is before the session's begin: then it is wrong, and says nothing.
    """
    seconds = ((now or datetime.now(timezone.utc)) - time_of(session.begun)).total_seconds()
    return None if seconds < 0 else JUMP + int(seconds * CLEARINGS)


def most_of_child(known: int, session: Session, now: datetime | None = None) -> int | None:
    """The greatest number that the next bid of a child may have.

    known: the newest number that is known of it, 0 if none is. Then time alone bounds the number: its parent may have lost its
           store, and the child goes on where it was

    None if nothing bounds it.
    """
    return known + JUMP if known else most_by_time(session, now)
