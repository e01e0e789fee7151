"""When a node asks its service: a relay to send, an auctioneer to clear. All times are seconds of a clock that only rises."""

from __future__ import annotations


# The least seconds between two questions, however short the pause is. They bound how many clearings a session can have.
AGAIN = 0.01


class AskSchedule:
    """Asks by a period, or after news and then not faster than a pause."""

    def __init__(self, period: float | None, pause: float) -> None:
        """Takes the period in seconds, None for asking after news, and the pause in seconds."""
        self._period = period
        self._pause = pause
        self._last: float | None = None
        self._has_news = self._is_again = False
        # When it was asked what was not yet answered, None if nothing was.
        self.since: float | None = None

    def has_news(self) -> None:
        """Notes that a Bid or a Gone was heard."""
        self._has_news = True

    def is_due(self, now: float) -> bool:
        """Whether to ask now."""
        if self.since is not None:
            return False
        if self._last is None:
            return self._period is not None or self._has_news or self._is_again
        return any(now >= self._last + wait for wait in self._waits())

    def _waits(self) -> list[float]:
        """For how long to wait after the last question: by the period, and by the pause if there is news or a question to ask again."""
        is_due = self._is_again or (self._period is None and self._has_news)
        waits = [*([self._pause] if is_due else []), *([] if self._period is None else [self._period])]
        return [max(wait, AGAIN) for wait in waits]

    def due_at(self) -> float | None:
        """When to ask next, None if that is not yet known: after news, or an answer."""
        if self.since is not None:
            return None
        if self._last is None:
            return 0.0 if self.is_due(0.0) else None
        waits = self._waits()
        return self._last + min(waits) if waits else None

    def asked(self, now: float) -> None:
        """Notes that it was asked now."""
        self._last = self.since = now
        self._has_news = self._is_again = False

    def answered(self, again: bool = False) -> None:
        """Notes the answer; `again` says that the question has to be asked again, after the pause."""
        self.since = None
        self._is_again = self._is_again or again

    def forget(self) -> None:
        """Notes that the service starts anew: what was not answered is asked again."""
        self._is_again = self._is_again or self.since is not None
        self.since = None
