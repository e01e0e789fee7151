"""What a device's control offers, and what the device's agent has made of it. Times are seconds of a clock that only rises."""

from __future__ import annotations

from collections.abc import Callable, Mapping
from datetime import datetime, timedelta, timezone

from ...cluster import Basis
from ...logs import NodeLog
from ..node.node_errors import BadMessage
from ..messages.frames import DeviceResume, Leave, Offer, Points, ResumeGone, Stated, Wanted
from .device_kinds import DeviceKind
from ..messages.messages import OfferMessage
from ..node.sessions import time_of, time_text

# The seconds after which an offer is made again that the full window did not let through.
AGAIN = 1.0


class Offers:
    """The newest offer of the control, until the agent has answered it, and how long it holds."""

    def __init__(
        self,
        basis: Basis,
        validity: float | None,
        log: NodeLog,
        kind: DeviceKind | None = None,
        answer: Callable[[str], None] = lambda why: None,
    ) -> None:
        """Takes the basis of the market, the seconds that an offer holds, None without an end, a call for lines, and the device's kind.

        The kind is None for a device whose control says no state, or names the kind itself.

        answer: takes why an offer was dropped, "" for one that was taken
        """
        self._basis = basis
        self._validity = validity
        self._log = log
        self._kind = kind
        self.answer = answer
        # The digest of the newest offer at the topic, and what the control offered last, with its reference.
        self.digest = ""
        self._offered: tuple[Wanted, int | None] | None = None
        self._has_begun = False
        self._wanted: Wanted | None = None
        self._asked: Wanted | None = None
        # By which words the last offer was made, None if by its powers, or not in this run.
        self._made: Wanted | None = None
        self._not_before = 0.0
        self._until: float | None = None
        # The power that the device counts as in place of its own offer, None if that counts.
        self._counted: int | None = None
        # Whether the device leaves since its control was silent.
        self._is_leaving = False
        # The end that is stored, as it was read last: it is looked at often, and is seldom another one.
        self._stored_end: tuple[str, datetime] | None = None
        self._last = 0
        # The control's own number of what is wanted, and of what was asked.
        self._reference: int | None = None
        self._asked_reference: int | None = None
        # The reference of each offer that a setpoint may still answer, by the offer's number.
        self.references: dict[int, int] = {}
        # The demands of the agent's last offer, None if it has left or never offered.
        self.current: tuple[int, ...] | None = None
        self.since: float | None = None

    def begin(
        self, resume: DeviceResume | ResumeGone | None, now: float, references: Mapping[int, int] | None = None, until: str = ""
    ) -> None:
        """Goes by the Resume that the agent begins with, None for an agent that never offered, and what was kept with it.

        until: until when its offer holds (RFC 3339), "" if that is not known

        What the control offered before in this process, in a session that is over, is offered again while it holds.
        """
        before, held = self._offered, self._until
        self.references = dict(references or {})
        self._last = 0 if resume is None else resume.last
        self.current, self._made = (resume.demands if isinstance(resume, DeviceResume) else None), None
        self._wanted = self._wanted if isinstance(self._wanted, Leave) else None
        self._offered = None
        self._until = held if self._has_begun and resume is None else self._left(now, until)
        self._has_begun = True
        self.forget()
        if before is not None and (held is None or held > now):
            self._until = held
            self._want_offer(*before)

    def _left(self, now: float, until: str) -> float | None:
        """When an offer ends that was made before this process."""
        ends = [] if self._validity is None else [now + self._validity]
        if until:
            ends.append(now + (time_of(until) - datetime.now(timezone.utc)).total_seconds())
        return min(ends, default=None)

    def ends_at(self, now: float) -> str:
        """Until when the newest offer holds (RFC 3339), "" without an end."""
        return "" if self._until is None else time_text(datetime.now(timezone.utc) + timedelta(seconds=self._until - now))

    def has_later_end(self, stored: str, now: float) -> bool:
        """Whether the newest offer holds for much longer than is stored."""
        if self._until is None or self._validity is None or self.current is None or not stored:
            return False
        if self._stored_end is None or self._stored_end[0] != stored:
            self._stored_end = stored, time_of(stored)
        left = (self._stored_end[1] - datetime.now(timezone.utc)).total_seconds()
        return self._until - now - left > self._validity / 4

    def forget(self) -> None:
        """Notes that the service starts anew: what it was asked and did not answer is asked again."""
        self._asked, self.since, self._not_before = None, None, 0.0

    def take(self, data: bytes, now: float, expiry: int | None = None) -> None:
        """Takes a message of the control. `expiry` is for how many seconds the broker lets it hold."""
        try:
            message = OfferMessage.of(data, self._basis, self._kind)
        except BadMessage as error:
            self._drop(str(error))
            return
        self._kind = message.kind
        if message.frame is None:
            return
        until = self._end_of(message, now, expiry)
        if until is not None and until <= now:
            self._drop(f"that of {message.time} is older than its validity")
            return
        self._until, self._is_leaving = until, self._is_leaving and isinstance(self._asked, Leave)
        self.answer("")
        if isinstance(message.frame, Leave):
            self._offered = None
            self.want(message.frame)
        else:
            self._want_offer(message.frame, message.reference)

    @property
    def has_wanted(self) -> bool:
        """Whether something is wanted of the agent that it has not answered."""
        return self._wanted is not None

    @property
    def has_offered(self) -> bool:
        """Whether the control has offered in this process, and what it offered holds."""
        return self._offered is not None

    def take_kept(self, data: bytes, now: float) -> None:
        """Takes an offer that the broker had kept and that was known before: it holds as long as it did then."""
        until = self._until
        if until is None or until > now:
            self.take(data, now, None if until is None else max(0, int(until - now)))
            self._until = until
        else:
            self._drop("it was known before, and its validity has ended")

    def _drop(self, why: str) -> None:
        self._log.of_stranger("the control").warning(f"an offer is not taken: {why}")
        self.answer(why)

    def _want_offer(self, frame: Wanted, reference: int | None) -> None:
        self._offered = frame, reference
        if self._counted is None:
            self.want(frame, reference)
        else:
            self.want(Offer((self._counted,) * self._basis.steps))

    def count_as(self, power: int | None) -> None:
        """Lets the device count as this power at every price in place of its own offer, None for its own again."""
        self._counted = power
        if self._offered is not None:
            self._want_offer(*self._offered)

    def want(self, frame: Wanted, reference: int | None = None) -> None:
        """Wants a frame, in place of one that was not yet asked. What the agent already does is not asked again.

        Then the reference is that of the offer which the agent has.
        """
        newest = self._wanted if self._wanted is not None else self._standing()
        if frame != newest:
            self._wanted = frame
        if self._wanted is not None:
            self._reference = reference
        elif not isinstance(frame, Leave):
            self.references = _noted(self.references, self._last, reference)

    def _standing(self) -> Wanted:
        if self._made is not None:
            return self._made
        return Leave() if self.current is None else Offer(self.current)

    def _end_of(self, message: OfferMessage, now: float, expiry: int | None) -> float | None:
        ends = [] if expiry is None else [now + expiry]
        if self._validity is not None:
            age = 0.0
            if message.time is not None:
                age = max(0.0, (datetime.now(timezone.utc) - time_of(message.time)).total_seconds())
            ends.append(now + self._validity - age)
        return min(ends, default=None)

    @property
    def is_out(self) -> bool:
        """Whether the device has no offer, and none is wanted."""
        return self.current is None and self._wanted is None

    def is_overdue(self, now: float) -> bool:
        """Whether the offer has ended that the agent has: the control was silent for too long, and the device leaves, or has to."""
        if self.current is None or self._is_leaving:
            return self.current is not None
        return self._until is not None and now > self._until and not isinstance(self._wanted, Leave)

    def due(self, now: float, may_leave: bool = True) -> Wanted | None:
        """What to ask the agent for now, or None. It counts as asked.

        may_leave: whether the control has fallen back, so that the device may leave once its offer has ended
        """
        if may_leave and not self._is_leaving and self.is_overdue(now):
            self._is_leaving = True
            self._log.warning("the control was silent for longer than the validity of its offer: the device leaves")
            self._wanted, self._offered = Leave(), None
        if self._wanted is None or self._asked is not None or now < self._not_before:
            return None
        if isinstance(self._wanted, Leave) and self.current is None:
            self._wanted = None
            return None
        self._asked, self._asked_reference, self.since = self._wanted, self._reference, now
        return self._asked

    def references_with(self, resume: DeviceResume | ResumeGone) -> dict[int, int]:
        """The references once this Resume counts. One with a greater number has that of what was asked."""
        if isinstance(resume, ResumeGone):
            return {}
        if resume.last <= self._last:
            return self.references
        if not self._is_answer(resume):
            # The offer is made anew under another number, after the device was let go.
            return _noted(self.references, resume.last, self.references.get(self._last))
        is_newest = self._wanted == self._asked
        return _noted(self.references, resume.last, self._reference if is_newest else self._asked_reference)

    def forget_before(self, number: int) -> None:
        """Lets go of the references of offers before this one: a setpoint answers this one, and none before it any more."""
        self.references = {its_number: reference for its_number, reference in self.references.items() if its_number >= number}

    def resumed(self, resume: DeviceResume | ResumeGone) -> None:
        """Goes by a Resume that was stored. One with a greater number answers what was asked."""
        is_answer = resume.last > self._last and self._is_answer(resume)
        if is_answer:
            self._made = None if isinstance(self._asked, Offer | Leave) else self._asked
        self.references = self.references_with(resume)
        self._last = resume.last
        self.current = resume.demands if isinstance(resume, DeviceResume) else None
        self._is_leaving = self._is_leaving and self.current is not None
        if is_answer:
            self._answered()

    def _is_answer(self, resume: DeviceResume | ResumeGone) -> bool:
        """Whether a Resume with a greater number is of what was asked."""
        if isinstance(resume, ResumeGone):
            return isinstance(self._asked, Leave)
        if isinstance(self._asked, Points | Stated):
            # The agent has made the powers. An offer that it made anew has a number that is further on.
            return resume.last == self._last + 2
        return self._asked == Offer(resume.demands)

    def refused(self, now: float) -> None:
        """Notes that the window is full: what was asked is asked again later."""
        self._asked, self.since, self._not_before = None, None, now + AGAIN

    def ended(self) -> None:
        """Notes that no number is left."""
        self._answered()

    def _answered(self) -> None:
        if self._wanted == self._asked:
            self._wanted = None
        self._asked, self.since = None, None


def _noted(references: Mapping[int, int], number: int, reference: int | None) -> dict[int, int]:
    """References in which that of this number is another one, or none."""
    others = {its_number: its for its_number, its in references.items() if its_number != number}
    return others if reference is None else {**others, number: reference}
