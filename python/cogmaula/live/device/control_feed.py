"""What a device's control is told: its setpoint and until when that holds, and its fallback while the market is silent."""

from __future__ import annotations

import math
from dataclasses import replace

from ...logs import NodeLog
from .control import Control
from .deviation import Deviation
from ..messages.frames import Setpoint
from ..node.session_store import SessionStore
from ..messages.messages import BackMessage, ControlMessage, NewSessionMessage, SetpointMessage, SilentMessage
from .offers import Offers
from ..broker.publisher import Publisher
from ..node.sessions import Session, now_text
from ..node.node_settings import Settings
from ..node.silence import Heartbeat, Silence


class ControlFeed:
    """The control of one device. All calls are of the node's one thread; times are seconds of a clock that only rises."""

    def __init__(
        self,
        settings: Settings,
        publisher: Publisher,
        offers: Offers,
        silence: Silence,
        control: Control | None,
        log: NodeLog,
        deviation: Deviation,
    ) -> None:
        """Takes what the node has."""
        self._settings = settings
        self._publisher = publisher
        self._offers = offers
        self._silence = silence
        self._control = control
        self._deviation = deviation
        self._log = log
        # The setpoint and the heartbeat that the control was told last.
        self._told: tuple[SetpointMessage, Heartbeat | None] | None = None
        # When the setpoint ends that the control was told last, by a clock that is as slow as the market allows.
        self._ends = -math.inf
        self.is_silent = False

    def begin(self, now: float, has_setpoint: bool) -> None:
        """Begins a session: the stored setpoint is told anew, and an earlier process may have told it just now."""
        self._told = None
        if has_setpoint:
            self._holds(self._silence.times.validity, now)

    def _holds(self, seconds: float, now: float) -> None:
        """Notes that the control may hold a setpoint for so many seconds from now."""
        times = self._silence.times
        self._ends = max(self._ends, now + seconds + times.grace - times.validity)

    def may_leave(self, now: float) -> bool:
        """Whether the control has fallen back if it heard nothing: the setpoint that it was told last has ended."""
        return now >= self._ends

    def setpoint(self, keeping: SessionStore, setpoint: Setpoint, moment: str, now: float, has_bid: bool) -> None:
        """Stores a setpoint and then tells it, so that after a restart the control is told no older one.

        A setpoint of the same offer and step is only noted: the control keeps what it was told. With the next heartbeat it is told the
        later clearing.

        moment: when the market cleared
        """
        reference = self._offers.references.get(setpoint.number)
        told = SetpointMessage.made_of(setpoint, self._settings.basis, moment, reference)
        self._offers.forget_before(setpoint.number)
        is_same = told.is_same(keeping.stored.setpoint)
        (keeping.note if is_same else keeping.change)(setpoint=told, references=self._offers.references)
        self._silence.counts(setpoint.number)
        self.tick(now, has_bid, told)

    def tell_session(self, session: Session) -> None:
        """Tells the control that a session has begun: its setpoint of before comes no more."""
        self._tell(NewSessionMessage(session))

    def keep_references(self, keeping: SessionStore, last: int) -> None:
        """Stores the reference of the last offer, which the control made again."""
        references, setpoint = self._offers.references, keeping.stored.setpoint
        told = None if setpoint is None else setpoint.with_reference(last, references.get(last))
        keeping.change(setpoint=told, references=references)

    def tick(self, now: float, has_bid: bool, setpoint: SetpointMessage | None = None) -> None:
        """Tells the control what is new: silence, that the market is back, or its setpoint.

        has_bid:  whether the node has a bid at its parent, which it renews
        setpoint: the stored one, None without one
        """
        is_overdue = self._offers.is_overdue(now)
        if is_overdue or self._silence.is_silent(now, has_bid):
            if not self.is_silent and not self._offers.is_out:
                self.is_silent = True
                self._tell_silence("the control has offered nothing for too long, and its device leaves" if is_overdue else "")
            return
        if self.is_silent:
            self.is_silent, self._told = False, None
            self._log.info("the market is back")
            self._write(BackMessage(self._silence.heard_at or now_text()))
        if setpoint is None:
            return
        newest = self._silence.newest
        if self._told is None or self._told[1] != newest or not setpoint.is_same(self._told[0]):
            self._told = setpoint, newest
            silence = self._silence
            holds = silence.holds(now, has_bid)
            self._holds(holds, now)
            self._deviation.told(setpoint.power)
            self._tell(replace(setpoint, until=silence.until(now, has_bid), holds=holds))

    def _tell_silence(self, why: str) -> None:
        since, why = (now_text(), why) if why else (self._silence.since, self._silence.why)
        self._log.warning(f"the market is silent: {why}. The control is told its fallback, {self._settings.fallback} W")
        self._deviation.told(self._settings.fallback)
        self._tell(SilentMessage(since, self._settings.fallback, why))

    def _tell(self, told: ControlMessage) -> None:
        """Tells the control, and at the topic of its setpoint."""
        self._write(told)
        self._publisher.publish(self._settings.own_topic("setpoint"), told.to_bytes(), now_text())

    def _write(self, told: ControlMessage) -> None:
        if self._control is not None:
            self._control.write(told)
