"""What stands between the market's setpoint and a device: its bounds, its pace, its minimum times, and its fallback in silence.

It looks at no clock of the day: all times are seconds of a clock that only rises, so a jump of the machine's clock changes nothing. The
fallback does not wait for minimum times.
"""

from __future__ import annotations

from dataclasses import dataclass

from ..live.node.node_errors import BadSettings
from ..live.messages.frames import AnyOffer, Offer, Points, Stated
from ..logs import NodeLog


@dataclass(frozen=True)
class Limits:
    """What a device bears. Powers in watts, times in seconds.

    least, greatest: the bounds of what it is told, whatever the market says
    fallback:        what it takes if no setpoint comes for `silence`
    pace:            the least time between two writes of setpoints
    renew:           after which the same power is written again, as for a device that has lost it or watches for it
    run, pause:      for how long it runs at least once it runs, and rests at least once it rests; a start of the agent begins a rest
    """

    least: int
    greatest: int
    fallback: int = 0
    silence: float = 120.0
    pace: float = 1.0
    renew: float = 60.0
    run: float = 0.0
    pause: float = 0.0

    def __post_init__(self) -> None:
        """Raises BadSettings."""
        if not self.least <= self.fallback <= self.greatest:
            raise BadSettings(f"limits are {self.least} to {self.greatest} W and the fallback {self.fallback}: give a fallback within them")
        if not (self.silence > 0 and self.renew > 0 and min(self.pace, self.run, self.pause) >= 0):
            raise BadSettings("silence and renew have to be above 0 seconds, and pace, run and pause 0 or more")


class Guard:
    """What one device is told. Times are seconds of a clock that only rises."""

    def __init__(self, limits: Limits, log: NodeLog, now: float) -> None:
        """Takes the limits and a log. Nothing is written before the first setpoint, or `silence`."""
        self._limits = limits
        self._log = log
        self._ends = now + limits.silence
        self._ended = f"no setpoint came for {limits.silence:g} s"
        self._wanted: int | None = None
        self.is_silent = False
        # What was written last, and when; and since when it runs or rests, as far as that is known.
        self.written: int | None = None
        self._written_at = -float("inf")
        # After a start nobody knows for how long the device has rested, so its pause begins anew.
        self._since = now
        self.is_lost = False
        self._warned = ""

    def hear(self, power: int, now: float, holds: float | None = None) -> None:
        """Takes a setpoint of the market, which holds for so many seconds, and never longer than `silence`."""
        if holds is None or holds >= self._limits.silence:
            holds, self._ended = self._limits.silence, f"no setpoint came for {self._limits.silence:g} s"
        else:
            self._ended = "the setpoint has ended, and no newer one came"
        self._ends, self._wanted = now + holds, power
        if self.is_silent:
            self.is_silent = False
            self._log.info("a setpoint has come: the fallback is over")
        bounded = self._bounded(power)
        self._warn_once("" if bounded == power else f"the setpoint is {power} W, and the device takes {bounded} W: it is within {self._range}")

    def fall_back(self, why: str) -> None:
        """Takes the market's word that it is silent, or that the device leaves it."""
        if not self.is_silent:
            self.is_silent = True
            self._log.warning(f"{why}: the device takes its fallback, {self._limits.fallback} W")

    @property
    def has_fallen_back(self) -> bool:
        """Whether the device has its fallback, as far as is known: only then it may leave the market."""
        return self.is_silent and self.written == self._limits.fallback and not self.is_lost

    def due(self, now: float) -> int | None:
        """The power that has to be written now, in watts, None if nothing has to."""
        if now >= self._ends:
            self.fall_back(self._ended)
        if self.is_silent:
            return self._if_new(self._limits.fallback, now)
        if self._wanted is None or now - self._written_at < self._limits.pace:
            return None
        fixed, wanted = self.fixed(now), self._bounded(self._wanted)
        power = wanted if fixed is None or (fixed and wanted) else fixed
        return self._if_new(power, now)

    def _if_new(self, power: int, now: float) -> int | None:
        """The power, None if the device has it. A device that may have lost it gets it again at its pace."""
        again = self._limits.pace if self.is_lost else self._limits.renew
        return None if power == self.written and now - self._written_at < again else power

    def wrote(self, power: int, now: float) -> None:
        """Notes that the device has this power now."""
        if bool(power) != bool(self.written):
            self._since = now
        self.written, self._written_at, self.is_lost = power, now, False

    def lose(self) -> None:
        """Notes that the device may have lost what was written, since it did not answer."""
        self.is_lost = True

    def fixed(self, now: float) -> int | None:
        """The power that the device has to offer at every price, since it may not yet stop or start; None if it is free."""
        least = self._limits.run if self.written else self._limits.pause
        return self.written or 0 if now - self._since < least else None

    def bounded(self, offer: AnyOffer) -> AnyOffer:
        """What the device may offer, each power within its bounds. A kind with powers of its own is one whose powers are within them."""
        match offer:
            case Offer():
                return Offer(tuple(map(self._bounded, offer.demands)))
            case Points():
                return Points.of([(price, self._bounded(power)) for price, power in offer.points])
            case Stated(kind, state):
                if kind.kind == "load":
                    return Stated(kind, self._bounded(state))
                return Stated(kind, -self._bounded(-state)) if kind.kind == "solar" else offer

    def _bounded(self, power: int) -> int:
        return min(max(power, self._limits.least), self._limits.greatest)

    @property
    def _range(self) -> str:
        return f"{self._limits.least} to {self._limits.greatest} W"

    def _warn_once(self, text: str) -> None:
        if text and text != self._warned:
            self._log.warning(text)
        self._warned = text
