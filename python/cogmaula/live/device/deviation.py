"""Whether a device follows its setpoints, by what it measures. Times are seconds of a rising clock.

A device that takes something else than it was told for a while raises an alarm. If it goes on, its
own bid does not count: the market counts what it measures, at every price. After a while its own
bid is tried again.
"""

from __future__ import annotations

import json
from dataclasses import dataclass

from ..messages.frames import MOST
from ..messages.messages import object_of
from ..node.node_errors import BadMessage

# After how many times the seconds of a deviation a device's own bid is tried again.
TRIED_AGAIN = 10
# The longest reason that is kept, in characters.
QUOTED = 100


@dataclass(frozen=True)
class Measured:
    """What a control says of its device.

    power:   what it takes in watts, below 0 if it gives; None if that is not said
    refusal: that it refuses its setpoint, and why, in words
    """

    power: int | None
    refusal: str = ""

    def to_bytes(self, time: str) -> bytes:
        """The message under PREFIX/DEVICE/measured, which has the power alone."""
        return json.dumps({"power": self.power, "time": time}).encode()

    @staticmethod
    def of_line(data: bytes) -> Measured | None:
        """What a line tells: `{"measured": WATTS}`, or `{"refused": WATTS, "why": ..}`.

        None of another line. Raises BadMessage.
        """
        try:
            told = object_of(data, "the line")
        except BadMessage:
            return None
        if "measured" in told:
            return Measured(_watts(told["measured"], "measured"))
        if "refused" in told:
            power = _watts(told["refused"], "refused")
            why = str(told.get("why", "no word why"))[:QUOTED]
            return Measured(None, f"it refuses {power} W: {why}")
        return None

    @staticmethod
    def of_topic(data: bytes) -> Measured:
        """What the message under PREFIX/DEVICE/measured tells. Raises BadMessage."""
        return Measured(_watts(object_of(data, "what was measured").get("power"), "power"))


def _watts(value: object, what: str) -> int:
    """A power in whole watts. Raises BadMessage."""
    if isinstance(value, bool) or not isinstance(value, int | float) or not -MOST <= value <= MOST:
        raise BadMessage(f"{what} is {value!r}: give watts within ±{MOST}")
    return round(value)


class Deviation:
    """What is known of one device's power."""

    def __init__(self, watts: float | None, seconds: float) -> None:
        """Takes by how many watts a device may deviate, and for how many seconds.

        With None watts nothing follows. A measurement that is older than these seconds says nothing.
        """
        self._watts = watts
        self._seconds = seconds
        self._told: int | None = None
        self._power: int | None = None
        self._heard = self._again = 0.0
        # Since when it deviates, None if it follows, and why if it said so itself.
        self._since: float | None = None
        self._refusal = ""
        # What counts in place of its bid, None if its own bid does; and what is wrong, in words.
        self.counts: int | None = None
        self.alarm = ""

    @property
    def measured(self) -> int | None:
        """What the device measured last, in watts, None if it never did."""
        return self._power

    def told(self, power: int) -> None:
        """Notes what the control is told. With another power the device has its seconds anew."""
        if power != self._told:
            self._told, self._since, self._refusal = power, None, ""

    def hear(self, told: Measured, now: float) -> None:
        """Takes what the control says."""
        if told.power is not None:
            self._power, self._heard = told.power, now
        if told.refusal:
            self._refusal = told.refusal
        self.tick(now)

    def tick(self, now: float) -> None:
        """Goes by the clock."""
        if self._watts is None:
            return
        if self.counts is not None:
            self._go_on(now, self._watts)
            return
        if not self._deviates(now, self._watts):
            self._since, self.alarm = None, ""
            return
        self._since = now if self._since is None else self._since
        if now >= self._since + self._seconds or self._refusal:
            takes = f"the device takes {self._power} W, and was told {self._told} W"
            self.alarm = self._refusal or takes
        if now >= self._since + 2 * self._seconds and self._power is not None:
            self.counts, self._again = self._power, now + TRIED_AGAIN * self._seconds

    def _deviates(self, now: float, watts: float) -> bool:
        if self._refusal:
            return True
        if self._told is None or self._power is None or now > self._heard + self._seconds:
            return False
        return abs(self._power - self._told) > watts

    def _go_on(self, now: float, watts: float) -> None:
        """Counts what is measured, and tries the device's own bid again after a while."""
        assert self.counts is not None
        if self._power is not None and abs(self._power - self.counts) > watts:
            self.counts = self._power
        if now >= self._again:
            self.counts, self._told, self._since, self._refusal = None, None, None, ""
