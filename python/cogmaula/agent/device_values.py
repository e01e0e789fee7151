"""Values as devices have them and as the agent counts: numbers in texts and in JSON, their scale and their unit."""

from __future__ import annotations

import json
import math
from dataclasses import dataclass
from typing import Any

from ..errors import MarketError
from ..live.node.node_errors import BadSettings

# What one of each unit is in the agent's own: watts, watt-hours, degrees. A percent is one of the capacity of the device.
UNITS = {"W": 1.0, "kW": 1_000.0, "MW": 1_000_000.0, "Wh": 1.0, "kWh": 1_000.0, "MWh": 1_000_000.0, "C": 1.0, "%": 0.01}
# What stands for the value in what is written.
VALUE = "VALUE"
# The longest text of a device that a line quotes, in characters.
QUOTED = 64


class NoReading(MarketError):
    """A device's value could not be read, or is no number. The message says why."""


class NotWritten(MarketError):
    """A power could not be written to a device. The message says why."""


@dataclass(frozen=True, kw_only=True)
class Place:
    """Where a value of a device is read or written. The value is what is there less `offset`, times `scale`, in `unit`.

    scale:  such as 0.1 for a register that counts in tenths
    unit:   one of W, kW, MW, Wh, kWh, MWh, C, and % for a share of the device's capacity
    offset: what is there for 0, such as 2 for a register of SG Ready, or 273.15 for kelvins
    """

    scale: float = 1.0
    unit: str = "W"
    offset: float = 0.0

    def __post_init__(self) -> None:
        """Raises BadSettings."""
        if not math.isfinite(self.offset):
            raise BadSettings(f"the offset is {self.offset!r}: give a number")
        if self.unit not in UNITS or not (math.isfinite(self.scale) and self.scale):
            raise BadSettings(f"the unit is {self.unit!r} and the scale {self.scale!r}: give one of {', '.join(UNITS)} and a number that is not 0")

    def reading_of(self, found: float) -> float:
        """What is there, in the unit. Raises NoReading if it is no finite number."""
        reading = (found - self.offset) * self.scale
        if not math.isfinite(reading):
            raise NoReading(f"it is {found}")
        return reading

    def value_of(self, found: float, capacity: float = 1.0) -> float:
        """The value of what is there. Raises NoReading if it is no finite number."""
        value = self.reading_of(found) * UNITS[self.unit] * (capacity if self.unit == "%" else 1.0)
        if not math.isfinite(value):
            raise NoReading(f"it is {found}")
        return value

    def to_write(self, watts: int) -> float:
        """What a power is there, a whole number if it is one."""
        found = watts / (self.scale * UNITS[self.unit]) + self.offset
        return round(found) if abs(found - round(found)) < 1e-9 else found


def number_in(data: bytes, pointer: str) -> float:
    """The number that a text is, or that a JSON pointer (RFC 6901) leads to in it. Raises NoReading."""
    text = data.decode(errors="replace").strip()
    try:
        found: Any = json.loads(text)
        for part in pointer.split("/")[1:]:
            word = part.replace("~1", "/").replace("~0", "~")
            found = found[int(word)] if isinstance(found, list) else found[word]
    except (ValueError, LookupError, TypeError, RecursionError):
        raise NoReading(f"{text[:QUOTED]!r} has no number{f' at {pointer}' if pointer else ''}") from None
    if isinstance(found, str):
        try:
            found = float(found)
        except ValueError:
            pass
    if isinstance(found, bool) or not isinstance(found, int | float):
        raise NoReading(f"{str(found)[:QUOTED]!r} is no number")
    try:
        return float(found)
    except OverflowError:
        raise NoReading("the number is too large") from None


def text_with(form: str, number: float) -> str:
    """The form with the number in the place of VALUE."""
    return form.replace(VALUE, json.dumps(number))


def require_pointer(pointer: str) -> None:
    """Raises BadSettings if a text is no JSON pointer."""
    if pointer and not pointer.startswith("/"):
        raise BadSettings(f"the pointer is {pointer!r}: write it as /battery/soc, or leave it out")
