"""The kinds of device that bid by their state. docs/LIVE.md has them in a table. The agent makes the bid: see docs/RELAY.md."""

from __future__ import annotations

from collections.abc import Mapping
from dataclasses import dataclass
from typing import Any

from ..node.node_errors import BadFrame
from ..messages.frame import MOST

_TEMPERATURE = 1_000_000
# The least and the greatest number that each parameter may be: a temperature, its change in a tick, watts, watt-hours or steps.
_LIMITS = {
    "low": (-_TEMPERATURE, _TEMPERATURE),
    "high": (-_TEMPERATURE, _TEMPERATURE),
    "power": (0, MOST),
    "warm": (0, _TEMPERATURE),
    "cool": (0, _TEMPERATURE),
    "loss": (0, _TEMPERATURE),
    "gain": (0, _TEMPERATURE),
    "capacity": (1, MOST),
    "charge": (0, MOST),
    "discharge": (0, MOST),
    "spread": (0, 1_000),
}
_HEATED = ("low", "high", "power", "loss", "gain")
# The parameters of each kind, in the order of its number from 0 on.
PARAMETERS: dict[str, tuple[str, ...]] = {
    "freezer": ("low", "high", "power", "warm", "cool"),
    "heat_pump": _HEATED,
    "cogeneration": _HEATED,
    "battery": ("capacity", "charge", "discharge", "spread"),
    "solar": (),
    "load": (),
}
# How many parameters a frame has.
_WIDTH = 5


@dataclass(frozen=True)
class DeviceKind:
    """A kind of device, such as "battery", and its parameters in their order."""

    kind: str
    parameters: tuple[int, ...] = ()

    @staticmethod
    def of(told: Mapping[str, object]) -> DeviceKind:
        """The kind that members tell, such as `{"kind": "battery", "capacity": 5000, ..}`. Raises BadFrame."""
        kind = told.get("kind")
        if not isinstance(kind, str) or kind not in PARAMETERS:
            raise BadFrame(f"kind is {kind!r}: give one of {', '.join(PARAMETERS)}")
        names = PARAMETERS[kind]
        for name in told:
            if name not in ("kind", *names):
                raise BadFrame(f"{name} is no parameter of a {kind}: {', '.join(names) or 'none'} may be given")
        for name in names:
            least, greatest = _LIMITS[name]
            value = told.get(name)
            if type(value) is not int or not least <= value <= greatest:
                raise BadFrame(f"{name} of a {kind} is {value!r}: give a whole number from {least} to {greatest}")
        parameters = tuple(value for value in map(told.get, names) if isinstance(value, int))
        if "low" in names and parameters[0] >= parameters[1]:
            raise BadFrame(f"low of a {kind} is {parameters[0]}, and high {parameters[1]}: give a low below the high")
        return DeviceKind(kind, parameters)

    @staticmethod
    def of_row(number: int, row: tuple[int, ...]) -> DeviceKind:
        """The kind of this number and these five parameters. Raises BadFrame."""
        if number >= len(PARAMETERS):
            raise BadFrame(f"the kind's number is {number}: give 0 to {len(PARAMETERS) - 1}")
        kind, names = list(PARAMETERS.items())[number]
        if any(row[len(names) :]):
            raise BadFrame(f"a {kind} has {len(names)} parameters, and the others are 0")
        return DeviceKind.of({"kind": kind, **dict(zip(names, row, strict=False))})

    @property
    def number(self) -> int:
        """The number of the kind."""
        return list(PARAMETERS).index(self.kind)

    @property
    def row(self) -> tuple[int, ...]:
        """Five parameters, 0 where there is none."""
        return self.parameters + (0,) * (_WIDTH - len(self.parameters))

    def members(self) -> dict[str, Any]:
        """The kind as `of` takes it."""
        return {"kind": self.kind, **dict(zip(PARAMETERS[self.kind], self.parameters, strict=True))}

    @property
    def powers(self) -> tuple[int, int]:
        """The least and the greatest of the powers that are parameters, in watts, below 0 to give; 0 and 0 of a kind without."""
        named = self.members()
        power, charge, discharge = (named.get(word, 0) for word in ("power", "charge", "discharge"))
        return (-power, 0) if self.kind == "cogeneration" else (-discharge, power + charge)

    def require_state(self, state: int) -> None:
        """Raises BadFrame if no device of the kind may have this state."""
        unit, least, greatest = self._states
        if not least <= state <= greatest:
            raise BadFrame(f"the state of a {self.kind} is {state}: give {least} to {greatest} {unit}")

    def nearest_state(self, found: float) -> int:
        """The state that is nearest to what was measured, in the unit of the kind."""
        _, least, greatest = self._states
        return min(max(round(found), least), greatest)

    @property
    def _states(self) -> tuple[str, int, int]:
        """The unit of the states, and the least and the greatest one."""
        match self.kind:
            case "battery":
                return "watt-hours", 0, self.parameters[0]
            case "solar" | "load":
                return "watts", 0, MOST
            case _:
                return "units of temperature", -_TEMPERATURE, _TEMPERATURE
