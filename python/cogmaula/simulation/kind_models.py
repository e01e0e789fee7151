"""The devices of a cluster file as models: they bid by their kind and state, and ticks are spread over their minutes.

The proved program makes the bid of a kind and a state. docs/CLUSTER_FILE.md has the formulas.
"""

from __future__ import annotations

from datetime import datetime
from math import floor

from ..program_limits import MOST_TEMPERATURE
from ..live.messages.frames import Stated
from ..live.device.device_kinds import PARAMETERS, DeviceKind
from ..nodes import Battery, Cogeneration, Freezer, HeatPump, Manual, Node, Objective
from ..phases import State
from .device import Bid

# What a state may lack to the next whole number and still count as it: what is lost by adding up parts of a tick.
NEARLY = 1e-6


class ClusterDevice:
    """A device of a cluster file with its state, as a `Device`.

    tick: the minutes of the tick that passes, since `warm`, `cool`, `loss` and `gain` are changes for a tick
    """

    def __init__(self, node: Node, tick: int) -> None:
        """Takes the device with the state of its start."""
        self.node = node
        self.tick = tick
        self._kind = DeviceKind(node.kind, tuple(getattr(node, word) for word in PARAMETERS.get(node.kind, ())))
        # A temperature, a charge in watt-hours, a power or a target in watts; of a manual device 0, since its bid is its state.
        self.state = float(getattr(node, "start", 0))
        self._manual: Bid = (node.demand or node.points or 0) if isinstance(node, Manual) else 0

    @property
    def name(self) -> str:
        """The device's name in the file."""
        return self.node.name

    def set(self, event: State) -> None:
        """Takes the state that an event of the file gives."""
        if event.value is not None:
            self.state = float(event.value)
        else:
            self._manual = event.demand or event.points or 0

    def bid(self, now: datetime) -> Bid:
        """See Device: its kind and its state, whose part below a whole number does not count. A manual device has the bid of the file."""
        match self.node:
            case Manual():
                return self._manual
            case Objective():
                return -self._whole_state
        return Stated(self._kind, self._whole_state)

    @property
    def _whole_state(self) -> int:
        return floor(self.state + NEARLY)

    def step(self, power: int, minutes: float) -> None:
        """See Device: over all minutes of a tick the state changes as by that tick, except for rounding."""
        node, share = self.node, minutes / self.tick
        match node:
            case Battery():
                self.state = min(max(self.state + power * minutes / 60, 0.0), float(node.capacity))
                return
            case Freezer():
                self.state += (node.warm - (node.cool if power > 0 else 0)) * share
            case HeatPump():
                self.state += ((node.gain if power > 0 else 0) - node.loss) * share
            case Cogeneration():
                self.state += ((node.gain if power < 0 else 0) - node.loss) * share
            case _:
                return
        self.state = min(max(self.state, -float(MOST_TEMPERATURE)), float(MOST_TEMPERATURE))
