"""The life of a cluster file: its devices as models, its phases of events by the clock, and what each device bids meanwhile."""

from __future__ import annotations

from collections.abc import Iterator
from dataclasses import dataclass
from datetime import datetime, timedelta

from ..cluster import Cluster
from ..data_frames import START
from ..live.messages.frames import AnyOffer
from ..phases import Event, Events, Join, Leave, State, Tick
from .device import offer_of
from .kind_models import ClusterDevice

# The minutes of a tick if the file has none.
USUAL_TICK = 15


@dataclass(frozen=True)
class Moment:
    """Something that happens by the clock: the events of a phase, or the begin of a tick of so many minutes."""

    minute: int
    phase: int
    what: Events | Tick


def moments_of(cluster: Cluster) -> Iterator[Moment]:
    """What happens when: a phase of events takes no time, and a tick takes its minutes."""
    minute = 0
    for phase, what in enumerate(cluster.phases, 1):
        yield Moment(minute, phase, what)
        minute += what.minutes if isinstance(what, Tick) else 0


class Life:
    """The devices of a cluster file as time passes. After the last phase they live on, with ticks as the last one.

    powers: the power that each device follows, in watts; whoever tells setpoints keeps them here
    """

    def __init__(self, cluster: Cluster) -> None:
        """Is before the first phase: nobody is a member."""
        self._basis = cluster.basis
        self._moments = list(moments_of(cluster))
        ticks = [moment.what.minutes for moment in self._moments if isinstance(moment.what, Tick)]
        self.devices = {device.name: ClusterDevice(device, (ticks or [USUAL_TICK])[0]) for device in cluster.devices}
        self.members: set[str] = set()
        self.powers: dict[str, int] = dict.fromkeys(self.devices, 0)
        self.minute = 0.0

    def advance(self, minute: float) -> list[str]:
        """Lets time pass up to a minute of its clock, and gives a line for each phase of events on the way."""
        lines: list[str] = []
        while True:
            while self._moments and self._moments[0].minute <= self.minute:
                lines += self._happens(self._moments.pop(0))
            to = min(minute, self._moments[0].minute) if self._moments else minute
            if to <= self.minute:
                return lines
            for name in self.members:
                self.devices[name].step(self.powers[name], to - self.minute)
            self.minute = to

    def _happens(self, moment: Moment) -> Iterator[str]:
        if isinstance(moment.what, Tick):
            for device in self.devices.values():
                device.tick = moment.what.minutes
            return
        for event in moment.what.events:
            self._take(event)
        yield f"phase {moment.phase}: {', '.join(map(_words, moment.what.events)) or 'no event'}"

    def _take(self, event: Event) -> None:
        match event:
            case Join():
                self.members.add(event.device)
            case Leave():
                self.members.discard(event.device)
                self.powers[event.device] = 0
            case State():
                self.devices[event.device].set(event)

    def offers(self) -> dict[str, AnyOffer | None]:
        """What each device offers now, None if it is no member."""
        now = self.now
        return {name: offer_of(device.bid(now), self._basis, name) if name in self.members else None for name, device in self.devices.items()}

    @property
    def now(self) -> datetime:
        """The moment of its clock."""
        return START + timedelta(minutes=self.minute)


def _words(event: Event) -> str:
    """An event in words."""
    match event:
        case Join():
            return f"{event.device} joins"
        case Leave():
            return f"{event.device} leaves"
        case State():
            return f"{event.device} has {'another bid' if event.value is None else event.value}"
