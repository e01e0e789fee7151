"""The nodes of a cluster: a frozen class for each kind, with the members of its row in docs/CLUSTER_FILE.md.

Powers are in watts, positive if a device takes power. Charges are in watt-hours. Temperatures are whole numbers of the user's
own unit. A class takes whole numbers of any library, such as NumPy's, and raises TypeError with the member's name for all else. It
looks at no limit: the program does (`Cluster.check`).
"""

from __future__ import annotations

from dataclasses import dataclass, fields, replace
from itertools import accumulate, pairwise
from typing import Any, ClassVar

from .members import Demand, Points, look

AUCTIONEER = "auctioneer"
# The members of which a manual device has one.
BIDS = ("demand", "points")


@dataclass(frozen=True)
class Node:
    """What all nodes have: a name, which no other node of the cluster has."""

    name: str
    kind: ClassVar[str] = ""
    # Whether the node is a leaf of the tree, and whether its state changes at a tick.
    is_device: ClassVar[bool] = True
    ticks: ClassVar[bool] = False

    def __post_init__(self) -> None:
        """Keeps each member as its type. Raises TypeError."""
        look(self)

    @property
    def above(self) -> str:
        """The name of the parent. That of an objective is the auctioneer."""
        return str(getattr(self, "parent", AUCTIONEER))

    def members(self) -> dict[str, Any]:
        """The members of the node in the cluster file, in the order of the page."""
        own = {field.name: getattr(self, field.name) for field in fields(self)}
        parent = {"parent": own.pop("parent")} if "parent" in own else {}
        own = {name: value for name, value in own.items() if value is not None or name not in BIDS}
        return {"name": own.pop("name"), "kind": self.kind, **parent, **own}


@dataclass(frozen=True, kw_only=True)
class Child(Node):
    """A node that names its parent: the auctioneer or a concentrator that comes earlier in the cluster."""

    parent: str = AUCTIONEER


@dataclass(frozen=True, kw_only=True)
class Concentrator(Child):
    """Adds the bids of the nodes below it and passes the price down."""

    kind: ClassVar[str] = "concentrator"
    is_device: ClassVar[bool] = False


@dataclass(frozen=True, kw_only=True)
class Limited(Child):
    """A concentrator that keeps the power of the nodes below it within limits, by a price of its own. Limits in watts."""

    kind: ClassVar[str] = "limited"
    is_device: ClassVar[bool] = False
    floor: int
    ceiling: int


@dataclass(frozen=True, kw_only=True)
class Freezer(Child):
    """Takes `power` (W) up to a price that is higher the warmer it is. Its state is a temperature."""

    kind: ClassVar[str] = "freezer"
    ticks: ClassVar[bool] = True
    low: int
    high: int
    power: int
    warm: int
    cool: int
    start: int


@dataclass(frozen=True, kw_only=True)
class HeatPump(Child):
    """Takes `power` (W) up to a price that is higher the colder the room is. Its state is a temperature."""

    kind: ClassVar[str] = "heat_pump"
    ticks: ClassVar[bool] = True
    low: int
    high: int
    power: int
    loss: int
    gain: int
    start: int


@dataclass(frozen=True, kw_only=True)
class Cogeneration(Child):
    """Delivers `power` (W) from a price on that is lower the colder its buffer is. Its state is a temperature."""

    kind: ClassVar[str] = "cogeneration"
    ticks: ClassVar[bool] = True
    low: int
    high: int
    power: int
    loss: int
    gain: int
    start: int


@dataclass(frozen=True, kw_only=True)
class Battery(Child):
    """Charges at low prices and discharges at high ones. `capacity` and `start` in watt-hours, `charge` and `discharge` in watts.

    `spread` is the number of steps that the price has to be away from the middle price.
    """

    kind: ClassVar[str] = "battery"
    ticks: ClassVar[bool] = True
    capacity: int
    charge: int
    discharge: int
    spread: int
    start: int

    def sliced(self, count: int, apart: int = 1) -> list[Battery]:
        """The battery as so many small ones, so that a part of a surplus fits.

        A battery charges with its whole power or not at all. Slices do so one after another: each has its share of the capacity, the
        powers and the start, and a spread that is `apart` steps greater than that of the slice before. The shares are whole and add up
        to the battery. The start is shared as the capacity is, so that no slice starts above its own. The names are the battery's with
        a number from 0 behind, all of one length.

        Raises ValueError if there is no slice, or one would have no capacity.
        """
        if not 1 <= count <= self.capacity:
            raise ValueError(f"{self.name} has {self.capacity} Wh, which {count} slices cannot share")

        def shares(whole: int, weights: list[int]) -> list[int]:
            total, up_to = sum(weights), [0, *accumulate(weights)]
            return [whole * after // total - whole * before // total for before, after in pairwise(up_to)]

        capacities, charges, discharges = (shares(amount, [1] * count) for amount in (self.capacity, self.charge, self.discharge))
        starts = shares(self.start, capacities)
        digits = len(str(count - 1))
        return [
            replace(
                self,
                name=f"{self.name}{at:0{digits}}",
                capacity=capacities[at],
                charge=charges[at],
                discharge=discharges[at],
                spread=self.spread + at * apart,
                start=starts[at],
            )
            for at in range(count)
        ]


@dataclass(frozen=True, kw_only=True)
class Solar(Child):
    """Delivers `start` (W, a positive number) at every price, as wind and all else that delivers what it has."""

    kind: ClassVar[str] = "solar"
    start: int


@dataclass(frozen=True, kw_only=True)
class Load(Child):
    """Takes `start` (W) at every price."""

    kind: ClassVar[str] = "load"
    start: int


@dataclass(frozen=True, kw_only=True)
class Objective(Node):
    """A request to the cluster for `start` watts: positive to take, negative to deliver. It has no parent."""

    kind: ClassVar[str] = "objective"
    start: int


@dataclass(frozen=True, kw_only=True)
class Manual(Child):
    """A device with its bid in the file: `demand`, watts for each step, or `points`, pairs of a price and watts. Takes lists too."""

    kind: ClassVar[str] = "manual"
    demand: Demand | None = None
    points: Points | None = None


ALL: tuple[type[Node], ...] = (
    Concentrator, Limited, Freezer, HeatPump, Cogeneration, Battery, Solar, Load, Objective, Manual,
)
KINDS: dict[str, type[Node]] = {kind.kind: kind for kind in ALL}
