"""The frames between a device's control and its agent: offers by powers, by points or by a state, leaving, and setpoints."""

from __future__ import annotations

from collections.abc import Sequence
from dataclasses import dataclass

from ...cluster import Basis
from ..node.node_errors import BadFrame
from .frame import DEMANDS, MOST, PAIRS, POINTS, Frame, require_demands
from ..device.device_kinds import DeviceKind

# The most points of an offer.
MOST_POINTS = 64


@dataclass(frozen=True)
class Offer(Frame):
    """The power in watts that a device would take at each step."""

    KIND = 13
    LIST = DEMANDS
    demands: tuple[int, ...]

    def require_right(self, steps: int) -> None:
        """Raises BadFrame if no agent takes it."""
        require_demands(self.demands, steps)


@dataclass(frozen=True)
class Leave(Frame):
    """The device bids no more."""

    KIND = 14


@dataclass(frozen=True)
class Setpoint(Frame):
    """The device is to take this power in watts, by its offer of this number, the clearing of this index, and its step."""

    KIND = 15
    FIELDS = "IIHi"
    number: int
    index: int
    step: int
    power: int


@dataclass(frozen=True)
class Points(Frame):
    """The power that a device would take at some prices: a price, the power in watts at it, the next price, and so on.

    The agent makes the powers of each step of them. Its kind tells how many points there are.
    """

    KIND = POINTS
    LIST = PAIRS
    numbers: tuple[int, ...]

    @staticmethod
    def of(points: Sequence[tuple[int, int]]) -> Points:
        """The frame of pairs of a price in price units and a power in watts."""
        return Points(tuple(number for pair in points for number in pair))

    @property
    def first(self) -> int:
        """The first byte, which tells how many points there are."""
        return POINTS + len(self.numbers) // 2

    @property
    def points(self) -> tuple[tuple[int, int], ...]:
        """Pairs of a price in price units and a power in watts."""
        return tuple(zip(self.numbers[::2], self.numbers[1::2], strict=True))

    def require_right(self, steps: int) -> None:
        """Raises BadFrame if no agent takes them, whatever the prices of its basis."""
        points = self.points
        if not 1 <= len(points) <= MOST_POINTS:
            raise BadFrame(f"{len(points)} points are there: give 1 to {MOST_POINTS}")
        for at, (price, power) in enumerate(points):
            if abs(power) > MOST:
                raise BadFrame(f"the power {power} of point {at} is outside ±{MOST} watts")
            if at and price < points[at - 1][0]:
                raise BadFrame(f"the price {price} of point {at} is below {points[at - 1][0]}, the one before: sort points by price")
            if at and power > points[at - 1][1]:
                raise BadFrame(f"the power {power} of point {at} is above {points[at - 1][1]}, the one before: powers fall")

    def require_over(self, basis: Basis) -> None:
        """Raises BadFrame if an agent of this basis does not take them."""
        self.require_right(basis.steps)
        for at, (price, _) in enumerate(self.points):
            if not basis.min <= price <= basis.max:
                raise BadFrame(f"the price {price} of point {at} is outside the basis, {basis.min} to {basis.max}")


@dataclass(frozen=True)
class Kind(Frame):
    """The kind of a device, by its number from 0 on and its parameters, 0 where there is none. No agent answers it."""

    KIND = 29
    FIELDS = "B5i"
    number: int
    a: int
    b: int
    c: int
    d: int
    e: int

    @staticmethod
    def of(kind: DeviceKind) -> Kind:
        """The frame of a kind."""
        return Kind(kind.number, *kind.row)

    def require_right(self, steps: int) -> None:
        """Raises BadFrame if no agent takes it."""
        DeviceKind.of_row(self.number, (self.a, self.b, self.c, self.d, self.e))


@dataclass(frozen=True)
class State(Frame):
    """The state of a device of the newest Kind, in the unit of the kind. The agent makes the powers of each step of it."""

    KIND = 30
    FIELDS = "i"
    state: int


@dataclass(frozen=True)
class Stated:
    """A kind of device, and the state that one has. An agent that came up anew knows no kind, so both are told."""

    kind: DeviceKind
    state: int


# The ways to offer, and what a control may want of its agent.
AnyOffer = Offer | Points | Stated
Wanted = AnyOffer | Leave


def frames_of(wanted: Wanted) -> tuple[Frame, ...]:
    """The frames that ask an agent for it."""
    return (Kind.of(wanted.kind), State(wanted.state)) if isinstance(wanted, Stated) else (wanted,)
