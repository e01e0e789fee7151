"""What all frames of docs/RELAY.md have: a kind, fields as bytes, and what a node takes of them.

Powers and demands are whole watts, prices are price units, and children count from 1.
"""

from __future__ import annotations

import struct
from dataclasses import dataclass
from typing import ClassVar, cast

from ...cluster import Basis
from ..node.node_errors import BadFrame

# The most children of a node, the greatest demand in watts, and the greatest number and index.
CHILDREN, MOST, LAST_NUMBER = 256, 1_000_000_000, 4_294_967_295
# The formats of fields: a list of demands has one for each step, a list of numbers one for each child, and one of pairs as many as
# the first byte tells.
DEMANDS, NUMBERS, PAIRS = "demands", "numbers", "pairs"
# The first byte of a list of pairs is this number and how many there are.
POINTS = 128
# The format of the basis: the least price, the greatest price and the number of steps.
BASIS = "iiH"
# The name under which a frame that was read keeps its bytes.
_BYTES = "_bytes"


@dataclass(frozen=True)
class Frame:
    """A frame. Its fields stand in the order of its bytes; only the last may be a list."""

    # The first byte, the formats of the fields before a list, and what the list has, "" without a list.
    KIND: ClassVar[int] = 0
    FIELDS: ClassVar[str] = ""
    LIST: ClassVar[str] = ""

    def to_bytes(self) -> bytes:
        """The bytes of the frame. Raises struct.error if a number does not fit into its field."""
        members = vars(self)
        if _BYTES in members:
            return cast(bytes, members[_BYTES])
        # Not by astuple, which copies a list of demands one by one.
        fields = tuple(members.values())
        listed = fields[-1] if self.LIST else ()
        fixed = fields[:-1] if self.LIST else fields
        return struct.pack(f">B{self.FIELDS}{len(listed)}{item(self.LIST)}", self.first, *fixed, *listed)

    @property
    def first(self) -> int:
        """The first byte."""
        return self.KIND

    def keep_bytes(self, data: bytes) -> None:
        """Notes the bytes that the frame was read from, so that it is handed on as it came."""
        vars(self)[_BYTES] = data

    def require_right(self, steps: int) -> None:
        """Raises BadFrame if a field is none that a node takes, in a market of so many steps."""


def item(listed: str) -> str:
    """The format of an item of a list."""
    return "I" if listed == NUMBERS else "i"


def require_demands(demands: tuple[int, ...], steps: int) -> None:
    """Raises BadFrame if these are no demands of a bid: one a step, none above the one before, each within the limits."""
    if len(demands) != steps:
        raise BadFrame(f"{len(demands)} demands are there, and {steps} are due, one a step")
    if any(abs(demand) > MOST for demand in demands):
        raise BadFrame(f"a demand is outside ±{MOST} watts")
    if any(after > before for before, after in zip(demands, demands[1:], strict=False)):
        raise BadFrame("a demand is above the one of the step before")


def is_basis(basis: Basis) -> bool:
    """Whether Hello takes this basis: 2 to 1000 steps from one whole price to a greater one, with whole prices between."""
    is_range = 2 <= basis.steps <= 1_000 and -MOST <= basis.min < basis.max <= MOST
    return is_range and (basis.max - basis.min) % (basis.steps - 1) == 0


def are_limits(floor: int, ceiling: int) -> bool:
    """Whether a relay may have these limits in watts. A child may be bound by them too."""
    return -MOST <= floor <= 0 <= ceiling <= MOST


def require_child(child: int, number: int = 1) -> None:
    """Raises BadFrame if no child has the one, or no bid the other number."""
    if not 1 <= child <= CHILDREN:
        raise BadFrame(f"the child is {child}, and not 1 to {CHILDREN}")
    if number < 1:
        raise BadFrame("the number is 0")


def require_even(number: int) -> None:
    """Raises BadFrame if no device gives the number."""
    if number < 1 or number % 2:
        raise BadFrame(f"the number is {number}, and not 2, 4, 6, ..")


def require_limits(floor: int, ceiling: int) -> None:
    """Raises BadFrame if no relay may have these limits in watts."""
    if not are_limits(floor, ceiling):
        raise BadFrame(f"{floor} to {ceiling} watts are no limits: they are -{MOST} to 0 and 0 to {MOST}")


def require_basis(basis: Basis) -> None:
    """Raises BadFrame if it is no basis of Hello."""
    if not is_basis(basis):
        raise BadFrame(f"{basis} is no basis")
