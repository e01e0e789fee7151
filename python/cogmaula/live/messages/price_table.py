"""The table of prices of a node: one message with the Price of each child of it. docs/LIVE.md has its form.

All Prices of one clearing at one node differ only in the child and in the number of its bid. So a table has what they share once, and
the numbers. A child's carrier makes its own Price of it, byte by byte the one that the parent's service wrote.
"""

from __future__ import annotations

import struct
from dataclasses import dataclass, field

from ...cluster import Basis
from ..node.node_errors import BadFrame
from .frame import BASIS, CHILDREN, is_basis
from .frames import Price

# The first byte: no frame of a service has this kind.
KIND = 31
_HEAD = struct.Struct(f">BIH{BASIS}")
_NUMBER = struct.Struct(">I")
# The most bytes of a table.
LONGEST = _HEAD.size + CHILDREN * _NUMBER.size


@dataclass
class PriceTable:
    """The Prices of one clearing at one node.

    index:   the index of the clearing
    step:    the step for which the node settles
    basis:   that of the market
    numbers: of each child that has a Price, the number of the bid that it answers
    """

    index: int
    step: int
    basis: Basis
    numbers: dict[int, int] = field(default_factory=dict)

    @staticmethod
    def of(data: bytes) -> PriceTable:
        """The table that a message is. Raises BadFrame."""
        index, step, basis = _head_of(data)
        listed = struct.unpack_from(f">{(len(data) - _HEAD.size) // _NUMBER.size}I", data, _HEAD.size)
        return PriceTable(index, step, basis, {child: number for child, number in enumerate(listed, 1) if number})

    def to_bytes(self) -> bytes:
        """The message: a number for each child up to the last one that has a Price, 0 for one without."""
        last = max(self.numbers, default=0)
        listed = (self.numbers.get(child, 0) for child in range(1, last + 1))
        basis = self.basis
        return _HEAD.pack(KIND, self.index, self.step, basis.min, basis.max, basis.steps) + struct.pack(f">{last}I", *listed)

    def is_of_clearing(self, price: Price) -> bool:
        """Whether a Price may be in the table: it is of the same clearing, step and basis."""
        own = self.basis
        return (self.index, self.step, own.min, own.max, own.steps) == (price.index, price.step, price.least, price.greatest, price.steps)

    def prices(self) -> list[Price]:
        """The Price of each child, in the order of the children."""
        return [_price(child, self.numbers[child], self.index, self.step, self.basis) for child in sorted(self.numbers)]


def price_for(data: bytes, child: int) -> Price | None:
    """The Price of one child in the table that a message is, None if it has none. Only this child's part is read. Raises BadFrame."""
    index, step, basis = _head_of(data)
    at = _HEAD.size + (child - 1) * _NUMBER.size
    if at >= len(data):
        return None
    (number,) = _NUMBER.unpack_from(data, at)
    return _price(child, number, index, step, basis) if number else None


def _head_of(data: bytes) -> tuple[int, int, Basis]:
    """The index, the step and the basis of a table. Raises BadFrame if the bytes are none."""
    if len(data) < _HEAD.size or data[0] != KIND:
        raise BadFrame(f"it is no table of prices, which begins with the byte {KIND} and has {_HEAD.size} bytes or more")
    if len(data) > LONGEST or (len(data) - _HEAD.size) % _NUMBER.size:
        raise BadFrame(f"a table of prices has {_HEAD.size} bytes and {_NUMBER.size} for each of at most {CHILDREN} children, and not {len(data)}")
    _, index, step, least, greatest, steps = _HEAD.unpack_from(data)
    basis = Basis(least, greatest, steps)
    if not is_basis(basis):
        raise BadFrame(f"{basis} is no basis")
    if step >= steps:
        raise BadFrame(f"the step is {step}, and there are {steps}, from 0 on")
    return index, step, basis


def _price(child: int, number: int, index: int, step: int, basis: Basis) -> Price:
    return Price(child, number, index, step, basis.min, basis.max, basis.steps)
