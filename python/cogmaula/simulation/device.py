"""What a device of a simulation is: a name, a state, a bid and a step; and what it offers to a market by its bid."""

from __future__ import annotations

import operator
from collections.abc import Sequence
from datetime import datetime
from typing import Any, Protocol

from ..cluster import Basis
from ..errors import MarketError
from ..live.node.node_errors import BadFrame
from ..live.messages.frames import AnyOffer, Offer, Points, Stated, require_demands

# Watts at every price; or watts at each step of the basis; or points of a price and watts; or a kind of device and its state.
Bid = int | Sequence[int] | Sequence[tuple[int, int]] | Stated
Demands = tuple[int, ...]


class BadBid(MarketError):
    """A device bids what no market takes. The message names the device, what it bid and what is allowed."""


class Device(Protocol):
    """A device as a simulation, a live market and a study see it."""

    @property
    def name(self) -> str:
        """The device's name, of its own."""

    @property
    def state(self) -> float:
        """What changes as time passes: a charge in watt-hours, a temperature, or the power that is given, in watts."""

    def bid(self, now: datetime) -> Bid:
        """What it would take from this moment on, in watts, below 0 to give: at every price, at each step, by points, or by a state.

        Demands never rise with the price. The device has this for the moment until the next call.
        """

    def step(self, power: int, minutes: float) -> None:
        """Lets so many minutes pass, in which it takes so many watts. The moment is that of the last bid, and moves on with each step."""


def offer_of(bid: Bid, basis: Basis, name: str) -> AnyOffer:
    """What a device offers to a market by its bid: numbers of any library that are whole, and arrays of them. Raises BadBid."""
    if not isinstance(bid, Stated) and hasattr(bid, "tolist"):
        bid = bid.tolist()
    try:
        if isinstance(bid, Stated):
            bid.kind.require_state(bid.state)
            return bid
        if isinstance(bid, Sequence) and len(bid) and isinstance(bid[0], Sequence):
            points = Points.of([_pair(pair) for pair in bid])
            points.require_over(basis)
            return points
        if not isinstance(bid, Sequence):
            watts = _whole(bid)
            require_demands((watts,), 1)
            return Offer((watts,) * basis.steps)
        offer = Offer(tuple(map(_whole, bid)))
        offer.require_right(basis.steps)
        return offer
    except BadFrame as error:
        raise BadBid(f"{name} bids what no market takes: {error}") from None


def _whole(value: Any) -> int:
    """A whole number of any library. Raises BadFrame."""
    try:
        if isinstance(value, bool):
            raise TypeError
        return int(value) if isinstance(value, float) and value.is_integer() else operator.index(value)
    except TypeError:
        raise BadFrame(f"{value!r} is no whole number: give whole watts and whole prices") from None


def _pair(value: Any) -> tuple[int, int]:
    """A point. Raises BadFrame."""
    if not isinstance(value, Sequence) or len(value) != 2:
        raise BadFrame(f"{value!r} is no point: give a pair of a price and watts")
    return _whole(value[0]), _whole(value[1])


def require_prices(name: str, prices: tuple[int, int]) -> None:
    """Raises ValueError if the second of two prices is below the first."""
    if prices[0] > prices[1]:
        raise ValueError(f"{name}: prices go from {prices[0]} to {prices[1]}: give the lower one first")


def between(prices: tuple[int, int], share: float) -> int:
    """The whole price that lies this share of the way from the first to the second, at 0 the first and at 1 the second."""
    low, high = prices
    return low + round((high - low) * min(max(share, 0.0), 1.0))


def up_to(price: int, watts: int) -> list[tuple[int, int]]:
    """The bid to take so many watts below a price, and nothing from it on."""
    return [(price, watts), (price, 0)]


def from_on(price: int, watts: int) -> list[tuple[int, int]]:
    """The bid to give so many watts from a price on, and nothing below it."""
    return [(price, 0), (price, -watts)]
