"""A house at a supplier, worked out without the program: the auction of its battery's slices, from the pages alone."""

from __future__ import annotations

from collections.abc import Sequence
from dataclasses import dataclass
from math import floor

LEAST, MOST, BUY, SELL = 80, 300, 300, 80
CAPACITY, POWER = 10_000, 5_000


@dataclass(frozen=True)
class Hour:
    """The price of an hour, and what the house takes in it net of its roof and its battery, in watts."""

    price: int
    net: int


def market(bare: Sequence[int], slices: int) -> list[Hour]:
    """Each hour of a house with a battery in so many slices, by what it takes net of its roof. The prices are 80 to 300 in steps of 1.

    The supplier takes all below 80 and gives all from 300 on, so the market clears from 80 to 300 at the first price at which the
    others take no more than they give, or else at 300.
    """
    capacity, power, last = CAPACITY // slices, POWER // slices, MOST - LEAST
    charges, found = [0] * slices, []

    def bid(at: int, step: int) -> int:
        middle = (capacity - charges[at]) * last // capacity
        return power if step + at < middle else -power if step > middle + at else 0

    for watts in bare:
        low, high = 0, last
        # The total never rises with the price, so the first step is found by halves.
        while low < high:
            step = (low + high) // 2
            low, high = (low, step) if watts + sum(bid(at, step) for at in range(slices)) <= 0 else (step + 1, high)
        flows = [bid(at, low) for at in range(slices)]
        charges = [min(capacity, max(0, charge + floor(flow))) for charge, flow in zip(charges, flows)]
        found.append(Hour(LEAST + low, watts + sum(flows)))
    return found


def tariff(net: Sequence[float]) -> float:
    """What these watts of each hour cost in EUR."""
    return sum(power * (BUY if power > 0 else SELL) for power in net) / 1_000_000


def plain(bare: Sequence[int]) -> list[float]:
    """The watts of each hour if the battery charges by what is left over, and discharges by what is lacking."""
    charge, found = 0.0, []
    for net in bare:
        if net < 0:
            flow = min(-net, POWER, CAPACITY - charge)
        else:
            flow = -min(net, POWER, charge)
        charge += flow
        found.append(net + flow)
    return found


def costs(bare: Sequence[int], slices: int) -> dict[str, float]:
    """The four costs in EUR."""
    hours = market(bare, slices)
    return {
        "market": sum(hour.net * hour.price for hour in hours) / 1_000_000,
        "tariff": tariff([hour.net for hour in hours]),
        "no battery": tariff(bare),
        "plain rule": tariff(plain(bare)),
    }
