"""What a house pays in four ways: at the market's prices, at its tariff, without a battery, and by a plain rule for the battery.

    python3 examples/cookbook/costs.py house.json
"""

import sys
from typing import Any

from cogmaula import chain

CAPACITY, POWER, BUY, SELL = 10.0, 5.0, 0.30, 0.08


def tariff(net: Any) -> float:
    """What the supplier is paid for the kilowatt-hours of each hour, of which those below 0 are sold."""
    return float(net.clip(lower=0).sum() * BUY + net.clip(upper=0).sum() * SELL)


def by_rule(net: Any) -> Any:
    """The net energy of each hour if the battery takes what is left over, and gives what is lacking."""
    charge = 0.0
    for hour, energy in net.items():
        flow = max(-charge, -POWER, min(-energy, POWER, CAPACITY - charge))
        charge, net[hour] = charge + flow, energy + flow
    return net


def costs(done: Any) -> dict[str, float]:
    """The four costs of a run of whole hours."""
    prices = done.prices[done.prices.minutes == 60]
    energy = done.powers.loc[prices.index].astype(float) / 1000
    net, bare = energy.drop(columns="connection").sum(axis=1), energy["house"] + energy["roof"]
    market = float((net * prices.price).sum()) / 1000
    return {"market": market, "tariff": tariff(net), "no battery": tariff(bare), "plain rule": tariff(by_rule(bare.copy()))}


if __name__ == "__main__":
    for name, cost in costs(chain(sys.argv[1])).items():
        print(f"{name:10} {cost:8.2f} EUR")
