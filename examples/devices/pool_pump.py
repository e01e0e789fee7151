"""A pool pump that has to run six hours of each day: a strategy of one's own, and a day of it. docs/DEVICES.md says more."""

from __future__ import annotations

from datetime import date, datetime

from cogmaula import Basis
from cogmaula.simulation import Bid, Device, Held, Load, Manual, Solar, simulate


class PoolPump:
    """Takes `power` watts for `hours` of each day. Its state is the hours that are left of them."""

    def __init__(self, name: str, power: int, hours: float) -> None:
        self.name, self.power, self.hours = name, power, hours
        self.state = 0.0
        self.day: date | None = None

    def bid(self, now: datetime) -> Bid:
        if self.day != now.date():
            self.day, self.state = now.date(), self.hours
        left = 24 - now.hour - now.minute / 60
        if self.state <= 0:
            return 0
        if self.state > left - 0.25:
            return self.power
        limit = round(8 + 22 * self.state / left)
        return [(limit, self.power), (limit, 0)]

    def step(self, power: int, minutes: float) -> None:
        self.state -= minutes / 60 if power else 0


def main() -> None:
    """A day in a house with a roof, at a supplier who sells at 30 and buys at 8."""
    start = datetime(2026, 6, 1)
    sun = Held(start, 60, [max(0, 2400 - 400 * abs(hour - 12)) for hour in range(24)], repeats=True)
    devices: list[Device] = [
        PoolPump("pump", 1100, 6),
        Load(name="house", power=400),
        Solar(name="roof", power=sun),
        Manual("supplier", [(8, 9000), (9, 0), (29, 0), (30, -9000)]),
    ]
    day = simulate(devices, Basis(0, 99, 100), ticks=96, start=start)
    hours = day.prices[["price"]].join(day.powers["pump"]).droplevel("phase")
    print(hours[hours["pump"] > 0].iloc[::4])


if __name__ == "__main__":
    main()
