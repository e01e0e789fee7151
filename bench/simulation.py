"""Measures simulations beside an auction in numpy that knows nothing of the proved program, with the same models in the same run.

    python3 bench/simulation.py sizes         10 x 960, 40 x 35,040, 160 x 384 and 640 x 96 devices and ticks
    python3 bench/simulation.py small         the same without 40 x 35,040
    python3 bench/simulation.py year          a year of 52 devices in four groups with limits, and its page

Both have to come to the same prices and powers.
"""

from __future__ import annotations

import math
import os
import resource
import sys
import time
from collections.abc import Sequence
from datetime import datetime, timedelta
from datetime import time as clock
from pathlib import Path
from typing import Any
from zoneinfo import ZoneInfo

import numpy

TOP = Path(__file__).resolve().parents[1]
sys.path.insert(0, str(TOP / "python"))

from cogmaula import Basis, Program, simulation
from cogmaula.simulation import Group, Held, Manual, Vehicle, simulate

BASIS = Basis(0, 99, 100)
START = datetime(2026, 1, 1, tzinfo=ZoneInfo("Europe/Berlin"))
SIZES = ((10, 960), (40, 35_040), (160, 384), (640, 96))


def day_ahead(now: datetime) -> list[tuple[int, int]]:
    """What the exchange bids: it sells and buys at the price of the hour."""
    price = round(40 + 20 * math.sin((now.hour - 9) / 12 * math.pi) + 10 * math.sin(now.timetuple().tm_yday / 58))
    return [(price - 1, 500_000), (price, -500_000)]


def street(many: int, ticks: int) -> list[Any]:
    """So many devices: houses, roofs, batteries, vehicles, heat pumps in turn, and an exchange in place of the last."""
    weather = Held(START, 60, [8 - 9 * math.cos(hour / 8760 * 2 * math.pi) + 4 * math.sin(hour % 24 / 12 * math.pi) for hour in range(ticks // 4 + 1)])
    found: list[Any] = []
    for at in range(many - 1):
        sun = Held(START, 15, [max(0.0, math.sin((quarter % 96 - 24) / 48 * math.pi)) * (3000 + 40 * at) for quarter in range(96)], repeats=True)
        drawn = Held(START, 15, [250 + (quarter * 37 + at * 91) % 600 for quarter in range(ticks)])
        match at % 5:
            case 0:
                found.append(simulation.Load(name=f"house{at}", power=drawn))
            case 1:
                found.append(simulation.Solar(name=f"roof{at}", power=sun))
            case 2:
                found.append(simulation.Battery(f"store{at}", 5000 + 100 * at, 2000, 2000, (10, 90), 500 + 50 * at, efficiency=0.9))
            case 3:
                found.append(Vehicle(name=f"car{at}", power=3700, arrival=clock(17 + at % 3), departure=clock(7), needed=8000, prices=(20, 90)))
            case _:
                house = {"power": 1500, "loss": 150, "constant": 60, "outdoor": weather, "low": 19, "high": 22, "prices": (20, 80)}
                found.append(simulation.HeatPump(name=f"pump{at}", temperature=20.5, **house))
    return [*found, Manual("exchange", day_ahead)]


def demand_of(bid: Any, prices: Any) -> Any:
    """A bid at each price, rounded down towards the first point: an integer of a line between two points, the last point of a price counts."""
    if isinstance(bid, int):
        return numpy.full(len(prices), bid)
    xs, ys = numpy.array(bid).T
    at = numpy.searchsorted(xs, prices, side="right") - 1
    left, right = numpy.maximum(at, 0), numpy.minimum(at + 1, len(xs) - 1)
    width = numpy.maximum(xs[right] - xs[left], 1)
    between = ys[left] - -(-(ys[left] - ys[right]) * numpy.maximum(prices - xs[left], 0) // width)
    return numpy.where(at < 0, ys[0], between)


def numpy_auction(devices: Sequence[Any], ticks: int) -> tuple[Any, Any]:
    """The prices and the powers, without the program: sums of arrays, and the first price at which they are at most 0."""
    prices = numpy.array(BASIS.prices)
    found, powers = numpy.zeros(ticks, dtype=int), numpy.zeros((ticks, len(devices)), dtype=int)
    begin = START.astimezone(ZoneInfo("UTC"))
    for tick in range(ticks):
        now = (begin + timedelta(minutes=15 * tick)).astimezone(START.tzinfo)
        bids = numpy.stack([demand_of(device.bid(now), prices) for device in devices])
        total = bids.sum(axis=0)
        step = int(numpy.argmax(total <= 0)) if (total <= 0).any() else len(prices) - 1
        found[tick], powers[tick] = prices[step], bids[:, step]
        for device, power in zip(devices, powers[tick].tolist(), strict=True):
            device.step(power, 15)
    return found, powers


def used() -> float:
    """The seconds that this process, and those that it started and that ended, had of a processor."""
    both = [resource.getrusage(who) for who in (resource.RUSAGE_SELF, resource.RUSAGE_CHILDREN)]
    return sum(usage.ru_utime + usage.ru_stime for usage in both)


def memory() -> int:
    """The most megabytes that this process had."""
    return resource.getrusage(resource.RUSAGE_SELF).ru_maxrss // 1024


def sizes(chosen: Sequence[tuple[int, int]] = SIZES) -> None:
    """The proved market and numpy's auction beside each other."""
    program = Program.find(TOP)
    for many, ticks in chosen:
        begun, worked = time.monotonic(), used()
        devices = street(many, ticks)
        # A market has 256 children: more are below relays, with limits that nobody reaches.
        parts = [devices[at:-1:4] for at in range(4)] if many > 256 else []
        groups = [Group(f"feeder{at}", -10**9, 10**9, tuple(device.name for device in part)) for at, part in enumerate(parts)]
        done = simulate(devices, BASIS, ticks=ticks, start=START, groups=groups, program=program)
        took, work = time.monotonic() - begun, used() - worked
        begun, worked = time.monotonic(), used()
        prices, powers = numpy_auction(street(many, ticks), ticks)
        plain_took, plain_work = time.monotonic() - begun, used() - worked
        same = (done.noted.steps == prices - BASIS.min).all() and (done.noted.powers == powers).all()
        told = f"{took:.1f} s, {work:.1f} s of a processor; numpy {plain_took:.1f} s, {plain_work:.1f} s"
        times = f"{took / plain_took:.2f} times the time, {work / plain_work:.2f} times the work"
        print(f"{many} x {ticks}: {told}: {times}, {memory()} MB, {'the same' if same else 'ANOTHER OUTCOME'}, load {os.getloadavg()[0]:.1f}", flush=True)


def year() -> None:
    """A year of 40 houses in four groups with limits, and its page."""
    devices = street(52, 35_040)
    inside = [device.name for device in devices[:-1]]
    groups = [Group(f"feeder{at}", -20_000, 20_000, tuple(inside[at::4])) for at in range(4)]
    begun, worked = time.monotonic(), used()
    done = simulate(devices, BASIS, ticks=35_040, start=START, groups=groups, program=Program.find(TOP))
    print(f"year: {time.monotonic() - begun:.1f} s, {used() - worked:.1f} s of a processor, {memory()} MB, load {os.getloadavg()[0]:.1f}", flush=True)
    begun, worked = time.monotonic(), used()
    page = done.report(connection="exchange", currency="EUR", per_kwh=0.01)
    print(f"page: {time.monotonic() - begun:.1f} s, {used() - worked:.1f} s of a processor, {memory()} MB, {len(page):,} characters", flush=True)


def main() -> int:
    """Measures what the words ask for."""
    match sys.argv[1:]:
        case ["sizes"]:
            sizes()
        case ["small"]:
            sizes(((10, 960), (160, 384), (640, 96)))
        case ["year"]:
            year()
        case _:
            print(__doc__, file=sys.stderr)
            return 2
    return 0


if __name__ == "__main__":
    sys.exit(main())
