#!/usr/bin/env python3
"""Makes the tables of this folder: make_data.py [SEED] writes loads.csv and solar.csv. Nothing in them was measured.

The seed is 20 unless another is given, and the same seed gives the same tables. A house takes a base power, more in the morning
and in the evening, and some runs of a large appliance at random. A roof delivers what a clear summer sky gives, less what passing
clouds take, which are the same for all roofs. The numbers are kilowatts with three decimals.
"""

import csv
import math
import random
import sys
from datetime import datetime, timedelta
from pathlib import Path

HOUSES, ROOFS, ROWS, MINUTES = 20, 12, 96, 15
BEGIN = datetime(2026, 6, 21)


def bump(hour: float, middle: float, width: float) -> float:
    """How much of a peak about a middle hour is there at an hour, from 0 to 1."""
    return math.exp(-(((hour - middle) / width) ** 2))


def house(draw: random.Random) -> list[float]:
    """The power of a house in each row, in kilowatts."""
    base, morning, evening = draw.uniform(0.1, 0.35), draw.uniform(0.3, 1.2), draw.uniform(0.8, 2.5)
    at_morning, at_evening = draw.gauss(7.5, 0.8), draw.gauss(19.0, 1.0)
    powers = []
    for row in range(ROWS):
        hour = row * MINUTES / 60
        power = base + morning * bump(hour, at_morning, 1.0) + evening * bump(hour, at_evening, 1.8)
        powers.append(power * draw.uniform(0.8, 1.2))
    for _ in range(draw.randint(1, 3)):
        first = draw.randint(24, 88)
        for row in range(first, first + draw.randint(2, 5)):
            powers[row] += 2.0
    return powers


def clouds(draw: random.Random) -> list[float]:
    """How much of the sun comes through in each row, from 0.3 to 1."""
    clear, found = 0.9, []
    for _ in range(ROWS):
        clear = min(1.0, max(0.3, clear + draw.gauss(0.02, 0.12)))
        found.append(clear)
    return found


def roof(draw: random.Random, sky: list[float]) -> list[float]:
    """The power of a roof in each row, in kilowatts."""
    peak, middle = draw.uniform(3.0, 7.0), draw.uniform(12.6, 14.2)
    sun = [max(0.0, math.cos((row * MINUTES / 60 - middle) * math.pi / 16)) ** 1.5 for row in range(ROWS)]
    return [peak * strength * through for strength, through in zip(sun, sky)]


def write(path: Path, names: list[str], columns: list[list[float]]) -> None:
    """Writes a table: the time of each row, and what each column has there."""
    with path.open("w", encoding="utf-8", newline="") as text:
        lines = csv.writer(text, lineterminator="\n")
        lines.writerow(["time", *names])
        for row in range(ROWS):
            time = BEGIN + timedelta(minutes=row * MINUTES)
            lines.writerow([time.isoformat(timespec="minutes"), *(f"{column[row]:.3f}" for column in columns)])


def main(seed: int, folder: Path) -> None:
    """Writes both tables into a folder."""
    draw = random.Random(seed)
    write(folder / "loads.csv", [f"house{at:02}" for at in range(1, HOUSES + 1)], [house(draw) for _ in range(HOUSES)])
    sky = clouds(draw)
    write(folder / "solar.csv", [f"house{at:02}" for at in range(1, ROOFS + 1)], [roof(draw, sky) for _ in range(ROOFS)])


if __name__ == "__main__":
    main(int(sys.argv[1]) if len(sys.argv) > 1 else 20, Path(__file__).resolve().parent)
