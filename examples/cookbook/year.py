"""Makes the tables of a house and its roof for the year 2026, an hour a row, and writes them beside a copy of house.toml.

    python3 examples/cookbook/year.py FOLDER

No one's house was measured. The sun has the length of the day and the height of noon at 50 degrees north, under a cloud of its own on
each day. The house takes 220 to 280 W, more in the morning, at noon and in the evening, and 1,800 W in some hours. Two seeds draw all
of it: LOAD and SUN. The times are those of a clock in Berlin, so a day in March has 23 rows and one in October 25.
"""

import math
import random
import shutil
import sys
from datetime import UTC, datetime, timedelta
from pathlib import Path
from zoneinfo import ZoneInfo

LOAD, SUN = 2026, 50
ZONE = ZoneInfo("Europe/Berlin")


def bump(hour: float, middle: float, width: float) -> float:
    """1 at the middle, and less the farther the hour is from it."""
    return math.exp(-(((hour - middle) / width) ** 2))


def house(draw: random.Random, hour: int, season: float) -> int:
    """The watts of the house in an hour."""
    usual = 220 + 60 * draw.random() + 500 * bump(hour, 7, 1.2) + 350 * bump(hour, 12.5, 1.3) + 850 * bump(hour, 19, 2.2)
    machine = 1800 if draw.random() < 0.05 and 8 <= hour <= 21 else 0
    return round(usual * (1.08 - 0.14 * season) * draw.uniform(0.75, 1.3) + machine)


def roof(draw: random.Random, hour: int, season: float, cloud: float) -> int:
    """The watts of the roof in an hour of winter time. `season` is 1 in midsummer and -1 in midwinter."""
    half = 6 + 2.2 * season
    height = math.cos((hour + 0.5 - 12) / half * math.pi / 2) if abs(hour + 0.5 - 12) < half else 0.0
    return round(5600 * (0.62 + 0.33 * season) * math.pow(height, 1.3) * cloud * draw.uniform(0.85, 1.1))


def main(folder: Path) -> None:
    """Writes both tables and the recipe."""
    load, sun, cloud = random.Random(LOAD), random.Random(SUN), 0.5
    tables = {"house": ["time,house"], "roof": ["time,roof"]}
    now = datetime(2026, 1, 1, tzinfo=ZONE).astimezone(UTC)
    while (local := now.astimezone(ZONE)).year == 2026:
        winter = now + timedelta(hours=1)
        season = math.cos((winter.timetuple().tm_yday - 172) / 365 * 2 * math.pi)
        if winter.hour == 0:
            cloud = min(1.0, max(0.15, sun.gauss(0.65, 0.28)))
        time = local.strftime("%Y-%m-%dT%H:%M")
        tables["house"].append(f"{time},{house(load, local.hour, season)}")
        tables["roof"].append(f"{time},{roof(sun, winter.hour, season, cloud)}")
        now += timedelta(hours=1)
    folder.mkdir(parents=True, exist_ok=True)
    for name, lines in tables.items():
        (folder / f"{name}.csv").write_text("\n".join([*lines, ""]))
    shutil.copy(Path(__file__).with_name("house.toml"), folder)


if __name__ == "__main__":
    main(Path(sys.argv[1]))
