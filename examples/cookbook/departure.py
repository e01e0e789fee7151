#!/usr/bin/env python3
"""Finds what an electric car still needs before it leaves: departure.py FILE CAR, by the package cogmaula.

FILE has the evening and the night of the car, a battery that cannot discharge, and lets it leave in its last phases. The script runs
the file up to there, reads the charge, and says how long a load of the car's power has to join for.
"""

import sys
from datetime import datetime, timedelta
from pathlib import Path

sys.path.insert(0, str(Path(__file__).resolve().parents[2] / "python"))
from cogmaula import Battery, Cluster, Events, Leave, run

BEGIN = datetime(2026, 6, 21, 18)


def main(file: str, name: str) -> int:
    """Says what the car lacks."""
    cluster = Cluster.load(file)
    car = cluster.node(name)
    assert isinstance(car, Battery)
    leave = next(at for at, phase in enumerate(cluster.phases) if isinstance(phase, Events) and Leave(name) in phase.events)
    day = run(cluster.with_script(cluster.phases[:leave]), start=BEGIN)
    charge, now = day.snapshot.states[name], day.times[-1]
    assert isinstance(charge, int)
    minutes = -(-(car.capacity - charge) * 60 // car.charge)
    print(f"{name} has {charge} of {car.capacity} watt-hours at {now:%H:%M}")
    print(f"it needs {minutes} minutes at {car.charge} watts, until {now + timedelta(minutes=minutes):%H:%M}")
    print(f"the load takes over at price {run(cluster).ends[leave].price}")
    return 0


if __name__ == "__main__":
    sys.exit(main(sys.argv[1], sys.argv[2]))
