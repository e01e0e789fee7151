#!/usr/bin/env python3
"""Goes on where an engine's night ended, with a greater heat demand: heat_demand.py FILE ENGINE LOSS, by the package cogmaula.

It runs the file, and then two hours more in which the buffer loses so much in each. It prints the engine's power and temperature at
the end of each phase of these hours.
"""

import sys
from dataclasses import replace
from pathlib import Path

sys.path.insert(0, str(Path(__file__).resolve().parents[2] / "python"))
from cogmaula import Tick, continued, run


def main(file: str, name: str, loss: int) -> int:
    """Runs both parts."""
    following = continued(run(file), [Tick(60), Tick(60)])
    nodes = [replace(node, loss=loss) if node.name == name else node for node in following.nodes]
    day = run(replace(following, nodes=nodes))
    for end, temperature in zip(day.ends, day.states[name]):
        print(f"end of phase {end.phase}: {end.powers[name]} W, temperature {temperature}")
    return 0


if __name__ == "__main__":
    sys.exit(main(sys.argv[1], sys.argv[2], int(sys.argv[3])))
