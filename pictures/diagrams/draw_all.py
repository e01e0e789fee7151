#!/usr/bin/env python3
"""Draws the diagrams of the pages: draw_all.py writes each NAME.svg beside this file. It needs Python alone.

The diagrams are made from the repository: the layers from crates.txt, the rest from files of examples/ and from journals that
`market trace` wrote. `checks/run pictures` draws them again and compares.
"""

import sys
from pathlib import Path

sys.dont_write_bytecode = True
HERE = Path(__file__).resolve().parent
# The diagrams' own modules, and the independent auction of the checks.
sys.path[:0] = [str(HERE), str(HERE.parents[1])]
import interleaving
import layers
import network
import rounds
import tree

DIAGRAMS = {"tree": tree, "layers": layers, "interleaving": interleaving, "network": network, "rounds": rounds}


def main() -> int:
    """Draws them all."""
    if len(sys.argv) != 1:
        print("draw_all.py takes no arguments", file=sys.stderr)
        return 2
    for name, module in DIAGRAMS.items():
        (HERE / f"{name}.svg").write_text(module.picture())
    return 0


if __name__ == "__main__":
    sys.exit(main())
