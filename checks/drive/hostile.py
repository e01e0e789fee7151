"""Uses the built program as nobody should: standard streams that fail, clusters at the limits, hostile schedules, threads that are
refused, and mutated inputs.

    python3 -m checks.drive.hostile PROGRAM [all [MINUTES]]

Each run has to end with the status and the text that docs/CLUSTER_FILE.md gives. Without `all` a sample is tried; with it all
lengths, limits and schedules, and mutated inputs for so many minutes, 10 if no number is given.
"""

import sys
import tempfile
from collections import Counter
from pathlib import Path

from checks.drive import faults, fuzz, limits, schedules

# How many mutated inputs a sample tries.
MUTATED = 1_500
MINUTES = 10


def tell(part, results):
    """Counts the results of a part, and tells of each failure."""
    passed = failed = 0
    for name, why in results:
        passed, failed = passed + (why is None), failed + (why is not None)
        if why is not None:
            print(f"{part}: {name}: {why}", flush=True)
    print(f"{part}: {passed} right, {failed} wrong", flush=True)
    return passed, failed


def main(program, everything, minutes):
    counts = Counter()
    with tempfile.TemporaryDirectory() as name:
        folder = Path(name)
        mutated = {"seconds": 60 * minutes} if everything else {"number": MUTATED}
        results = [
            tell("streams", faults.tried(program, folder, everything)),
            tell("limits", limits.tried(program, everything)),
            tell("schedules", schedules.tried(program, folder, everything)),
            tell("mutated inputs", fuzz.tried(program, counts=counts, **mutated)),
        ]
    print(fuzz.told(counts))
    passed, failed = (sum(numbers) for numbers in zip(*results))
    print(f"{passed} passed, {failed} failed")
    return 1 if failed else 0


if __name__ == "__main__":
    sys.exit(main(sys.argv[1], sys.argv[2:3] == ["all"], float(sys.argv[3]) if sys.argv[3:] else MINUTES))
