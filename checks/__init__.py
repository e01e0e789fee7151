"""What the programs of the checks share. Each is started from the top of the repository: `python3 -m checks.FOLDER.NAME`."""

import sys
from pathlib import Path

TOP = Path(__file__).resolve().parent.parent
CASES = TOP / "checks" / "cases"
# The schema of the cluster file. It is in the package, which reads it as it runs.
SCHEMA = "python/cogmaula/cluster.schema.json"

# The Python package.
sys.path.insert(0, str(TOP / "python"))
