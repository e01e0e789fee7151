"""The version of the package, which is that of `market`, and the commit that it was built of."""

from __future__ import annotations

import os
import re
import subprocess
from functools import lru_cache
from pathlib import Path

__version__ = "1.0.0"

# What the installed command gives, since an install has no clone.
VARIABLE = "COGMAULA_COMMIT"
UNKNOWN = "no commit known"


@lru_cache(maxsize=1)
def commit() -> str:
    """The commit of these sources, with `-modified` behind it if a file was changed, or `UNKNOWN`.

    An install says it by its command, a clone by git, and a release by the file COMMIT.
    """
    given = os.environ.get(VARIABLE, "")
    if re.fullmatch(r"[0-9a-f]{7,40}(-modified)?", given):
        return given
    script = Path(__file__).resolve().parents[2] / "packaging" / "commit.sh"
    if not script.exists():
        return UNKNOWN
    try:
        done = subprocess.run(
            ["bash", str(script)], capture_output=True, text=True, timeout=10, check=False
        )
    except (OSError, subprocess.SubprocessError):
        return UNKNOWN
    told = done.stdout.strip()
    return told if done.returncode == 0 and told not in ("", "unknown") else UNKNOWN


def build() -> str:
    """The version with the commit, as `1.0.0 (1a2b3c4)`."""
    return f"{__version__} ({commit()})"
