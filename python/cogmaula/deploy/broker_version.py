"""The least version of mosquitto that a market's files are for."""

from __future__ import annotations

import re
import shutil
import subprocess

from ..live.node.node_errors import BadSettings

LEAST = (2, 0, 11)
LEAST_TEXT = ".".join(map(str, LEAST))
# What earlier ones lack, all of which was seen with 2.0.11.
WHY = (
    "earlier ones do not end the connection of a password that was changed, or refuse the file of"
    " subscriptions"
)


def require_version(text: str) -> None:
    """Raises BadSettings if what mosquitto says of itself names a version that is too old."""
    found = re.search(r"mosquitto version (\d+)\.(\d+)(?:\.(\d+))?", text)
    if found is None:
        return
    version = tuple(int(number or 0) for number in found.groups())
    if version < LEAST:
        told = ".".join(map(str, version))
        raise BadSettings(f"mosquitto is {told}, and a market needs {LEAST_TEXT} or later: {WHY}")


def require_broker() -> None:
    """Raises BadSettings if the mosquitto of this machine is too old. Without one nothing is known."""
    path = shutil.which("mosquitto") or shutil.which("mosquitto", path="/usr/sbin")
    if path is not None:
        done = subprocess.run([path, "-h"], capture_output=True, text=True, check=False)
        require_version(done.stdout + done.stderr)
