"""Walks a newcomer's way: does exactly the commands of "Try three machines on one" in docs/OPERATE.md, and tells how long each step takes.

    python3 -m trials.newcomer [--installed]

It runs in one bash, in a new folder with TREE.toml. The package is that of this checkout, or with --installed the command `cogmaula` of the
machine. A person is given two seconds from one step to the next. Each line is a step and what was seen. The status is 1 if something
failed. It needs root, and that nobody else uses the page's names of namespaces.
"""

import argparse
import json
import os
import re
import subprocess
import sys
import tempfile
import time
from pathlib import Path

from .found import Failed, Found, require, steps_of

TOP = Path(__file__).resolve().parent.parent
HEADING, BETWEEN, PATIENCE = "Try three machines on one", 2.0, 120
ENDED = "the step has ended"
# What has to be seen, by the step.
STATES = ("auctioneer", "street", "house", "store", "car")


class Walk:
    """One bash in a folder, which does one step after the other."""

    def __init__(self, folder, environment):
        self.said = open(folder / "said", "ab")
        told = {"stdin": subprocess.PIPE, "stdout": subprocess.PIPE, "stderr": self.said}
        self.bash = subprocess.Popen(["bash"], cwd=folder, env=environment, text=True, **told)

    def does(self, commands):
        """Does the commands of a step. Gives what they print, and the seconds that they take."""
        begun = time.monotonic()
        self.bash.stdin.write(f"{commands}\necho; echo '{ENDED}'\n")
        self.bash.stdin.flush()
        lines = []
        for line in self.bash.stdout:
            if line.strip() == ENDED:
                return "".join(lines).strip(), time.monotonic() - begun
            lines.append(line)
        raise Failed(f"bash has ended: {''.join(lines)}")


def setpoint_in(text, due):
    """The setpoint that a step printed, which has to be this power."""
    told = json.loads(text.splitlines()[-1])
    require(told.get("power") == due, f"the setpoint is {text}")
    return f"{due} W at price {told['price']}"


def states_in(text):
    """That all nodes are up, by what the operator reads."""
    newest = {name: json.loads(told)["state"] for name, told in re.findall(r"^market/(\w+)/state (.*)$", text, re.M)}
    require(all(newest.get(name) == "up" for name in STATES), f"{newest}")
    return f"{len(newest)} nodes are up"


def is_gone(_):
    """That no namespace and no bridge is left."""
    left = subprocess.run(["ip", "netns", "list"], capture_output=True, text=True, check=True).stdout
    require("machine1" not in left and not Path("/sys/class/net/market").exists(), f"left: {left}")
    return "nothing is left"


# By the page, the house takes 100 W and the store gives 150 from price 4 on. At price 0 the car takes 3,000 W, and none above.
SEEN = {5: lambda text: setpoint_in(text, -150), 6: lambda text: setpoint_in(text, 0), 7: states_in, 8: is_gone}


def environment_of(folder, is_installed):
    """The environment of the bash: the command `cogmaula` is that of this checkout unless it is installed."""
    if is_installed:
        return dict(os.environ)
    (folder / "bin").mkdir()
    command = folder / "bin" / "cogmaula"
    command.write_text('#!/bin/sh\nexec /usr/bin/python3 -B -m cogmaula "$@"\n')
    command.chmod(0o755)
    live = os.environ.get("COGMAULA_LIVE", str(TOP / "prebuilt" / "x86_64-linux" / "live"))
    path = f"{folder / 'bin'}:{os.environ['PATH']}:/usr/sbin"
    return {**os.environ, "PATH": path, "PYTHONPATH": str(TOP / "python"), "COGMAULA_LIVE": live}


def main():
    """Does the steps."""
    parser = argparse.ArgumentParser(description="walks a newcomer's way through docs/OPERATE.md")
    parser.add_argument("--installed", action="store_true", help="by the installed command")
    given = parser.parse_args()
    steps, found, total = steps_of((TOP / "docs" / "OPERATE.md").read_text(), HEADING), Found(), 0.0
    with tempfile.TemporaryDirectory() as name:
        folder = Path(name)
        (folder / "TREE.toml").write_bytes((TOP / "examples" / "live" / "TREE.toml").read_bytes())
        walk = Walk(folder, environment_of(folder, given.installed))
        try:
            for number, commands in steps.items():
                text, seconds = walk.does(commands)
                total += seconds + BETWEEN
                found.part(f"step {number}, {seconds:.1f} s", lambda number=number, text=text: SEEN.get(number, lambda _: "")(text))
                time.sleep(BETWEEN)
        finally:
            walk.bash.stdin.close()
            walk.bash.wait(PATIENCE)
        if found.failed:
            print((folder / "said").read_text()[-4000:], file=sys.stderr)
    print(f"{len(steps)} steps in {total:.0f} s, at a load of {Path('/proc/loadavg').read_text().split()[0]}")
    return 1 if found.failed else 0


if __name__ == "__main__":
    sys.exit(main())
