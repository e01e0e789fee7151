"""Takes the picture of the simulator's page: simulation.png beside this file's folder.

    COGMAULA_LIVE=.. /usr/bin/python3 pictures/page/draw_simulation.py

It lets the village live as docs/DEVICES.md says, with an hour of the devices in four seconds, and takes the picture after six hours of
theirs. It needs what draw_page.py needs, except a mosquitto. Each run has other times, so no check draws the picture again.
"""

import asyncio
import os
import re
import subprocess
import sys
import time

from draw_page import PICTURES, draw

TOP = PICTURES.parent
SPEED, HOURS = 900, 6
SIZES = {"simulation.png": (1280, 1400)}


def main() -> None:
    """Runs the simulation, and takes its picture."""
    words = [sys.executable, "-B", "-m", "cogmaula", "simulate", str(TOP / "examples" / "village.json"), "--page", "--speed", str(SPEED)]
    environment = {**os.environ, "PYTHONPATH": str(TOP / "python"), "PYTHONUNBUFFERED": "1"}
    with subprocess.Popen(words, env=environment, stdout=subprocess.PIPE, text=True) as simulation:
        try:
            found = re.fullmatch(r"page: (http://\S+)\n", simulation.stdout.readline())
            time.sleep(HOURS * 3600 / SPEED)
            asyncio.run(draw(found[1], SIZES, "heat1"))
        finally:
            simulation.terminate()


if __name__ == "__main__":
    main()
