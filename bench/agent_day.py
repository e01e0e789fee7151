#!/usr/bin/env python3
"""A day of a battery behind Modbus at a speed of 600, whose agent follows a hub: 144 seconds.

    python3 bench/agent_day.py [SPEED]

A house has a roof, and needs more in the evening. It bids what it lacks or has too much each quarter of an hour, at every price. The
battery of examples/devices/modbus_battery.py has 4,000 Wh and 2,000 W. At the end it tells its least and greatest charge, and how much
energy it had to refuse since it was full or empty. The status is 1 if its charge left its bounds, or more than a hundredth of its
capacity was refused.

It needs python3-pymodbus, python3-serial-asyncio and the program live.
"""

from __future__ import annotations

import json
import os
import re
import signal
import socket
import subprocess
import sys
import tempfile
import threading
import time
from pathlib import Path

TOP = Path(__file__).resolve().parent.parent
sys.path.insert(0, str(TOP / "python"))

from cogmaula import logs
from cogmaula.agent import Agent, agent_settings_of
from cogmaula.cluster import Basis
from cogmaula.hub import Hub, HubSettings, TokenFile
from cogmaula.program import live_command

CAPACITY, POWER, QUARTERS = 4000, 2000, 96


def lacks(quarter: int) -> int:
    """What the house lacks in a quarter of an hour, in watts; below 0 it has too much."""
    sun = max(0, 2500 - 4 * (quarter - 52) ** 2)
    return (1200 if 72 <= quarter < 88 else 350) - sun


def free_port() -> int:
    """A port that nobody listens at."""
    with socket.socket() as one:
        one.bind(("127.0.0.1", 0))
        return int(one.getsockname()[1])


def main() -> int:
    """Lives through the day, and prints what came of it."""
    speed = float(sys.argv[1]) if len(sys.argv) > 1 else 600.0
    with tempfile.TemporaryDirectory() as name:
        return day_in(Path(name), speed)


def day_in(folder: Path, speed: float) -> int:
    """The same with a folder for the hub."""
    logs.show("agent_day")
    port, tokens = free_port(), TokenFile(folder / "agents")
    house, store = tokens.add("house", 1), tokens.add("store", 2)
    (folder / "store.token").write_text(store)
    hub = Hub(HubSettings(str(folder / "state"), str(folder / "agents"), Basis(0, 99, 100), live=live_command(), listen_tcp=("127.0.0.1:0",), pause=0.05))
    working = threading.Thread(target=hub.run)
    working.start()
    words = [sys.executable, str(TOP / "examples/devices/modbus_battery.py"), str(port), "--capacity", str(CAPACITY), "--speed", str(speed)]
    battery = subprocess.Popen(words, stdout=subprocess.PIPE, text=True, env={**os.environ, "PYTHONPATH": str(TOP / "python")})
    while not hub.is_up:
        time.sleep(0.01)
    places = {"by": "modbus", "host": "127.0.0.1", "port": port}
    agent = Agent(agent_settings_of({
        "agent": {"every": 0.1, "stale": 5},
        "market": {"hub": str(hub.addresses_tcp[0]), "agent": "store", "token_file": str(folder / "store.token")},
        "device": {"model": "battery", "capacity": CAPACITY, "charge": POWER, "discharge": POWER, "prices": [10, 90]},
        "limits": {"least": -POWER, "greatest": POWER, "pace": 0},
        "state": {**places, "register": 2, "type": "f32", "unit": "Wh"},
        "setpoint": {**places, "register": 0},
    }))
    follows = threading.Thread(target=agent.run)
    follows.start()
    with socket.create_connection((hub.addresses_tcp[0].host, hub.addresses_tcp[0].port)) as one:
        one.sendall(json.dumps({"agentId": "house", "token": house}).encode() + b"\n")
        threading.Thread(target=lambda: list(one.makefile("rb")), daemon=True).start()
        begun = time.monotonic()
        for quarter in range(QUARTERS):
            one.sendall(json.dumps({"bidUpdate": {"demandArray": [lacks(quarter)] * 100}}).encode() + b"\n")
            time.sleep(max(0.0, begun + (quarter + 1) * 900 / speed - time.monotonic()))
        agent.stop()
        follows.join()
    hub.stop()
    working.join()
    battery.send_signal(signal.SIGTERM)
    told = battery.communicate()[0]
    print(f"a day at speed {speed:g}: {told.strip()}, load {os.getloadavg()[0]:.1f} on {os.cpu_count()} processors")
    found = re.search(r"charge (\d+) to (\d+) of .* ([\d.]+) Wh refused", told)
    return 0 if found and 0 <= int(found[1]) < int(found[2]) <= CAPACITY and float(found[3]) <= CAPACITY / 100 else 1


if __name__ == "__main__":
    sys.exit(main())
