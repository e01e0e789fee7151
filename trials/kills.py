#!/usr/bin/env python3
"""Kills each part of a small market in turn while offers flow, and measures how long it takes until setpoints flow again.

    python3 -m trials.kills [--times 5] [--only PART ..] ..

The auctioneer, two relays, six devices, the control of one device and the broker are in network namespaces of their own. Each
part is killed by SIGKILL. A node and a control are started again after two seconds, as the unit of the example does, and the
broker after a tenth of a second, as systemd does by itself. A service is started again by its node.

A part has recovered once each device that it serves has a setpoint of a clearing after the kill. After each kill all devices
offer once more, and have to come to the newest setpoint. No setpoint may be older than the one before. The status is 1 if not.

It needs root, iproute2, mosquitto and python3-paho-mqtt.
"""

import argparse
import json
import os
import signal
import statistics
import sys
import tempfile
import threading
import time
from datetime import datetime, timezone
from pathlib import Path

from bench.live_parts import load, times_text

from .market import DEVICES, RESTART, Failed, Market
from .network import PORT

HERE = Path(__file__).resolve().parent
# The device that has its control by topics, and the seconds after which the broker is started, and a trial has failed.
CONTROLLED, BROKER_RESTART, PATIENCE = "east3", 0.1, 120
BEFORE = 3.0


class Control:
    """The control of a device in a process of its own, with the setpoints that it was told over all starts."""

    def __init__(self, market, name):
        self._market, self._node = market, market.nodes[name]
        market.network.add(f"{name}c")
        self.setpoints, self.process = [], None
        # The offers of the device come from here and not from its standard input.
        self._node.tell = self.tell

    def start(self):
        """Starts it. It offers what it offered last."""
        words = [sys.executable, "-B", str(HERE / "control.py"), self._market.broker.address, str(PORT), self._node.name]
        self.process = self._market.network.start(
            f"{self._node.name}c", words, stdin=-1, stdout=-1, stderr=self._market.log, bufsize=0
        )
        threading.Thread(target=self._read, args=(self.process.stdout,), daemon=True).start()
        if self._node.offers:
            self.tell(self._node.offers[max(self._node.offers)][0])
        return self

    def _read(self, lines):
        for line in lines:
            self.setpoints.append((time.monotonic(), json.loads(line)))

    def tell(self, demands):
        """Lets it offer."""
        try:
            self.process.stdin.write(json.dumps({"power": demands}).encode() + b"\n")
        except OSError:
            pass

    def kill(self):
        """Ends it at once."""
        self.process.kill()
        self.process.wait()


def cleared(told):
    """When the clearing of a setpoint was, in seconds since 1970; 0 if that was not told."""
    return datetime.fromisoformat(told["time"]).timestamp() if told["time"] else 0.0


def parts_of(market, control):
    """Of each part: how to kill it, how to start it or None, after how many seconds, and who is told setpoints through it."""
    nodes, every = market.nodes, [market.nodes[name] for name in DEVICES]
    west = [nodes[name] for name in DEVICES if name.startswith("west")]
    return {
        "the broker": (market.broker.kill, market.broker.start, BROKER_RESTART, every),
        "the auctioneer's node": (nodes["auctioneer"].kill, nodes["auctioneer"].start, RESTART, every),
        "the auctioneer's service": (nodes["auctioneer"].kill_service, None, 0, every),
        "a relay's node": (nodes["west"].kill, nodes["west"].start, RESTART, west),
        "a relay's service": (nodes["west"].kill_service, None, 0, west),
        "a device's node": (nodes["west1"].kill, nodes["west1"].start, RESTART, [nodes["west1"]]),
        "a device's service": (nodes["west1"].kill_service, None, 0, [nodes["west1"]]),
        "a device's control": (control.kill, control.start, RESTART, [control]),
    }


def trial(market, name, part, rate):
    """Kills a part while offers flow. Gives the seconds until it has recovered, and how many setpoints others had meanwhile."""
    kill, start, after, served = part
    market.flows(BEFORE, rate)
    killed_at, began = datetime.now(timezone.utc).timestamp(), time.monotonic()
    others = [device for device in market.devices if device not in served]
    before = sum(len(other.setpoints) for other in others)
    kill()

    def has_recovered(one):
        return bool(one.setpoints) and cleared(one.setpoints[-1][1]) > killed_at

    while not all(map(has_recovered, served)):
        if start is not None and time.monotonic() > began + after:
            start()
            start = None
        if time.monotonic() > began + PATIENCE:
            raise Failed(f"{name}: no new setpoints after {PATIENCE} s")
        market.flows(0.05, rate)
    took = max(next(at for at, told in device.setpoints if cleared(told) > killed_at) for device in served) - began
    meanwhile = sum(len(other.setpoints) for other in others) - before
    if start is not None:
        start()
    wrong, _ = market.settles(PATIENCE)
    if wrong:
        raise Failed("\n".join([f"after the kill of {name}:", *wrong]))
    return took, meanwhile


def measured(arguments, folder, log):
    """Kills all parts in turn, several times, and prints a row for each."""
    with Market(arguments.live, folder, log, pause=arguments.pause, keepalive=10) as market:
        control = Control(market, CONTROLLED).start()
        wrong, _ = market.settles(PATIENCE)
        if wrong:
            raise Failed("\n".join(["the market does not begin:", *wrong]))
        print(f"{load()}, pause {arguments.pause} s, {arguments.rate} offers a second")
        market.flows(20, arguments.rate)
        waited = [seconds for one in market.devices for seconds in one.waited()]
        print(f"without kills, from an offer to its setpoint: {times_text(waited)}", flush=True)
        print("| Killed | Times | Recovers in s: median | most | Setpoints of others meanwhile |")
        print("|---|---|---|---|---|")
        for name, part in parts_of(market, control).items():
            if arguments.only and name not in arguments.only:
                continue
            found = [trial(market, name, part, arguments.rate) for _ in range(arguments.times)]
            took, meanwhile = [finding for finding, _ in found], sum(finding for _, finding in found)
            print(f"| {name} | {len(found)} | {statistics.median(took):.1f} | {max(took):.1f} | {meanwhile} |", flush=True)
        print(f"no setpoint went back, and after each kill all came to the newest one; {load()}")


def words():
    parser = argparse.ArgumentParser(description=__doc__.splitlines()[0])
    parser.add_argument("--times", type=int, default=5, help="how often each part is killed")
    parser.add_argument("--only", nargs="+", metavar="PART", help="these parts alone, as the table names them")
    parser.add_argument("--rate", type=float, default=5, help="offers a second of all devices together")
    parser.add_argument("--pause", type=float, default=1.0, help="the pause of each node in seconds")
    parser.add_argument("--live", default=os.environ.get("COGMAULA_LIVE", "live"), help="the program live")
    return parser.parse_args()


def main():
    arguments = words()
    signal.signal(signal.SIGTERM, lambda *_: sys.exit(1))
    with tempfile.TemporaryDirectory(prefix="kills.") as folder:
        try:
            with open(Path(folder) / "log", "wb") as log:
                measured(arguments, folder, log)
        except Failed as error:
            print(f"{error}\n{(Path(folder) / 'log').read_text(errors='replace')}")
            return 1
    return 0


if __name__ == "__main__":
    sys.exit(main())
