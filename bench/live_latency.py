#!/usr/bin/env python3
"""Measures how long an offer takes to its setpoint over three levels: an auctioneer, a relay and two devices, with pause = 0.

    live_latency.py [--offers 200] [--folder /dev/shm] [--sync-ms 0]

Each node is a process of `cogmaula node`, and all are on this machine with one broker. A control publishes an offer that moves the clearing,
and waits for its setpoint at the topic, before it publishes the next. --sync-ms lets each safe write to the disk take so much longer: a node
makes a file and its folder safe, so a store takes twice that. It needs no root, but mosquitto, python3-paho-mqtt and the program `live`.
"""

import argparse
import json
import os
import queue
import signal
import socket
import subprocess
import sys
import tempfile
import time
from pathlib import Path

from live_parts import load, store_ms, times_text

HERE = Path(__file__).resolve().parent
STEPS, PORT, PATIENCE = 20, 18_874, 60
NODES = {"auctioneer": ("auctioneer", None, None), "street": ("relay", "auctioneer", 1), "house": ("device", "street", 1), "store": ("device", "street", 2)}
LINES = f"listener {PORT} 127.0.0.1\nallow_anonymous true\nuser root\nset_tcp_nodelay true\n"
# A process of a node in which each call that makes something safe on disk takes longer.
SLOW = """
import os, runpy, sys, time
seconds = float(sys.argv.pop(1)) / 1000
def slowed(call):
    def run(file):
        call(file)
        time.sleep(seconds)
    return run
os.fsync, os.fdatasync = slowed(os.fsync), slowed(os.fdatasync)
sys.argv[0] = "cogmaula"
runpy.run_module("cogmaula", run_name="__main__")
"""


def started(name, folder, arguments, log):
    """A process of a node."""
    sort, parent, child = NODES[name]
    told = {"name": name, "state": folder / name, "live": arguments.live, "port": PORT, "min": 0, "max": STEPS - 1, "steps": STEPS, "pause": 0}
    told |= {} if parent is None else {"parent": parent, "child": child}
    words = [word for option, value in told.items() for word in (f"--{option}", str(value))]
    environment = {**os.environ, "PYTHONPATH": str(HERE.parent / "python"), "PYTHONDONTWRITEBYTECODE": "1"}
    command = [sys.executable, "-B", "-c", SLOW, str(arguments.sync_ms), "node", sort, *words]
    return subprocess.Popen(command, stdin=subprocess.PIPE, stdout=subprocess.DEVNULL, stderr=log, env=environment)


class Control:
    """Says offers of both devices, and hears their setpoints."""

    def __init__(self):
        import paho.mqtt.client as mqtt

        self.told, self.up = queue.SimpleQueue(), set()
        self._client = mqtt.Client(protocol=mqtt.MQTTv5)
        self._client.on_message = self._take
        self._client.connect("127.0.0.1", PORT)
        # Else the control's own offer waits for what the broker confirms late.
        self._client.socket().setsockopt(socket.IPPROTO_TCP, socket.TCP_NODELAY, 1)
        self._client.subscribe([("market/+/setpoint", 1), ("market/+/state", 1)])
        self._client.loop_start()

    def _take(self, _client, _data, message):
        _, node, word = message.topic.split("/")
        if word == "state":
            (self.up.add if b'"up"' in message.payload else self.up.discard)(node)
        elif message.payload:
            self.told.put((node, json.loads(message.payload), time.monotonic()))

    def offer(self, device, reference, powers):
        """Says an offer, and gives when that was."""
        now = time.monotonic()
        self._client.publish(f"market/{device}/offer", json.dumps({"power": powers, "reference": reference}), 1)
        return now

    def hears(self, device, reference):
        """Waits for the setpoint of an offer, and gives when it came."""
        end = time.monotonic() + PATIENCE
        while True:
            node, told, moment = self.told.get(timeout=max(0.01, end - time.monotonic()))
            if (node, told.get("reference")) == (device, reference):
                return moment


def main():
    parser = argparse.ArgumentParser(description=__doc__.splitlines()[0])
    parser.add_argument("--offers", type=int, default=200)
    parser.add_argument("--folder", default="/dev/shm", help="where the nodes keep their Resumes; /dev/shm is memory")
    parser.add_argument("--sync-ms", type=float, default=0, help="by how many milliseconds each safe write takes longer; a store has two")
    parser.add_argument("--live", default=os.environ.get("COGMAULA_LIVE", "live"))
    arguments = parser.parse_args()
    with tempfile.TemporaryDirectory(dir=arguments.folder) as made, open(f"{made}/log", "wb") as log:
        folder = Path(made)
        (folder / "mosquitto.conf").write_text(LINES)
        broker = subprocess.Popen(["/usr/sbin/mosquitto", "-c", f"{made}/mosquitto.conf"], stderr=subprocess.DEVNULL)
        time.sleep(1)
        nodes = []
        try:
            control = Control()
            nodes = [started(name, folder, arguments, log) for name in NODES]
            end = time.monotonic() + PATIENCE
            while control.up < NODES.keys():
                if time.monotonic() > end:
                    sys.exit(f"after {PATIENCE} s {control.up} are up alone")
                time.sleep(0.05)
            control.offer("house", 0, [1_000] * STEPS)
            waited = []
            for number in range(1, arguments.offers + 11):
                falls = 2 + number % (STEPS - 4)
                began = control.offer("store", number, [0] * falls + [-1_500] * (STEPS - falls))
                waited.append(control.hears("store", number) - began)
            found = [seconds * 1_000 for seconds in waited[10:]]
            text = times_text(found).replace(" s", " ms")
            print(f"{os.cpu_count()} processors, {load()}, a store in {arguments.folder} takes {store_ms(folder):.2f} ms"
                  f"{f' and {2 * arguments.sync_ms:g} ms more' if arguments.sync_ms else ''}")
            print(f"from an offer to its setpoint over three levels, {len(found)} offers one after the other: {text}")
        finally:
            for node in nodes:
                node.send_signal(signal.SIGTERM)
            for node in nodes:
                node.wait(30)
            broker.terminate()
            broker.wait()
            lines = (folder / "log").read_text().splitlines()
            print(f"the nodes have said {len(lines)} lines{', the last ones:' if lines else ''}", *lines[-6:], sep="\n    ")


if __name__ == "__main__":
    main()
