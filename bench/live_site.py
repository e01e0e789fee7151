#!/usr/bin/env python3
"""Measures a site: many nodes in one process, over one connection to the broker.

    live_site.py [--devices 1024] [--below 256] [--seconds 20]

A first site has the auctioneer and a relay for each 256 devices; a second one has the devices. A client says an offer for each device,
and then waits until each has a setpoint for it. The script prints how long that took, the memory of a device beside its process of
`live`, and the processors at rest and while one device in a hundred offers anew each second. It needs root for nothing, but mosquitto,
python3-paho-mqtt and the program `live`.
"""

import argparse
import json
import os
import random
import signal
import subprocess
import sys
import tempfile
import time
from pathlib import Path

from live_parts import Spent, children_of, load

HERE = Path(__file__).resolve().parent
STEPS, PORT = 20, 18_873
LINES = ("listener {port} 127.0.0.1", "allow_anonymous true", "max_inflight_messages 0", "max_queued_messages 0", "set_tcp_nodelay true", "user root")


def site(folder, name, live, nodes, pause):
    """The file of a site."""
    lines = ["[site]", f'name = "{name}"', f'state = "{folder / name}"', f'live = "{live}"', "[basis]", f"min = 0\nmax = {STEPS - 1}\nsteps = {STEPS}"]
    lines += ["[broker]", f"port = {PORT}"]
    for node, (sort, parent, child) in nodes.items():
        lines += [f"[nodes.{node}]", f'sort = "{sort}"', f"pause = {pause}"]
        lines += [] if parent is None else [f'parent = "{parent}"', f"child = {child}"]
    path = folder / f"{name}.toml"
    path.write_text("\n".join(lines) + "\n")
    return path


def started(path, log):
    """A process of `cogmaula site`."""
    environment = {**os.environ, "PYTHONPATH": str(HERE.parent / "python"), "PYTHONDONTWRITEBYTECODE": "1"}
    return subprocess.Popen([sys.executable, "-B", "-m", "cogmaula", "site", str(path)], stderr=log, env=environment)


def resident(number):
    """The private and the resident memory of a process in bytes."""
    told = Path(f"/proc/{number}/smaps_rollup").read_text()
    found = {line.split(":")[0]: int(line.split()[1]) * 1024 for line in told.splitlines()[1:]}
    return found["Private_Clean"] + found["Private_Dirty"], found["Rss"]


class Client:
    """Says offers, and reads setpoints and states."""

    def __init__(self):
        import paho.mqtt.client as mqtt

        self.setpoints, self.up = {}, set()
        self._client = mqtt.Client(protocol=mqtt.MQTTv5)
        self._client.on_message = self._take
        self._client.connect("127.0.0.1", PORT)
        self._client.subscribe([("market/+/setpoint", 1), ("market/+/state", 1)])
        self._client.loop_start()

    def _take(self, _client, _data, message):
        _, node, word = message.topic.split("/")
        if word == "state":
            (self.up.add if b'"up"' in message.payload else self.up.discard)(node)
        elif message.payload:
            told = json.loads(message.payload)
            if "reference" in told:
                self.setpoints[node] = told["reference"], time.monotonic()

    def offers(self, device, reference, chance):
        """Lets a device take some power below a step drawn by chance."""
        falls, power = chance.randrange(STEPS), chance.randrange(1, 5_000)
        told = {"power": [power] * falls + [-power] * (STEPS - falls), "reference": reference}
        self._client.publish(f"market/{device}/offer", json.dumps(told), 1, True)


def wait(holds, seconds, what):
    """Waits until a condition holds, and gives the seconds."""
    began = time.monotonic()
    while not holds():
        if time.monotonic() > began + seconds:
            sys.exit(f"after {seconds} s: {what}")
        time.sleep(0.05)
    return time.monotonic() - began


def phase(name, parts, seconds, act=None):
    """Prints the processors that the parts take meanwhile."""
    spent, began = Spent(parts), time.monotonic()
    while time.monotonic() < began + seconds:
        if act is not None:
            act()
        time.sleep(1)
    print(f"  {name}, {seconds:.0f} s, {load()}: {spent.since(time.monotonic() - began)}", flush=True)


def main():
    parser = argparse.ArgumentParser(description=__doc__.splitlines()[0])
    parser.add_argument("--devices", type=int, default=1_024)
    parser.add_argument("--below", type=int, default=256, help="the devices below a relay")
    parser.add_argument("--seconds", type=float, default=20)
    parser.add_argument("--pause", type=float, default=1.0)
    parser.add_argument("--live", default=os.environ.get("COGMAULA_LIVE", "live"))
    arguments = parser.parse_args()
    chance = random.Random(1)
    with tempfile.TemporaryDirectory(dir="/dev/shm") as made, open(f"{made}/log", "wb") as log:
        folder = Path(made)
        (folder / "mosquitto.conf").write_text("\n".join(LINES).format(port=PORT) + "\n")
        broker = subprocess.Popen(["/usr/sbin/mosquitto", "-c", f"{made}/mosquitto.conf"], stderr=subprocess.DEVNULL)
        time.sleep(1)
        relays = [f"relay{number}" for number in range(1, -(-arguments.devices // arguments.below) + 1)]
        places = [(relay, child) for relay in relays for child in range(1, arguments.below + 1)][: arguments.devices]
        devices = {f"{relay}-{child}": ("device", relay, child) for relay, child in places}
        above = {"auctioneer": ("auctioneer", None, None), **{relay: ("relay", "auctioneer", at) for at, relay in enumerate(relays, 1)}}
        processes = []
        try:
            client = Client()
            began = time.monotonic()
            for name, nodes in (("above", above), ("below", devices)):
                processes.append(started(site(folder, name, arguments.live, nodes, arguments.pause), log))
            wait(lambda: client.up >= devices.keys() | above.keys(), 600, "all nodes are up")
            print(f"{len(devices):,} devices and {len(above)} parents in two processes, {load()}; up after {time.monotonic() - began:.0f} s", flush=True)
            references = dict.fromkeys(devices, 1)
            for device in devices:
                client.offers(device, 1, chance)

            def all_told():
                return all(client.setpoints.get(device, (0, 0))[0] == reference for device, reference in references.items())

            print(f"  {wait(all_told, 600, 'each has a setpoint'):.0f} s until each device has a setpoint for its first offer", flush=True)
            parts = {"broker": [broker.pid], "parents": [processes[0].pid], "devices": [processes[1].pid]}
            parts["live"] = [number for process in processes for number in children_of(process.pid)]
            phase("at rest", parts, arguments.seconds)

            def act():
                for device in chance.sample(sorted(devices), max(1, len(devices) // 100)):
                    references[device] += 1
                    client.offers(device, references[device], chance)

            phase("one device in a hundred offers each second", parts, arguments.seconds, act)
            print(f"  {wait(all_told, 300, 'each has its last setpoint'):.1f} s until each device has the setpoint of its newest offer")
            private, whole = resident(processes[1].pid)
            print(f"  memory of the devices' process: {whole / 1e6:.0f} MB, {private / 1e6:.0f} MB its own, {private / len(devices) / 1e3:.0f} kB a device")
            one = children_of(processes[1].pid)[0]
            print(f"  a process of live: {resident(one)[0] / 1e3:.0f} kB its own")
        finally:
            for process in processes:
                process.send_signal(signal.SIGTERM)
            for process in processes:
                process.wait(120)
            broker.terminate()
            broker.wait()
            print((folder / "log").read_text()[-2_000:])


if __name__ == "__main__":
    main()
