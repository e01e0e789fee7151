"""A small market for trials: `cogmaula node` for each node, in a namespace of its own, and a broker in another.

An auctioneer has two relays, and each relay three devices. Offers are made by chance. Each has another power, so a setpoint tells
which offer it answers.
"""

import contextlib
import json
import os
import random
import signal
import sys
import threading
import time
from pathlib import Path

from .network import PORT, Mosquitto, Network

TOP = Path(__file__).resolve().parent.parent
STEPS = 20
RELAYS = {"west": 1, "east": 2}
# Who is child of whom, and under which number.
PLACES = {"auctioneer": ("auctioneer", None, None)}
PLACES |= {name: ("relay", "auctioneer", child) for name, child in RELAYS.items()}
PLACES |= {f"{relay}{child}": ("device", relay, child) for relay in RELAYS for child in (1, 2, 3)}
DEVICES = [name for name, (sort, _, _) in PLACES.items() if sort == "device"]
# A broker that keeps what it retains, as that of the example does, and tells each publisher at once.
KEEPS = ("persistence true", "autosave_on_changes true", "autosave_interval 10", "set_tcp_nodelay true")
# The seconds after which a unit starts a node anew.
RESTART = 2.0


class Failed(Exception):
    """The market is wrong. The message says how."""


def demands_of(serial, falls):
    """An offer: the power of its serial number, in watts, taken below a step and given from it on."""
    return [serial] * falls + [-serial] * (STEPS - falls)


class Node:
    """A node in a process of its own, which may be killed. `setpoints` has what a device's control was told, over all starts."""

    def __init__(self, market, name):
        self.name, self._market = name, market
        sort, parent, child = PLACES[name]
        told = {"name": name, "state": market.state(name), "live": market.live}
        told |= {"pause": market.pause, "keepalive": market.keepalive}
        told |= {"host": market.broker.address, "port": PORT, "min": 0, "max": STEPS - 1, "steps": STEPS}
        told |= {} if parent is None else {"parent": parent, "child": child}
        words = [word for option, value in told.items() for word in (f"--{option}", str(value))]
        self.command = [sys.executable, "-B", "-m", "cogmaula", "node", sort, *words]
        if market.record is not None:
            self.command += ["--record", str(market.record / name)]
        self.setpoints, self.offers, self.process = [], {}, None

    def start(self):
        """Starts the node."""
        environment = {**os.environ, "PYTHONPATH": str(TOP / "python")}
        self.process = self._market.network.start(
            self.name, self.command, stdin=-1, stdout=-1, stderr=self._market.log, bufsize=0, env=environment
        )
        threading.Thread(target=self._read, args=(self.process.stdout,), daemon=True).start()
        if self.offers:
            # A control that finds its node anew says what it would take.
            self.tell(self.offers[max(self.offers)][0])
        return self

    def _read(self, lines):
        for line in lines:
            self.setpoints.append((time.monotonic(), json.loads(line)))

    def tell(self, demands):
        """Gives an offer to the node."""
        try:
            self.process.stdin.write(json.dumps({"power": demands}).encode() + b"\n")
        except OSError:
            pass

    def offer(self, serial, falls):
        """Lets the control of a device offer."""
        self.offers[serial] = demands_of(serial, falls), time.monotonic()
        self.tell(self.offers[serial][0])

    def kill(self):
        """Ends the process at once."""
        self.process.kill()
        self.process.wait()

    def kill_service(self):
        """Ends the process of the service at once."""
        for path in Path(f"/proc/{self.process.pid}/task").glob("*/children"):
            # A thread or a service may end meanwhile.
            with contextlib.suppress(FileNotFoundError, ProcessLookupError):
                for number in map(int, path.read_text().split()):
                    os.kill(number, signal.SIGKILL)

    def answered(self):
        """The serial number of the offer that the newest setpoint answers, 0 without one."""
        return abs(self.setpoints[-1][1]["power"]) if self.setpoints else 0

    def waited(self):
        """The seconds from each offer that was answered to its first setpoint."""
        found = {}
        for moment, told in self.setpoints:
            found.setdefault(abs(told["power"]), moment)
        return [moment - self.offers[serial][1] for serial, moment in found.items()]

    def faults(self):
        """What is wrong with the setpoints so far, a line each."""
        before = (0, 0)
        for _, told in self.setpoints:
            demands = self.offers.get(abs(told["power"]), (None,))[0]
            if demands is None or demands[told["step"]] != told["power"]:
                yield f"{self.name}: the power of {told} is of no offer at that step"
            index = told["clearing"], told["bid"]
            if index < before:
                yield f"{self.name}: {told} is older than the setpoint before, of clearing and bid {before}"
            before = index


class Market:
    """All nodes, their broker, and the chance by which offers are made."""

    def __init__(self, live, folder, log, wire=None, lines=KEEPS, record=None, seed=1, pause=0.2, keepalive=5):
        self.live, self.folder, self.log, self.record = live, Path(folder), log, record
        self.pause, self.keepalive, self.chance = pause, keepalive, random.Random(seed)
        self._serial = 0
        self.network = Network(wire)
        self._brokers = self.folder / "broker", [*lines, f"persistence_location {self.folder}/"]
        self.nodes = {}

    def __enter__(self):
        folder, lines = self._brokers
        try:
            self.broker = Mosquitto(self.network, folder, *lines).start()
            for name in PLACES:
                self.network.add(name)
                self.nodes[name] = Node(self, name).start()
        except BaseException:
            self.network.__exit__()
            raise
        return self

    def __exit__(self, *_):
        self.network.__exit__()

    def state(self, name):
        """The folder of a node's Resume."""
        return self.folder / "state" / name

    @property
    def devices(self):
        """The nodes that are devices."""
        return [self.nodes[name] for name in DEVICES]

    def offer(self, name=None):
        """Lets a device make an offer, by chance."""
        self._serial += 1
        self.nodes[name or self.chance.choice(DEVICES)].offer(self._serial, self.chance.randrange(STEPS + 1))

    def flows(self, seconds, rate):
        """Lets offers flow for so many seconds, so many a second."""
        end = time.monotonic() + seconds
        while time.monotonic() < end:
            self.offer()
            time.sleep(min(1 / rate, max(0.0, end - time.monotonic())))

    def clearing(self):
        """The index of the last clearing, by the Resume on the auctioneer's disk, 0 without one."""
        found = sorted(self.state("auctioneer").glob("*.resume"))
        return int.from_bytes(found[-1].read_bytes().split(b"\n", 3)[3][1:5], "big") if found else 0

    def unsettled(self):
        """What is wrong with the newest setpoints, if all is to be quiet: a line each."""
        newest = {device.name: device.offers[max(device.offers)][0] for device in self.devices}
        sums = [sum(them) for them in zip(*newest.values(), strict=True)]
        due = next((step for step, demand in enumerate(sums) if demand <= 0), STEPS - 1)
        last = self.clearing()
        for device in self.devices:
            told = device.setpoints[-1][1] if device.setpoints else {}
            if (told.get("clearing"), told.get("step"), told.get("power")) != (last, due, newest[device.name][due]):
                yield f"{device.name} has {told}; clearing {last}, step {due} and {newest[device.name][due]} W are due"

    def settles(self, seconds):
        """Lets each device offer once more, and waits until all have the newest setpoint.

        Gives what is wrong then, a line each, and the seconds.
        """
        for name in DEVICES:
            self.offer(name)
        began = time.monotonic()
        while wrong := list(self.unsettled()):
            if time.monotonic() > began + seconds:
                break
            time.sleep(0.1)
        took = time.monotonic() - began
        time.sleep(2)
        wrong = wrong or list(self.unsettled())
        for device in self.devices:
            wrong += device.faults()
        return wrong, took
