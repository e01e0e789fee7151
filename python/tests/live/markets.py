"""Markets of real nodes over a real broker and the program `live`: in threads of the test, or in processes that it may kill."""

from __future__ import annotations

import json
import os
import signal
import subprocess
import sys
import threading
import time

from brokers import SECONDS, TOP, wait_until
from logged import log_to
from pretended import PretendedControl

from cogmaula.cluster import Basis
from cogmaula.live import BrokerSettings, LiveError, Settings, make_node
from cogmaula.live.messages.frames import PRICES, frame_of
from cogmaula.live.messages.price_table import PriceTable

STEPS = 10
BASIS = Basis(0, STEPS - 1, STEPS)
# Who is child of whom, and under which number.
PLACES = {
    "auctioneer": ("auctioneer", None, None),
    "street": ("relay", "auctioneer", 1),
    "mill": ("device", "auctioneer", 2),
    "house": ("device", "street", 1),
    "store": ("device", "street", 2),
}


def falls_at(step, before, behind):
    """Demands that fall from one power to another at a step, in watts."""
    return [before] * step + [behind] * (STEPS - step)


def clearing_step(*offers):
    """The first step at which these offers together are not positive, or the last."""
    sums = [sum(them) for them in zip(*offers, strict=True)]
    return next((step for step, total in enumerate(sums) if total <= 0), STEPS - 1)


def prices_in(topic, payload):
    """The Prices and Olds that a message tells, each with the topic of its own child: of such a topic, or of the table of a node."""
    if topic.endswith("/prices") and payload:
        return [(f"{topic.removesuffix('s')}/{price.child}", price) for price in PriceTable.of(payload).prices()]
    is_single = topic.split("/")[-2] == "price" and payload
    return [(topic, frame_of(payload, PRICES, STEPS))] if is_single else []


class Control(PretendedControl):
    """A device's control in the test."""

    def offers(self, demands):
        self.offer(json.dumps({"power": demands}).encode())

    @property
    def setpoints(self):
        return [json.loads(message) for message in self.told]

    def has(self, **due):
        """Whether the newest setpoint has these members."""
        return bool(self.told) and due.items() <= self.setpoints[-1].items()


class Market:
    """Nodes of one market in threads of the test."""

    def __init__(self, port, live, folder, prefix="market", **more):
        self.port, self.live, self.folder, self.prefix, self.more = port, live, folder, prefix, more
        self.nodes, self.controls, self.said, self.threads, self.raised = {}, {}, {}, {}, {}

    def settings(self, name, **more):
        sort, parent, child = PLACES[name]
        broker = BrokerSettings(port=self.port, prefix=self.prefix, **self.more)
        common = {"name": name, "state": str(self.folder / self.prefix / name), "basis": BASIS, "live": self.live, "pause": 0.05}
        return Settings(**{"sort": sort, **common, "parent": parent, "child": child, "broker": broker, **more})

    def start(self, *names, **more):
        for name in names:
            said = self.said.setdefault(name, [])
            self.controls[name] = Control() if PLACES[name][0] == "device" else None
            settings = self.settings(name, **more)
            node = self.nodes[name] = make_node(settings, None if settings.leave else self.controls[name], log_to(said.append))
            self.threads[name] = threading.Thread(target=self._run, args=(name, node))
            self.threads[name].start()
        wait_until(lambda: all(self._is_up(name) or not self.threads[name].is_alive() for name in names), f"{names} are up: {self.said}")
        return self

    def _run(self, name, node):
        try:
            node.run()
        except LiveError as error:
            self.raised[name] = str(error)

    def _is_up(self, name):
        return self.nodes[name].serving.service is not None

    def stop(self, *names):
        for name in names or list(self.threads):
            self.nodes[name].stop()
        for name in names or list(self.threads):
            self.threads.pop(name).join(SECONDS)

    def offers(self, **demands):
        for name, offered in demands.items():
            self.controls[name].offers(offered)

    def settles_at(self, step, **powers):
        """Waits until these devices have a setpoint of this step, each with its power in watts."""

        def holds():
            return all(self.controls[name].has(step=step, power=power) for name, power in powers.items())

        wait_until(holds, f"step {step}, {powers}")

    def __enter__(self):
        return self

    def __exit__(self, *_):
        self.stop()


class Process:
    """A node in a process of its own, which the test may kill. The setpoints of a device are in `setpoints`, over all starts."""

    def __init__(self, port, live, folder, name, **options):
        self.name, self.folder = name, folder
        sort, parent, child = PLACES[name]
        told = {"name": name, "state": folder / name, "live": live, "port": port, "min": 0, "max": STEPS - 1, "steps": STEPS}
        told |= {"pause": 0.05, "keepalive": 2, **({} if parent is None else {"parent": parent, "child": child}), **options}
        words = [word for option, value in told.items() for word in (f"--{option.replace('_', '-')}", str(value))]
        self.command = [sys.executable, "-m", "cogmaula", "node", sort, *words]
        self.setpoints, self.process = [], None

    def start(self):
        environment = {**os.environ, "PYTHONPATH": str(TOP / "python"), "PYTHONDONTWRITEBYTECODE": "1"}
        with open(self.folder / f"{self.name}.err", "ab") as log:
            self.process = subprocess.Popen(
                self.command, stdin=subprocess.PIPE, stdout=subprocess.PIPE, stderr=log, env=environment, bufsize=0
            )
        threading.Thread(target=self._read_all, args=(self.process.stdout,), daemon=True).start()
        return self

    def _read_all(self, lines):
        for line in lines:
            self.setpoints.append(json.loads(line))

    def offers(self, demands):
        try:
            self.process.stdin.write(json.dumps({"power": demands}).encode() + b"\n")
        except BrokenPipeError:
            pass

    @property
    def lines(self):
        return (self.folder / f"{self.name}.err").read_text().splitlines()

    def service(self):
        """The number of the process of its service, or None."""
        found = subprocess.run(["ps", "-o", "pid=", "--ppid", str(self.process.pid)], capture_output=True, text=True, check=False)
        numbers = found.stdout.split()
        return int(numbers[0]) if numbers else None

    def kill(self):
        self.process.kill()
        self.process.wait()

    def kill_service(self):
        number = self.service()
        if number is not None:
            os.kill(number, signal.SIGKILL)

    def stop(self):
        """Ends it by SIGTERM, and gives its status and the seconds that this took."""
        begin = time.monotonic()
        self.process.terminate()
        status = self.process.wait(SECONDS)
        return status, time.monotonic() - begin
