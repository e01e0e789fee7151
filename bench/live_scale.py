#!/usr/bin/env python3
"""Measures a market of nodes over MQTT: an auctioneer, R relays below it, R below each, and 256 devices below each of these.

    live_scale.py [--relays 1 4 16] [--low 5] [--high 500] [--seconds 30] ..
    live_scale.py --relays 64 --below 16 --brokers 4 ..
    live_scale.py --moving ..
    live_scale.py --connections 4000 --tls 1000 --folder /var/tmp ..

Broker, nodes and devices are in network namespaces of this machine, joined by a bridge. Nodes are those of `cogmaula site`, many in a
process of Python and over one connection, each with a process of `live` of its own. Devices are simulated, thousands in a process and
over its one connection. With --connections so many of them, some below each lowest relay, have a connection of their own each, and with --tls
so many of these over TLS. With --below so many relays are below each of the R. With --brokers the relays and their devices are divided among
brokers, which bridges join with the first: it has the auctioneer. With --moving one device more is below the auctioneer, whose bids move the
price at each clearing: so each clearing has a new price for each device.

It prints, at a low and at a high rate of bids: bids, clearings and prices a second, the time from a device's bid to its
setpoint, messages at the broker, and the processors that each part took. Then it prints the memory of each part.

In the end all is quiet, and each device has to have a price for its newest bid, at the step that adding up all bids gives. No price may ever go back. The status is 1 if one does, or if a part ends too early.

It needs root, iproute2, mosquitto, mosquitto-clients and python3-paho-mqtt, and openssl for TLS.
"""

import argparse
import json
import os
import queue
import re
import resource
import shutil
import signal
import sys
import tempfile
import threading
import time
from functools import partial
from pathlib import Path

from live_parts import Spent, children_of, file_system, load, memory_line, store_ms, times_text

HERE = Path(__file__).resolve().parent
sys.path[:0] = [str(HERE.parent), str(HERE.parent / "python")]

from cogmaula.deploy.keys import make_authority, make_certificate  # noqa: E402
from trials.network import PORT, TLS_PORT, Mosquitto, Network  # noqa: E402

PREFIX, CHILDREN = "market", 256
# The seconds after which a part that does not answer has failed, and those within which a market has to come to rest.
PATIENCE, REST = 300, 300
# A broker whose limits are not those of one device: the connection of the simulation has thousands.
LINES = ("sys_interval 1", "max_inflight_messages 20000", "max_queued_messages 0", "set_tcp_nodelay true")
COUNTS = "$SYS/broker/messages/"
# How devices are connected, and the script that simulates them: many over one connection, or each over its own.
SHARED, OWN, SECURED = "devices", "connections", "tls"
SCRIPTS = {SHARED: "live_devices.py", OWN: "live_connections.py", SECURED: "live_connections.py"}
# The files that a process has open, except for the connections of devices.
FILES = 4_096


class Failed(Exception):
    """The measurement cannot go on, or the market is wrong."""


class Part:
    """A process in a namespace, told by lines and answering by lines. If it simulates devices it has their count, and how they are connected."""

    def __init__(self, network, name, command, log, kind="", devices=0):
        self.name, self.kind, self.devices = name, kind, devices
        environment = {**os.environ, "PYTHONPATH": str(HERE.parent / "python"), "PYTHONDONTWRITEBYTECODE": "1"}
        self.process = network.start(
            name, command, stdin=-1, stdout=-1, stderr=log, text=True, bufsize=1, env=environment
        )
        self._lines = queue.SimpleQueue()
        threading.Thread(target=self._read, daemon=True).start()

    def _read(self):
        for line in self.process.stdout:
            self._lines.put(line)
        self._lines.put(None)

    def tell(self, line):
        """Writes a line."""
        try:
            self.process.stdin.write(line + "\n")
        except OSError:
            raise Failed(f"{self.name} has ended") from None

    def answer(self):
        """The next line that it writes."""
        try:
            line = self._lines.get(timeout=PATIENCE)
        except queue.Empty:
            raise Failed(f"{self.name} has not answered for {PATIENCE} s") from None
        if line is None:
            raise Failed(f"{self.name} has ended")
        return line


class Looker:
    """How many packets the broker counts, and the index of the last clearing: the newest payload of each topic."""

    def __init__(self, network, address):
        network.add("looker")
        words = ["mosquitto_sub", "-h", address, "-p", str(PORT), "-F", "%t %x"]
        topics = [f"{COUNTS}received", f"{COUNTS}sent", f"{PREFIX}/auctioneer/resume"]
        process = network.start("looker", [*words, *(word for topic in topics for word in ("-t", topic))], stdout=-1, text=True)
        self.newest = {}
        threading.Thread(target=self._read, args=(process.stdout,), daemon=True).start()

    def _read(self, lines):
        for line in lines:
            topic, _, payload = line.strip().partition(" ")
            self.newest[topic] = bytes.fromhex(payload)

    def counts(self):
        """How many packets of MQTT the broker has taken and given, confirmations among them."""
        return [int(self.newest.get(COUNTS + word, b"0")) for word in ("received", "sent")]

    def clearing(self):
        """The index of the last clearing, by the auctioneer's Resume."""
        return int.from_bytes(self.newest.get(f"{PREFIX}/auctioneer/resume", bytes(5))[1:5], "big")


def tables_of(arguments, folder, address, sort, name, parent=None, child=None):
    """The settings of a node, as the tables of a file."""
    place = {} if parent is None else {"parent": parent, "child": child}
    node = {"name": name, "state": str(folder / "state" / name), "live": arguments.live, "pause": arguments.pause, **place}
    basis = {"min": 0, "max": arguments.steps - 1, "steps": arguments.steps}
    way = {"port": TLS_PORT, "ca": str(folder / "authority" / "ca.crt")} if arguments.nodes_tls else {"port": PORT}
    broker = {"host": address, "prefix": PREFIX, **way}
    return {"sort": sort, "node": node, "basis": basis, "broker": broker, "prices": {"together": not arguments.single}}


def bridge_lines(address, relays):
    """The lines by which a broker hears the auctioneer at the first one, and tells what relays of these numbers say to it."""
    inward = ["basis", *(f"auctioneer/{word}" for word in ("state", "heartbeat", "prices", "price/+", "lapsed/+", "refused/+"))]
    outward = [f"auctioneer/bid/{number}" for number in relays] + [f"relay{number}/state" for number in relays] + ["+/site"]
    first = ["connection first", f"address {address}:{PORT}", "bridge_protocol_version mqttv50", "cleansession true", "notifications false", "try_private false"]
    topics = [(topic, way) for way, found in (("in", inward), ("out", outward)) for topic in found]
    return [*first, "restart_timeout 1", *(f"topic {PREFIX}/{topic} {way} 1" for topic, way in topics)]


def pieces(items, size):
    """Items in lists of at most so many."""
    return [items[at : at + size] for at in range(0, len(items), size)]


def shares(count, parts):
    """A count in so many parts, which differ by one at most."""
    return [count * (part + 1) // parts - count * part // parts for part in range(parts)]


def children_by_kind(arguments, relays):
    """By how devices are connected, and by relay: the numbers of its first and its last child that is connected so."""
    found = {kind: {} for kind in SCRIPTS}
    own, secured = shares(arguments.connections - arguments.tls, len(relays)), shares(arguments.tls, len(relays))
    for relay, *counts in zip(relays, own, secured, strict=True):
        last = 0
        for kind, count in zip(SCRIPTS, [CHILDREN - sum(counts), *counts], strict=True):
            if count:
                found[kind][relay] = last + 1, last + count
            last += count
    return found


class Market:
    """All parts of a market with R relays below the auctioneer."""

    def __init__(self, arguments, relays, network, folder, log):
        self.arguments, self._network, self._log = arguments, network, log
        numbers = range(1, relays + 1)
        below = arguments.below or relays
        self._folder = folder
        certify = partial(make_certificate, folder / "authority") if arguments.tls or arguments.nodes_tls else None
        if certify:
            make_authority(folder / "authority")
        first = Mosquitto(network, folder / "broker", *LINES, certify=certify).start()
        self.brokers = [first]
        for place in range(1, arguments.brokers):
            bridge = bridge_lines(first.address, numbers[place :: arguments.brokers])
            name = f"broker{place}"
            self.brokers.append(Mosquitto(network, folder / name, *LINES, *bridge, name=name, certify=certify).start())
        self.looker = Looker(network, first.address)
        told, self._at = [], []
        make = lambda broker, *words: tables_of(arguments, folder, broker.address, *words)  # noqa: E731
        for place, broker in enumerate(self.brokers):
            above = {f"relay{number}": number for number in numbers[place :: arguments.brokers]}
            lowest = [(f"{name}-{number}", name, number) for name in above for number in range(1, below + 1)]
            settings = [make(broker, "relay", name, "auctioneer", number) for name, number in above.items()]
            told += pieces([*settings, *(make(broker, "relay", *words) for words in lowest)], arguments.nodes)
            self._at.append([name for name, _, _ in lowest])
        self.lowest = [name for names in self._at for name in names]
        told = [] if arguments.broker_alone else [[make(first, "auctioneer", "auctioneer")], *told]
        profiles = [[f"{arguments.profile}.{number}"] if arguments.profile else [] for number in range(len(told))]
        self.nodes = [self._started(f"nodes{number}", ["live_nodes.py", *profile]) for number, profile in enumerate(profiles)]
        for number, (part, tables) in enumerate(zip(self.nodes, told, strict=True)):
            part.tell(json.dumps({"name": f"site{number}", "nodes": tables}))
        for node in self.nodes:
            node.answer()
        self.devices = []
        for kind, below in children_by_kind(arguments, self.lowest).items():
            for broker, names in zip(self.brokers, self._at, strict=True):
                # All connections of a kind at a broker are in one process.
                size = max(1, arguments.devices // CHILDREN if kind == SHARED else len(names))
                for them in pieces([name for name in names if name in below], size):
                    self.devices.append(self._simulated(kind, broker, {name: below[name] for name in them}, SCRIPTS[kind]))
        place = {"auctioneer": (relays + 1, relays + 1)}
        self.movers = [self._simulated("mover", first, place, "live_mover.py")] if arguments.moving else []

    def _simulated(self, kind, broker, below, script):
        """A process of devices of these places, each with a relay, the first and the last."""
        seed = len(self.devices)
        way = {"port": TLS_PORT, "ca": str(self._folder / "authority" / "ca.crt")} if kind == SECURED else {"port": PORT}
        told = {"host": broker.address, **way, "prefix": PREFIX, "steps": self.arguments.steps, "relays": below, "seed": seed}
        count = sum(last - first + 1 for first, last in below.values())
        return self._started(f"{kind}{seed}", [script, json.dumps(told)], kind, count)

    def _started(self, name, words, *more):
        self._network.add(name)
        return Part(self._network, name, [sys.executable, "-B", str(HERE / words[0]), *words[1:]], self._log, *more)

    def of_kind(self, kind):
        """The processes of the devices that are connected so."""
        return [part for part in self.devices if part.kind == kind]

    def parts(self):
        """The numbers of the processes by part."""
        nodes = [node.process.pid for node in self.nodes]
        return {
            "broker": [broker.process.pid for broker in self.brokers],
            "nodes": nodes,
            "live": [child for number in nodes for child in children_of(number)],
            "simulation": [device.process.pid for device in [*self.of_kind(SHARED), *self.movers]],
            **{kind: [part.process.pid for part in self.of_kind(kind)] for kind in (OWN, SECURED) if self.of_kind(kind)},
        }

    def asked(self, parts, line):
        """The answers of some parts to a line."""
        for part in parts:
            part.tell(line)
        return [json.loads(part.answer()) for part in parts]

    def first(self, rate):
        """Lets each device bid once, so many a second in all."""
        for mover in self.movers:
            mover.tell("first 1")
        self.rate("first", rate)

    def move(self, moves):
        """Lets the price move from now on, or no more."""
        for mover in self.movers:
            mover.tell(f"moving {int(moves)}")

    def rate(self, word, rate):
        """Lets the devices bid, so many bids a second in all."""
        count = sum(part.devices for part in self.devices)
        for part in self.devices:
            part.tell(f"{word} {rate if rate <= 0 else rate * part.devices / count}")

    def phase(self, name, rate, seconds):
        """Lets bids flow for so many seconds, and prints what came."""
        self.asked(self.devices, "figures")
        heard = sum(figures["heard"] for figures in self.asked(self.nodes, "figures"))
        counts, clearing = self.looker.counts(), self.looker.clearing()
        spent, began = Spent(self.parts()), time.monotonic()
        self.rate("rate", rate)
        time.sleep(seconds)
        processors = spent.since(time.monotonic() - began)
        took = time.monotonic() - began
        clearings = self.looker.clearing() - clearing
        came, gone = (after - before for before, after in zip(counts, self.looker.counts(), strict=True))
        heard = sum(figures["heard"] for figures in self.asked(self.nodes, "figures")) - heard
        told = self.asked(self.devices, "figures")
        bids, confirmed, prices = (sum(figures[word] for figures in told) for word in ("bids", "confirmed", "prices"))
        waited = [seconds for one in told for seconds in one["waited"]]
        print(f"  {name}, {took:.0f} s, {load()}")
        print(f"    bids a second: made {bids / took:.1f}, confirmed by the broker {confirmed / took:.1f}, "
              f"given to services {heard / took:.1f}")
        print(f"    clearings {clearings}; a second: prices to devices {prices / took:.1f}, "
              f"packets to the broker {came / took:.0f}, from it {gone / took:.0f}")
        print(f"    from a bid to its setpoint, {len(waited):,} bids: {times_text(waited)}")
        for part, figures in zip(self.devices, told, strict=True):
            if part.kind != SHARED:
                waited = figures["waited"]
                print(f"      of {part.name}, {figures['prices']} prices, {len(waited):,} bids: {times_text(waited)}")
        print(f"    processors: {processors}", flush=True)

    def require_nodes(self):
        """Raises Failed if a node has ended."""
        for figures in self.asked(self.nodes, "figures"):
            for name, why in figures["ended"].items():
                raise Failed(f"the node {name} has ended: {why}")

    def rests(self):
        """Waits until each device has the newest price for its newest bid. Gives what the devices hold then, and the seconds."""
        began, quiet = time.monotonic(), 0
        while True:
            told = self.asked([*self.devices, *self.movers], "state")
            wrong = self.wrong(told)
            quiet = 0 if wrong else quiet + 1
            if quiet == 3 or time.monotonic() > began + self.arguments.rest:
                return wrong, told, time.monotonic() - began
            self.require_nodes()
            time.sleep(1)

    def wrong(self, told):
        """What is wrong with what the devices hold, a line each."""
        steps = self.arguments.steps
        sums = [sum(figures["sums"][step] for figures in told) for step in range(steps)]
        due = next((step for step, demand in enumerate(sums) if demand <= 0), steps - 1)
        found, held = [], {}
        for figures in told:
            for key, count in figures["held"].items():
                held[key] = held.get(key, 0) + count
            found += [f"{name} has no price for its newest bid" for name in figures["old"]]
            if figures["bids"] < figures["devices"]:
                found.append(f"{figures['devices'] - figures['bids']} devices have not bid")
            if figures["behind"] or figures["foreign"]:
                found.append(f"{figures['behind']} prices went back, and {figures['foreign']} were for no bid")
        # A price that gives the same as the one before is not told at once, so the clearing of a device may be an earlier one.
        found += [f"{count} devices have the step {key}, and {due} is due" for key, count in held.items() if key != str(due)]
        return found

    def memory(self):
        """Prints the memory of each part."""
        parts, services = self.parts(), [child for one in self.nodes[1:] for child in children_of(one.process.pid)]
        print("  resident memory:")
        print(memory_line("mosquitto", parts["broker"]))
        if self.nodes:
            print(memory_line("live auctioneer", children_of(self.nodes[0].process.pid)))
            print(memory_line("live relay", services))
            print(memory_line("Python of the auctioneer's node", parts["nodes"][:1]))
            print(memory_line(f"Python of at most {self.arguments.nodes} relays", parts["nodes"][1:]))
        print(memory_line(f"simulation of at most {self.arguments.devices} devices", parts["simulation"]))
        for kind in (OWN, SECURED):
            if kind in parts:
                count = sum(part.devices for part in self.of_kind(kind))
                print(memory_line(f"holder of {count:,} connections{' over TLS' if kind == SECURED else ''}", parts[kind]), flush=True)


def measured(arguments, relays, folder, log):
    """Brings up a market of this size, measures it, and takes it down. Gives whether all was right."""
    with Network() as network:
        began = time.monotonic()
        market = Market(arguments, relays, network, folder, log)
        count = CHILDREN * len(market.lowest)
        print(f"R = {relays}: {1 + relays + len(market.lowest)} nodes in {len(market.nodes)} processes, {count:,} devices in "
              f"{len(market.devices)}, {arguments.steps} steps, pause {arguments.pause} s; "
              f"up after {time.monotonic() - began:.0f} s", flush=True)
        if arguments.broker_alone:
            return broker_alone(market, arguments, network)
        market.first(min(count, arguments.first))
        wrong, _, seconds = market.rests()
        if wrong:
            raise Failed("\n".join([f"the first bids have no price after {seconds:.0f} s:", *wrong[:20]]))
        print(f"  {market.looker.clearing()} clearings and {seconds:.0f} s until the first bids of all devices have a price")
        market.move(True)
        market.phase("no bid but those that move the price" if arguments.moving else "at rest", 0, arguments.seconds)
        market.phase(f"low rate, {arguments.low} bids a second", arguments.low, arguments.seconds)
        market.phase("as fast as it goes" if arguments.high < 0 else f"high rate, {arguments.high} bids a second",
                     arguments.high, arguments.seconds)
        market.rate("rate", 0)
        market.move(False)
        wrong, told, seconds = market.rests()
        market.memory()
        power, clearing = sum(figures["power"] for figures in told), market.looker.clearing()
        print(f"  in the end: {len(wrong)} wrong of {count:,} devices after {seconds:.0f} s; clearing {clearing}, "
              f"all setpoints together {power:,} W", flush=True)
        for line in wrong[:20]:
            print(f"    {line}")
        return not wrong


def print_said(lines):
    """Prints what the nodes have said, each kind of line once: those that differ in numbers alone are of one kind."""
    kinds = {}
    for line in lines:
        kinds.setdefault(re.sub(r"[0-9]+", "N", re.sub(r"relay[0-9-]+", "R", line)), []).append(line)
    print(f"  the nodes have said {len(lines)} lines{', as:' if lines else ''}")
    for them in sorted(kinds.values(), key=len, reverse=True)[:20]:
        print(f"    {len(them)} times: {them[0]}")


def broker_alone(market, arguments, network):
    """Measures devices and broker without nodes: what the nodes' part is."""
    told = {"min": 0, "max": arguments.steps - 1, "steps": arguments.steps, "session": "0" * 16, "begun": "2026-01-01T00:00:00Z"}
    basis = json.dumps(told)
    words = ["mosquitto_pub", "-h", market.brokers[0].address, "-p", str(PORT), "-r", "-q", "1", "-t", f"{PREFIX}/basis", "-m", basis]
    network.start("looker", words).wait()
    time.sleep(1)
    market.phase("devices and broker alone, as fast as it goes", -1, arguments.seconds)
    return True


def words():
    parser = argparse.ArgumentParser(description=__doc__.splitlines()[0])
    parser.add_argument("--relays", type=int, nargs="+", default=[1, 4, 16], metavar="R", help="the sizes, each 1 to 256")
    parser.add_argument("--below", type=int, help="how many relays are below each of the R, 1 to 256; R by default")
    parser.add_argument("--brokers", type=int, default=1, help="how many brokers there are, joined by bridges")
    parser.add_argument("--steps", type=int, default=20, help="steps of the basis")
    parser.add_argument("--low", type=float, default=5, help="the low rate, bids a second of all devices together")
    parser.add_argument("--high", type=float, default=500, help="the high rate; -1 is as fast as it goes")
    parser.add_argument("--first", type=float, default=2_000, help="the rate of the first bids")
    parser.add_argument("--seconds", type=float, default=30, help="how long each phase takes")
    parser.add_argument("--pause", type=float, default=1.0, help="the pause of each node in seconds")
    parser.add_argument("--rest", type=float, default=REST, help="the seconds within which the market has to come to rest")
    parser.add_argument("--nodes", type=int, default=69, help="the most nodes in a process of Python")
    parser.add_argument("--profile", help="the first part of the names of files with the profile of each process of nodes, which is slow then")
    parser.add_argument("--devices", type=int, default=8_192, help="the most devices in a process")
    parser.add_argument("--folder", default="/dev/shm", help="where the nodes keep their Resumes; /dev/shm is memory")
    parser.add_argument("--connections", type=int, default=0, help="how many devices have a connection of their own each")
    parser.add_argument("--tls", type=int, default=0, help="how many of these connections are over TLS")
    parser.add_argument("--nodes-tls", action="store_true", help="let the connections of the nodes be over TLS too")
    parser.add_argument("--live", default=os.environ.get("COGMAULA_LIVE", "live"), help="the program live")
    parser.add_argument("--moving", action="store_true", help="move the price at each clearing, by a device more below the auctioneer")
    parser.add_argument("--single", action="store_true", help="tell each price in a topic of its own, and not all together")
    parser.add_argument("--broker-alone", action="store_true", help="leave the nodes out, and measure devices and broker")
    return parser.parse_args()


def raise_open_files(count):
    """Lets this process and those that it starts have so many files open."""
    soft, hard = resource.getrlimit(resource.RLIMIT_NOFILE)
    resource.setrlimit(resource.RLIMIT_NOFILE, (max(soft, count), max(hard, count)))


def main():
    arguments = words()
    signal.signal(signal.SIGTERM, lambda *_: sys.exit(1))
    statuses = []
    if arguments.moving and max(arguments.relays) == CHILDREN:
        sys.exit(f"the auctioneer has at most {CHILDREN} children: with --moving give it {CHILDREN - 1} relays or fewer")
    lowest = min(relays * (arguments.below or relays) for relays in arguments.relays)
    if not 0 <= arguments.tls <= arguments.connections <= (CHILDREN - 1) * lowest:
        sys.exit("a relay has one device at least without a connection of its own, and --tls are of those of --connections")
    raise_open_files(arguments.connections + FILES)
    with tempfile.TemporaryDirectory(prefix="live_scale.", dir=arguments.folder) as probe:
        print(f"{os.cpu_count()} processors, {load()}, Resumes in {arguments.folder} ({file_system(probe)}), "
              f"where a safe store takes {store_ms(Path(probe)):.2f} ms", flush=True)
    for relays in arguments.relays:
        folder = Path(tempfile.mkdtemp(prefix="live_scale.", dir=arguments.folder))
        try:
            with open(folder / "log", "wb") as log:
                statuses.append(0 if measured(arguments, relays, folder, log) else 1)
        except (Failed, OSError) as error:
            print(error)
            statuses.append(1)
        print_said((folder / "log").read_text(errors="replace").splitlines())
        shutil.rmtree(folder)
    return max(statuses)


if __name__ == "__main__":
    sys.exit(main())
