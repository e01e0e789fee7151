"""Whole markets over a real broker and the program `live`: prices by hand, rights, sessions, restarts, and a storm of kills.

The prices that are due are worked out by hand or by adding up the offers; no test takes them from the program.
"""

from __future__ import annotations

import json
import os
import random
import shutil
import signal
import subprocess
import sys
import time
from datetime import datetime

import pytest
from brokers import TOP, Certificates, Mosquitto, Onlooker, live_program, passwords, require_broker, wait_until
from markets import BASIS, PLACES, STEPS, Market, Process, clearing_step, falls_at, prices_in

from cogmaula.live.messages.frames import BIDS, Gone, frame_of
from cogmaula.live.messages.price_table import PriceTable

CONSTANT = [100] * STEPS


@pytest.fixture
def live():
    require_broker()
    return live_program()


@pytest.fixture
def broker(tmp_path, live):
    with Mosquitto(tmp_path / "broker") as one:
        yield one


@pytest.fixture
def onlooker(broker):
    with Onlooker(broker.port) as one:
        yield one


@pytest.fixture
def market(broker, live, tmp_path):
    with Market(broker.port, live, tmp_path) as one:
        yield one


def all_start(market):
    return market.start("auctioneer").start("street", "house", "store")


def test_prices_come_down_with_time_and_session(market, onlooker):
    all_start(market).offers(house=CONSTANT, store=falls_at(4, 0, -150))
    market.settles_at(4, house=100, store=-150)
    market.offers(house=falls_at(8, 200, 100))
    market.settles_at(8, house=100, store=-150)
    session = market.nodes["auctioneer"].session
    due = {"min": 0, "max": 9, "steps": 10, "session": session.id, "begun": session.begun, "version": 3}
    assert json.loads(onlooker.payload("market/basis")) == {**due, "validity": 120.0, "heartbeat": 30.0, "grace": 150.0}
    told = onlooker.newest
    wait_until(lambda: PriceTable.of(told["market/street/prices"][0]).step == 8, "the prices at the broker")
    payload, properties = told["market/street/prices"]
    assert PriceTable.of(payload).numbers[2] == 2
    assert properties["session"] == session.id
    cleared = datetime.fromisoformat(properties["time"])
    assert session.begun <= properties["time"]
    assert cleared.tzinfo is not None
    assert market.controls["store"].setpoints[-1]["time"] == properties["time"]
    newest = market.controls["house"].told[-1]
    wait_until(lambda: onlooker.payload("market/house/setpoint") == newest, "the setpoint at the broker")
    for name in market.nodes:
        assert json.loads(onlooker.payload(f"market/{name}/state"))["state"] == "up"
        wait_until(lambda name=name: is_on_disk(market, name, onlooker.payload(f"market/{name}/resume")), "the Resume of the disk")


def is_on_disk(market, name, resume):
    """Whether the Resume on a node's disk is this one. That of a device may be of another price, whose index is behind its number."""
    (path,) = (market.folder / market.prefix / name).glob("*.resume")
    found = path.read_bytes().split(b"\n", 3)[3]
    return found == resume or (PLACES[name][0] == "device" and (found[:5], found[9:]) == (resume[:5], resume[9:]))


def test_a_relay_keeps_its_limits(market):
    """The street takes at most 50 W. It would take 100 W below price 4, so it settles for 4 there, and bids -50 W at each price.

    With the mill, which takes 60 W below price 2 and gives 60 W from there on, the sum is 10 W below 2 and -110 W from there on: the
    market clears at 2. There the street passes 4 down.
    """
    market.start("auctioneer").start("street", ceiling=50).start("house", "store", "mill")
    market.offers(house=CONSTANT, store=falls_at(4, 0, -150), mill=falls_at(2, 60, -60))
    market.settles_at(2, mill=-60)
    market.settles_at(4, house=100, store=-150)


def test_two_markets_share_a_broker(market, broker, live, tmp_path, onlooker):
    with Market(broker.port, live, tmp_path, prefix="towns/other") as other, Onlooker(broker.port, prefix="towns/other") as looks:
        all_start(market).offers(house=CONSTANT, store=falls_at(4, 0, -150))
        all_start(other).offers(house=CONSTANT, store=falls_at(7, 0, -150))
        market.settles_at(4, house=100, store=-150)
        other.settles_at(7, house=100, store=-150)
        assert json.loads(looks.payload("towns/other/basis"))["session"] != json.loads(onlooker.payload("market/basis"))["session"]


def test_login_and_tls(live, tmp_path):
    certificates = Certificates(tmp_path / "certificates")
    certificate, key = certificates.make("server", "127.0.0.1")
    names = ("auctioneer", "street", "house", "store")
    for name in names:
        (tmp_path / name).write_text(f"word of {name}\n")
    rights = """
user auctioneer
topic readwrite market/auctioneer/#
topic readwrite market/basis
topic read market/+/state

user street
topic readwrite market/street/#
topic readwrite market/auctioneer/bid/1
topic read market/auctioneer/price/1
topic read market/auctioneer/prices
topic read market/auctioneer/refused/1
topic read market/auctioneer/heartbeat
topic read market/+/state
topic read market/basis
"""
    for child, name in ((1, "house"), (2, "store")):
        rights += f"""
user {name}
topic readwrite market/{name}/#
topic readwrite market/street/bid/{child}
topic read market/street/price/{child}
topic read market/street/prices
topic read market/street/lapsed/{child}
topic read market/street/refused/{child}
topic read market/street/heartbeat
topic read market/street/state
topic read market/basis
"""
    (tmp_path / "rights").write_text(rights)
    file = passwords(tmp_path, **{name: f"word of {name}" for name in names})
    lines = [f"cafile {certificates.ca}", f"certfile {certificate}", f"keyfile {key}"]
    with Mosquitto(tmp_path / "broker", *lines, f"password_file {file}", f"acl_file {tmp_path / 'rights'}") as broker:
        market = Market(broker.port, live, tmp_path)
        with market:
            for name in names:
                market.more = {"ca": certificates.ca, "user": name, "password_file": str(tmp_path / name)}
                market.start(name)
            market.offers(house=CONSTANT, store=falls_at(4, 0, -150))
            market.settles_at(4, house=100, store=-150)
            time.sleep(0.5)
            assert [line for said in market.said.values() for line in said if "back" in line or "let" in line] == []


def test_a_device_whose_control_is_silent_leaves_and_its_price_is_cleared(market, onlooker):
    market.start("auctioneer", validity=2.0).start("street", "house").start("store", offer_validity=1.0)
    market.offers(house=falls_at(9, 100, 0), store=falls_at(4, 0, -150))
    market.settles_at(4, house=100, store=-150)
    market.settles_at(9, house=0)
    assert isinstance(frame_of(onlooker.payload("market/street/bid/2"), BIDS, STEPS), Gone)
    wait_until(lambda: 2 not in PriceTable.of(onlooker.payload("market/street/prices")).numbers, "the price is cleared")
    wait_until(lambda: onlooker.payload("market/store/setpoint") == b"", "the setpoint is cleared")
    lines = market.said["store"]
    told = next(number for number, line in enumerate(lines) if "The control is told its fallback" in line)
    assert told < next(number for number, line in enumerate(lines) if "the control was silent" in line)
    market.offers(store=falls_at(4, 0, -150))
    market.settles_at(4, house=100, store=-150)


def test_offers_by_the_topic(market, onlooker):
    all_start(market).offers(house=CONSTANT)
    onlooker.publish("market/store/offer", json.dumps({"power": falls_at(4, 0, -150)}))
    market.settles_at(4, house=100, store=-150)
    onlooker.publish("market/store/offer", b'{"leave": true}')
    market.settles_at(9, house=100)


def test_a_killed_service_comes_back_within_seconds(market):
    all_start(market).offers(house=CONSTANT, store=falls_at(4, 0, -150))
    market.settles_at(4, house=100, store=-150)
    for step, name in enumerate(("auctioneer", "street", "house"), 5):
        killed = market.nodes[name].serving.service
        os.kill(killed.pid, signal.SIGKILL)
        wait_until(lambda name=name: any("SIGKILL" in line for line in market.said[name]), "it is noticed", 1)
        market.offers(store=falls_at(step, 0, -150))
        market.settles_at(step, house=100, store=-150)
        assert market.nodes[name].serving.service is not killed
    indices = [setpoint["clearing"] for setpoint in market.controls["house"].setpoints]
    assert indices == sorted(indices)


def test_a_node_that_moves_to_another_machine_goes_on_from_the_broker(market):
    all_start(market).offers(house=CONSTANT, store=falls_at(4, 0, -150))
    market.settles_at(4, house=100, store=-150)
    for step, name in enumerate(("street", "store", "auctioneer"), 5):
        market.stop(name)
        shutil.rmtree(market.folder / market.prefix / name)
        market.start(name)
        assert any("goes on from the broker's Resume" in line for line in market.said[name])
        market.offers(store=falls_at(step, 0, -150))
        market.settles_at(step, house=100, store=-150)


def test_a_device_that_is_gone_for_good_is_made_to_leave_from_elsewhere(market, onlooker):
    all_start(market).offers(house=falls_at(9, 100, 0), store=falls_at(4, 0, -150))
    market.settles_at(4, house=100, store=-150)
    market.stop("store")
    market.start("store", leave=True, state=str(market.folder / "elsewhere"))
    market.threads.pop("store").join(10)
    market.settles_at(9, house=0)
    assert frame_of(onlooker.payload("market/street/bid/2"), BIDS, STEPS) == Gone(2, 4)
    market.start("store").offers(store=falls_at(4, 0, -150))
    market.settles_at(4, house=100, store=-150)
    assert frame_of(onlooker.payload("market/street/bid/2"), BIDS, STEPS).number == 6


def test_a_new_session_takes_all_nodes_along(market):
    all_start(market).offers(house=CONSTANT, store=falls_at(4, 0, -150))
    market.settles_at(4, house=100, store=-150)
    before = market.nodes["auctioneer"].session
    market.stop("auctioneer")
    market.start("auctioneer", new_session=True)
    wait_until(lambda: all(node.session not in (None, before) for node in market.nodes.values()), "all follow")
    market.offers(house=CONSTANT, store=falls_at(6, 0, -150))
    market.settles_at(6, house=100, store=-150)
    assert market.controls["house"].setpoints[-1]["clearing"] <= 3


def test_the_older_of_two_nodes_of_one_name_ends(market, broker, live, tmp_path):
    all_start(market).offers(house=CONSTANT, store=falls_at(4, 0, -150))
    market.settles_at(4, house=100, store=-150)
    with Market(broker.port, live, tmp_path / "other") as other:
        other.start("store")
        wait_until(lambda: "another process runs as store" in market.raised.get("store", ""), "the older one ends")
        other.offers(store=falls_at(6, 0, -150))
        market.settles_at(6, house=100)
        other.settles_at(6, store=-150)


def test_another_basis_ends_the_node(market):
    market.start("auctioneer")
    market.start("store", basis=type(BASIS)(0, 99, 100))
    wait_until(lambda: "the market's basis is" in market.raised.get("store", ""), "the node ends")


def test_the_example_runs(live):
    """The script of the example: house and store settle at 4, and at 8 once the house takes 200 W below price 8."""
    words = ["bash", str(TOP / "examples" / "live" / "try.sh"), sys.executable, "-B", "-m", "cogmaula"]
    environment = {**os.environ, "PYTHONPATH": str(TOP / "python"), "COGMAULA_LIVE": live}
    done = subprocess.run(words, env=environment, capture_output=True, text=True, timeout=300, check=False)
    assert done.returncode == 0, done.stdout + done.stderr
    told = {}
    for line in done.stdout.splitlines():
        name, _, setpoint = line.partition(" ")
        if name in ("house", "store"):
            told[name] = json.loads(setpoint)
    assert {name: (setpoint["price"], setpoint["power"]) for name, setpoint in told.items()} == {"house": (8, 100), "store": (8, -150)}


# Kills of processes.


def seconds_of_a_process():
    """How long this machine takes now to start and end a process of Python."""
    begin = time.monotonic()
    subprocess.run([sys.executable, "-c", "import ssl"], check=True)
    return time.monotonic() - begin


def test_sigterm_ends_a_node_within_a_second(broker, live, tmp_path, onlooker, request):
    nodes = [Process(broker.port, live, tmp_path, name).start() for name in ("auctioneer", "street", "store")]
    request.addfinalizer(lambda: [node.kill() for node in nodes])
    nodes[2].offers(CONSTANT)
    wait_until(lambda: nodes[2].setpoints, "a setpoint")
    for one in reversed(nodes):
        before = seconds_of_a_process()
        status, seconds = one.stop()
        assert status == 0
        assert seconds < 1 + 3 * max(before, seconds_of_a_process()), "a second, and what a busy machine takes for a process"
        # On a machine that is too busy for its last message the last will says that it is down.
        wait_until(lambda one=one: json.loads(onlooker.payload(f"market/{one.name}/state"))["state"] == "down", "it says so")


def test_a_killed_node_is_down_by_its_last_will(broker, live, tmp_path, onlooker, request):
    one = Process(broker.port, live, tmp_path, "auctioneer").start()
    request.addfinalizer(one.kill)
    wait_until(lambda: b'"up"' in onlooker.payload("market/auctioneer/state"), "it is up")
    one.kill()
    wait_until(lambda: b'"down"' in onlooker.payload("market/auctioneer/state"), "it is down")


def require_prices_of_bids(messages):
    """Looks at all bids and prices that an onlooker saw, over all restarts: a number is of one bid alone, and a price of all three
    devices is that of just the bids that it names. Gives how many such prices there were."""
    bids, prices = {}, {}
    for topic, payload, _ in messages:
        below = topic.split("/")
        if below[2] == "bid" and payload:
            frame = frame_of(payload, BIDS, STEPS)
            assert bids.setdefault((topic, frame.number), frame) == frame, "a number is of two bids"
        for own, frame in prices_in(topic, payload):
            before = prices.setdefault(frame.index, {}).setdefault(own, frame)
            assert before == frame, "a clearing tells one child two prices"
    topics = {f"market/{name}" for name in ("auctioneer/price/2", "street/price/1", "street/price/2")}
    seen = 0
    for told in prices.values():
        named = [bids.get((topic.replace("price", "bid"), told[topic].number)) for topic in topics & told.keys()]
        if topics <= told.keys() and None not in named:
            seen += 1
            assert {told[topic].step for topic in topics} == {clearing_step(*(bid.demands for bid in named))}
    return seen


class Storm:
    """Offers of devices that flow on and on, while nodes, services and the broker are killed."""

    def __init__(self, nodes):
        self.nodes, self.devices = nodes, [nodes[name] for name in ("house", "store", "mill")]
        self.chance, self.offers = random.Random(7), {}

    def offer(self, device):
        step = self.chance.randrange(STEPS)
        self.offers[device.name] = falls_at(step, self.chance.randrange(1, 500), -self.chance.randrange(1, 500))
        device.offers(self.offers[device.name])

    def flows(self, seconds):
        """Lets offers flow for so many seconds."""
        end = time.monotonic() + seconds
        while time.monotonic() < end:
            self.offer(self.chance.choice(self.devices))
            time.sleep(0.05)

    def flows_to_all(self):
        """Lets offers flow until each device has two more setpoints."""
        due = {device.name: len(device.setpoints) + 2 for device in self.devices}
        end = time.monotonic() + 120
        while any(len(device.setpoints) < due[device.name] for device in self.devices):
            assert time.monotonic() < end, f"{due} are due, and {[len(device.setpoints) for device in self.devices]} came"
            self.flows(0.1)

    def has_newest(self, device):
        """Whether a device has the setpoint of the newest offers of all."""
        step = clearing_step(*self.offers.values())
        newest = device.setpoints[-1]
        return (newest["step"], newest["power"]) == (step, self.offers[device.name][step])

    def settles(self):
        """Lets each device make a last offer, and waits until all have the newest setpoint and keep it."""
        for one in self.devices:
            self.offer(one)
        wait_until(lambda: all(self.has_newest(device) for device in self.devices), f"the newest price of {self.offers}", 120)
        time.sleep(1)
        assert all(self.has_newest(device) for device in self.devices)


@pytest.mark.parametrize("keeps", [False, True], ids=["forgets", "keeps"])
def test_a_storm(live, tmp_path, keeps):
    """Kills of services, nodes and the broker in turn, while bids flow: nobody goes back, and in the end all have the newest.

    Over a broker that loses all that it retains when it is killed, and over one that keeps it.
    """
    lines = ["persistence true", f"persistence_location {tmp_path}/", "autosave_on_changes true", "autosave_interval 10"] if keeps else []
    with Mosquitto(tmp_path / "broker", *lines) as broker, Onlooker(broker.port, "market/+/bid/+", "market/+/price/+", "market/+/prices") as looks:
        nodes = {name: Process(broker.port, live, tmp_path, name).start() for name in PLACES}
        storm = Storm(nodes)
        try:
            storm.flows_to_all()
            for name in PLACES:
                nodes[name].kill_service()
                storm.flows_to_all()
            for name in PLACES:
                nodes[name].kill()
                storm.flows(0.3)
                nodes[name].start()
                storm.flows_to_all()
            broker.kill()
            storm.flows(1.0)
            nodes["street"].kill_service()
            broker.start()
            storm.flows_to_all()
            storm.settles()
        finally:
            for one in nodes.values():
                one.stop()
    for one in storm.devices:
        indices = [setpoint["clearing"] for setpoint in one.setpoints]
        assert indices == sorted(indices), f"{one.name} went back"
        assert len([line for line in nodes[one.name].lines if "SIGKILL" in line and "the service has ended" in line]) >= 1
    assert require_prices_of_bids(looks.all) > 10
