"""Devices that die for good and devices that come back, and a market that falls silent, over a real broker and the program `live`.

The auctioneer's sum is judged by the bids that its newest clearing names, as an onlooker saw them at the broker.
"""

from __future__ import annotations

import json
import re
import time
from datetime import datetime, timezone

import pytest
from brokers import SECONDS, Mosquitto, Onlooker, live_program, require_broker, wait_until
from markets import PLACES, STEPS, Market, Process, falls_at, prices_in


from cogmaula.cli import main
from cogmaula.live.messages.frames import BIDS, PRICES, Bid, Old, Price, frame_of
from cogmaula.live.node.node_settings import ChildSettings

# The times of these markets in seconds: a quarter of a heartbeat is more than a broker of this machine takes.
FAST = {"validity": 2.0, "heartbeat": 0.5, "grace": 3.0}
DEVICES = 30


@pytest.fixture
def live():
    require_broker()
    return live_program()


@pytest.fixture
def broker(tmp_path, live):
    with Mosquitto(tmp_path / "broker") as one:
        yield one


@pytest.fixture
def onlooker(broker):
    with Onlooker(broker.port) as one:
        yield one


@pytest.fixture
def market(broker, live, tmp_path):
    with Market(broker.port, live, tmp_path) as one:
        yield one


def kill(market, name):
    """Ends a node as a crash does: its service is killed, its thread ends without a word, and its last will says that it is down."""
    node = market.nodes[name]
    link = node._link
    link.close = lambda last, seconds: (link._closing.set(), link._client._sock_close() if link._client is not None else None)
    node.stop()
    market.threads.pop(name).join(20)


class Sums:
    """What a parent's newest clearing counts, by the prices and the bids that an onlooker has seen. It reads each bid once."""

    def __init__(self, onlooker, parent):
        self.onlooker, self.parent, self.bids, self.read = onlooker, parent, {}, 0

    def newest(self):
        """The powers of the children that the newest clearing names, by child, at the step of each."""
        prices = {}
        for topic, (payload, _) in list(self.onlooker.newest.items()):
            if topic.split("/")[1] == self.parent:
                prices |= {frame.child: frame for _, frame in prices_in(topic, payload) if isinstance(frame, Price)}
        seen = self.onlooker.all[self.read :]
        self.read += len(seen)
        for topic, payload, _ in seen:
            if topic.split("/")[1:3] == [self.parent, "bid"] and payload:
                frame = frame_of(payload, BIDS, STEPS)
                self.bids[frame.child, frame.number] = frame
        newest = max((price.index for price in prices.values()), default=0)
        due = {child: price for child, price in prices.items() if price.index == newest}
        bids = {child: self.bids.get((child, price.number)) for child, price in due.items()}
        return {child: bid.demands[due[child].step] for child, bid in bids.items() if isinstance(bid, Bid)}


def test_after_grace_the_sum_is_that_of_the_living(market, onlooker):
    """Thirty devices below the auctioneer. A third dies for good, and a third for a while that is longer than grace."""
    names = [f"d{number}" for number in range(1, DEVICES + 1)]
    for number, name in enumerate(names, 1):
        PLACES[name] = ("device", "auctioneer", number)
    try:
        market.start("auctioneer", **FAST).start(*names)
        market.offers(**{name: [100 + number] * STEPS for number, name in enumerate(names, 1)})
        market.settles_at(STEPS - 1, **{name: 100 + number for number, name in enumerate(names, 1)})
        gone, away = names[:10], names[10:20]
        for name in gone + away:
            kill(market, name)
        living = {number: 100 + number for number in range(21, DEVICES + 1)}
        market.offers(d30=[99] * STEPS)
        living[30] = 99
        wait_until(lambda: all(onlooker.payload(f"market/auctioneer/lapsed/{child}") for child in range(1, 21)), "the dead are let go", 30)
        sums = Sums(onlooker, "auctioneer")
        wait_until(lambda: sums.newest() == living, "the sum is that of the living", 20)
        market.start(*away)
        back = {number: 100 + number for number in range(11, 21)}
        wait_until(lambda: sums.newest() == living | back, "those that are back count", 20)
        assert onlooker.payload("market/auctioneer/lapsed/11") == b""
        assert json.loads(onlooker.payload("market/auctioneer/lapsed/1"))["number"] == 3
    finally:
        for name in names:
            del PLACES[name]
    numbers = {}
    for topic, payload, _ in onlooker.all:
        if topic.startswith("market/auctioneer/bid/") and payload:
            frame = frame_of(payload, BIDS, STEPS)
            assert numbers.setdefault((topic, frame.number), frame) == frame, "a number is of two bids"
    for name in names:
        indices = [setpoint["clearing"] for setpoint in market.controls[name].setpoints if "clearing" in setpoint]
        assert indices == sorted(indices), f"{name} went back"


def test_a_device_that_was_dropped_and_lives_is_back_within_a_second(market, broker, onlooker, tmp_path, capsys):
    """The house takes 100 W below price 9, and the store gives 150 W from 4 on: 4. Without the store it is 9."""
    (tmp_path / "operator.toml").write_text(f'[broker]\nport = {broker.port}\n')
    market.start("auctioneer").start("street", "house", "store")
    market.offers(house=falls_at(9, 100, 0), store=falls_at(4, 0, -150))
    market.settles_at(4, house=100, store=-150)
    begin = time.monotonic()
    assert main(["market", "drop", "street", "2", "--config", str(tmp_path / "operator.toml")]) == 0
    assert "child 2 of street is let go as of number 3: by the word of an operator" in capsys.readouterr().out
    wait_until(lambda: any("clearing" in setpoint and setpoint["bid"] > 3 for setpoint in market.controls["store"].setpoints), "it is back")
    seconds = time.monotonic() - begin
    told = market.controls["store"].setpoints
    silent = next(at for at, message in enumerate(told) if message.get("market") == "silent")
    assert told[silent]["power"] == 0
    assert "street has let it go" in told[silent]["why"]
    # The service leaves and offers anew, which takes the numbers 4 and 6 behind the parent's 3.
    assert told[-1]["bid"] == 6
    assert seconds < SECONDS / 4, "a second, and what the command itself takes on a busy machine"
    wait_until(lambda: onlooker.payload("market/street/lapsed/2") == b"", "the topic is cleared")
    assert any(isinstance(frame_of(message[1], PRICES, STEPS), Old) for message in onlooker.all if message[0] == "market/street/price/2" and message[1])
    assert main(["market", "drop", "auctioneer", "1", "--config", str(tmp_path / "operator.toml")]) == 1
    assert "is a relay, which counts for all below it" in capsys.readouterr().err


def test_a_restarted_parent_catches_up_without_a_device_that_is_gone(market, onlooker):
    market.start("auctioneer", **FAST).start("street", "house", "store")
    market.offers(house=falls_at(9, 100, 0), store=falls_at(4, 0, -150))
    market.settles_at(4, house=100, store=-150)
    market.stop("street")
    kill(market, "store")
    onlooker.publish("market/street/bid/2", b"")
    market.start("street")
    market.settles_at(9, house=0)
    assert re.search("has been down for 3 s|was not renewed for 3 s", json.loads(onlooker.payload("market/street/lapsed/2"))["why"])


def test_a_bid_beyond_its_bound_does_not_count(market, onlooker):
    market.start("auctioneer").start("street", children=(ChildSettings(2, -200, 0),)).start("house", "store")
    market.offers(house=[100] * STEPS, store=falls_at(4, 0, -150))
    market.settles_at(4, house=100, store=-150)
    market.offers(store=falls_at(2, 0, -1_000_000_000))
    wait_until(lambda: onlooker.payload("market/street/refused/2"), "it is told")
    assert json.loads(onlooker.payload("market/street/refused/2"))["number"] == 4
    market.offers(house=falls_at(8, 200, 100))
    market.settles_at(8, house=100, store=-150)
    assert market.controls["store"].has(bid=2), "the bid before it counts"
    wait_until(lambda: any("street does not take bid 4" in line for line in market.said["store"]), "the device says so")
    market.stop("store")
    market.start("store")
    wait_until(lambda: "the one before counts" in onlooker.payload("market/store/answer").decode(), "the control is told")
    wait_until(lambda: market.controls["store"].has(bid=6, power=-150), "a device that comes back makes the offer anew that counts")
    market.offers(store=falls_at(2, 0, -200))
    market.settles_at(2, house=200, store=-200)
    assert onlooker.payload("market/street/refused/2") == b""


def test_limits_change_and_come_back(market, broker, onlooker, tmp_path, capsys):
    """The house takes 100 W below price 6 and 40 W from there on. A ceiling of 50 W moves the street from 0 to 6."""
    (tmp_path / "operator.toml").write_text(f'[broker]\nport = {broker.port}\n')
    market.start("auctioneer").start("street", limits_from=True).start("house", "mill")
    market.offers(house=falls_at(6, 100, 40), mill=[-100] * STEPS)
    market.settles_at(0, house=100, mill=-100)
    until = datetime.fromtimestamp(time.time() + 4, timezone.utc).isoformat()
    words = ["market", "limits", "street", "--ceiling", "50", "--until", until, "--reference", "order 7"]
    assert main([*words, "--config", str(tmp_path / "operator.toml")]) == 0
    told = json.loads(capsys.readouterr().out.partition(": ")[2])
    assert (told["state"], told["ceiling"], told["reference"]) == ("kept", 50, "order 7")
    market.settles_at(6, house=40)
    kept = [setpoint for setpoint in market.controls["house"].setpoints if setpoint["clearing"] >= told["clearing"]]
    assert [message["power"] for message in kept][:1] == [40]
    market.settles_at(0, house=100)
    wait_until(lambda: json.loads(onlooker.payload("market/street/limits/state"))["ceiling"] == 1_000_000_000, "it is told")
    onlooker.publish("market/street/limits", b'{"floor": 0, "ceiling": 5, "until": "2026-01-31T06:30:00Z"}')
    wait_until(lambda: "too late" in json.loads(onlooker.payload("market/street/limits/state"))["why"], "a late one is told")


def is_silent(setpoints):
    return bool(setpoints) and setpoints[-1].get("market") == "silent"


class Path:
    """A market of the street with the house, and the mill beside it. The house is a process of its own, whose fallback is -7 W."""

    def __init__(self, broker, market, live, folder):
        self.broker, self.market = broker, market
        market.start("auctioneer", **FAST).start("street", "mill")
        self.house = Process(broker.port, live, folder, "house", keepalive=2, fallback=-7).start()
        self.house.offers([100] * STEPS)
        market.offers(mill=[50] * STEPS)
        wait_until(lambda: self.house.setpoints and market.controls["mill"].has(power=50), "both have a setpoint")

    def cut(self, where):
        """Cuts the path of heartbeats, and gives what mends it."""
        street = self.market.nodes["street"]
        match where:
            case "auctioneer":
                self.market.stop("auctioneer")
                return lambda: self.market.start("auctioneer", **FAST)
            case "relay":
                kill(self.market, "street")
                return lambda: self.market.start("street")
            case "broker":
                self.broker.kill()
                return self.broker.start
        # What the street publishes does not come to the broker.
        street._link.publish = lambda publication: None
        return lambda: street._link.__dict__.pop("publish")

    def times_of_silence(self):
        return [len([message for message in told if message.get("market") == "silent"]) for told in (self.house.setpoints, self.mill)]

    @property
    def mill(self):
        return self.market.controls["mill"].setpoints

    def is_told(self, where):
        """Cuts the path, and looks at what the house is told, and the mill, whose own path is whole unless all is cut."""
        before = self.times_of_silence()
        mend = self.cut(where)
        begin = time.monotonic()
        wait_until(lambda: is_silent(self.house.setpoints), f"silence is told after a cut of the {where}")
        assert time.monotonic() - begin < FAST["validity"] + SECONDS / 4, "validity, and what a busy machine takes"
        assert self.house.setpoints[-1]["power"] == -7
        if where in ("relay", "wire"):
            assert not is_silent(self.mill)
        mend()
        wait_until(lambda: "clearing" in self.house.setpoints[-1], f"the market is back behind the {where}")
        last_silent = max(at for at, message in enumerate(self.house.setpoints) if message.get("market") == "silent")
        assert self.house.setpoints[last_silent + 1].get("market") == "live", "that it lives is told before a setpoint is"
        assert self.times_of_silence()[0] == before[0] + 1, "it is told once"


def test_silence_is_told_in_time_wherever_the_path_is_cut(live, tmp_path):
    """Validity is 2 s, and nobody falls back while the path is whole."""
    with Mosquitto(tmp_path / "broker") as broker, Market(broker.port, live, tmp_path) as market:
        path = Path(broker, market, live, tmp_path)
        try:
            time.sleep(FAST["validity"] + 0.5)
            assert path.times_of_silence() == [0, 0]
            for where in ("auctioneer", "wire", "relay", "broker"):
                path.is_told(where)
            path.house.kill()
            until = datetime.fromisoformat(path.house.setpoints[-1]["until"])
            assert (until - datetime.now(timezone.utc)).total_seconds() <= FAST["validity"], "a control whose node died knows it by itself"
        finally:
            if path.house.process.poll() is None:
                path.house.stop()
