"""What a hostile member of a market can do with its own login, and what it cannot: over the example's broker, rights and settings."""

from __future__ import annotations

import json
import os
import random
import signal
import time

import pytest
from brokers import SECONDS, live_program, require_broker, wait_until
from example import Attack, ExampleMarket, Member, example_broker
from markets import STEPS, Process, clearing_step, falls_at, prices_in
from test_live_storm import kill

from cogmaula.cli import main
from cogmaula.live.messages.frames import BIDS, Bid, Price, frame_of
from cogmaula.live.messages.messages import VERSION

CONSTANT = [100] * STEPS


@pytest.fixture
def live():
    require_broker()
    return live_program()


@pytest.fixture
def broker(tmp_path, live):
    with example_broker(tmp_path) as one:
        yield one


@pytest.fixture
def market(broker, live, tmp_path):
    with ExampleMarket(broker.port, live, tmp_path) as one:
        yield one


def begun(market):
    """The house takes 100 W at each price, and the store gives 150 W from step 4 on."""
    market.start("auctioneer").start("street").start("house", "store")
    market.offers(house=CONSTANT, store=falls_at(4, 0, -150))
    market.settles_at(4, house=100, store=-150)
    return market


def of_session(market):
    return [("session", market.nodes["auctioneer"].session.id), ("version", str(VERSION)), ("sort", "device"), ("node", "house"), ("valid", "150")]


def test_a_login_does_not_take_the_connection_of_another(broker, market):
    begun(market)
    attack = Attack(lambda: Member(broker.port, "store.control", name="cogmaula.market.auctioneer"), 0.25)
    for step in (5, 6, 7):
        market.offers(store=falls_at(step, 0, -150))
        market.settles_at(step, house=100, store=-150)
    wait_until(lambda: attack.count >= 3, "three attacks")
    market.offers(store=falls_at(8, 0, -150))
    market.settles_at(8, house=100, store=-150)
    attack.end()
    assert [line for line in market.said["auctioneer"] if "connection" in line] == []


def test_a_restarted_relay_needs_no_child_to_tell_its_bid_again(broker, market, tmp_path, capsys):
    """The house dies, and its login clears all that the broker retains of it. The street goes on with its bid until it is let go."""
    begun(market)
    kill(market, "house")
    with Member(broker.port, "house") as house:
        for topic in ("street/bid/1", "house/resume", "house/state"):
            house.publish(f"market/{topic}", b"")
    market.stop("street")
    market.start("street")
    market.offers(store=falls_at(6, 0, -150))
    market.settles_at(6, store=-150)
    assert [line for line in market.said["street"] if "waits" in line] == []
    market.start("house", leave=True, state=str(tmp_path / "elsewhere"))
    market.threads.pop("house").join(10)
    assert "cogmaula market drop street 1" in market.raised["house"], "nothing was left, and it says so"
    (tmp_path / "operator.toml").write_text(f'[broker]\nport = {broker.port}\nuser = "operator"\npassword_file = "{tmp_path}/word"\n')
    assert main(["market", "drop", "street", "1", "--config", str(tmp_path / "operator.toml")]) == 0
    assert "child 1 of street is let go" in capsys.readouterr().out


def test_a_login_writes_its_own_topics_alone(broker, market):
    begun(market).stop("house")
    with Member(broker.port, "operator", "market/#") as operator, Member(broker.port, "house") as house:
        for topic in ("house/bid/1", "house/x/y", "house/price/1", "street/prices", "house/drop/1", "street/bid/2", "street/state", "basis", "house/offer"):
            house.puts(f"market/{topic}", b"x" * 30_000)
        wait_until(lambda: house.puts("market/house/answer", b"mine") or operator.payload("market/house/answer") == b"mine", "its own topic")
        assert [topic for topic, payload, _ in operator.all if len(payload) == 30_000] == []


def test_a_bid_behind_a_pause_and_a_flood_is_not_lost(broker, market, live, tmp_path, request):
    """While the street stands still, 3,000 bids of the house come, and then one of the store."""
    market.start("auctioneer")
    login = {"user": "street", "password_file": tmp_path / "word", "keepalive": 20}
    street = Process(broker.port, live, tmp_path, "street", **login).start()
    request.addfinalizer(street.kill)
    market.start("store", "house").offers(house=CONSTANT, store=falls_at(4, 0, -150))
    market.settles_at(4, house=100, store=-150)
    market.stop("house")
    os.kill(street.process.pid, signal.SIGSTOP)
    with Member(broker.port, "house") as house:
        bids = [Bid(1, 100 + 2 * number, (100 + number % 50,) * STEPS).to_bytes() for number in range(3_000)]
        house.client.max_inflight_messages_set(1_000)
        house.floods("market/street/bid/1", bids, 10_000, 0.3, of_session(market), qos=1)
        time.sleep(1.0)
        market.offers(store=falls_at(6, 0, -777))
        time.sleep(0.5)
        os.kill(street.process.pid, signal.SIGCONT)
        market.settles_at(6, store=-777)


def test_a_flood_of_one_child_holds_no_sibling_up(broker, market):
    begun(market).stop("house")
    bids = [Bid(1, 2, (100 + number,) * STEPS).to_bytes() for number in range(50)]
    with Member(broker.port, "house") as house:
        # Ten times as many as are read. The flood is in the process of the nodes, and a faster one takes their own time.
        attack = Attack(lambda: house.floods("market/street/bid/1", bids, 2_000, 0.5, of_session(market)), 0.0)
        waited = []
        for step in (5, 6, 7, 8):
            time.sleep(0.3)
            begin = time.monotonic()
            market.offers(store=falls_at(step, 0, -150))
            market.settles_at(step, store=-150)
            waited.append(time.monotonic() - begin)
        attack.end()
    said = market.said["street"]
    assert any("market/street/bid/1: more than 200 messages a second come from house" in line for line in said), said
    assert [line for line in said if "rights" in line] == []
    # A busy machine may take long to begin with; without that line each offer waits.
    assert min(waited) < SECONDS / 4, f"seconds from an offer of the store to its setpoint: {waited}"
    assert market.controls["store"].has(bid=10)


class Hostile:
    """A house that does with its login whatever may harm others, by chance."""

    def __init__(self, port, market):
        self.port, self.market, self.chance = port, market, random.Random(5)
        self.client = Member(port, "house")
        self.properties = of_session(market)

    def act(self):
        bids = [self._bid(self.chance.randrange(1, 400)) for _ in range(5)]
        match self.chance.randrange(7):
            case 0:
                self.client.floods("market/street/bid/1", bids, 4_000, 0.3, self.properties)
            case 1:
                self._puts("street/bid/1", self.chance.choice([b"", b"nonsense", b"\x02" * 500, *bids]))
            case 2:
                for topic in ("house/state", "house/resume", "house/setpoint"):
                    self._puts(topic, self.chance.choice([b"", b"{}", b"x" * 20_000]))
            case 3:
                for topic in ("street/price/1", "street/price/2", "street/prices", "street/heartbeat", "street/bid/2", "basis", "auctioneer/bid/1", "store/offer"):
                    self._puts(topic, self.chance.choice([b"", *bids]))
            case 4:
                Member(self.port, "store.control", name=self.chance.choice(["auctioneer", "cogmaula.market.street", "store"]))
            case 5:
                for number in range(200):
                    self._puts(f"house/{number}/x", b"x" * 10_000)
            case _:
                # A relay is never let go, and its bids are of no device.
                self._puts("street/bid/1", bids[0], [("sort", "relay"), *[pair for pair in self.properties if pair[0] != "sort"]])

    def _bid(self, number):
        return Bid(1, 2 * number, falls_at(self.chance.randrange(STEPS), 300, -300)).to_bytes()

    def _puts(self, below, payload, properties=None):
        self.client.puts(f"market/{below}", payload, properties or self.properties)


def counted_bids(looks):
    """All bids that an onlooker saw, by topic and number: those of a node of this package are of one bid each."""
    bids = {}
    for topic, payload, _ in list(looks.all):
        if "/bid/" in topic and payload:
            try:
                frame = frame_of(payload, BIDS, STEPS)
            except Exception:  # noqa: BLE001 - the house writes what it likes
                assert topic == "market/street/bid/1"
                continue
            if topic != "market/street/bid/1":
                assert bids.setdefault((topic, frame.number), frame) == frame, "a number is of two bids"
    return bids


def test_a_storm_of_all_attacks(broker, market, live, tmp_path):
    """The house is hostile, relays restart, and honest devices go on: nobody is told a wrong price or fallback.

    The auctioneer's price has to be that of just the bids that it names, the store is told its own offers alone, and in the end both
    honest devices have the setpoint of the newest offers.
    """
    chance = random.Random(3)
    market.start("auctioneer").start("street").start("house", "store", "mill")
    market.offers(house=CONSTANT, store=falls_at(4, 0, -150), mill=falls_at(3, 60, -60))
    market.settles_at(4, house=100, store=-150)
    market.stop("house")
    offered = {"store": [], "mill": []}
    with Member(broker.port, "operator", "market/+/bid/+", "market/+/price/+", "market/+/prices") as looks:
        hostile = Hostile(broker.port, market)
        attack = Attack(hostile.act, 0.05)

        def offer():
            for name, them in offered.items():
                step = chance.randrange(1, STEPS)
                them.append(falls_at(step, chance.randrange(1, 500), -chance.randrange(1_000, 2_000)))
                market.controls[name].offers(them[-1])

        before = {name: len(market.controls[name].told) for name in offered}
        for turn in range(6):
            for _ in range(2):
                offer()
                time.sleep(0.3)
            if turn % 2:
                kill(market, "street")
                market.start("street")
        attack.end()
        offer()
        newest = {name: them[-1] for name, them in offered.items()}

        def has(name):
            told = market.controls[name].setpoints[-1]
            return told.get("power") == newest[name][told.get("step", 0)] and told["power"] in (newest[name][0], newest[name][-1])

        wait_until(lambda: all(has(one_of) for one_of in newest), f"the setpoints of {newest}")
    assert attack.count > 10
    for name, them in offered.items():
        told = market.controls[name].setpoints[before[name] :]
        assert [message for message in told if message.get("market") == "silent"] == [], f"{name} was told a fallback"
        powers = [message for message in told if "step" in message]
        allowed = [falls_at(4, 0, -150), falls_at(3, 60, -60), *them]
        assert all(any(power["power"] == one[power["step"]] for one in allowed) for power in powers), f"{name} was told a power of no offer"
        indices = [setpoint["clearing"] for setpoint in powers]
        assert indices == sorted(indices), f"{name} went back"
    bids, prices = counted_bids(looks), {}
    for topic, payload, _ in looks.all:
        for own, frame in prices_in(topic, payload):
            if own.startswith("market/auctioneer/") and isinstance(frame, Price):
                prices.setdefault(frame.index, {})[frame.child] = frame
    seen = 0
    for told in prices.values():
        named = [bids.get((f"market/auctioneer/bid/{child}", price.number)) for child, price in told.items()]
        if set(told) == {1, 2} and None not in named:
            seen += 1
            assert {price.step for price in told.values()} == {clearing_step(*(bid.demands for bid in named))}
    assert seen > 5


def test_json_of_the_house_is_not_read_as_its_state(broker, market):
    """The street takes what the house writes of itself for no other node's."""
    begun(market)
    told = json.loads(market.nodes["house"]._marker().payload) | {"parent": "street", "child": 2, "state": "down"}
    market.stop("house")
    with Member(broker.port, "house") as house:
        house.publish("market/house/state", json.dumps(told).encode())
        market.offers(store=falls_at(6, 0, -150))
        market.settles_at(6, store=-150)
