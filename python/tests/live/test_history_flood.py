"""What no member can do to a history: stop it by a row, or push the rows of others out by a flood."""

from __future__ import annotations

import contextlib
import json
import shutil
import subprocess
import threading
import time

import pytest
from brokers import Onlooker, live_program, require_broker, wait_until
from example import Member, example_broker
from logged import QUIET, log_to
from markets import BASIS
from pretended import MARKED, MOMENT, SESSION, state_payload

from cogmaula.history import Keeper, Row, open_database, readings
from cogmaula.history.database import BadRow, DatabaseLost
from cogmaula.history.readings import Readings
from cogmaula.history.waiting import FairQueue, TopicRates, member_of
from cogmaula.history.writer import Arrival, Writer
from cogmaula.live import BrokerSettings
from cogmaula.live.broker.broker_link import Message
from cogmaula.live.messages.price_table import PriceTable
from cogmaula.live.messages.topics import Topics

TOPICS = Topics("market")


@contextlib.contextmanager
def keeping(settings, url, said):
    """A history in a thread of the test."""
    database = open_database(url)
    keeper = Keeper(settings, database, log_to(said.append), (0.1, 0.2))
    thread = threading.Thread(target=keeper.run, daemon=True)
    thread.start()
    try:
        yield database
    finally:
        keeper.stop()
        thread.join(20)


BAD_ROWS = [
    Row(
        "states",
        {
            "node": "x",
            "run": "1",
            "at": 1.0,
            "state": "up",
            "floor": 10**40,
            "alarm": "",
            "why": "",
            "session": "",
        },
    ),
    Row(
        "states",
        {
            "node": "x",
            "run": "1",
            "at": 1.0,
            "state": "up",
            "alarm": "\ud800",
            "why": "",
            "session": "",
        },
    ),
    Row("measured", {"device": "x", "at": 1.0, "power": None}),
]


@pytest.mark.parametrize("bad", BAD_ROWS)
def test_a_database_tells_a_row_that_it_does_not_take(url, bad):
    database = open_database(url)
    with pytest.raises(BadRow):
        database.put([Row("measured", {"device": "y", "at": 1.0, "power": 1}), bad])
    assert database.read("SELECT count(*) FROM measured") == [(0,)]
    database.put([Row("measured", {"device": "y", "at": 1.0, "power": 1})])
    database.close()


def test_no_state_of_a_device_stops_the_history(url, tmp_path):
    """What JSON may say and no table holds, in its own state, its setpoint and its measured power."""
    require_broker()
    said = []
    state = json.loads(state_payload("1" * 16, MOMENT, "up", sort="relay"))
    with example_broker(tmp_path) as broker:
        settings = BrokerSettings(
            port=broker.port, user="history", password_file=str(tmp_path / "word")
        )
        with keeping(settings, url, said) as database, Member(
            broker.port, "house"
        ) as house, Member(broker.port, "store") as store:
            for number, odd in enumerate(
                [
                    {"floor": 10**40},
                    {"why": "\ud800"},
                    {"alarm": "a\0b"},
                    {"run": "\udfff"},
                    {"child": 10**30},
                ]
            ):
                house.publish(
                    "market/house/state",
                    json.dumps(state | odd | {"started": MOMENT, "time": MOMENT}).encode(),
                )
                store.publish(
                    "market/store/state", json.dumps(state | {"run": f"{number:016}"}).encode()
                )
            wait_until(
                lambda: database.read("SELECT count(*) FROM states WHERE node = 'store'") == [(5,)],
                f"the rows of the other: {said}",
            )
            wait_until(
                lambda: len([line for line in said if "market/house/state is not kept" in line])
                == 5,
                f"a line for each: {said}",
            )
            assert database.read("SELECT count(*) FROM states WHERE node = 'house'") == [(0,)]


class Flood:
    """Publishes lines without end by one login, with QoS 1, as fast as the client of mosquitto does."""

    def __init__(self, port, user, topic, line):
        words = [
            "mosquitto_pub",
            "-V",
            "5",
            "-p",
            str(port),
            "-u",
            user,
            "-P",
            "word",
            "-q",
            "1",
            "-r",
            "-t",
            topic,
            "-l",
        ]
        self.lines = subprocess.Popen(["yes", line], stdout=subprocess.PIPE)
        self.publisher = subprocess.Popen(
            words, stdin=self.lines.stdout, stdout=subprocess.DEVNULL, stderr=subprocess.DEVNULL
        )

    def __enter__(self):
        return self

    def __exit__(self, *_):
        for one in (self.lines, self.publisher):
            one.kill()
            one.wait()


def test_a_flood_of_measured_powers_pushes_no_clearing_out(url, tmp_path):
    """While the house's control floods, 20 clearings come, and the store's control measures: all are kept, and few of the flood."""
    require_broker()
    if shutil.which("mosquitto_pub") is None:
        pytest.skip("no mosquitto_pub: apt-get install mosquitto-clients")
    said = []
    properties = [*MARKED]
    with example_broker(tmp_path) as broker:
        settings = BrokerSettings(
            port=broker.port, user="history", password_file=str(tmp_path / "word")
        )
        with keeping(settings, url, said) as database, Member(
            broker.port, "auctioneer"
        ) as auctioneer, Member(broker.port, "store.control") as store:
            store.publish(
                "market/store/measured", json.dumps({"power": -1, "time": MOMENT}).encode()
            )
            with Flood(
                broker.port,
                "house.control",
                "market/house/measured",
                json.dumps({"power": 1, "time": MOMENT}),
            ):
                wait_until(
                    lambda: database.read("SELECT count(*) FROM measured WHERE device = 'house'")
                    == [(1,)],
                    f"the flood is there: {said}",
                )
                for clearing in range(1, 21):
                    table = PriceTable(clearing, 4, BASIS, {1: 2 * clearing})
                    auctioneer.puts("market/auctioneer/prices", table.to_bytes(), properties, qos=1)
                    told = {"power": -clearing, "time": f"2026-01-31T06:31:{clearing:02}Z"}
                    store.puts("market/store/measured", json.dumps(told).encode(), qos=1)
                    time.sleep(0.1)
                due = [(clearing,) for clearing in range(1, 21)]
                wait_until(
                    lambda: database.read("SELECT clearing FROM prices ORDER BY clearing") == due,
                    "all clearings",
                    20,
                )
                wait_until(
                    lambda: database.read("SELECT count(*) FROM measured WHERE device = 'store'")
                    == [(21,)],
                    "what the other measures",
                    20,
                )
    assert any(
        "market/house/measured: a message is not kept: too many come" in line for line in said
    ), said


# The parts.


def test_each_member_has_a_turn_and_the_one_with_most_loses():
    queue = FairQueue(5)
    assert [queue.put("flood", number) for number in range(5)] == [None] * 5
    assert queue.put("flood", 5) == 5
    assert queue.put("other", 100) == 4, "the newest of the one with most"
    assert queue.take(3, 0.0) == [0, 100, 1]
    assert queue.take(9, 0.0) == [2, 3]
    assert queue.take(9, 0.0) == []


def test_a_topic_has_a_rate_of_its_own():
    rates = TopicRates(burst=3.0, rate=2.0)
    assert [rates.takes("a", 10.0) for _ in range(5)] == [True, True, True, False, False]
    assert rates.takes("b", 10.0)
    assert [rates.takes("a", 11.0) for _ in range(3)] == [True, True, False]


@pytest.mark.parametrize(
    ("below", "member"),
    [
        ("street/bid/2", "street/bid/2"),
        ("street/price/2", "street"),
        ("street/prices", "street"),
        ("house/measured", "house/measured"),
        ("house/setpoint", "house"),
        ("street/limits/state", "market/street"),
        ("basis", "market/basis"),
    ],
)
def test_who_writes_a_topic(below, member):
    assert member_of(TOPICS, f"market/{below}") == member


class Subscriber:
    """What a reader asks of a broker."""

    def __init__(self):
        self.reads = set()

    def subscribe(self, topics):
        self.reads |= {topic for topic, _ in topics}

    def unsubscribe(self, topics):
        self.reads -= set(topics)


def test_a_flooded_topic_alone_is_read_no_more_for_a_while():
    require_broker()
    client, one = Subscriber(), Readings("market", ("+/measured", "+/state"))
    one.begin(client)
    assert client.reads == {"market/+/measured", "market/+/state"}
    assert not one.counts(client, "market/store/measured", True, 0.0)
    assert [
        one.counts(client, "market/house/measured", False, 0.5) for _ in range(readings.FLOOD + 2)
    ][-2:] == [True, True]
    assert client.reads == {"market/store/measured", "market/+/state"}
    assert not one.counts(client, "market/store/measured", False, 0.6)
    for _ in range(readings.FLOOD + 1):
        one.counts(client, "market/store/measured", False, 2.0)
    assert client.reads == {"market/+/state"}, "both flood"
    one.tick(client, readings.REST)
    assert client.reads == {"market/+/state"}
    one.tick(client, readings.REST + 1.0)
    assert client.reads == {"market/+/measured", "market/+/state"}


class Picky:
    """A database that is away at first, and does not take one row."""

    def __init__(self):
        self.kept, self.losses, self.opened = [], 2, 0

    def open(self):
        self.opened += 1

    def put(self, rows):
        if self.losses:
            self.losses -= 1
            raise DatabaseLost("it is away")
        if any(row.values["power"] == 13 for row in rows):
            raise BadRow("no 13")
        self.kept += rows

    def close(self):
        pass


def test_the_bad_row_goes_with_a_line_and_the_rest_is_kept_and_confirmed():
    database, confirmed, said = Picky(), [], []
    writer = Writer(
        TOPICS,
        database,
        log_to(said.append),
        lambda arrival: confirmed.append(arrival.number),
        (0.01, 0.01),
    )
    for number in (12, 13, 14):
        payload = json.dumps({"power": number, "time": MOMENT}).encode()
        writer.queue.put("x", Arrival(Message("market/x/measured", payload), None, number))
    writer.start()
    wait_until(lambda: len(confirmed) == 3, f"all are confirmed: {said}")
    writer.stop(5)
    assert [row.values["power"] for row in database.kept] == [12, 14]
    assert sorted(confirmed) == [12, 13, 14]
    assert [line for line in said if "13" in line] == ["market/x/measured is not kept: no 13"]
    assert database.opened == 2 and len([line for line in said if "it is away" in line]) == 2
