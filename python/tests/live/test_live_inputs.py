"""No message of a member ends anything: by raw bytes over a real broker, and by chance over the pretended parts of nodes and pages."""

from __future__ import annotations

import contextlib
import json
import math
import random
import threading
import time

import pytest
from brokers import SECONDS, Mosquitto, Onlooker, live_program, require_broker, wait_until
from example import ExampleMarket, Member, example_broker
from hypothesis import HealthCheck, given, settings
from hypothesis import strategies as st
from logged import log_to
from markets import STEPS, falls_at
from pretended import (
    BASIS,
    MARKED,
    MOMENT,
    SESSION,
    basis_payload,
    bid,
    gone,
    numbers,
    price,
    relay_resume,
    state_payload,
)
from raw_packets import CONTENT_TYPE, RESPONSE_TOPIC, RawClient, publish, text_of, user_property
from test_live_hostile import CONSTANT, begun, of_session
from test_live_site import RunningSite, tables_of
from told import village

from cogmaula.cli import main
from cogmaula.history import Keeper, open_database, rows_of
from cogmaula.hub.agent_messages import Login, word_of
from cogmaula.live import BrokerSettings
from cogmaula.live.page.board import Board
from cogmaula.live.broker.broker_link import Message
from cogmaula.live.device.device_kinds import DeviceKind
from cogmaula.live.messages.frames import Old
from cogmaula.live.broker.market_reader import Reader
from cogmaula.live.messages.messages import OfferMessage
from cogmaula.live.node.node_errors import BadFrame, BadMessage
from cogmaula.live.messages.price_table import PriceTable
from cogmaula.live.messages.topics import Topics
from cogmaula.live.page.view import view_of
from cogmaula.logs import BURST

# What mosquitto 2.0 passes on and paho refuses, found by all code points and all properties at a broker.
REFUSED = {
    "a value": user_property("time", "\ufeff2026"),
    "a name": user_property("\ufeff", ""),
    "a content type": bytes([CONTENT_TYPE]) + text_of("\ufeff"),
    "a response topic": bytes([RESPONSE_TOPIC]) + text_of("a\ufeff"),
    "a payload format": bytes([1, 2]),
}


@pytest.fixture
def live():
    require_broker()
    return live_program()


@pytest.fixture
def broker(tmp_path, live):
    with example_broker(tmp_path) as one:
        yield one


@pytest.fixture
def market(broker, live, tmp_path):
    with ExampleMarket(broker.port, live, tmp_path) as one:
        yield one


def publishes(port, user, topic, payload, *forms):
    """Lets a login publish a message with these properties, byte by byte. The broker passes each."""
    with RawClient(port, user) as client:
        for form in forms:
            assert client.passes(publish(topic, payload, form)), form


# Raw bytes at a real broker.


def test_no_character_of_a_bid_stops_the_parent(broker, market):
    """Its connection stays, and it goes on after a restart, though the broker retains that message."""
    begun(market).stop("house")
    own = b"".join(user_property(*pair) for pair in of_session(market))
    for number, form in enumerate(REFUSED.values()):
        publishes(
            broker.port,
            "house",
            "market/street/bid/1",
            bid(1, 100 + 2 * number, *CONSTANT).to_bytes(),
            own + form,
        )
        publishes(broker.port, "house", "market/house/state", b"{}", form)
    market.offers(store=falls_at(6, 0, -150))
    market.settles_at(6, store=-150)
    market.stop("street")
    market.start("street")
    market.offers(store=falls_at(8, 0, -160))
    market.settles_at(8, store=-160)
    said = market.said["street"]
    assert [line for line in said if "lost" in line or "ends the connection" in line] == []
    assert 0 < len([line for line in said if "cannot be read" in line]) <= 4 * len(REFUSED), said


def test_an_operator_clears_a_topic_that_no_client_can_read(broker, market, tmp_path, capsys):
    """Its login may do so, and that of a device may not."""
    begun(market).stop("house")
    publishes(broker.port, "house", "market/street/bid/1", b"x", REFUSED["a name"])
    for login in ("operator", "house"):
        words = f'port = {broker.port}\nuser = "{login}"\npassword_file = "{tmp_path}/word"\n'
        (tmp_path / f"{login}.toml").write_text(f"[broker]\n{words}")

    def clears(login, topic):
        words = ["--config", str(tmp_path / f"{login}.toml"), "--seconds", "2"]
        return main(["market", "clear", topic, *words])

    assert clears("operator", "market/street/bid/1") == 0
    assert clears("house", "market/street/price/1") == 1
    assert clears("operator", "market/no/topic/at/all") == 2
    told = capsys.readouterr()
    assert told.out == "market/street/bid/1 is cleared\n"
    assert "may this login read and write it?" in told.err and "is no topic of a market" in told.err
    with Member(broker.port, "operator", "market/street/#") as operator:
        wait_until(lambda: operator.payload("market/street/state"), "what is retained")
        assert operator.payload("market/street/bid/2") and not operator.payload(
            "market/street/bid/1"
        )


class RawFlood(threading.Thread):
    """Writes one packet again and again by a login, without waiting for answers, until it is ended."""

    def __init__(self, port, user, told):
        super().__init__(daemon=True)
        self._client, self._told, self._ended = (
            RawClient(port, user).__enter__(),
            told,
            threading.Event(),
        )
        self.count = 0
        self.start()

    def run(self):
        with contextlib.suppress(OSError):
            while not self._ended.wait(0.001):
                self._client.socket.sendall(self._told)
                self.count += 1

    def end(self):
        self._ended.set()
        self.join(10)
        self._client.__exit__()


@pytest.mark.parametrize("topic", ["street/bid/1", "house/state"])
def test_a_flood_of_properties_holds_no_sibling_up(broker, market, topic):
    """Each message has 4,000 properties, which take some 10 ms to read: 100 a second are all of a parent's time."""
    begun(market).stop("house")
    form = user_property("a", "b") * 4_000
    flood = RawFlood(broker.port, "house", publish(f"market/{topic}", b"x", form, qos=0))
    waited = []
    for step in (5, 6, 7, 8):
        begin = time.monotonic()
        market.offers(store=falls_at(step, 0, -150))
        market.settles_at(step, store=-150)
        waited.append(time.monotonic() - begin)
    flood.end()
    said = [line for line in market.said["street"] if topic in line]
    assert flood.count > 50
    assert any("bytes of properties" in line for line in said) and len(said) <= BURST + 2, said
    assert (
        sum(waited) < SECONDS / 4
    ), f"seconds from an offer of the store to its setpoint: {waited}"


def test_bad_states_of_a_child_make_few_lines(broker, market):
    """Each is another one, with characters that would end a line or turn it."""
    begun(market).stop("house")
    with Member(broker.port, "house") as house:
        for number in range(400):
            odd = f"{number}\n<3>forged \u202e" + "x" * 3_000
            house.publish("market/house/state", json.dumps(STATE | {"started": odd}).encode())
    market.offers(store=falls_at(6, 0, -150))
    market.settles_at(6, store=-150)
    said = [line for line in market.said["street"] if "house/state" in line]
    assert 0 < len(said) <= BURST + 1, said
    assert all(len(line) < 1_200 and line.isprintable() for line in said), said


def test_no_character_of_an_offer_ends_a_site(tmp_path, live):
    with Mosquitto(tmp_path) as broker, Onlooker(broker.port, "market/+/setpoint") as onlooker:
        with RunningSite(
            tables_of(tmp_path, broker.port, live, "auctioneer", "street", "house", "store"),
            onlooker,
        ) as site:
            site.offers(house=CONSTANT, store=falls_at(4, 0, -150))
            site.settles_at(4, house=100, store=-150)
            publishes(broker.port, "", "market/house/offer", b'{"leave": true}', *REFUSED.values())
            site.offers(store=falls_at(6, 0, -150))
            site.settles_at(6, house=100, store=-150)
            assert site.error is None

            def fails():
                raise ValueError("whatever")

            site.site.nodes["house"].turn = fails
            site.offers(store=falls_at(8, 0, -150))
            site.settles_at(8, store=-150)
            assert sorted(site.site.nodes) == [
                "auctioneer",
                "store",
                "street",
            ], "a node that fails ends by itself"


def test_no_character_ends_a_page_or_a_history(tmp_path):
    require_broker()
    said, words = [], b'{"power": 240, "time": "2026-01-31T06:30:00Z"}'
    with Mosquitto(tmp_path) as broker, Onlooker(broker.port, "nothing") as onlooker:
        database = open_database(f"sqlite:///{tmp_path}/market.db")
        keeper = Keeper(BrokerSettings(port=broker.port), database, log_to(said.append), (0.1, 0.1))
        keeping = threading.Thread(target=keeper.run, daemon=True)
        keeping.start()
        board = Board(log_to(said.append))
        reader = Reader(
            BrokerSettings(port=broker.port), "page", board, log_to(said.append), pauses=(0.1, 0.1)
        )
        reader.start()
        wait_until(lambda: board.is_connected, "the page reads")
        for below in ("house/measured", "house/state", "street/bid/1"):
            publishes(broker.port, "", f"market/{below}", words, *REFUSED.values())
        onlooker.publish("market/store/measured", words)
        onlooker.publish("market/store/state", state_payload("1" * 16, MOMENT, "up"))
        wait_until(
            lambda: database.read("SELECT device FROM measured") == [("store",)],
            f"the row of the other: {said}",
        )
        wait_until(lambda: "market/store/state" in board.copy()[0], "the state of the other")
        assert [line for line in said if "The next try" in line] == []
        keeper.stop()
        keeping.join(10)
        reader.close(10)


def test_packets_by_chance_stop_no_market(broker, market):
    """Topics of the house, properties and payloads by chance, as the broker lets them pass."""
    begun(market).stop("house")
    chance = random.Random(7)
    own = b"".join(user_property(*pair) for pair in of_session(market))
    passed = 0
    with RawClient(broker.port, "house") as first:
        client = first
        for _ in range(300):
            topic = chance.choice(["street/bid/1", "house/state", "house/resume", "house/setpoint"])
            payload = chance.choice(
                [
                    b"",
                    b"{}",
                    chance.randbytes(chance.randrange(60)),
                    bid(1, 2 * chance.randrange(50, 2**31), *CONSTANT).to_bytes(),
                ]
            )
            name, value = (text_by(chance) for _ in range(2))
            form = chance.choice([own, b""]) + chance.choice(
                [b"", *REFUSED.values(), user_property(name, value), chance.randbytes(6)]
            )
            if client.passes(publish(f"market/{topic}", payload, form)):
                passed += 1
            else:
                client.__exit__()
                client = RawClient(broker.port, "house").__enter__()
        client.__exit__()
    assert passed > 100
    market.offers(store=falls_at(6, 0, -150))
    market.settles_at(6, store=-150)
    assert [
        line for name in ("street", "store") for line in market.said[name] if "The next try" in line
    ] == []


def text_by(chance):
    """A text of characters from all planes that UTF-8 has."""
    points = [
        chance.choice(
            [0x20, 0x7E, 0xA0, 0xFEFF, 0x2028, 0x202E, 0xD7FF, 0xE000, 0xFFFC, 0x1F600, 0x10FFFD]
        )
        for _ in range(chance.randrange(6))
    ]
    return "".join(map(chr, points))


# By chance, over pretended parts.

FUZZ = settings(max_examples=200, deadline=None, suppress_health_check=list(HealthCheck))
# What JSON and user properties may have, and what reads them may not expect.
ODD = [
    None,
    True,
    0,
    -1,
    10**40,
    -(10**40),
    2**63,
    2**31,
    0.5,
    math.nan,
    math.inf,
    [],
    {},
    "",
    "\0",
    "\ud800",
    "\u2028",
    "9" * 5_000,
    "nan",
    "1e999",
    "0001-01-01T00:00:00+14:00",
    "9999-12-31T23:59:59-14:00",
    MOMENT,
    SESSION.id,
    "up",
    "down",
    "device",
    "relay",
    "../x",
    "a/b",
    "+",
    "x" * 1_000,
]
TEXTS = st.one_of(
    st.sampled_from([odd for odd in ODD if isinstance(odd, str)]), st.text(max_size=12)
)
VALUES = st.one_of(
    st.sampled_from(ODD),
    st.recursive(
        st.sampled_from(ODD),
        lambda inner: st.one_of(st.lists(inner), st.dictionaries(TEXTS, inner)),
    ),
)
STATE = json.loads(
    state_payload(
        "1" * 16,
        MOMENT,
        "up",
        sort="relay",
        parent="street",
        child=2,
        floor=-5,
        ceiling=5,
        site="north",
    )
)
STATE_OF_HOUSE = json.dumps(STATE).encode()
# A right message of each form, by the word of its topic.
RIGHT = {
    "basis": json.loads(basis_payload()),
    "state": STATE,
    "site": {
        "state": "up",
        "run": "1" * 16,
        "started": MOMENT,
        "time": MOMENT,
        "why": "",
        "lost": False,
    },
    "heartbeat": {"time": MOMENT, "start": 1, "count": 2},
    "offer": {"power": [5, -3], "time": MOMENT, "reference": 4},
    "setpoint": {
        "power": 1,
        "step": 1,
        "price": 9,
        "bid": 2,
        "clearing": 3,
        "time": MOMENT,
        "until": MOMENT,
        "reference": 4,
    },
    "silent": {"market": "silent", "since": MOMENT, "power": 0, "why": ""},
    "measured": {"power": 4, "time": MOMENT},
    "lapsed": {"number": 3, "why": "", "time": MOMENT},
    "refused": {"number": 3, "least": 0, "greatest": 4, "why": "", "time": MOMENT},
    "limits": {"floor": -5, "ceiling": 5, "until": "2036-01-31T06:30:00Z", "reference": "a"},
    "limits/state": {
        "state": "kept",
        "floor": -1,
        "ceiling": 2,
        "until": MOMENT,
        "reference": "r",
        "clearing": 7,
        "why": "",
        "time": MOMENT,
    },
    "answer": {"why": "", "time": MOMENT},
    "kind": {
        "kind": "battery",
        "capacity": 5000,
        "charge": 300,
        "discharge": 300,
        "spread": 5,
        "state": 400,
    },
    "line": {"bidUpdate": {"bidNumber": 5, "pricePoints": [{"price": 0, "demand": 4}]}},
    "login": {"agentId": "house", "token": "x"},
}
FRAMES = {
    "bid": [bid(2, 4, 5, -3).to_bytes(), gone(2, 6).to_bytes()],
    "price": [price(2, 4, 7, 1).to_bytes(), Old(2, 5).to_bytes()],
    "prices": [PriceTable(7, 1, BASIS, {2: 4}).to_bytes()],
    "resume": [relay_resume(1, 0, 0, numbers((2, 4))).to_bytes()],
}


@st.composite
def payloads(draw, *words):
    """What a topic of these words has, with members or bytes by chance; or other JSON, or any bytes."""
    word = draw(st.sampled_from(words))
    kind = draw(st.integers(0, 9))
    if kind == 0:
        return draw(st.binary(max_size=80))
    if kind == 1:
        return json.dumps(draw(VALUES)).encode()
    if word in RIGHT:
        told = RIGHT[word]
        return json.dumps(
            told | draw(st.dictionaries(st.sampled_from(sorted(told)), VALUES, max_size=2))
        ).encode()
    frame = bytearray(draw(st.sampled_from(FRAMES.get(word, [b"{}"]))))
    for at in draw(st.lists(st.integers(0, len(frame) - 1), max_size=3)):
        frame[at] = draw(st.integers(0, 255))
    return bytes(frame)


def word_in(topic):
    """The word of a topic, such as `bid`."""
    return (
        topic.removeprefix("market/").partition("/")[2].removesuffix("/2").removesuffix("/200")
        or "basis"
    )


@st.composite
def messages_of(draw, topics):
    """A message of one of these topics: its topic, its payload, and its properties."""
    topic = draw(st.sampled_from(topics))
    words = [
        word_in(topic),
        *(
            ["silent"]
            if topic.endswith("setpoint")
            else ["kind"]
            if topic.endswith("offer")
            else []
        ),
    ]
    return topic, draw(payloads(*words)), draw(PROPERTIES)


PROPERTIES = st.one_of(
    st.just(dict(MARKED)),
    st.dictionaries(
        st.sampled_from(["time", "session", "version", "sort", "node", "valid", "relays", "bids"]),
        TEXTS,
        max_size=2,
    ).map(lambda more: dict(MARKED) | more),
)


@pytest.mark.parametrize("sort", ["auctioneer", "relay", "device"])
def test_no_message_ends_a_node(joined, sort):
    """Each of its topics but its own state, Resume and bid, whose writer is itself, and the basis."""
    one = joined(sort).begun()
    own = {
        one.node.settings.own_topic("state"),
        one.node.settings.own_topic("resume"),
        "market/basis",
    }
    own |= set() if sort == "auctioneer" else {one.node.settings.own_topic("bid")}
    topics = [topic.replace("+", "2") for topic in one.link.topics if topic not in own]
    topics = [topic for topic in topics if "/bid/" not in topic or topic.endswith(("/2", "/200"))]

    @FUZZ
    @given(messages_of([*topics, "market/north/site"]), st.booleans())
    def come(message, retained):
        one.link.comes(*message, retained=retained)
        one.turned()

    come()
    assert one.service is not None
    assert [
        line for line in one.said if "Error" in line
    ] == [], "no fault but those that the messages say of themselves"


def test_what_a_message_leads_to_ends_no_node(joined, monkeypatch):
    """A fault of the program at a message is a line, and the next message is taken."""
    one = joined("relay").begun()
    letting = one.node.serving.session.letting
    with monkeypatch.context() as patched:
        patched.setattr(letting, "take_state", lambda *_: {}["nothing"])
        one.link.comes("market/house/state", STATE_OF_HOUSE)
        one.turned()
    one.link.comes("market/street/bid/2", bid(2, 4, 5, -3).to_bytes())
    one.turned()
    assert bid(2, 4, 5, -3).to_bytes() in one.service.read
    assert [line for line in one.said if "market/house/state is not taken: KeyError" in line] != []


@FUZZ
@given(payloads("offer", "kind", "line", "login"))
def test_no_line_of_a_control_or_an_agent_raises_another_error(payload):
    kind = DeviceKind.of(
        {"kind": "battery", "capacity": 5000, "charge": 300, "discharge": 300, "spread": 5}
    )
    for read in (
        lambda: OfferMessage.of(payload, BASIS, kind),
        lambda: word_of(payload, BASIS, kind),
        lambda: Login.of(payload),
    ):
        try:
            read()
        except (BadMessage, BadFrame):
            pass


KEPT = [
    "basis",
    "street/state",
    "north/site",
    "house/setpoint",
    "house/measured",
    "street/bid/2",
    "street/price/2",
    "street/prices",
    "street/lapsed/2",
    "street/limits/state",
]


@FUZZ
@given(messages_of([f"market/{below}" for below in KEPT]))
def test_no_message_ends_a_page_or_a_history_by_chance(message):
    """A page shows the others, and a history has rows that its database takes."""
    messages = dict(village().messages)
    messages[message[0]] = Message(*message)
    json.dumps(view_of("market", messages).to_json()).encode()
    database = open_database("sqlite:///:memory:")
    for told in messages.values():
        try:
            rows = rows_of(Topics("market"), told)
        except BadMessage:
            continue
        database.put(rows)
    database.close()
