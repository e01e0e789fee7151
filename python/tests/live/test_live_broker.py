"""The connection to a real mosquitto: logins, TLS, rights, a broker that is away, and what is published again."""

from __future__ import annotations

import importlib.util
import os
import queue
import resource
import socket
import ssl
import time

import pytest
from brokers import SECONDS, Certificates, Mosquitto, Onlooker, free_port, passwords, require_broker, wait_until
from logged import QUIET, log_to

from cogmaula.live.broker import connection
from cogmaula.live.broker.broker import Broker
from cogmaula.live.broker.broker_link import Confirmed, Message, Publication, Settled
from cogmaula.live.broker.connection import Waiting, words_of, words_of_end
from cogmaula.live.node.node_settings import BrokerSettings

STATE, WILL = "market/house/state", Publication("market/house/state", b"down")
TOPICS = [STATE, "market/house/setpoint", "market/street/price/2"]


@pytest.fixture(autouse=True)
def needs():
    require_broker()


class Connected:
    """A connection of a test, with all events and lines of it."""

    def __init__(self, port, topics=TOPICS, written=(), **more):
        self.events, self.said, self.marks = queue.Queue(), [], 0
        settings = BrokerSettings(port=port, **more)
        self.broker = Broker(settings, "cogmaula.market.house", self.events.put, log_to(self.said.append), pauses=(0.1, 0.4), patience=0.5)
        self.broker.start(topics, lambda: WILL, self.mark, written)

    def mark(self):
        self.marks += 1
        return Publication(STATE, f"up {self.marks}".encode())

    def settled(self):
        """Waits until the connection is settled."""
        while not isinstance(self.events.get(timeout=SECONDS), Settled):
            pass
        self.broker.publish_all()
        return self

    def says(self, words, seconds=SECONDS):
        wait_until(lambda: self.ticked() and any(words in line for line in self.said), words, seconds)

    def ticked(self):
        self.broker.tick()
        self.broker.taken()
        return True

    def __enter__(self):
        return self

    def __exit__(self, *_):
        self.broker.close(Publication(STATE, b"ended"), 1.0)


def test_it_settles_publishes_confirms_and_reads(tmp_path):
    with Mosquitto(tmp_path) as broker, Onlooker(broker.port) as onlooker:
        onlooker.publish("market/street/price/2", b"old", UserProperty=[("time", "t"), ("session", "s")], MessageExpiryInterval=600)
        with Connected(broker.port).settled() as one:
            (found,) = [message for message in one.broker.taken() if message.topic == "market/street/price/2"]
            assert (found.payload, found.properties, found.retained) == (b"old", {"time": "t", "session": "s"}, True)
            assert 590 <= found.expiry <= 600
            one.broker.publish(Publication("market/house/setpoint", b"5", (("time", "now"),)))
            assert one.broker.is_unconfirmed(["market/house/setpoint"])
            while not isinstance(one.events.get(timeout=SECONDS), Confirmed) or one.broker.is_unconfirmed(["market/house/setpoint"]):
                pass
            wait_until(lambda: onlooker.newest.get("market/house/setpoint") == (b"5", {"time": "now"}), "the setpoint")
            onlooker.publish("market/street/price/2", b"new")
            wait_until(lambda: any(message.payload == b"new" and not message.retained for message in one.broker.taken()), "the message")
            assert one.broker.kept("market/house/setpoint").payload == b"5"
            assert one.broker.is_settled
        wait_until(lambda: onlooker.payload(STATE) == b"ended", "the last message")
        assert one.said == []


class Numbering:
    """A client of paho that gives each message the next number, and keeps what it was to read no more."""

    def __init__(self):
        self.mid, self.let_go = 0, []

    def publish(self, *_):
        self.mid += 1
        return self

    def unsubscribe(self, topics):
        self.let_go.append(list(topics))


@pytest.fixture
def many_files():
    """Takes all file numbers up to 1100, so that what is opened next is above what `select.select` waits for."""
    soft, hard = resource.getrlimit(resource.RLIMIT_NOFILE)
    if hard != resource.RLIM_INFINITY and hard < 1400:
        pytest.skip(f"a process may have {hard} files")
    resource.setrlimit(resource.RLIMIT_NOFILE, (max(soft, 1400), hard))
    taken = [os.open(os.devnull, os.O_RDONLY)]
    while taken[-1] < 1100:
        taken.append(os.dup(taken[0]))
    yield
    for number in taken:
        os.close(number)
    resource.setrlimit(resource.RLIMIT_NOFILE, (soft, hard))


def test_a_node_of_a_process_with_many_files_settles(tmp_path, many_files):
    with Mosquitto(tmp_path) as broker, Onlooker(broker.port) as onlooker:
        onlooker.publish("market/street/price/2", b"old")
        with Connected(broker.port).settled() as one:
            assert one.broker.taken()[-1].payload == b"old"
            one.broker.publish(Publication("market/house/setpoint", b"new"))
            wait_until(lambda: onlooker.payload("market/house/setpoint") == b"new", "it is published")
            assert one.said == []


def test_waiting_says_which_files_are_ready(many_files):
    one, other = socket.socketpair()
    assert one.fileno() > 1100
    assert Waiting.select([one], [], [], 0) == ([], [], [])
    assert Waiting.select([one], [one], [], 0) == ([], [one], [])
    other.send(b"word")
    assert Waiting.select([one, other], [one], [], 5) == ([one], [one], [])
    one.recv(4)
    other.close()
    assert Waiting.select([one], [], [], 5) == ([one], [], []), "its end can be read"
    one.close()
    with pytest.raises(ValueError):
        Waiting.select([one], [], [], 0)


def test_many_confirmations_wake_the_node_once():
    """None is lost: one that comes after the node has looked wakes it anew."""
    events, topics = [], [f"market/street/price/{child}" for child in range(1, 4)]
    broker = Broker(BrokerSettings(), "cogmaula.market.street", events.append, QUIET)
    broker._settled = client = Numbering()
    for topic in topics:
        broker.publish(Publication(topic, b"5"))
    broker._on_publish(client, 1)
    broker._on_publish(client, 3)
    assert events == [Confirmed()]
    assert [broker.is_unconfirmed([topic]) for topic in topics] == [False, True, False]
    broker._on_publish(client, 2)
    assert events == [Confirmed(), Confirmed()]
    assert not broker.is_unconfirmed(topics)


def test_the_confirmation_of_an_older_message_or_connection_does_not_count():
    broker = Broker(BrokerSettings(), "cogmaula.market.street", lambda _: None, QUIET)
    topic = "market/street/price/1"
    broker._settled = before = Numbering()
    broker.publish(Publication(topic, b"5"))
    broker.publish(Publication(topic, b"6"))
    broker._on_publish(before, 1)
    assert broker.is_unconfirmed([topic])
    broker._settled = now = Numbering()
    broker.publish_all()
    broker._on_publish(before, 2)
    assert broker.is_unconfirmed([topic])
    broker._on_publish(now, 1)
    assert not broker.is_unconfirmed([topic])


PRICES = ["market/street/price/+"]


def prices(found):
    """The numbers of the children and the payloads of the prices among some messages."""
    return [(message.topic.rpartition("/")[2], message.payload) for message in found if "/price/" in message.topic]


def test_what_a_node_alone_writes_comes_back_until_one_message_shows_its_rights(tmp_path):
    with Mosquitto(tmp_path) as broker, Onlooker(broker.port) as onlooker:
        onlooker.publish("market/street/price/9", b"kept")
        with Connected(broker.port, [STATE], PRICES).settled() as one:
            assert prices(one.broker.taken()) == [("9", b"kept")]
            one.broker.publish(Publication("market/street/price/1", b"first"))
            wait_until(lambda: ("1", b"first") in prices(one.broker.taken()), "the first price")
            assert one.broker._echoes.keys() <= {STATE}
            one.broker.publish(Publication("market/street/price/2", b"second"))
            wait_until(lambda: onlooker.payload("market/street/price/2") == b"second", "the second price")
            time.sleep(0.6)
            one.broker.tick()
            assert prices(one.broker.taken()) == []
            assert one.said == []
            broker.kill()
            one.says("the connection was lost")
            broker.start()
            one.settled()
            wait_until(lambda: onlooker.payload("market/street/price/2") == b"second", "the price again")
            wait_until(lambda: prices(one.broker.taken()), "one that shows the rights anew")


def test_each_connection_has_to_show_the_rights_anew():
    """Of prices that wait to come back none is missed once one came."""
    broker = Broker(BrokerSettings(), "cogmaula.market.street", lambda _: None, QUIET)
    broker._written = PRICES
    for client in (Numbering(), Numbering()):
        broker._settled = client
        broker.publish_all()
        for child in (1, 2, 3):
            broker.publish(Publication(f"market/street/price/{child}", b"5"))
        broker._inbox["market/street/price/1"] = Message("market/street/price/1", b"5", retained=True)
        broker.taken()
        assert client.let_go == [], "one that the broker had kept does not show that the node may write"
        broker._inbox["market/street/price/2"] = Message("market/street/price/2", b"5")
        broker.taken()
        assert (client.let_go, broker._echoes) == ([PRICES], {})


def test_a_node_that_may_not_write_what_it_alone_writes(tmp_path, monkeypatch):
    monkeypatch.setenv("COGMAULA_PASSWORD", "word")
    lines = rights(tmp_path, "user house\ntopic readwrite market/house/#\ntopic read market/street/#\n")
    with Mosquitto(tmp_path, *lines) as broker, Connected(broker.port, [STATE], PRICES, user="house").settled() as one:
        one.broker.publish(Publication("market/street/price/1", b"5"))
        one.says("does not give market/street/price/1 back: let house write and read this topic")


def test_the_newest_alone_of_a_topic_waits(tmp_path):
    with Mosquitto(tmp_path) as broker, Onlooker(broker.port) as onlooker, Connected(broker.port).settled() as one:
        for number in range(50):
            onlooker.publish("market/street/price/2", str(number).encode())
        onlooker.publish(STATE, b"of somebody else")
        wait_until(lambda: STATE in one.broker._inbox, "the last message")
        found = one.broker.taken()
        assert [message.payload for message in found] == [b"49", b"of somebody else"]
        assert one.broker.taken() == []


def test_a_lost_process_is_told_by_its_last_will(tmp_path):
    with Mosquitto(tmp_path) as broker, Onlooker(broker.port) as onlooker:
        one = Connected(broker.port).settled()
        one.broker._closing.set()
        one.broker._client._sock_close()
        wait_until(lambda: onlooker.payload(STATE) == b"down", "the last will")


def test_a_broker_that_is_away_is_waited_for_with_growing_pauses(tmp_path):
    port = free_port()
    with Connected(port) as one:
        one.broker.publish(Publication("market/house/setpoint", b"first"))
        one.says("The next try is in 0.4 s")
        assert [line.rpartition(" in ")[2] for line in one.said[:4]] == ["0.1 s", "0.2 s", "0.4 s", "0.4 s"][: len(one.said[:4])]
        assert one.said[0].startswith(f"127.0.0.1:{port}: the broker cannot be reached (Connection refused)")
        one.broker.publish(Publication("market/house/setpoint", b"second"))
        assert one.broker.is_unconfirmed(["market/house/setpoint"])
        with Mosquitto(tmp_path, port=port) as broker, Onlooker(port) as onlooker:
            one.settled()
            wait_until(lambda: onlooker.payload("market/house/setpoint") == b"second", "the newest")
            assert (b"first" not in [message[1] for message in onlooker.all])
            assert one.said[-1] == f"127.0.0.1:{port}: connected"
            broker.kill()
            one.says("the connection was lost")
            assert not one.broker.is_settled
            one.broker.publish(Publication("market/house/setpoint", b"third"))
            broker.start()
            one.settled()
            wait_until(lambda: onlooker.payload("market/house/setpoint") == b"third", "the newest again")
            assert one.said[-1] == f"127.0.0.1:{port}: connected again"
            wait_until(lambda: not one.broker.is_unconfirmed(["market/house/setpoint"]), "the confirmation")


def test_a_login(tmp_path, monkeypatch):
    file = passwords(tmp_path, house="right word")
    (tmp_path / "password").write_text("right word\n")
    with Mosquitto(tmp_path, f"password_file {file}") as broker:
        with Connected(broker.port, user="house", password_file=str(tmp_path / "password")).settled():
            pass
        monkeypatch.setenv("COGMAULA_PASSWORD", "right word")
        with Connected(broker.port, user="house").settled():
            pass
        monkeypatch.setenv("COGMAULA_PASSWORD", "wrong")
        with Connected(broker.port, user="house") as one:
            one.says("the broker refuses the login of house")
            monkeypatch.setenv("COGMAULA_PASSWORD", "right word")
            one.settled()
        with Connected(broker.port) as one:
            one.says("the broker refuses a login without a user")
        with Connected(broker.port, user="house", password_file="/nowhere/password") as one:
            one.says("/nowhere/password cannot be read: No such file or directory")


@pytest.fixture(scope="module")
def certificates(tmp_path_factory):
    return Certificates(tmp_path_factory.mktemp("certificates"))


def tls_lines(certificates, host, *more):
    certificate, key = certificates.make(f"server-{host}", host)
    return [f"cafile {certificates.ca}", f"certfile {certificate}", f"keyfile {key}", *more]


def test_tls_with_the_ca_that_signed(tmp_path, certificates):
    with Mosquitto(tmp_path, *tls_lines(certificates, "127.0.0.1")) as broker:
        with Connected(broker.port, ca=certificates.ca).settled() as one:
            assert one.said == []
        other = Certificates(tmp_path / "other", "other")
        with Connected(broker.port, ca=other.ca) as one:
            one.says("the broker's certificate is not trusted (")
            one.says("give the CA that signed it by ca")
        with Connected(broker.port, tls=True) as one:
            one.says("the broker's certificate is not trusted")
        with Connected(broker.port) as one:
            one.says("does the broker want TLS, or a certificate of the node?")
        with Connected(broker.port, ca="/nowhere/ca.crt") as one:
            one.says("a file of the settings cannot be read")


def test_tls_of_another_host(tmp_path, certificates):
    with Mosquitto(tmp_path, *tls_lines(certificates, "elsewhere.example")) as broker, Connected(broker.port, ca=certificates.ca) as one:
        one.says("is not valid for '127.0.0.1'")


def test_tls_to_a_broker_without_it(tmp_path, certificates):
    with Mosquitto(tmp_path) as broker, Connected(broker.port, ca=certificates.ca) as one:
        one.says("TLS")


def test_a_certificate_of_the_node(tmp_path, certificates):
    lines = tls_lines(certificates, "127.0.0.1", "require_certificate true", "use_identity_as_username true", "allow_anonymous false")
    certificate, key = certificates.make("house")
    with Mosquitto(tmp_path, *lines) as broker:
        with Connected(broker.port, ca=certificates.ca, certificate=certificate, key=key).settled():
            pass
        with Connected(broker.port, ca=certificates.ca) as one:
            one.says("The next try is in")
            assert any("certificate" in line for line in one.said)


def test_what_tls_raises_behind_the_handshake_ends_a_connection(tmp_path, monkeypatch):
    import paho.mqtt.client

    def loop(*_arguments, **_named):
        raise ssl.SSLError(1, "the certificate is required")

    monkeypatch.setattr(paho.mqtt.client.Client, "loop_forever", loop)
    with Mosquitto(tmp_path) as broker, Connected(broker.port) as one:
        one.says("TLS fails (the certificate is required): look at tls, ca, certificate, key and the port. The next try is in")


def rights(tmp_path, text):
    (tmp_path / "rights").write_text(text)
    return [f"password_file {passwords(tmp_path, house='word')}", f"acl_file {tmp_path / 'rights'}"]


def test_a_node_that_may_not_write_or_read_its_own_topics(tmp_path, monkeypatch):
    monkeypatch.setenv("COGMAULA_PASSWORD", "word")
    lines = rights(tmp_path, "user house\ntopic read market/house/#\n")
    with Mosquitto(tmp_path, *lines) as broker, Connected(broker.port, user="house") as one:
        one.says("does not give market/house/state back: let house write and read this topic")
        marks = one.marks
        one.says("does not give")
        wait_until(lambda: one.ticked() and one.marks > marks, "the next marker")
        assert not one.broker.is_settled
        assert len([line for line in one.said if "market/house/state" in line]) == 1


def test_a_topic_that_is_not_allowed(tmp_path, monkeypatch):
    monkeypatch.setenv("COGMAULA_PASSWORD", "word")
    lines = rights(tmp_path, "user house\ntopic readwrite market/house/#\ntopic read market/street/bid/2\n")
    topics = [*TOPICS, "market/street/bid/2"]
    with Mosquitto(tmp_path, *lines) as broker, Connected(broker.port, topics, user="house").settled() as one:
        one.broker.publish(Publication("market/house/setpoint", b"1"))
        one.broker.publish(Publication("market/street/bid/2", b"2"))
        one.says("does not give market/street/bid/2 back: let house write and read this topic")
        wait_until(lambda: not one.broker.is_unconfirmed(["market/street/bid/2"]), "what is refused holds nothing up")
        assert not any("setpoint" in line for line in one.said)


class Code:
    """A reason of MQTT 5, as paho tells one."""

    def __init__(self, value):
        self.value = value

    def __str__(self):
        return f"reason {self.value}"


def test_other_reasons_have_their_lines():
    """Those that mosquitto gives no cause for: a busy server, a topic that may not be read, an end with a reason."""
    said = []
    broker = Broker(BrokerSettings(), "nobody", lambda _: None, log_to(said.append))
    broker._asked = {(None, 7): ["market/basis", "market/x"]}
    words = []
    broker._on_connect(None, Code(137), words)
    assert words == ["the broker refuses the connection: reason 137"]
    broker._on_subscribe(None, 7, [Code(1), Code(135)])
    assert said == ["127.0.0.1:1883 does not let this node read market/x (reason 135)"]
    assert words_of_end(Code(139), was_there=True) == "the broker ends the connection: reason 139"
    assert words_of(ValueError("no host"), broker.settings) == "the settings of the broker are refused: no host"


def test_two_connections_of_one_name_take_it_from_each_other(tmp_path):
    with Mosquitto(tmp_path) as broker, Connected(broker.port).settled() as one, Connected(broker.port).settled():
        one.says("The next try is in")


def test_closing_ends_in_its_time_if_the_broker_stands_still(tmp_path):
    """With a broker that answers it ends long before its time."""
    with Mosquitto(tmp_path) as broker:
        one = Connected(broker.port).settled()
        begin = time.monotonic()
        one.broker.close(Publication(STATE, b"ended"), SECONDS)
        assert time.monotonic() - begin < SECONDS / 2
        one = Connected(broker.port).settled()
        broker.process.send_signal(19)
        begin = time.monotonic()
        one.broker.close(Publication(STATE, b"ended"), 0.5)
        assert time.monotonic() - begin < SECONDS / 2
        broker.process.send_signal(18)


def test_a_flood_takes_no_memory(tmp_path):
    """Only topics of a market are taken, each with a message that is not too long, and so many of them."""
    with Mosquitto(tmp_path, "max_queued_messages 0") as broker, Connected(broker.port, [*TOPICS, "market/#"]).settled() as one:
        with Onlooker(broker.port, "nothing") as other:
            for topic in ("flood/x", "house/state", "street/bid/300", "a b/state"):
                other.publish(f"market/{topic}", b"x" * 30_000)
            for number in range(3_000):
                other.client.publish(f"market/n{number}/state", b"x", 1)
            other.publish("market/n0/state", b"last")
        wait_until(lambda: len(one.broker._inbox) == 2_048, "as many topics as may wait")
        time.sleep(0.3)
        found = one.broker.taken()
        assert len(found) == 2_048
        assert {len(message.payload) for message in found} <= {1, 4}
        assert one.broker.has_lost
        assert not one.broker.has_lost
        assert len([line for line in one.said if "it is no topic of a market, or too long for it" in line]) == 4


TEXTS = [b"\0\0", b"\0\4time", b"\0\2\xc3\xbc", b"\0\3a\0b", b"\0\3\xef\xbb\xbf", b"\0\3\xed\xa0\x80", b"\0\2\xff\xff", b"\0\5time", b"\0", b"\0\1ab"]
PAIRS = [b"\x26" + name + text for name in TEXTS for text in TEXTS]
# What may come: one user property, two, one with others around it, an unknown number, many, and the same with lengths that are written otherwise.
FIELDS = [b"", *PAIRS, b"\x26\0\1a\0\1b\x26\0\1a\0\1c", b"\2\0\0\0\7\x26\0\1a\0\1b", b"\x26\0\1a\0\1b\1\1", b"\1\1\1\1", b"\x7e\0", b"\xa6\0\0\1a\0\1b", b"\x26\0\1a\0\1b" * 40]
LENGTHS = {"as it is": lambda size: bytes([size]) if size < 128 else bytes([size & 127 | 128, size >> 7]), "one more": lambda size: bytes([min(127, size + 1)])}
LENGTHS |= {"long": lambda size: bytes([size & 127 | 128, size >> 7 & 127 | 128, 0]), "too long": lambda size: bytes([size & 127 | 128] + [128] * 4 + [0])}


def paho_properties():
    """A module of its own."""
    module = importlib.util.module_from_spec(importlib.util.find_spec("paho.mqtt.properties"))
    module.__package__ = "paho.mqtt"
    module.__spec__.loader.exec_module(module)
    return module


@pytest.mark.parametrize("form", LENGTHS)
@pytest.mark.parametrize("packet", [3, 4, 9, 12])
def test_properties_are_read_as_paho_reads_them(packet, form):
    """Each list of properties with a payload behind it, cut off at each byte: the same answer or the same refusal."""
    own, eased = paho_properties(), paho_properties()
    connection.ease_properties(eased)

    def told(module, data):
        one = module.Properties(packet)
        try:
            size = one.unpack(data)[1]
        except Exception as error:  # noqa: BLE001 - each refusal counts
            return type(error).__name__, str(error).replace(str(own), "").replace(str(eased), "")
        return size, {name: value for name, value in vars(one).items() if name not in ("names", "types", "properties")}

    taken = 0
    for fields in FIELDS:
        whole = LENGTHS[form](len(fields)) + fields + b"payload"
        for size in range(len(whole) + 1) if len(fields) < 50 else [len(whole)]:
            for kind in (bytes, bytearray):
                data = kind(whole[:size])
                assert told(eased, data) == told(own, data), (packet, data)
            taken += connection.user_properties_in(whole[:size]) is not None
    assert (taken > 0) == (form != "too long")


def test_properties_are_eased_once_and_read_behind_others_too():
    own, module = paho_properties(), paho_properties()
    find = module.Properties.getIdentFromName
    connection.ease_properties(module)
    read = module.Properties.unpack
    connection.ease_properties(module)
    assert module.Properties.unpack is read, "once is enough"
    data = b"\x07\x26\0\1a\0\1b"
    for these in (own, module):
        one = these.Properties(3)
        one.MessageExpiryInterval = 7
        one.UserProperty = [("c", "d")]
        one.UserProperty = ("e", "f")
        assert one.UserProperty == [("c", "d"), ("e", "f")]
        assert one.pack() == own.Properties(3).pack()[:0] + b"\x13\2\0\0\0\7\x26\0\1c\0\1d\x26\0\1e\0\1f"
        one.unpack(data)
        assert (one.UserProperty, hasattr(one, "MessageExpiryInterval")) == ([("a", "b")], False)
    one = module.Properties(3)
    for name in [*one.names, "UserProperty", "none"]:
        assert one.getIdentFromName(name.replace(" ", "")) == find(one, name.replace(" ", ""))
