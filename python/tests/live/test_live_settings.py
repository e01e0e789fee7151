"""Settings of a node: from a TOML file and from options, with a line for each mistake; and the command line around them."""

from __future__ import annotations

import signal
import sys

import pytest
from pretended import BASIS, settings

from cogmaula.cli import main
from cogmaula.commands import node as command
from cogmaula.live.device.device_kinds import DeviceKind
from cogmaula.live import BadSettings, BadStore, BrokerSettings, NodeRefused, Settings, make_node, read_toml, settings_of
from cogmaula.live.messages.topics import Topics

WHOLE = """
[node]
name = "house"
parent = "street"
child = 2
state = "/var/lib/cogmaula/house"
live = "/usr/lib/market/live"
offer_validity = 300

[basis]
min = 0
max = 9
steps = 2

[broker]
host = "broker.example"
prefix = "towns/delft"
user = "house"
password_file = "/etc/cogmaula/password"
ca = "/etc/cogmaula/ca.crt"
"""


def written(tmp_path, text):
    path = tmp_path / "node.toml"
    path.write_text(text)
    return path


def test_a_whole_file(tmp_path):
    broker = BrokerSettings(
        "broker.example", prefix="towns/delft", user="house", password_file="/etc/cogmaula/password", ca="/etc/cogmaula/ca.crt"
    )
    due = Settings(
        "device", "house", "/var/lib/cogmaula/house", BASIS, "/usr/lib/market/live", "street", 2, offer_validity=300, broker=broker
    )
    assert settings_of("device", read_toml(written(tmp_path, WHOLE))) == due
    assert due.broker.address == "broker.example:8883"
    assert due.command == ["/usr/lib/market/live", "device", "2"]
    assert due.own_topic("bid") == "towns/delft/street/bid/2"
    assert due.own_topic("price") == "towns/delft/street/price/2"
    assert due.own_topic("setpoint") == "towns/delft/house/setpoint"


def test_the_commands_of_all_sorts(tmp_path):
    assert settings("auctioneer", tmp_path).command == ["live", "auctioneer"]
    assert settings("relay", tmp_path).command == ["live", "relay", "3", "-1000", "1000"]


def test_the_port_is_that_of_the_connection():
    assert BrokerSettings().address == "127.0.0.1:1883"
    assert BrokerSettings(tls=True).port_due == 8883
    assert BrokerSettings(certificate="a", key="b").with_tls
    assert BrokerSettings(port=99, tls=True).port_due == 99


def test_the_password_is_of_a_file_or_of_the_environment(tmp_path, monkeypatch):
    (tmp_path / "password").write_text("secret word\nnot this\n")
    monkeypatch.setenv("COGMAULA_PASSWORD", "of the environment")
    assert BrokerSettings(password_file=str(tmp_path / "password")).password() == "secret word"
    assert BrokerSettings().password() == "of the environment"
    monkeypatch.delenv("COGMAULA_PASSWORD")
    assert BrokerSettings().password() is None


def test_the_kind_of_a_device(tmp_path):
    tables = {"node": {"name": "house", "parent": "street", "child": 2, "state": "x"}, "basis": {"min": 0, "max": 9, "steps": 2}}
    battery = {"kind": "battery", "capacity": 1000, "charge": 300, "discharge": 300, "spread": 0}
    assert settings_of("device", {**tables, "device": battery}).device == DeviceKind("battery", (1000, 300, 300, 0))
    with pytest.raises(BadSettings, match="device: spread of a battery is 1001: give a whole number from 0 to 1000"):
        settings_of("device", {**tables, "device": {**battery, "spread": 1001}})
    with pytest.raises(BadSettings, match="the table device is for a device"):
        settings("relay", tmp_path, device=DeviceKind("load"))


def test_no_option_takes_a_password():
    assert not any("password" in member and member != "password_file" for _, member, *_ in command._OPTIONS)


MISTAKES = [
    ("name = 3", "", "node.name is 3: give a text"),
    ('name = "a/b"', "", "name is 'a/b': give 1 to 64 letters"),
    ('name = "basis"', "", "name is 'basis'"),
    ('child = "2"', "", "node.child is '2': give a whole number"),
    ("child = true", "", "node.child is True: give a whole number"),
    ("child = 0", "", "child is 0: give 1 to 256"),
    ("child = 257", "", "child is 257"),
    ('parent = "house"', "", "parent is the node itself"),
    ("offer_validity = 0", "", "offer_validity is 0: give 0.01 seconds or more"),
    ("pause = -1", "", "pause is -1: give 0 seconds or more"),
    ('period = "day"', "", "node.period is 'day': give a number"),
    ("floor = 1", "", "floor and ceiling are 1 and 1000000000"),
    ("ceiling = -1", "", "floor and ceiling are"),
    ("colour = 1", "", "node.colour is not known: basis, broker, ceiling, child"),
    ("new_session = true", "", "new_session is for an auctioneer, and leave for a device"),
    ("validity = 300", "", "validity of a device is offer_validity now: write that"),
    ("grace = 300", "", "validity, heartbeat and grace are the auctioneer's"),
    ("limits_from = true", "", "limits_from is for a relay"),
    ("giver = 257", "", "giver is 257: give 1 to 256"),
    ("fallback = 1000000001", "", "fallback is 1000000001"),
    ('sort = "relay"', "", "node has a member sort, basis, broker, page, prices, children or device"),
    ("", "steps = 1", "give 2 to 1000 steps"),
    ("", "max = 0", "from min to a greater max"),
    ("", "min = 1\nsteps = 4", "max - min has to be a multiple of steps - 1"),
    ("", "steps = 2.5", "basis.steps is 2.5: give a whole number"),
]


@pytest.mark.parametrize(("node", "basis", "why"), MISTAKES)
def test_each_mistake_has_a_line(node, basis, why):
    import tomllib

    tables = {"node": {"name": "house", "parent": "street", "child": 2, "state": "x"}, "basis": {"min": 0, "max": 9, "steps": 2}}
    tables["node"] |= tomllib.loads(node)
    tables["basis"] |= tomllib.loads(basis)
    with pytest.raises(BadSettings) as found:
        settings_of("device", tables)
    assert why in str(found.value)


@pytest.mark.parametrize(
    ("more", "why"),
    [
        ({"port": 0}, "broker.port is 0"),
        ({"port": 70_000}, "broker.port is 70000"),
        ({"keepalive": 0}, "broker.keepalive is 0"),
        ({"certificate": "a"}, "go together"),
        ({"prefix": "a/+/b"}, "the prefix is 'a/+/b'"),
        ({"prefix": "/a"}, "the prefix"),
        ({"tls": "yes"}, "broker.tls is 'yes': give true or false"),
    ],
)
def test_each_mistake_about_the_broker_has_a_line(more, why):
    tables = {"node": {"name": "auctioneer", "state": "x"}, "basis": {"min": 0, "max": 9, "steps": 2}, "broker": more}
    with pytest.raises(BadSettings, match=why.replace("+", r"\+")):
        settings_of("auctioneer", tables)


def test_what_is_missing_is_named():
    with pytest.raises(BadSettings, match="basis.min, basis.max, basis.steps are missing"):
        settings_of("auctioneer", {"node": {"name": "a", "state": "x"}})
    with pytest.raises(BadSettings, match="node.name, node.state are missing"):
        settings_of("auctioneer", {"basis": {"min": 0, "max": 9, "steps": 2}})
    with pytest.raises(BadSettings, match="a relay needs parent"):
        settings_of("relay", {"node": {"name": "a", "state": "x"}, "basis": {"min": 0, "max": 9, "steps": 2}})
    with pytest.raises(BadSettings, match="an auctioneer has no parent"):
        settings_of("auctioneer", {"node": {"name": "a", "state": "x", "child": 1}, "basis": {"min": 0, "max": 9, "steps": 2}})


@pytest.mark.parametrize(
    ("text", "why"), [("[market]\n", "market is not known there"), ("node = 1", "node is not known"), ("[", "node.toml: ")]
)
def test_a_file_that_is_none(tmp_path, text, why):
    with pytest.raises(BadSettings, match=why):
        read_toml(written(tmp_path, text))


def test_children_of_topics():
    topics = Topics("market")
    assert topics.child_of("market/street/bid/256", "street", "bid") == 256
    for wrong in ("street/bid/257", "street/bid/0", "street/bid/01", "street/bid/x", "other/bid/1", "street/price/1"):
        assert topics.child_of(f"market/{wrong}", "street", "bid") is None


# The command line.


class Noted:
    """A node in place of a real one: what it was made with, and what comes of its work."""

    comes = None

    def __init__(self, made, turns):
        turns()
        Noted.made, self.stopped = made, False

    def run(self):
        signal.raise_signal(signal.SIGTERM)
        assert self.stopped
        if Noted.comes is not None:
            raise Noted.comes

    def stop(self):
        self.stopped = True


@pytest.fixture
def noted(monkeypatch):
    from cogmaula.live.node import node

    before = {number: signal.getsignal(number) for number in (signal.SIGTERM, signal.SIGINT)}
    monkeypatch.setattr(node, "make_node", Noted)
    monkeypatch.setattr(Noted, "comes", None)
    yield Noted
    for number, handler in before.items():
        signal.signal(number, handler)


def test_options_go_before_the_file_and_a_signal_ends_the_node(tmp_path, noted):
    file = str(written(tmp_path, WHOLE))
    files = ["--live", sys.executable, "--ca", file, "--password-file", file]
    words = ["node", "device", "--config", file, "--child", "7", "--steps", "10", "--host", "other", "--tls", "--leave", *files]
    assert main(words) == 0
    made = noted.made
    assert (made.child, made.basis.steps, made.broker.host, made.broker.tls, made.leave) == (7, 10, "other", True, True)
    assert (made.name, made.broker.prefix) == ("house", "towns/delft")


def test_options_alone(noted, monkeypatch):
    monkeypatch.setenv("COGMAULA_LIVE", sys.executable)
    words = "node auctioneer --name root --state there --min 0 --max 9 --steps 10 --period 60".split()
    assert main(words) == 0
    assert (noted.made.live, noted.made.period) == (sys.executable, 60.0)


@pytest.mark.parametrize(
    ("raised", "status", "line"),
    [
        (NodeRefused("look first"), 5, "look first"),
        (BadStore("damaged"), 1, "damaged"),
        (OSError(28, "No space left on device", "there/fresh"), 1, "node root: there/fresh: No space left on device"),
    ],
)
def test_each_error_has_its_status_and_a_line(noted, monkeypatch, capsys, raised, status, line):
    monkeypatch.setattr(noted, "comes", raised)
    assert main(f"node auctioneer --name root --state there --min 0 --max 9 --steps 10 --live {sys.executable}".split()) == status
    assert capsys.readouterr().err == f"cogmaula: {line}\n"


def test_wrong_settings_have_status_2(capsys):
    assert main(["node", "device", "--name", "house", "--state", "x", "--min", "0", "--max", "9", "--steps", "2"]) == 2
    assert capsys.readouterr().err.startswith("cogmaula: a device needs parent")


def test_help_names_each_setting(capsys):
    with pytest.raises(SystemExit):
        main(["node", "--help"])
    text = capsys.readouterr().out
    for word in ("--password-file", "--new-session", "--leave", "--validity", "$COGMAULA_PASSWORD", "$COGMAULA_LIVE"):
        assert word in text
    assert "--program" not in text


def test_without_paho_the_line_names_the_package(tmp_path, monkeypatch):
    from cogmaula import NoPackage

    monkeypatch.setitem(sys.modules, "paho.mqtt.client", None)
    with pytest.raises(NoPackage, match="python3-paho-mqtt"):
        make_node(settings("auctioneer", tmp_path))
