"""A stolen login is undone, over a real broker: barred, given another password, and its device given another number."""

from __future__ import annotations

import time

import pytest
from brokers import live_program, require_broker, wait_until
from made import MadeMarket
from markets import STEPS, falls_at
from test_deploy_market import broker_of

from cogmaula.cli import main
from cogmaula.deploy import BadSettings, renumber_device, revoke_login, rotate_login
from cogmaula.live.messages.frames import Bid
from cogmaula.live.messages.messages import VERSION
from cogmaula.live.broker.operating import drop


@pytest.fixture
def made(tmp_path):
    require_broker()
    with MadeMarket(tmp_path) as one:
        yield one


class Thief:
    """Somebody else with a login and its password, as a client of MQTT 5."""

    def __init__(self, made, login):
        import paho.mqtt.client as mqtt

        first = (mqtt.CallbackAPIVersion.VERSION1,) if hasattr(mqtt, "CallbackAPIVersion") else ()
        self.client = mqtt.Client(*first, protocol=mqtt.MQTTv5)
        # Else it would come back by itself, as often as it is ended.
        self.client.reconnect_delay_set(60, 60)
        self.client.username_pw_set(login, (made.out / login / f"{login}.password").read_text().strip())
        self.client.tls_set(str(made.out / "authority" / "ca.crt"))
        self.codes, self.ends = [], []
        self.client.on_disconnect = lambda *_: self.ends.append(True)
        self.client.on_connect = lambda _client, _data, _flags, code, *_: self.codes.append(code.value)
        self.client.connect("127.0.0.1", made.port)
        self.client.loop_start()
        made.clients.append(self.client)
        wait_until(lambda: self.codes, "an answer")

    @property
    def is_in(self):
        return self.codes == [0] and not self.ends

    def bids(self, topic, bid, session):
        from paho.mqtt.packettypes import PacketTypes
        from paho.mqtt.properties import Properties

        told = Properties(PacketTypes.PUBLISH)
        told.UserProperty = [("session", session), ("version", str(VERSION)), ("sort", "device"), ("node", "house"), ("valid", "150")]
        self.client.publish(topic, bid.to_bytes(), 1, True, told).wait_for_publish(30)


@pytest.mark.parametrize(("undo", "is_let_in"), [(revoke_login, False), (rotate_login, True)])
def test_a_stolen_login_is_out_within_a_second(made, undo, is_let_in):
    thief, other = Thief(made, "house"), Thief(made, "store")
    assert thief.codes == [0] and thief.is_in
    begun = time.monotonic()
    lines = undo(made.out, "house")
    assert lines[0] == "The broker has read its files again."
    told = time.monotonic()
    wait_until(lambda: not thief.is_in, "its connection has ended", 5)
    assert time.monotonic() - told < 1, f"after {told - begun:.1f} s of the files"
    assert other.is_in, "no other connection ends"
    # With the password of now: that of before is not in the file any more if it was rotated.
    assert (Thief(made, "house").codes == [0]) == is_let_in


def test_a_barred_login_stays_barred_until_it_is_rotated(made):
    revoke_login(made.out, "house.control")
    rights, hashes = made.out / "broker" / "mosquitto.acl", made.out / "broker" / "passwords"
    barred = hashes.read_text()
    assert "house.control" not in rights.read_text()
    assert main(["market", "add", "car", "--out", str(made.out), "--parent", "street"]) == 0
    assert "house.control" not in rights.read_text() and hashes.read_text().startswith(barred)
    rotate_login(made.out, "house.control")
    assert "house.control" in rights.read_text()
    with pytest.raises(BadSettings, match="no login is called nobody"):
        revoke_login(made.out, "nobody")
    assert main(["market", "rotate", "nobody", "--out", str(made.out)]) == 2


def test_a_device_whose_numbers_are_burnt_begins_anew(made):
    """A thief bids under a far number. The login is barred, the bid dropped, and the device is back as another child, in the same session."""
    live = live_program()
    for name in ("auctioneer", "street", "house", "store"):
        made.start(name, live)
    made.controls["house"].offers([100] * STEPS)
    made.controls["store"].offers(falls_at(4, 0, -150))
    wait_until(lambda: made.controls["house"].has(step=4, power=100), "a setpoint")
    session = made.nodes["auctioneer"].session.id
    made.nodes["house"].stop()
    made.threads.pop("house").join(30)
    Thief(made, "house").bids("market/street/bid/1", Bid(1, 60_000, (0,) * STEPS), session)
    wait_until(lambda: made.controls["store"].has(step=0, power=0), "the bid counts, and nobody takes anything")
    with pytest.raises(BadSettings, match="street is a relay: only a device"):
        renumber_device(made.out, "street")
    revoke_login(made.out, "house")
    assert "let go" in drop(broker_of(made, "operator"), "street", 1, 20)
    rotate_login(made.out, "house")
    lines = renumber_device(made.out, "house")
    assert lines[0] == "house is child 3 of street, and was 1."
    made.nodes["street"].stop()
    made.threads.pop("street").join(30)
    made.start("street", live)
    made.start("house", live)
    made.controls["house"].offers([100] * STEPS)
    wait_until(lambda: made.controls["house"].has(step=4, power=100), f"the house is back: {made.said}")
    assert made.nodes["auctioneer"].session.id == session
