"""A market of one file over a real broker: each right that it gives and each that it does not, and a device more."""

from __future__ import annotations

import json
import signal
from datetime import datetime, timedelta, timezone

import pytest
from brokers import live_program, require_broker, wait_until
from logged import log_to
from made import MadeMarket
from markets import STEPS, falls_at
from rights_due import READS, WRITES, require_rights

from cogmaula.agent.links import Basis, NodeLink, Setpoint
from cogmaula.agent.mqtt import BrokerPlace
from cogmaula.deploy import Member, add_device
from cogmaula.live.messages.control_frames import Offer
from cogmaula.live.children.given_limits import LimitsMessage
from cogmaula.live.broker.operating import drop, give_limits
from cogmaula.live.node.node_settings import BrokerSettings, read_toml


@pytest.fixture
def made(tmp_path):
    require_broker()
    with MadeMarket(tmp_path) as one:
        yield one


def test_each_right_is_given_and_no_other(made):
    require_rights(made, WRITES, READS)


def test_a_login_ends_no_connection_of_another(made):
    auctioneer = made.client("auctioneer")
    for name in ("auctioneer", "cogmaula.market.auctioneer"):
        house = made.client("house", client_id=name)
        house.publish("market/street/bid/1", b"1", 1).wait_for_publish(30)
        house.disconnect()
    assert (auctioneer.is_connected(), auctioneer.ends) == (True, [])
    assert "as house (p" in made.log, "its name is the login's"


def test_an_agent_has_the_login_of_a_control(made):
    """The link of `cogmaula agent` to a node: it hears the basis and a setpoint, and its offer comes to the node."""
    live, heard, said = live_program(), [], []
    for name in ("auctioneer", "street", "house"):
        made.start(name, live)
    table = read_toml(made.out / "house.control" / "house.control.toml")["broker"]
    link = NodeLink(BrokerPlace(**{word: table[word] for word in ("host", "port", "user", "password_file", "ca")}), "market", "house")
    link.start(heard.append, log_to(said.append))
    link.offer(Offer((100,) * STEPS))
    wait_until(lambda: any(isinstance(setpoint, Setpoint) and setpoint.power == 100 for setpoint in heard), f"its setpoint: {heard} {said}")
    assert Basis(0, 9, STEPS) in heard and said == [] and "Denied" not in made.log
    link.close()


def broker_of(made, login):
    return BrokerSettings(**read_toml(made.out / login / f"{login}.toml")["broker"])


def test_a_market_lives_by_these_rights_alone(made):
    """Devices are told setpoints, a device is let go and comes back, and limits change: the broker refuses nothing. A device more comes
    in while the market lives."""
    live = live_program()
    made.start("auctioneer", live)
    for name in ("street", "house", "store"):
        made.start(name, live)
    control = made.client("store.control")
    made.controls["house"].offers([100] * STEPS)
    control.publish("market/store/offer", json.dumps({"power": falls_at(4, 0, -150)}), 1, True).wait_for_publish(30)
    wait_until(lambda: made.controls["store"].has(step=4, power=-150), "the setpoint")
    wait_until(lambda: any(b'"power": -150' in payload for _, payload in control.read), "the control hears it")
    until = (datetime.now(timezone.utc) + timedelta(hours=1)).isoformat()
    assert "street" in give_limits(broker_of(made, "gridoperator"), "street", LimitsMessage(None, 2000, until), 20)
    assert "let go" in drop(broker_of(made, "operator"), "street", 1, 20)
    wait_until(lambda: made.controls["house"].has(step=4, power=100), "the house is back")
    lines = add_device(made.out, Member("device", "car", "street", least=-100, greatest=100))
    assert lines[1:] == [f"cogmaula node {sort} --config {made.out / name / name}.toml" for sort, name in (("relay", "street"), ("device", "car"))]
    made.process.send_signal(signal.SIGHUP)
    wait_until(lambda: "Reloading config" in made.log, "the broker reads its files again")
    made.start("car", live)
    made.controls["car"].offers([50] * STEPS)
    wait_until(lambda: made.controls["car"].has(step=4, power=50), "the car is told a setpoint")
    assert "Denied" not in made.log
    assert [line for said in made.said.values() for line in said if "give" in line] == []
