"""An agent in Home Assistant: the payloads by the documented form of MQTT discovery, what they lead to at a real broker, and the switch."""

from __future__ import annotations

import json
import re
import socket
import threading
from datetime import datetime, timedelta

import pytest
from brokers import SECONDS, Mosquitto, require_broker, wait_until
from logged import log_to

from cogmaula.agent import Agent, agent_settings_of
from cogmaula.agent.homeassistant import Entities, HomeAssistantPlace, Shown, range_of
from cogmaula.agent.mqtt import BrokerPlace, Client
from cogmaula.live.node.node_errors import BadSettings
from cogmaula.live.messages.frames import Offer, Points, Stated
from cogmaula.live.device.device_kinds import DeviceKind

# The members that Home Assistant's pages of MQTT name, for all that is used here: of each entity, of a sensor, of a switch, of a device.
COMMON = {
    "name", "unique_id", "state_topic", "value_template", "availability_topic", "payload_available", "payload_not_available", "device", "origin",
    "icon", "entity_category", "json_attributes_topic", "json_attributes_template", "qos",
}
DOCUMENTED = {
    "sensor": COMMON | {"unit_of_measurement", "device_class", "state_class", "expire_after", "suggested_display_precision", "options"},
    "switch": COMMON | {"command_topic", "payload_on", "payload_off", "state_on", "state_off", "optimistic", "retain", "device_class"},
}
DEVICE = {"identifiers", "connections", "name", "manufacturer", "model", "model_id", "hw_version", "sw_version", "serial_number", "via_device"}
ORIGIN = {"name", "sw_version", "support_url"}


def require_documented(topic, payload):
    """<discovery_prefix>/<component>/<node_id>/<object_id>/config, and no member that the pages do not name."""
    found = re.fullmatch(r"homeassistant/(sensor|switch)/[a-zA-Z0-9_-]+/([a-zA-Z0-9_-]+)/config", topic)
    assert found, topic
    assert set(payload) <= DOCUMENTED[found[1]], topic
    assert {"unique_id", "state_topic", "device", "origin"} <= set(payload)
    assert set(payload["device"]) <= DEVICE and payload["device"]["identifiers"] and set(payload["origin"]) <= ORIGIN
    assert ("command_topic" in payload) == (found[1] == "switch")
    if payload.get("device_class") == "power":
        assert payload["unit_of_measurement"] in ("mW", "W", "kW", "MW", "GW", "TW")
    for name in ("value_template", "json_attributes_template"):
        members = re.findall(r"value_json\.(\w+)", payload.get(name, ""))
        assert set(members) <= set(Shown(None, None, None, None, None, "", True).members())
    return found[2]


def test_the_payloads_have_the_documented_form():
    told = Entities(HomeAssistantPlace(price_unit="ct/kWh"), "Küche 1", "battery").configurations()
    assert [require_documented(topic, payload) for topic, payload in told.items()] == [
        "price", "setpoint", "offered_least", "offered_greatest", "node", "takes_part",
    ]
    assert len({payload["unique_id"] for payload in told.values()}) == len(told)
    assert told["homeassistant/sensor/cogmaula_K_che_1/price/config"]["unit_of_measurement"] == "ct/kWh"
    assert all(payload["availability_topic"] == "cogmaula/K_che_1/availability" for payload in told.values())


@pytest.mark.parametrize(
    ("offer", "due"),
    [
        (Offer((5, 0, -3)), (-3, 5)),
        (Points.of([(0, 800), (4, 0), (9, -700)]), (-700, 800)),
        (Stated(DeviceKind("battery", (4000, 2000, 1500, 1)), 100), (-1500, 2000)),
        (Stated(DeviceKind("solar"), 300), (-300, -300)),
        (Stated(DeviceKind("load"), 300), (300, 300)),
    ],
)
def test_the_range_of_an_offer(offer, due):
    assert range_of(offer) == due


@pytest.mark.parametrize("more", [{"prefix": "a/#"}, {"base": ""}, {"prefix": "/a"}, {"base": "a/"}])
def test_topics_that_are_wrong(more):
    with pytest.raises(BadSettings, match="homeassistant.prefix is"):
        HomeAssistantPlace(**more)


class Home:
    """A broker with a Home Assistant that is pretended, the node of the device, and the device. The newest of each topic, and all of some."""

    def __init__(self, port):
        self.newest, self.availability = {}, []
        self.client = Client(BrokerPlace(port=port), ["homeassistant/#", "cogmaula/#", "market/store/offer", "store/set"], self._take)
        wait_until(lambda: self.client.is_connected, "the test is connected")
        self.tells("market/basis", {"min": 0, "max": 9, "steps": 10}, True)

    def _take(self, topic, payload, _retained):
        self.newest[topic] = payload.decode()
        if topic == "cogmaula/store/availability":
            self.availability.append(payload.decode())

    def tells(self, topic, told, retained=False):
        assert self.client.publish(topic, told if isinstance(told, str) else json.dumps(told), retained)

    @property
    def shown(self):
        return json.loads(self.newest.get("cogmaula/store/state", "{}"))

    @property
    def offer(self):
        told = json.loads(self.newest.get("market/store/offer", "{}"))
        told.pop("reference", None)
        return told

    def shows(self, **members):
        wait_until(lambda: self.shown.items() >= members.items(), f"{members} in {self.shown}")

    def setpoint(self, power, price):
        until = (datetime.now().astimezone() + timedelta(seconds=60)).isoformat()
        self.tells("market/store/setpoint", {"power": power, "price": price, "until": until})


def tables(port):
    return {
        "agent": {"every": 0.05, "stale": 60},
        "market": {"host": "127.0.0.1", "port": port, "node": "store"},
        "device": {"model": "battery", "capacity": 1000, "charge": 800, "discharge": 700, "prices": [0, 9]},
        "limits": {"least": -700, "greatest": 800, "fallback": 50, "pace": 0, "silence": 60},
        "state": {"by": "mqtt", "port": port, "topic": "store/state", "unit": "Wh"},
        "setpoint": {"by": "mqtt", "port": port, "topic": "store/set"},
        "homeassistant": {"port": port},
    }


def test_an_agent_appears_and_is_switched_off_and_on(tmp_path):
    require_broker()
    with Mosquitto(tmp_path / "broker") as broker:
        home, said = Home(broker.port), []
        agent = Agent(agent_settings_of(tables(broker.port)), log_to(said.append))
        thread = threading.Thread(target=agent.run)
        thread.start()
        try:
            due = {"points": [[0, 800], [4, 0], [9, -700]]}
            wait_until(lambda: home.tells("store/state", "500") or home.offer == due, f"the offer: {home.offer}, {said}")
            wait_until(lambda: len([topic for topic in list(home.newest) if topic.endswith("/config")]) == 6, "it appears")
            configurations = {topic: json.loads(text) for topic, text in home.newest.items() if topic.endswith("/config")}
            for topic, payload in configurations.items():
                require_documented(topic, payload)
            home.shows(price=None, setpoint=None, offered_least=-700, offered_greatest=800, takes_part="ON")
            assert home.newest["cogmaula/store/availability"] == "online"
            home.setpoint(-400, 6)
            home.shows(price=6, setpoint=-400, written=-400)
            # Off: it leaves, takes its fallback, and no setpoint counts.
            command = configurations["homeassistant/switch/cogmaula_store/takes_part/config"]["command_topic"]
            home.tells(command, "OFF")
            wait_until(lambda: home.offer == {"leave": True}, f"it leaves: {home.offer}")
            home.shows(takes_part="OFF", setpoint=None, written=50, offered_least=None)
            home.setpoint(-300, 7)
            home.shows(price=7, setpoint=None, written=50)
            assert home.newest["store/set"] == "50"
            home.tells(command, "perhaps")
            home.tells(command, "ON")
            wait_until(lambda: home.offer == due, f"it is back: {home.offer}")
            home.setpoint(-200, 5)
            home.shows(price=5, setpoint=-200, written=-200, takes_part="ON")
            # Home Assistant starts anew, and asks for all.
            topic = next(iter(configurations))
            home.tells(topic, "", True)
            home.tells("homeassistant/status", "online")
            wait_until(lambda: home.newest[topic], "it appears again")
            # The connection breaks: the broker says so, until it is back.
            agent._home._client._client.socket().shutdown(socket.SHUT_RDWR)
            wait_until(lambda: "offline" in home.availability and home.availability[-1] == "online", "away and back")
        finally:
            agent.stop()
            thread.join(SECONDS)
        wait_until(lambda: home.availability[-1] == "offline", "at its end it is away")
        home.client.close()


def test_the_state_of_the_node_is_shown(tmp_path):
    """By a real message of a node: it is down, with the reason as an attribute."""
    from told import village

    require_broker()
    payload = village().messages["market/mill/state"].payload
    with Mosquitto(tmp_path / "broker") as broker:
        home = Home(broker.port)
        agent = Agent(agent_settings_of(tables(broker.port)), log_to([].append))
        thread = threading.Thread(target=agent.run)
        thread.start()
        try:
            home.tells("market/store/state", payload.decode(), True)
            home.shows(node=json.loads(payload)["state"], why=json.loads(payload)["why"])
        finally:
            agent.stop()
            thread.join(SECONDS)
        home.client.close()
