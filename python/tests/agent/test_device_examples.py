"""The settings of the examples: each file is right, and a pretended device that speaks as its maker's page says is driven by it."""

from __future__ import annotations

import json
import os
import subprocess
import sys
import threading
from dataclasses import replace
from datetime import datetime, timedelta

import pytest
from brokers import SECONDS, TOP, Mosquitto, free_port, require_broker, wait_until
from logged import log_to

from cogmaula.agent import Agent, read_agent_toml
from cogmaula.agent.links import HubPlace
from cogmaula.agent.modbus import Modbus, ModbusPlace
from cogmaula.agent.mqtt import BrokerPlace, Client


FOLDER = TOP / "examples" / "devices"
TASMOTA = '{"Time":"2026-12-01T07:00:00","DS18B20":{"Id":"01131B123456","Temperature":52.5},"TempUnit":"C"}'
ZIGBEE = '{"battery":97,"humidity":45.2,"linkquality":120,"temperature":20.0,"voltage":3000}'
# By the file: what the device tells, what is offered for it, and what the device is sent for a setpoint and for none.
# Half way from low to high a heater pays the middle of its prices. A battery of 55 % keeps 10 %, so it is half full of what it trades.
BY_TOPICS = {
    "tasmota_boiler.toml": (("tele/boiler/SENSOR", TASMOTA), [[5, 2000], [5, 0]], 2000, "cmnd/boiler/POWER", "ON", "OFF"),
    "zigbee2mqtt_heater.toml": (
        ("zigbee2mqtt/living_room", ZIGBEE), [[4, 1500], [4, 0]], 1500, "zigbee2mqtt/heater/set", '{"state": "ON"}', '{"state": "OFF"}',
    ),
    "home_assistant_battery.toml": (
        ("statestream/sensor/battery_charge/state", "55"), [[2, 5000], [4, 0], [7, -5000]], -1234, "cogmaula/battery/set", '{"power": -1234}',
        '{"power": 0}',
    ),
}
BY_REGISTERS = ("battery.toml", "sg_ready_heat_pump.toml", "inverter.toml")


class Pretended:
    """A broker at which the test is the node of a device, and the device."""

    def __init__(self, port, topics):
        self.port, self.heard = port, {}
        self.client = Client(BrokerPlace(port=port), [*topics, "market/here/offer"], lambda topic, payload, _: self.heard.update({topic: payload.decode()}))
        wait_until(lambda: self.client.is_connected, "the test is connected")
        self.tells("market/basis", json.dumps({"min": 0, "max": 9, "steps": 10}), True)

    def tells(self, topic, text, retained=False):
        assert self.client.publish(topic, text, retained)

    def setpoint(self, power):
        until = (datetime.now().astimezone() + timedelta(seconds=60)).isoformat()
        self.tells("market/here/setpoint", json.dumps({"power": power, "price": 4, "until": until}))

    @property
    def offer(self):
        told = json.loads(self.heard.get("market/here/offer", "{}"))
        told.pop("reference", None)
        return told


class Driving:
    """An agent by the file of an example, with other servers, and without the patience of a real device."""

    def __init__(self, name, port, **places):
        told = read_agent_toml(FOLDER / name)
        assert isinstance(told.market, HubPlace)
        limits = replace(told.limits, pace=0.0, run=0.0, pause=0.0)
        market = (BrokerPlace(port=port), "market", "here")
        servers = {place: replace(getattr(told, place), **members) for place, members in places.items()}
        self.said = []
        if told.entities is not None:
            servers["entities"] = replace(told.entities, place=replace(told.entities.place, port=port))
        settings = replace(told, limits=limits, market=market, times=replace(told.times, every=0.1), **servers)
        self.agent = Agent(settings, log_to(self.said.append))
        self.thread = threading.Thread(target=self.agent.run)

    def __enter__(self):
        self.thread.start()
        return self

    def __exit__(self, *_):
        self.agent.stop()
        self.thread.join(SECONDS)
        assert not self.thread.is_alive()


@pytest.fixture
def broker(tmp_path):
    require_broker()
    with Mosquitto(tmp_path / "broker") as one:
        yield one


def test_each_file_of_settings_is_tried():
    assert {path.name for path in FOLDER.glob("*.toml")} == {*BY_TOPICS, *BY_REGISTERS}


@pytest.mark.parametrize("name", BY_TOPICS)
def test_a_device_by_topics(name, broker):
    (topic, text), points, power, sent, for_power, for_none = BY_TOPICS[name]
    one = Pretended(broker.port, [sent])
    with Driving(name, broker.port, state={"port": broker.port}, setpoint={"port": broker.port}) as agent:
        wait_until(lambda: agent.agent._source._client.is_connected, "the agent hears the device")

        def offers():
            one.tells(topic, text)
            return one.offer == {"points": points}

        wait_until(offers, f"the offer: {one.offer}, {agent.said}")
        one.setpoint(power)
        wait_until(lambda: one.heard.get(sent) == for_power, f"the power: {one.heard}, {agent.said}")
        one.setpoint(0)
        wait_until(lambda: one.heard.get(sent) == for_none, f"no power: {one.heard}, {agent.said}")
    one.client.close()


class Served:
    """One of the examples' own servers, in a process."""

    def __init__(self, script, *words):
        pytest.importorskip("pymodbus.client", reason="pymodbus is not installed: apt-get install python3-pymodbus python3-serial-asyncio")
        self.port = free_port()
        environment = {**os.environ, "PYTHONPATH": str(TOP / "python"), "PYTHONDONTWRITEBYTECODE": "1"}
        self.process = subprocess.Popen([sys.executable, str(FOLDER / script), str(self.port), *words], env=environment)

    def read(self, device, register, kind, table="input"):
        one = Modbus(ModbusPlace(host="127.0.0.1", port=self.port, device=device, register=register, type=kind, table=table))
        try:
            return one.read()
        finally:
            one.close()

    def answers(self, device):
        try:
            return self.read(device, 0, "u16", "holding") is not None
        except Exception:
            return False

    def __enter__(self):
        wait_until(lambda: self.answers(1), "the devices answer")
        return self

    def __exit__(self, *_):
        self.process.terminate()
        self.process.wait(SECONDS)


def test_a_heat_pump_by_sg_ready(broker):
    """At 43 degrees between 40 and 50 the coldness is 0.7: it pays 2 + 3.5, rounded to the even 6. The register has 3 for a power, and 2 for none."""
    one = Pretended(broker.port, [])
    with Served("modbus_devices.py", "--speed", "0") as served:
        place = {"port": served.port}
        with Driving("sg_ready_heat_pump.toml", broker.port, state=place, setpoint=place) as agent:
            wait_until(lambda: one.offer == {"points": [[6, 2500], [6, 0]]}, f"the offer: {one.offer}, {agent.said}")
            one.setpoint(2500)
            wait_until(lambda: served.read(1, 0, "u16", "holding") == 3, "SG Ready 3")
            wait_until(lambda: served.read(1, 1, "u16") == 2500, "it runs")
        assert served.read(1, 0, "u16", "holding") == 2, "at its end the agent leaves the heat pump to its usual rule"
    one.client.close()


def test_an_inverter_that_is_limited(broker):
    """The sun allows 3,000 W. Told 2,000 W, it is limited to 400 tenths of a percent of 5,000 W, and bids what the sun allows as before."""
    one = Pretended(broker.port, [])
    with Served("modbus_devices.py", "--sun", "3000") as served:
        place = {"port": served.port}
        with Driving("inverter.toml", broker.port, state=place, setpoint=place) as agent:
            due = {"points": [[1, 0], [1, -3000]]}
            wait_until(lambda: one.offer == due, f"the offer: {one.offer}, {agent.said}")
            one.setpoint(-2000)
            wait_until(lambda: served.read(2, 2, "i32") == 2000, "it gives 2,000 W")
            assert served.read(2, 0, "u16", "holding") == 400
            assert one.offer == due
        wait_until(lambda: served.read(2, 2, "i32") == 3000, "at the end of the agent it gives all that it has")
    one.client.close()


def test_the_battery_of_the_examples(broker):
    """Half full, its middle is between its prices, 4 by rounding to the even number."""
    one = Pretended(broker.port, [])
    with Served("modbus_battery.py", "--speed", "0") as served:
        place = {"port": served.port}
        with Driving("battery.toml", broker.port, state=place, setpoint=place) as agent:
            wait_until(lambda: one.offer == {"points": [[2, 2000], [4, 0], [7, -2000]]}, f"the offer: {one.offer}, {agent.said}")
            one.setpoint(-700)
            wait_until(lambda: served.read(1, 0, "i16", "holding") == -700, "it gives 700 W")
    one.client.close()
