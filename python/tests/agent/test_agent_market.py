"""Agents against real servers of this machine: a battery by Modbus in a hub's market, topics of a mosquitto, and what may fail."""

from __future__ import annotations

import json
import os
import re
import signal
import socket
import subprocess
import sys
import threading
import time
from datetime import datetime, timedelta
from pathlib import Path

import pytest
from brokers import SECONDS, TOP, Certificates, Mosquitto, free_port, require_broker, wait_until
from hubs import HubInThread
from logged import log_to

from cogmaula.agent import Agent, agent_settings_of, running
from cogmaula.agent.links import NodeLink, Standing
from cogmaula.agent.modbus import Modbus, ModbusPlace
from cogmaula.agent.mqtt import BrokerPlace, Client, Mqtt, MqttPlace
from cogmaula.agent.device_values import NoReading, NotWritten
from cogmaula.live.messages.messages import SiteMessage, StateMessage

CAPACITY = 1000


class ModbusBattery:
    """The battery of examples/devices, in a process of its own: 1000 Wh and 2000 W, so that it is full in a quarter of an hour."""

    def __init__(self, speed, port=None):
        pytest.importorskip("pymodbus.client", reason="pymodbus is not installed: apt-get install python3-pymodbus python3-serial-asyncio")
        self.port, self.speed = port or free_port(), speed

    def __enter__(self):
        words = [sys.executable, str(TOP / "examples" / "devices" / "modbus_battery.py"), str(self.port)]
        words += ["--capacity", str(CAPACITY), "--speed", str(self.speed)]
        environment = {**os.environ, "PYTHONPATH": str(TOP / "python"), "PYTHONDONTWRITEBYTECODE": "1"}
        self.process = subprocess.Popen(words, stdout=subprocess.PIPE, text=True, env=environment)
        wait_until(self._answers, "the battery answers")
        return self

    def place(self, **more):
        return {"by": "modbus", "host": "127.0.0.1", "port": self.port, "timeout": 1.0, **more}

    def _answers(self):
        return value(lambda: self.read(register=1, type="u16")) is not None

    def read(self, **more):
        one = Modbus(ModbusPlace(host="127.0.0.1", port=self.port, timeout=1.0, **more))
        try:
            return one.read()
        finally:
            one.close()

    def end(self):
        """Ends it, and gives its least and greatest charge, the setpoints, and the energy that it had to refuse."""
        self.process.send_signal(signal.SIGTERM)
        told = self.process.communicate(timeout=SECONDS)[0]
        found = re.fullmatch(r"charge (\d+) to (\d+) of 1000 Wh, (\d+) setpoints, ([\d.]+) Wh refused\n", told)
        assert found, told
        return int(found[1]), int(found[2]), int(found[3]), float(found[4])

    def __exit__(self, *_):
        self.process.kill()
        self.process.wait()
        self.process.stdout.close()


def without_reference(payload):
    """The members of a message, without the agent's own number of an offer."""
    return {name: told for name, told in json.loads(payload).items() if name != "reference"}


def value(read):
    try:
        return read()
    except NoReading:
        return None


class Working:
    """An agent at work in a thread of the test."""

    def __init__(self, tables, folder=Path()):
        self.said = []
        self.agent = Agent(agent_settings_of(tables, folder), log_to(self.said.append))
        self.thread = threading.Thread(target=self.agent.run)

    def __enter__(self):
        self.thread.start()
        return self

    def says(self, words):
        wait_until(lambda: any(re.search(words, line) for line in self.said), f"{words!r} in {self.said}")
        return self

    def __exit__(self, *_):
        self.agent.stop()
        self.thread.join(SECONDS)
        assert not self.thread.is_alive()


def tables_of(hub, state, setpoint, **limits):
    token = hub.folder / "store.token"
    token.write_text(hub.tokens["store"])
    return {
        "agent": {"every": 0.05, "stale": 0.5},
        "market": {"hub": f"127.0.0.1:{hub.port}", "agent": "store", "token_file": str(token)},
        "device": {"model": "battery", "capacity": CAPACITY, "charge": 2000, "discharge": 2000, "prices": [0, 9]},
        "limits": {"least": -2000, "greatest": 2000, "pace": 0, "silence": 30, **limits},
        "state": state,
        "setpoint": setpoint,
    }


def test_a_battery_by_modbus_follows_the_market_and_stays_within_its_bounds(live, tmp_path):
    """At a speed of 600 it is empty or full in 1.5 s. The house gives 1500 W for a while, and then takes them.

    It bids for a quarter of an hour, 1.5 s of the test. So it gets near to its bounds, and is never told to go beyond them.
    """
    with ModbusBattery(600) as battery, HubInThread(tmp_path, live) as hub:
        house = hub.agent("house")
        tables = tables_of(hub, battery.place(register=2, type="f32", unit="Wh", timeout=5.0), battery.place(register=0, timeout=5.0))
        with Working({**tables, "agent": {"every": 0.05, "stale": 10}}) as agent:
            for watts, is_there in ((-1500, lambda power: power > 800), (1500, lambda power: power < 200)):
                house.bids([watts] * 10)
                wait_until(lambda: is_there(battery.read(register=2, type="f32")), f"the battery follows {watts} W: {agent.said}")
        assert battery.read(register=0) == 0
        well, end = agent.said
        assert well.startswith("all is well: ") and end == "the agent ends: the device takes its fallback, 0 W"
        assert agent.agent._source._line is agent.agent._sink._line, "many devices take one connection at a time"
        least, greatest, setpoints, refused = battery.end()
    assert 0 <= least <= 200 and 800 <= greatest <= CAPACITY
    assert setpoints >= 4 and refused < 10


def test_faults_of_a_device_by_modbus(live, tmp_path):
    """A register that is none, one that is no number, and a server that goes away and comes back."""
    with HubInThread(tmp_path, live, heartbeat=0.3, validity=4, gone=5) as hub, ModbusBattery(60) as battery:
        # Half full, the battery gives 0, 400, 800, .. W from price 4 on. So 500 W come at price 6, and 300 W at 5.
        house = hub.agent("house").bids([500] * 10)
        for wrong, words in (({"register": 5, "type": "f32"}, "exception 2"), ({"register": 4, "type": "f32"}, "it is nan")):
            with Working(tables_of(hub, battery.place(unit="Wh", **wrong), battery.place(register=0))) as agent:
                agent.says(f"the state is not read: .*{words}")
        right = tables_of(hub, battery.place(register=1, type="u16", scale=0.1, unit="%"), battery.place(register=0), silence=1.5)
        with Working(right) as agent:
            house.waits_for(power=500)
            wait_until(lambda: battery.read(register=0) == -800, f"the battery is told -800 W: {agent.said}")
            battery.process.kill()
            battery.process.wait()
            agent.says("the state is not read: .*register 1 of 127.0.0.1").says("the state is too old: the device takes its fallback, 0 W")
            agent.says("0 W are not written")
            # It cannot be told its fallback, so the market counts what it was told last.
            house.waits_for(power=500)
            with ModbusBattery(60, battery.port) as again:
                agent.says("the state is read again")
                wait_until(lambda: again.read(register=0) == -800, f"the battery is told -800 W again: {agent.said}")


def test_a_jump_of_the_clock_changes_nothing(live, tmp_path, monkeypatch):
    """The clock of the day jumps by years at each look, and the setpoints go on."""

    class Jumping(datetime):
        looks = 0

        @classmethod
        def now(cls, tz=None):
            cls.looks += 1
            return datetime(2026, 1, 1, tzinfo=tz) + timedelta(days=(-1) ** cls.looks * 4000)

    monkeypatch.setattr(running, "datetime", Jumping)
    source, sink = tmp_path / "soc.csv", tmp_path / "told.csv"
    source.write_text("soc\n500\n")
    with HubInThread(tmp_path, live) as hub:
        house = hub.agent("house").bids([500] * 10)
        state = {"by": "csv", "file": str(source), "column": "soc", "unit": "Wh"}
        with Working(tables_of(hub, state, {"by": "csv", "file": str(sink)}, silence=20)) as agent:
            wait_until(lambda: sink.exists() and ",-800" in sink.read_text(), f"the battery is told -800 W: {agent.said}")
            looks = Jumping.looks
            wait_until(lambda: Jumping.looks > looks + 3, "it looks at the clock")
            house.bids([300] * 10)
            wait_until(lambda: ",-400" in sink.read_text(), "the battery is told -400 W")
        assert [line for line in agent.said if "fallback" in line] == ["the agent ends: the device takes its fallback, 0 W"]
    assert sink.read_text().splitlines()[-1].endswith(",0")


OWN = """
class Own:
    def __init__(self, name, hours):
        self.name, self.state = name, hours

    def bid(self, now):
        return 700 if self.state > 0 else 0

    def step(self, power, minutes):
        self.state -= minutes / 60 if power else 0
"""


def test_a_strategy_of_one_s_own_keeps_its_own_state_at_a_hub_by_tls(live, tmp_path):
    """It takes 700 W for a second, and then rests."""
    (tmp_path / "own.py").write_text(OWN)
    sink, keys = tmp_path / "told.csv", tmp_path / "keys"
    certificate, key = Certificates(keys).make("server", "127.0.0.1")
    with HubInThread(tmp_path, live, certificate=certificate, key=key) as hub:
        tables = tables_of(hub, {}, {"by": "csv", "file": str(sink)})
        tables["market"]["ca"] = str(keys / "ca.crt")
        del tables["state"]
        tables["device"] = {"strategy": "own.py:Own", "name": "own", "hours": 1 / 3600}
        with Working(tables, tmp_path) as agent:
            wait_until(lambda: sink.exists() and [row.partition(",")[2] for row in sink.read_text().split()] == ["700", "0"], f"it ran: {agent.said}")
    seconds = [float(row.partition(",")[0]) for row in sink.read_text().split()]
    assert seconds[1] - seconds[0] >= 0.9


def test_an_agent_is_the_control_of_a_node_over_topics(tmp_path):
    """A broker alone: the test plays the node. States and powers go by topics, in kilowatts and JSON."""
    require_broker()
    with Mosquitto(tmp_path / "broker") as broker:
        heard = {}
        place = BrokerPlace(port=broker.port)
        node = Client(place, ["market/store/offer", "store/set"], lambda topic, payload, _: heard.update({topic: without_reference(payload)}))
        wait_until(lambda: node.is_connected, "the test is connected")
        until = (datetime.now().astimezone() + timedelta(seconds=-60)).isoformat()
        assert node.publish("market/store/setpoint", json.dumps({"power": -900, "price": 1, "until": until}), True)
        assert node.publish("market/basis", json.dumps({"min": 0, "max": 9, "steps": 10}), True)
        tables = {
            "agent": {"every": 0.05, "stale": 1.0},
            "market": {"host": "127.0.0.1", "port": broker.port, "node": "store"},
            "device": {"model": "battery", "capacity": CAPACITY, "charge": 2000, "discharge": 2000, "prices": [0, 9]},
            "limits": {"least": -800, "greatest": 800, "pace": 0, "silence": 30},
            "state": {"by": "mqtt", "port": broker.port, "topic": "store/state", "pointer": "/battery/kwh", "unit": "kWh"},
            "setpoint": {"by": "mqtt", "port": broker.port, "topic": "store/set", "payload": '{"kw": VALUE}', "unit": "kW"},
        }
        assert node.publish("store/state", '{"battery": {"kwh": 0.9}}', True)
        with Working(tables) as agent:
            agent.says("the state is not read: topic store/state: the broker has a message of before, whose age nobody knows")
            assert node.publish("store/state", '{"battery": {"kwh": 0.5}}', False)
            # Half full, its middle is 4: 2000 W at 0 and none at 4. At 9 it gives 2000 W. Its bounds are 800 W.
            due = {"points": [[0, 800], [4, 0], [9, -800]]}
            wait_until(lambda: heard.get("market/store/offer") == due, f"the offer: {heard}, {agent.said}")
            assert "store/set" not in heard
            assert node.publish("market/store/setpoint", json.dumps({"power": -400, "price": 5, "until": until}), False)
            wait_until(lambda: heard.get("store/set") == {"kw": -0.4}, f"the power: {heard}")
            assert node.publish("market/store/setpoint", json.dumps({"market": "silent", "power": 0, "why": "no heartbeat came"}), False)
            agent.says(r"the market is silent \(no heartbeat came\): the device takes its fallback, 0 W")
            wait_until(lambda: heard["store/set"] == {"kw": 0}, f"the fallback: {heard}")
            agent.says("no message came for 1 s")
            wait_until(lambda: heard["market/store/offer"] == {"leave": True}, "it leaves")
            assert node.publish("store/state", '{"battery": {"kwh": 0.5}}', False)
            wait_until(lambda: heard["market/store/offer"] == due, "it is back")
        # At its end it leaves.
        wait_until(lambda: heard["market/store/offer"] == {"leave": True}, "it leaves")
        tables["device"] = {"kind": "battery", "capacity": CAPACITY, "charge": 800, "discharge": 500, "spread": 1}
        with Working(tables) as agent:
            agent.says("a message of before")
            assert node.publish("store/state", '{"battery": {"kwh": 0.25}}', False)
            wait_until(lambda: heard["market/store/offer"] == {**tables["device"], "state": 250}, f"the state: {heard}, {agent.said}")
        node.close()
    nobody = Mqtt(MqttPlace(port=free_port(), topic="store/set"), 1.0)
    with pytest.raises(NotWritten, match="topic store/set"):
        nobody.write(1)
    nobody.close()


def test_an_agent_sees_that_the_site_of_its_node_is_down(tmp_path):
    """A broker alone: the test plays the site."""
    require_broker()
    with Mosquitto(tmp_path / "broker") as broker:
        place, heard = BrokerPlace(port=broker.port), []
        node = Client(place, [], lambda *_: None)
        wait_until(lambda: node.is_connected, "the test is connected")
        now = "2026-01-31T06:30:00.000Z"
        state = StateMessage("up", "a" * 16, now, "", now, sort="device", parent="street", child=1, site="block")
        assert node.publish("market/store/state", state.to_bytes().decode(), True)
        link = NodeLink(place, "market", "store")
        link.start(heard.append, log_to([].append))
        wait_until(lambda: heard == [Standing("up", "")], f"its state: {heard}")
        for told in (SiteMessage("down", "a" * 16, now, now, "the connection was lost", lost=True), SiteMessage("up", "a" * 16, now, now)):
            assert node.publish("market/block/site", told.to_bytes().decode(), True)
        down = Standing("down", "the site block is down: the connection was lost")
        wait_until(lambda: heard == [Standing("up", ""), down, Standing("up", "")], f"that of its site: {heard}")
        link.close()
        node.close()


def test_what_an_agent_tells_a_broker_goes_out_at_once(tmp_path):
    """By itself paho lets a small message wait until the one before is acknowledged. A connection that comes back is as the first one."""
    require_broker()
    with Mosquitto(tmp_path / "broker") as broker:
        client = Client(BrokerPlace(port=broker.port), [], lambda *_: None)
        wait_until(lambda: client.is_connected, "the first connection")
        first = client._client.socket()
        assert first.getsockopt(socket.IPPROTO_TCP, socket.TCP_NODELAY) != 0
        first.shutdown(socket.SHUT_RDWR)
        wait_until(lambda: client.is_connected and client._client.socket() not in (None, first), "the second connection")
        assert client._client.socket().getsockopt(socket.IPPROTO_TCP, socket.TCP_NODELAY) != 0
        client.close()


def test_a_device_of_a_kind_says_its_state_to_a_hub(live, tmp_path):
    """Half full, its middle is 4: it charges below and gives 800 W above, so 500 W come at price 5. Full, it gives them from price 1 on."""
    source, sink = tmp_path / "soc.csv", tmp_path / "told.csv"
    source.write_text("soc\n50\n")
    with HubInThread(tmp_path, live) as hub:
        house = hub.agent("house").bids([500] * 10)
        tables = tables_of(hub, {"by": "csv", "file": str(source), "column": "soc", "unit": "%"}, {"by": "csv", "file": str(sink)})
        tables["device"] = {"kind": "battery", "capacity": CAPACITY, "charge": 2000, "discharge": 800, "spread": 0}
        with Working(tables):
            house.waits_for(power=500, price=5)
            wait_until(lambda: sink.exists() and ",-800" in sink.read_text(), "the battery is told -800 W")
        source.write_text("soc\n100\n")
        with Working(tables):
            house.waits_for(power=500, price=1)


def test_a_hub_that_refuses_or_is_away(live, tmp_path, capsys):
    from cogmaula.cli import main

    with HubInThread(tmp_path, live) as hub:
        tables = tables_of(hub, {"by": "csv", "file": "none", "column": "a", "unit": "Wh"}, {"by": "csv", "file": str(tmp_path / "out")})
        (tmp_path / "store.token").write_text("wrong")
        with Working(tables) as agent:
            agent.says("the login of 'store' is refused")
    with Working(tables) as agent:
        agent.says("refused")
    (tmp_path / "wrong.toml").write_text("[market]\n")
    assert main(["agent", str(tmp_path / "wrong.toml")]) == 2
    assert "[device] is missing" in capsys.readouterr().err
