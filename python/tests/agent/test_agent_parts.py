"""The parts of an agent: what a device is told and when, values and registers by hand, settings, and small real servers."""

from __future__ import annotations

import http.server
import math
import os
import struct
import threading
import tty
from datetime import datetime

import pytest
from logged import QUIET, log_to

from cogmaula.agent import Guard, Limits, agent_settings_of
from cogmaula.agent.links import HubLink, HubPlace
from cogmaula.agent.modbus import Modbus, ModbusPlace
from cogmaula.agent.plain_sources import Command, CommandPlace, Csv, CsvPlace, Http, HttpPlace
from cogmaula.agent.device_values import NoReading, NotWritten, Place, number_in
from cogmaula.live.node.node_errors import BadSettings
from cogmaula.live.messages.frames import Offer, Points, Stated
from cogmaula.live.device.device_kinds import DeviceKind
from cogmaula.simulation import Battery, HeatPump

# The link to a hub.


def test_a_link_to_a_hub_ends_though_its_thread_has_ended_before_it_is_woken(tmp_path):
    link = HubLink(HubPlace(hub="127.0.0.1:9", agent="a", token_file=str(tmp_path / "none")))
    wakes = link._wakes

    class Late:
        """Wakes a thread only once that has ended."""

        close = wakes.close

        def send(self, data):
            link._thread.join(10)
            assert not link._thread.is_alive()
            return wakes.send(data)

    link.start([].append, log_to([].append))
    link._wakes = Late()
    link.close()
    link.offer(None)


# What a device is told.


def told(limits, *events):
    """What is written over time. Events are (second, power) for a setpoint, (second, None) for a look alone. Gives (second, watts), and the lines."""
    said, found = [], []
    guard = Guard(limits, log_to(said.append), 0.0)
    for second, power in events:
        if power is not None:
            guard.hear(power, second)
        due = guard.due(second)
        if due is not None:
            guard.wrote(due, second)
            found.append((second, due))
    return found, said


def test_a_setpoint_is_kept_within_the_device_s_own_bounds():
    found, said = told(Limits(-1000, 2000), (1, 500), (3, 9000), (5, -9000))
    assert found == [(1, 500), (3, 2000), (5, -1000)]
    assert said == [
        "the setpoint is 9000 W, and the device takes 2000 W: it is within -1000 to 2000 W",
        "the setpoint is -9000 W, and the device takes -1000 W: it is within -1000 to 2000 W",
    ]


def test_nothing_is_written_faster_than_the_pace_and_then_the_newest():
    found, _ = told(Limits(-1000, 2000, pace=5), (1, 100), (2, 200), (3, 300), (5.9, None), (6, None), (7, 300), (11, 300))
    assert found == [(1, 100), (6, 300)]


def test_silence_gives_the_fallback_once_and_a_setpoint_ends_it():
    found, said = told(Limits(-1000, 2000, fallback=-200, silence=10), (1, 500), (10.9, None), (11, None), (12, None), (13, 700))
    assert found == [(1, 500), (11, -200), (13, 700)]
    assert said == ["no setpoint came for 10 s: the device takes its fallback, -200 W", "a setpoint has come: the fallback is over"]


def test_a_device_that_never_hears_the_market_gets_its_fallback_too():
    assert told(Limits(0, 2000, silence=10), (5, None), (10, None))[0] == [(10, 0)]


def test_minimum_times_hold_a_device_on_and_off():
    limits = Limits(0, 2000, run=10, pause=20, pace=0)
    # It may have rested since a moment ago when the agent starts.
    found, _ = told(limits, (1, 1500), (19.9, None), (20, None), (25, 0), (29.9, None), (30, None), (31, 1500), (49.9, None), (50, None))
    assert found == [(1, 0), (20, 1500), (30, 0), (50, 1500)]
    # The fallback does not wait: it protects the line.
    assert told(Limits(0, 2000, run=100, silence=10), (1, 1500), (11, None))[0] == [(1, 1500), (11, 0)]


def test_a_device_that_may_have_lost_its_power_gets_it_again():
    found, _ = told(Limits(0, 2000, renew=5), (1, 100), (5.9, None), (6, None), (10, 100))
    assert found == [(1, 100), (6, 100)]
    guard = Guard(Limits(0, 2000, pace=0, run=10), print, 0.0)
    guard.hear(100, 1)
    guard.wrote(100, 1)
    assert guard.due(2) is None
    guard.lose()
    assert guard.due(3) == 100
    guard.wrote(100, 3)
    # It runs since second 1.
    assert (guard.due(4), guard.fixed(10.9), guard.fixed(11)) == (None, 100, None)


def test_what_a_device_has_to_offer_while_it_may_not_change():
    guard = Guard(Limits(0, 2000, run=10, pause=20), print, 0.0)
    assert (guard.fixed(0), guard.fixed(19), guard.fixed(20)) == (0, 0, None)
    guard.wrote(1500, 21)
    assert (guard.fixed(30), guard.fixed(31)) == (1500, None)
    guard.wrote(1200, 32)
    assert guard.fixed(32) is None
    guard.wrote(0, 35)
    assert (guard.fixed(54), guard.fixed(55)) == (0, None)


def test_pace_and_renew_hold_while_the_device_may_have_lost_its_power():
    """As of a device whose state is too old: its fallback was written at each look at the clock."""
    guard = Guard(Limits(0, 2000, fallback=100, pace=5, renew=60), QUIET, 0.0)
    guard.fall_back("the state is too old")
    written = []
    for second in range(1, 130):
        if second == 2:
            guard.lose()
        if (power := guard.due(float(second))) is not None:
            guard.wrote(power, float(second))
            written.append((second, power))
    assert written == [(1, 100), (6, 100), (66, 100), (126, 100)]


@pytest.mark.parametrize(
    ("offer", "due"),
    [
        (Offer((9000, 5, -900)), Offer((2000, 5, -800))),
        (Points.of([(0, 9000), (4, 0), (9, -900)]), Points.of([(0, 2000), (4, 0), (9, -800)])),
        (Stated(DeviceKind("load"), 9000), Stated(DeviceKind("load"), 2000)),
        (Stated(DeviceKind("solar"), 900), Stated(DeviceKind("solar"), 800)),
        (Stated(DeviceKind("battery", (9, 2000, 800, 0)), 9), Stated(DeviceKind("battery", (9, 2000, 800, 0)), 9)),
    ],
)
def test_what_is_offered_is_within_the_device_s_own_bounds(offer, due):
    assert Guard(Limits(-800, 2000), print, 0.0).bounded(offer) == due


# Values.


@pytest.mark.parametrize(
    ("scale", "unit", "found", "value", "watts", "written"),
    [(1.0, "W", 5, 5, -7, -7), (0.1, "kW", 15, 1500, 1500, 15), (-1.0, "W", 300, -300, 200, -200), (1.0, "%", 50, 2000, 0, 0), (1.0, "kWh", 2.5, 2500, 500, 0.5)],
)
def test_scales_and_units_by_hand(scale, unit, found, value, watts, written):
    place = Place(scale=scale, unit=unit)
    assert place.value_of(found, 4000) == pytest.approx(value)
    assert place.to_write(watts) == written


@pytest.mark.parametrize("found", [math.nan, math.inf, -math.inf])
def test_a_value_that_is_no_number_is_no_state(found):
    with pytest.raises(NoReading, match="it is"):
        Place().value_of(found)


@pytest.mark.parametrize(
    ("data", "pointer", "due"),
    [
        (b" 12.5\n", "", 12.5),
        (b'{"ENERGY": {"Power": "230"}}', "/ENERGY/Power", 230),
        (b'{"a/b": [1, {"m~n": 7}]}', "/a~1b/1/m~0n", 7),
        (b"NaN", "", math.nan),
    ],
)
def test_numbers_in_texts(data, pointer, due):
    assert number_in(data, pointer) == pytest.approx(due, nan_ok=True)


@pytest.mark.parametrize(("data", "pointer"), [(b"", ""), (b"on", ""), (b"true", ""), (b"[]", "/0"), (b"{}", "/a"), (b"1", "/a"), (b'"x"', ""), (b"1" + b"0" * 400, "")])
def test_texts_without_a_number(data, pointer):
    with pytest.raises(NoReading):
        number_in(data, pointer)


@pytest.mark.parametrize(
    ("kind", "order", "number", "registers"),
    [
        ("u16", "big", 65_535, [65_535]),
        ("i16", "big", -2, [0xFFFE]),
        ("i32", "big", -2, [0xFFFF, 0xFFFE]),
        ("i32", "little", -2, [0xFFFE, 0xFFFF]),
        ("u32", "big", 65_537, [1, 1]),
        # 1.5 is 3FC00000 in 32 bits.
        ("f32", "big", 1.5, [0x3FC0, 0]),
        ("f32", "little", 1.5, [0, 0x3FC0]),
    ],
)
def test_registers_by_hand(kind, order, number, registers):
    place = ModbusPlace(host="127.0.0.1", register=0, type=kind, word_order=order)
    assert place.registers_of(number) == registers
    assert place.number_of(registers) == number


def crc_of(data):
    """The check of a frame of Modbus RTU, by its definition."""
    crc = 0xFFFF
    for byte in data:
        crc ^= byte
        for _ in range(8):
            crc = crc >> 1 ^ (0xA001 if crc & 1 else 0)
    return struct.pack("<H", crc)


def test_registers_by_a_serial_line():
    """The test is device 7 at the other end of the line. It has 300 and -100 in registers 10 and 12, and takes function 6 alone."""
    pytest.importorskip("pymodbus.client", reason="pymodbus is not installed: apt-get install python3-pymodbus python3-serial-asyncio")
    assert crc_of(b"\x01\x03\x00\x00\x00\x01") == b"\x84\x0a", "the example of the standard"
    device, line = os.openpty()
    tty.setraw(line)
    heard = []

    def answers():
        while True:
            request = b""
            while len(request) < 8:
                request += os.read(device, 8 - len(request))
            assert crc_of(request[:-2]) == request[-2:]
            heard.append(request[:-2])
            register = int.from_bytes(request[2:4], "big")
            told = request[:-2] if request[1] == 6 else bytes([7, 3, 2]) + struct.pack(">h", {10: 300, 12: -100}[register])
            os.write(device, told + crc_of(told))

    threading.Thread(target=answers, daemon=True).start()
    common = {"serial": os.ttyname(line), "device": 7, "baudrate": 19_200}
    state, setpoint = Modbus(ModbusPlace(register=10, also=(12,), **common)), Modbus(ModbusPlace(register=20, function=6, **common))
    assert state._line is setpoint._line
    assert state.read() == 200
    setpoint.write(-2)
    assert heard == [bytes([7, 3, 0, 10, 0, 1]), bytes([7, 3, 0, 12, 0, 1]), bytes([7, 6, 0, 20, 0xFF, 0xFE])]
    state.close()
    assert Modbus(ModbusPlace(register=10, also=(12,), mean=True, **common)).read() == 100
    setpoint.close()


@pytest.mark.parametrize(
    ("more", "words"),
    [
        ({}, "a host of Modbus over TCP, or a serial line"), ({"host": "a", "serial": "b"}, "and not both"),
        ({"host": "a", "function": 5}, "function is 5"), ({"host": "a", "function": 6, "type": "u32"}, "6 for a number of one register"),
        ({"serial": "b", "parity": "X"}, "parity 'X'"), ({"host": "a", "also": (-1,)}, "register from 0"),
    ],
)
def test_registers_that_are_none(more, words):
    with pytest.raises(BadSettings, match=words):
        ModbusPlace(register=0, **more)


def test_a_number_that_does_not_fit_is_not_written():
    with pytest.raises(NotWritten, match="40000 does not fit into i16"):
        ModbusPlace(host="127.0.0.1", register=0).registers_of(40_000)


# Small servers.


class Meter(http.server.BaseHTTPRequestHandler):
    """Tells what it has, and keeps what it is given."""

    has, given = b'{"soc": 55}', b""

    def do_GET(self):
        self.send_response(200 if self.path == "/" else 404)
        self.end_headers()
        self.wfile.write(self.has)

    def do_PUT(self):
        type(self).given = self.rfile.read(int(self.headers["Content-Length"]))
        self.send_response(204)
        self.end_headers()

    def log_message(self, *_):
        pass


def test_values_by_http():
    with http.server.HTTPServer(("127.0.0.1", 0), Meter) as server:
        threading.Thread(target=server.serve_forever, daemon=True).start()
        url = f"http://127.0.0.1:{server.server_port}/"
        meter = Http(HttpPlace(url=url, pointer="/soc", body='{"watts": VALUE}'))
        assert meter.read() == 55
        meter.write(-1500)
        assert Meter.given == b'{"watts": -1500}'
        for place in (HttpPlace(url=url, pointer="/charge"), HttpPlace(url=url + "none")):
            with pytest.raises(NoReading, match=url):
                Http(place).read()
        server.shutdown()
    with pytest.raises(NoReading):
        meter.read()
    with pytest.raises(NotWritten):
        meter.write(0)


def test_values_by_a_command_and_in_a_table(tmp_path):
    assert Command(CommandPlace(command=("echo", '{"t": 21.5}'), pointer="/t")).read() == 21.5
    for words in (("false",), ("no-such-command",), ("sleep", "9")):
        with pytest.raises(NoReading):
            Command(CommandPlace(command=words, timeout=0.2)).read()
    kept = tmp_path / "kept"
    Command(CommandPlace(command=("sh", "-c", f"echo VALUE > {kept}"))).write(-3)
    assert kept.read_text() == "-3\n"
    with pytest.raises(NotWritten, match="status is 1"):
        Command(CommandPlace(command=("false",))).write(1)
    (tmp_path / "table.csv").write_text("soc\n10\n20\n")
    table = Csv(CsvPlace(file=str(tmp_path / "table.csv"), column="soc"))
    assert table.read() == 10
    table._begun -= 60
    assert table.read() == 20
    table._begun -= 60
    assert table.read() == 10
    with pytest.raises(NoReading):
        Csv(CsvPlace(file=str(tmp_path / "table.csv"), column="other")).read()
    out = Csv(CsvPlace(file=str(tmp_path / "out.csv")))
    out.write(5)
    assert out.place.file and (tmp_path / "out.csv").read_text() == "0.0,5\n"


# Settings.


def tables(**more):
    """The settings of a battery, with other tables or members in the place of theirs."""
    found = {
        "market": {"hub": "127.0.0.1:8444", "agent": "store", "token_file": "store.token"},
        "device": {"model": "battery", "capacity": 4000, "charge": 2000, "discharge": 2000, "prices": [0, 9]},
        "limits": {"least": -2000, "greatest": 2000},
        "state": {"by": "modbus", "host": "127.0.0.1", "register": 1, "unit": "%"},
        "setpoint": {"by": "mqtt", "topic": "store/power"},
    }
    for name, members in more.items():
        found[name] = {key: value for key, value in {**found.get(name, {}), **members}.items() if value is not None}
    return found


def test_settings_of_models_and_of_a_strategy_of_one_s_own(tmp_path):
    found = agent_settings_of(tables())
    assert isinstance(found.device, Battery) and (found.member, found.capacity) == ("energy", 4000)
    pump = {"model": "heat_pump", "power": 1500, "loss": 150, "constant": 60, "outdoor": 5, "low": 19, "high": 22}
    pump |= {"capacity": None, "charge": None, "discharge": None}
    broker = {"hub": None, "agent": None, "token_file": None, "node": "pump", "host": "broker"}
    found = agent_settings_of(tables(device=pump, market=broker, state={"unit": "C"}))
    assert isinstance(found.device, HeatPump) and found.device.state == 19
    assert found.market[1:] == ("market", "pump")
    (tmp_path / "own.py").write_text("class Own:\n    def __init__(self, name): self.name, self.state = name, 0.0\n")
    own = {"strategy": "own.py:Own", "name": "own", "model": None, "capacity": None, "charge": None, "discharge": None, "prices": None}
    assert agent_settings_of(tables(device=own, state={"unit": "kWh"}), tmp_path).device.name == "own"
    found = agent_settings_of(tables(device=KIND))
    assert (found.member, found.capacity, found.device.kind) == ("state", 4000, DeviceKind("battery", (4000, 2000, 2000, 1)))
    # A reading beyond what a battery holds is a full one.
    found.device.state = 4000.6
    assert found.device.bid(datetime(2026, 6, 1)) == Stated(found.device.kind, 4000)


# A battery that bids by its kind, in the place of the model.
KIND = {"model": None, "prices": None, "kind": "battery", "spread": 1}


@pytest.mark.parametrize(
    ("more", "words"),
    [
        ({"device": {**KIND, "spread": None}}, "device: spread of a battery is None"),
        ({"device": KIND, "limits": {"greatest": 1000}}, "a battery takes -2000 to 2000 W, and limits are -2000 to 1000"),
        ({"device": {**KIND, "kind": "cogeneration"}}, "device: capacity is no parameter of a cogeneration"),
        ({"device": {"model": "reactor"}}, "give one of battery"),
        ({"device": {"capacity": None}}, "device.capacity is missing"),
        ({"device": {"energy": 5}}, "what \\[state\\] reads"),
        ({"device": {"reserve": 5000}}, "device: battery: reserve"),
        ({"device": {"model": None, "strategy": "none.py:Own"}}, "cannot be made"),
        ({"market": {"hub": "8444"}}, "HOST:PORT"),
        ({"market": {"hub": None, "agent": None, "token_file": None}}, "neither hub nor node"),
        ({"state": {"by": "pigeon"}}, "state.by is 'pigeon'"),
        ({"state": {"unit": "hp"}}, "the unit is 'hp'"),
        ({"state": {"type": "u8"}}, "type is 'u8'"),
        ({"state": {"register": 70_000}}, "register from 0"),
        ({"setpoint": {"topic": "store/#"}}, "without \\+ and #"),
        ({"setpoint": {"pointer": "soc"}}, "write it as /battery/soc"),
        ({"limits": {"fallback": 3000}}, "fallback 3000"),
        ({"limits": {"silence": 0}}, "silence and renew have to be"),
        ({"agent": {"every": 10, "stale": 5}}, "stale of every or more"),
        ({"state": {"by": "http", "host": None, "register": None, "url": "ftp://a"}}, "http or https"),
        ({"state": {"by": "command", "host": None, "register": None, "command": "ls"}}, "list of words"),
        ({"state": {"by": "csv", "host": None, "register": None, "file": "a", "seconds": 0}}, "more than 0"),
    ],
)
def test_settings_that_are_wrong(more, words):
    with pytest.raises(BadSettings, match=words):
        agent_settings_of(tables(**more))


PUMP = {"model": "heat_pump", "power": 1500, "loss": 150, "constant": 60, "outdoor": 5, "low": 19, "high": 22}
PUMP |= {"capacity": None, "charge": None, "discharge": None}
CAR = {"model": "vehicle", "power": 7000, "needed": 9000, "arrival": "18:00", "departure": "07:00", "capacity": None, "charge": None, "discharge": None}


@pytest.mark.parametrize(
    ("more", "words"),
    [
        ({"state": {"unit": None}}, "state.unit is 'W', and the state of this device is in Wh, kWh, MWh, %"),
        ({"state": {"unit": "C"}}, "state.unit is 'C'"),
        ({"device": PUMP}, "state.unit is '%', and the state of this device is in C"),
        ({"device": {**CAR, "arrival": 18, "departure": 7}}, "state.unit is '%', and the state of this device is in Wh, kWh, MWh"),
        ({"device": {**KIND, "kind": "load", "capacity": None, "charge": None, "discharge": None, "spread": None}}, "is in W, kW, MW"),
        ({"setpoint": {"unit": "%"}}, "setpoint.unit is %: a power is written in one of W, kW, MW"),
        ({"state": {"least": 5, "greatest": 5}}, "give a least below the greatest"),
    ],
)
def test_units_of_states_are_those_of_the_device(more, words):
    with pytest.raises(BadSettings, match=words):
        agent_settings_of(tables(**more))


@pytest.mark.parametrize(
    ("more", "found", "due"),
    [
        # Register 1 has a share of 4000 Wh.
        ({}, 50, 2000), ({}, 100.01, 4000), ({}, -3, 0), ({"state": {"least": 0}}, -3, None), ({"state": {"greatest": 100}}, 100.01, None),
        ({"device": PUMP, "state": {"unit": "C"}}, 21.5, 21.5), ({"device": PUMP, "state": {"unit": "C"}}, -127, None),
        ({"device": PUMP, "state": {"unit": "C", "scale": 0.1, "least": -20}}, -201, None),
        ({"device": PUMP, "state": {"unit": "C", "scale": 0.1, "least": -20}}, -200, -20),
    ],
)
def test_a_reading_just_outside_is_the_nearest_state_and_one_of_a_broken_sensor_is_none(more, found, due):
    settings = agent_settings_of(tables(**more))
    if due is None:
        with pytest.raises(NoReading, match="and a state is"):
            settings.bounds.state_of(found, settings.state, settings.capacity)
    else:
        assert settings.bounds.state_of(found, settings.state, settings.capacity) == pytest.approx(due)


def test_settings_that_lack_a_table():
    with pytest.raises(BadSettings, match=r"\[limits\] is missing"):
        agent_settings_of({name: table for name, table in tables().items() if name != "limits"})
