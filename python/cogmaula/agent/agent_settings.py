"""The settings of an agent, from a TOML file. docs/DEVICES.md has them in tables."""

from __future__ import annotations

import importlib.util
import math
import os
from collections.abc import Mapping
from dataclasses import dataclass
from pathlib import Path
from typing import Any

from ..live.node.node_errors import BadFrame, BadSettings
from ..live.device.device_kinds import DeviceKind
from ..live.node.toml_tables import read_tables, value_of
from ..live.messages.topics import require_name, require_prefix
from ..simulation import Battery, Boiler, Cogeneration, Device, HeatPump, Load, Solar, Vehicle
from .device_values import UNITS, NoReading, Place
from .guard import Limits
from .homeassistant import Entities, HomeAssistantPlace
from .links import HubLink, HubPlace, Link, NodeLink
from .modbus import Modbus, ModbusPlace
from .mqtt import BrokerPlace, Mqtt, MqttPlace
from .plain_sources import Command, CommandPlace, Csv, CsvPlace, Http, HttpPlace
from .stated import StatedDevice

TABLES = ("agent", "market", "device", "limits", "state", "setpoint", "measured", "time_out", "homeassistant")
# Those that each file has.
NEEDED = ("market", "device", "limits", "setpoint")
# The units of a state by what it is.
ENERGY, TEMPERATURE, POWER = ("Wh", "kWh", "MWh", "%"), ("C",), ("W", "kW", "MW")
# What a sensor of temperature may tell by default: one that is broken or not connected often tells -127.
TEMPERATURES = (-60.0, 150.0)


@dataclass(frozen=True)
class Model:
    """A model of a device: its class, the member that is its state, what that is before the first reading, and the units of a reading.

    first: a number, or another member
    """

    kind: type[Any]
    member: str
    first: str | float
    units: tuple[str, ...]


MODELS: dict[str, Model] = {
    "battery": Model(Battery, "energy", 0.0, ENERGY),
    "heat_pump": Model(HeatPump, "temperature", "low", TEMPERATURE),
    "boiler": Model(Boiler, "temperature", "low", TEMPERATURE),
    "cogeneration": Model(Cogeneration, "temperature", "low", TEMPERATURE),
    "vehicle": Model(Vehicle, "missing", 0.0, ENERGY),
    "load": Model(Load, "power", 0.0, POWER),
    "solar": Model(Solar, "power", 0.0, POWER),
}


@dataclass(frozen=True)
class StateBounds:
    """What a reading may be, in the unit of the place where it is read, and the nearest state that the model has, in its own unit.

    least, greatest: one outside is no state, as of a broken sensor
    floor, ceiling:  a state just outside is the nearest one inside, as a battery that says 100.1 % is full
    """

    least: float = -math.inf
    greatest: float = math.inf
    floor: float = -math.inf
    ceiling: float = math.inf

    def __post_init__(self) -> None:
        """Raises BadSettings."""
        if not self.least < self.greatest:
            raise BadSettings(f"state.least is {self.least:g} and state.greatest {self.greatest:g}: give a least below the greatest")

    def state_of(self, found: float, place: Place, capacity: float) -> float:
        """The state for what is at the place. Raises NoReading."""
        reading = place.reading_of(found)
        if not self.least <= reading <= self.greatest:
            raise NoReading(f"it is {reading:g} {place.unit}, and a state is {self.least:g} to {self.greatest:g} {place.unit}")
        return min(max(place.value_of(found, capacity), self.floor), self.ceiling)


PLACES: dict[str, type[Any]] = {"modbus": ModbusPlace, "mqtt": MqttPlace, "http": HttpPlace, "command": CommandPlace, "csv": CsvPlace}
Access = Modbus | Mqtt | Http | Command | Csv


@dataclass(frozen=True)
class Times:
    """Seconds: from one reading to the next, and after which a reading is too old and the offer lapses."""

    every: float = 10.0
    stale: float = 60.0

    def __post_init__(self) -> None:
        """Raises BadSettings."""
        if not 0 < self.every <= self.stale:
            raise BadSettings(f"every is {self.every:g} and stale {self.stale:g}: give seconds above 0, and a stale of every or more")


@dataclass(frozen=True)
class TimeOut:
    """The device's own time-out: it takes its fallback by itself if nothing is written for so many seconds.

    place:   where the seconds are written, before each power; its scale is of seconds, such as 0.001 for milliseconds
    seconds: longer than from one power to the next, and no longer than a setpoint holds
    """

    place: Any
    seconds: float

    def require(self, limits: Limits) -> None:
        """Raises BadSettings if it is no longer than `renew`, or longer than `silence`."""
        if not 2 * limits.renew <= self.seconds <= limits.silence:
            raise BadSettings(
                f"time_out.seconds is {self.seconds:g}, limits.renew {limits.renew:g} and limits.silence {limits.silence:g}: give a time-out of twice "
                "renew or more, and of silence or less"
            )

    @property
    def number(self) -> float:
        """What is written."""
        found = float(self.seconds / self.place.scale + self.place.offset)
        return round(found) if abs(found - round(found)) < 1e-9 else found


@dataclass(frozen=True)
class AgentSettings:
    """One agent: its market, its device as a model, the member that is the device's state, where that is read, and where power is written.

    state:    None if the model keeps its own state, by the powers that were written and the time that passes
    capacity: what a state in % is a share of
    bounds:   what a reading may be
    measured: where the power is read that the device takes, None if it is not
    time_out: the device's own time-out, None if it has none
    entities: what Home Assistant shows of the agent, None if it shows nothing
    """

    times: Times
    limits: Limits
    market: HubPlace | tuple[BrokerPlace, str, str]
    device: Any
    member: str
    state: Any
    setpoint: Any
    capacity: float
    entities: Entities | None = None
    bounds: StateBounds = StateBounds()
    time_out: TimeOut | None = None
    measured: Any = None

    def link(self) -> Link:
        """What joins the agent to its market."""
        if isinstance(self.market, HubPlace):
            return HubLink(self.market)
        return NodeLink(*self.market)

    def access(self, place: Any) -> Access:
        """What reads and writes at a place. Raises NoPackage and OSError."""
        match place:
            case ModbusPlace():
                return Modbus(place)
            case MqttPlace():
                return Mqtt(place, self.times.stale)
            case HttpPlace():
                return Http(place)
            case CommandPlace():
                return Command(place)
            case _:
                return Csv(place)


def read_agent_toml(path: str | os.PathLike[str]) -> AgentSettings:
    """The settings of a file. Raises BadSettings and OSError."""
    return agent_settings_of(read_tables(path, TABLES), Path(path).parent)


def agent_settings_of(tables: Mapping[str, Mapping[str, Any]], folder: Path = Path()) -> AgentSettings:
    """The settings that the tables tell; a strategy's file is looked for in the folder. Raises BadSettings."""
    for name in NEEDED:
        if name not in tables:
            needed = ", ".join(f"[{table}]" for table in NEEDED)
            raise BadSettings(f"the table [{name}] is missing: a file has {needed}, and may have [agent], [state], [measured], [time_out] and [homeassistant]")
    limits = value_of(Limits, tables["limits"], "limits")
    is_stated = "kind" in tables["device"]
    device, member = (_stated_of(tables, limits), "state") if is_stated else _device_of(dict(tables["device"]), folder)
    market = _market_of(dict(tables["market"]))
    state, setpoint = dict(tables.get("state", {})), _place_of(dict(tables["setpoint"]), "setpoint")
    if setpoint.unit not in POWER:
        raise BadSettings(f"setpoint.unit is {setpoint.unit}: a power is written in one of {', '.join(POWER)}. A share is a scale")
    units = _units_of(tables["device"], device)
    bounds = _bounds_of(state, units, device)
    place = _place_of(state, "state") if "state" in tables else None
    if place is not None and place.unit not in units:
        raise BadSettings(f"state.unit is {place.unit!r}, and the state of this device is in {', '.join(units)}: give one of them")
    return AgentSettings(
        value_of(Times, tables.get("agent", {}), "agent"),
        limits,
        market,
        device,
        member,
        place,
        setpoint,
        float(getattr(device, "capacity", 1.0)),
        _entities_of(tables["homeassistant"], market, device) if "homeassistant" in tables else None,
        bounds,
        _time_out_of(dict(tables["time_out"]), limits) if "time_out" in tables else None,
        _measured_of(dict(tables["measured"])) if "measured" in tables else None,
    )


def _measured_of(table: dict[str, Any]) -> Any:
    """Where the power is read that the device takes. Raises BadSettings."""
    found = _place_of(table, "measured")
    if found.unit not in POWER:
        raise BadSettings(f"measured.unit is {found.unit}: a power is in one of {', '.join(POWER)}")
    return found


def _time_out_of(table: dict[str, Any], limits: Limits) -> TimeOut:
    """The device's own time-out. Raises BadSettings."""
    seconds = table.pop("seconds", None)
    if type(seconds) not in (int, float):
        raise BadSettings(f"time_out.seconds is {seconds!r}: give the seconds after which the device takes its fallback by itself")
    found = TimeOut(_place_of(table, "time_out"), float(seconds))
    found.require(limits)
    return found


def _units_of(table: Mapping[str, Any], device: Any) -> tuple[str, ...]:
    """The units that a state of a device may be in: % only if the device has a capacity."""
    match table:
        case {"model": str(model)}:
            units = MODELS[model].units
        case {"kind": str(kind)}:
            units = ENERGY if kind == "battery" else POWER if kind in ("load", "solar") else TEMPERATURE
        case _:
            units = tuple(UNITS)
    return units if hasattr(device, "capacity") else tuple(unit for unit in units if unit != "%")


def _bounds_of(state: dict[str, Any], units: tuple[str, ...], device: Any) -> StateBounds:
    """What a reading may be, by the members `least` and `greatest` of a table, which are taken out of it. Raises BadSettings."""
    least, greatest = TEMPERATURES if units == TEMPERATURE and state.get("unit") == "C" and not isinstance(device, StatedDevice) else (-math.inf, math.inf)
    told = {"least": state.pop("least", least), "greatest": state.pop("greatest", greatest)}
    floor, ceiling = -math.inf, math.inf
    if isinstance(device, Battery):
        floor, ceiling = 0.0, float(device.capacity)
    elif isinstance(device, Vehicle | Load | Solar):
        floor = 0.0
    bounds: StateBounds = value_of(StateBounds, {**told, "floor": floor, "ceiling": ceiling}, "state")
    return bounds


def _entities_of(table: Mapping[str, Any], market: HubPlace | tuple[BrokerPlace, str, str], device: Any) -> Entities:
    """What Home Assistant shows of the agent. Raises BadSettings."""
    place: HomeAssistantPlace = value_of(HomeAssistantPlace, table, "homeassistant")
    own = market.agent if isinstance(market, HubPlace) else market[2]
    return Entities(place, place.name or own, str(device.name))


def _market_of(table: dict[str, Any]) -> HubPlace | tuple[BrokerPlace, str, str]:
    if "hub" in table:
        place: HubPlace = value_of(HubPlace, table, "market")
        host, _, port = place.hub.rpartition(":")
        if not host or not port.isdigit():
            raise BadSettings(f"market.hub is {place.hub!r}: write HOST:PORT, the hub's address for lines over TCP")
        return place
    if "node" not in table:
        raise BadSettings("market has neither hub nor node: give the address of a hub, or the name of the device's node at a broker")
    node, prefix = require_name(table.pop("node"), "market.node"), require_prefix(table.pop("prefix", "market"))
    return value_of(BrokerPlace, table, "market"), prefix, node


def _place_of(table: dict[str, Any], name: str) -> Any:
    kind = table.pop("by", None)
    if kind not in PLACES:
        raise BadSettings(f"{name}.by is {kind!r}: give one of {', '.join(PLACES)}")
    return value_of(PLACES[kind], table, name)


def _stated_of(tables: Mapping[str, Mapping[str, Any]], limits: Limits) -> StatedDevice:
    """The device of the kind that the table tells. Raises BadSettings."""
    try:
        kind = DeviceKind.of(tables["device"])
    except BadFrame as error:
        raise BadSettings(f"device: {error}") from None
    if "state" not in tables:
        raise BadSettings("the table [state] is missing: a device of a kind has no state but the one that is read")
    least, greatest = kind.powers
    if not limits.least <= least <= greatest <= limits.greatest:
        raise BadSettings(f"a {kind.kind} takes {least} to {greatest} W, and limits are {limits.least} to {limits.greatest}: give limits that hold its powers")
    return StatedDevice(kind)


def _device_of(table: dict[str, Any], folder: Path) -> tuple[Device, str]:
    """The model that a table tells, and the member that is its state. Raises BadSettings."""
    if "strategy" in table:
        return _strategy_of(table, folder), "state"
    model = table.pop("model", None)
    if model not in MODELS:
        raise BadSettings(f"device.model is {model!r}: give one of {', '.join(MODELS)}, a kind, or a strategy of your own")
    member, first = MODELS[model].member, MODELS[model].first
    if member in table:
        raise BadSettings(f"device.{member} is what [state] reads: take it out")
    table[member] = table.get(first, 0.0) if isinstance(first, str) else first
    table = {"name": model, **{name: tuple(value) if isinstance(value, list) else value for name, value in table.items()}}
    try:
        return value_of(MODELS[model].kind, table, "device"), member
    except ValueError as error:
        raise BadSettings(f"device: {error}") from None


def _strategy_of(table: dict[str, Any], folder: Path) -> Any:
    """A device of a class of the user's, written FILE.py:CLASS; the other members are what it is made with. Raises BadSettings."""
    file, _, name = str(table.pop("strategy")).rpartition(":")
    try:
        spec = importlib.util.spec_from_file_location("strategy", folder / file)
        if spec is None or spec.loader is None:
            raise OSError("it is no file of Python")
        module = importlib.util.module_from_spec(spec)
        spec.loader.exec_module(module)
        return getattr(module, name)(**table)
    except (OSError, AttributeError, TypeError, ValueError, SyntaxError, ImportError) as error:
        raise BadSettings(f"device.strategy {file}:{name} cannot be made: {error}") from None
