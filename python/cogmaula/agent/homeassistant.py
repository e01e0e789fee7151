"""What Home Assistant shows of an agent, by MQTT discovery: the price, its setpoint and offer, the state of its node, and a switch.

The payloads have the form of Home Assistant's documentation of MQTT discovery, of its sensors and of its switches. They were tried at a
broker against that form, and at no Home Assistant.
"""

from __future__ import annotations

import json
import re
from collections.abc import Callable, Mapping
from dataclasses import dataclass
from typing import Any

from ..live.node.node_errors import BadSettings
from ..live.messages.frames import AnyOffer, Offer, Points, Stated
from ..version import __version__
from .mqtt import BrokerPlace, Client

# The payloads of Home Assistant's switches and availability, by its defaults.
ON, OFF = "ON", "OFF"
ONLINE, OFFLINE = "online", "offline"
# What may not be in an identifier of a topic of discovery.
_OTHERS = re.compile(r"[^a-zA-Z0-9_-]+")


@dataclass(frozen=True, kw_only=True)
class HomeAssistantPlace(BrokerPlace):
    """The broker of Home Assistant, and how the agent appears there.

    prefix:     the prefix of discovery, as Home Assistant has it
    base:       the first level of the agent's own topics
    name:       the name of the device there; None takes that of the agent, or of its node
    price_unit: the unit of prices there, such as ct/kWh; None shows none
    """

    prefix: str = "homeassistant"
    base: str = "cogmaula"
    name: str | None = None
    price_unit: str | None = None

    def __post_init__(self) -> None:
        """Raises BadSettings."""
        super().__post_init__()
        for word in (self.prefix, self.base):
            if not word or set("+#") & set(word) or word.startswith("/") or word.endswith("/"):
                raise BadSettings(f"homeassistant.prefix is {self.prefix!r} and base {self.base!r}: give levels of topics, without + and #")


@dataclass(frozen=True)
class Shown:
    """What is shown of an agent. None is not known.

    price:    the newest price that its market told, in price units
    setpoint: the newest power that its market told, None while the market is silent or the agent takes no part
    written:  the power that was written to the device last
    offer:    what it offers, None if it offers nothing
    state:    of its node, or `up` or `away` of its hub, and `why`
    """

    price: int | None
    setpoint: int | None
    written: int | None
    offer: AnyOffer | None
    state: str | None
    why: str
    takes_part: bool

    def members(self) -> dict[str, Any]:
        """The members of the message that the templates read."""
        least, greatest = (None, None) if self.offer is None else range_of(self.offer)
        return {
            "price": self.price,
            "setpoint": self.setpoint,
            "written": self.written,
            "offered_least": least,
            "offered_greatest": greatest,
            "node": self.state,
            "why": self.why,
            "takes_part": ON if self.takes_part else OFF,
        }


def range_of(offer: AnyOffer) -> tuple[int, int]:
    """The least and the greatest power of an offer, in watts. A kind with powers of its own may be at 0 too."""
    match offer:
        case Offer(demands):
            return min(demands), max(demands)
        case Points():
            powers = [power for _, power in offer.points]
            return min(powers), max(powers)
        case Stated(kind, state):
            if kind.kind in ("load", "solar"):
                power = state if kind.kind == "load" else -state
                return power, power
            return kind.powers


@dataclass(frozen=True)
class Entities:
    """The entities of an agent, and the topics of their messages.

    name:  of the device in Home Assistant
    model: of the device, such as battery
    """

    place: HomeAssistantPlace
    name: str
    model: str

    @property
    def identifier(self) -> str:
        """What names the agent among all devices there."""
        return _OTHERS.sub("_", f"{self.place.base}_{self.name}")

    def topic(self, word: str) -> str:
        """A topic of the agent's own."""
        return f"{self.place.base}/{_OTHERS.sub('_', self.name)}/{word}"

    def configurations(self) -> dict[str, dict[str, Any]]:
        """The payload of each topic of discovery."""
        power = {"device_class": "power", "unit_of_measurement": "W", "state_class": "measurement"}
        price = {"state_class": "measurement", "icon": "mdi:cash"}
        if self.place.price_unit is not None:
            price["unit_of_measurement"] = self.place.price_unit
        switch = {"command_topic": self.topic("takes_part/set"), "icon": "mdi:transmission-tower"}
        return dict(
            [
                self._entity("sensor", "price", "Price", price),
                self._entity("sensor", "setpoint", "Setpoint", {**power, **self._attributes("written")}),
                self._entity("sensor", "offered_least", "Least power offered", power),
                self._entity("sensor", "offered_greatest", "Greatest power offered", power),
                self._entity("sensor", "node", "Market", {"entity_category": "diagnostic", **self._attributes("why")}),
                self._entity("switch", "takes_part", "Takes part", switch),
            ]
        )

    def _attributes(self, member: str) -> dict[str, str]:
        """What shows a member of the message as an attribute."""
        template = f"{{{{ {{'{member}': value_json.{member}}} | tojson }}}}"
        return {"json_attributes_topic": self.topic("state"), "json_attributes_template": template}

    def _entity(self, component: str, member: str, name: str, more: Mapping[str, Any]) -> tuple[str, dict[str, Any]]:
        """The topic of discovery of an entity, which shows a member of the message, and its payload."""
        payload = {
            "name": name,
            "unique_id": f"{self.identifier}_{member}",
            "state_topic": self.topic("state"),
            "value_template": f"{{{{ value_json.{member} }}}}",
            "availability_topic": self.topic("availability"),
            "device": {
                "identifiers": [self.identifier],
                "name": self.name,
                "manufacturer": "Cogmaula",
                "model": self.model,
                "sw_version": __version__,
            },
            "origin": {"name": "cogmaula", "sw_version": __version__},
            **more,
        }
        return f"{self.place.prefix}/{component}/{self.identifier}/{member}/config", payload


class HomeAssistant:
    """A connection that shows an agent in Home Assistant, and takes its switch. It waits for nothing, and comes back by itself."""

    def __init__(self, entities: Entities, switch: Callable[[bool], None]) -> None:
        """Takes the entities, and a call for each change of the switch, from any thread. Raises NoPackage and OSError."""
        self._entities = entities
        self._switch = switch
        self._newest: Shown | None = None
        self._command = entities.topic("takes_part/set")
        self._birth = f"{entities.place.prefix}/status"
        self._client = Client(
            entities.place, [self._command, self._birth], self._take, will=(entities.topic("availability"), OFFLINE), greet=self._greet
        )

    def show(self, shown: Shown) -> None:
        """Publishes this, if it is new."""
        if shown != self._newest:
            self._newest = shown
            self._client.post(self._entities.topic("state"), json.dumps(shown.members()))

    def _greet(self) -> None:
        """Publishes what makes the entities appear: after each connection, and when Home Assistant starts."""
        for topic, payload in self._entities.configurations().items():
            self._client.post(topic, json.dumps(payload))
        self._client.post(self._entities.topic("availability"), ONLINE)
        if (newest := self._newest) is not None:
            self._client.post(self._entities.topic("state"), json.dumps(newest.members()))

    def _take(self, topic: str, payload: bytes, retained: bool) -> None:
        if topic == self._birth:
            if payload.decode(errors="replace") == ONLINE and not retained:
                self._greet()
        elif payload.decode(errors="replace") in (ON, OFF) and not retained:
            self._switch(payload.decode() == ON)

    def close(self) -> None:
        """Says that the agent is away, and ends the connection."""
        self._client.publish(self._entities.topic("availability"), OFFLINE, True)
        self._client.close()
