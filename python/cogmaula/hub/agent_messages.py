"""The words between an agent and the hub: one JSON object a line, or a message of WebSocket, in the terms of PowerMatcher 2.

docs/HUB.md has them in a table. Powers and demands are whole watts, and prices are price units of the market's basis.
"""

from __future__ import annotations

import json
from dataclasses import dataclass
from typing import Any, Literal

from ..cluster import Basis
from ..live.node.node_errors import BadFrame, BadMessage
from ..live.messages.frames import Offer, Points, require_demands
from ..live.device.deviation import Measured
from ..live.device.device_kinds import DeviceKind
from ..live.messages.messages import ControlMessage, SetpointMessage, members_of, object_of, require_reference, stated

# The longest line or message, in bytes.
LONGEST = 32_768
# The longest text that an error line quotes of what came, in characters.
QUOTED = 64

SHAPES = (
    'write {"bidUpdate": {"bidNumber": 5, "demandArray": [WATTS, ..]}}, '
    '{"bidUpdate": {"pricePoints": [{"price": 3, "demand": WATTS}, ..]}}, {"device": {"kind": "battery", ..}}, '
    '{"bidUpdate": {"state": NUMBER}}, {"measured": WATTS}, {"refused": WATTS, "why": TEXT} or {"leave": true}'
)


@dataclass(frozen=True)
class Login:
    """Who an agent says that it is, and its token."""

    agent: str
    token: str

    @staticmethod
    def of(data: bytes) -> Login:
        """The login that a line is. Raises BadMessage."""
        told = object_of(data, "the login")
        agent, token = told.get("agentId"), told.get("token")
        if not isinstance(agent, str) or not isinstance(token, str):
            raise BadMessage('the first line is no login: write {"agentId": "NAME", "token": "TOKEN"}')
        return Login(agent, token)


@dataclass(frozen=True)
class BidUpdate:
    """A bid as a device's control offers it, and the agent's own count of it, None without one.

    told: the members of the offer: powers in watts, points, or a state with its kind
    """

    told: dict[str, Any]
    number: int | None = None

    def to_offer(self) -> bytes:
        """The bid as a device's control offers it."""
        return json.dumps(self.told if self.number is None else {**self.told, "reference": self.number}).encode()


@dataclass(frozen=True)
class LeaveWord:
    """The agent bids no more."""


LEAVE_OFFER = b'{"leave": true}'

# What an error is about, for a program that reads it: a login, a line, a bid, the agent's node at the hub, or the end of the connection.
ErrorCode = Literal["login", "line", "bid", "node", "end"]


class RefusedBid(BadMessage):
    """A bid is not taken."""

    def __init__(self, text: str, number: int | None) -> None:
        """Takes why, and the agent's number of the bid, None without one."""
        super().__init__(text)
        self.number = number


@dataclass(frozen=True)
class PowerWord:
    """What the agent says of its device: the power that it takes, or that it refuses its setpoint. `line` is as a control says it."""

    line: bytes


def word_of(data: bytes, basis: Basis, kind: DeviceKind | None = None) -> BidUpdate | LeaveWord | PowerWord | DeviceKind:
    """What an agent says after its login, whose device is of this kind, None as long as it named none. Raises BadMessage."""
    told = object_of(data, "the line")
    if told == {"leave": True}:
        return LeaveWord()
    if told.keys() in ({"measured"}, {"refused"}, {"refused", "why"}):
        line = json.dumps(told).encode()
        Measured.of_line(line)
        return PowerWord(line)
    if len(told) == 1 and isinstance(device := told.get("device"), dict):
        try:
            return DeviceKind.of(device)
        except BadFrame as error:
            raise BadMessage(f"the device is not taken: {error}") from None
    bid = told.get("bidUpdate")
    if len(told) != 1 or not isinstance(bid, dict):
        raise BadMessage(f"the line is no bid and no leave: {SHAPES}")
    number = bid.pop("bidNumber", None)
    if number is not None:
        require_reference(number, "bidNumber")
    try:
        return BidUpdate(_offer_of(bid, basis, kind), number)
    except BadFrame as error:
        raise RefusedBid(f"the bid is not taken: {error}", number) from None
    except BadMessage as error:
        raise RefusedBid(str(error), number) from None


def _offer_of(bid: dict[str, Any], basis: Basis, kind: DeviceKind | None) -> dict[str, Any]:
    """The bid as members of an offer. Raises BadMessage and BadFrame."""
    match list(bid):
        case ["demandArray"]:
            demands = tuple(_whole(demand, "a demand", "watts") for demand in _list(bid, "demandArray"))
            require_demands(demands, basis.steps)
            return members_of(Offer(demands))
        case ["pricePoints"]:
            points = Points.of(_points(_list(bid, "pricePoints")))
            points.require_over(basis)
            return members_of(points)
        case ["state"]:
            return members_of(stated(_whole(bid["state"], "a state", "units of the kind"), kind))
    raise BadMessage(f"a bid has a demandArray, pricePoints or a state, and may have a bidNumber: {SHAPES}")


def _points(told: list[Any]) -> list[tuple[int, int]]:
    if any(not isinstance(point, dict) or set(point) != {"price", "demand"} for point in told):
        raise BadMessage('a point is {"price": PRICE, "demand": WATTS}')
    return [(_whole(point["price"], "a price", "price units"), _whole(point["demand"], "a demand", "watts")) for point in told]


def _list(bid: dict[str, Any], name: str) -> list[Any]:
    if not isinstance(bid[name], list):
        raise BadMessage(f"{name} is no list: {SHAPES}")
    return list(bid[name])


def _whole(value: object, what: str, unit: str) -> int:
    """A whole number, which JSON may also write as 200.0."""
    if type(value) is int:
        return value
    if isinstance(value, float) and value.is_integer():
        return int(value)
    raise BadMessage(f"{what} is {quoted(value)}: give whole {unit}")


def quoted(value: object) -> str:
    """A value of an agent as a line quotes it: cut, and without what would break the line."""
    text = repr(value)
    return text if len(text) <= QUOTED else f"{text[:QUOTED]}.."


# What the hub says.


def _line(told: dict[str, Any]) -> bytes:
    return json.dumps(told).encode()


@dataclass(frozen=True)
class Cluster:
    """How the market names itself to an agent: its clusterId, and the commodity and the currency of its market basis."""

    id: str
    commodity: str
    currency: str


def welcome(agent: str, cluster: Cluster, basis: Basis, session: str, time: str, offer_validity: float) -> bytes:
    """The answer to a login. `session` is the id of the market's session, `time` is now, and a bid holds for `offer_validity` seconds."""
    market = {
        "commodity": cluster.commodity,
        "currency": cluster.currency,
        "minimumPrice": basis.min,
        "maximumPrice": basis.max,
        "priceSteps": basis.steps,
    }
    told = {"agentId": agent, "clusterId": cluster.id, "marketBasis": market, "session": session, "time": time}
    return _line({**told, "offerValidity": offer_validity})


def update_of(told: ControlMessage) -> bytes:
    """What the control of the agent's device is told, as the agent is told it: a priceUpdate, or that the market is silent or back."""
    if not isinstance(told, SetpointMessage):
        return _line({"marketUpdate": told.to_object()})
    update: dict[str, Any] = {"price": told.price}
    if told.reference is not None:
        update["bidNumber"] = told.reference
    update |= {"step": told.step, "power": told.power}
    update |= {"offer": told.bid, "clearing": told.clearing, "time": told.time, "until": told.until}
    if told.holds is not None:
        update["holds"] = told.holds
    return _line({"priceUpdate": update})


def error_line(text: str, code: ErrorCode, number: int | None = None) -> bytes:
    """What is wrong, and what to do; what it is about; and the agent's number of the bid that it is about, None without one."""
    return _line({"error": text, "code": code} | ({} if number is None else {"bidNumber": number}))
