"""What joins an agent to its market: a connection to a hub, or the topics of its device's node at a broker."""

from __future__ import annotations

import contextlib
import json
import queue
import select
import socket
import ssl
import threading
import time
from collections.abc import Callable, Mapping
from dataclasses import dataclass
from datetime import datetime, timezone
from pathlib import Path
from typing import Any, Protocol

from ..cluster import Basis
from ..live.node.node_errors import BadMessage
from ..live.messages.frames import AnyOffer, Leave, Offer, Points, Stated
from ..live.broker.broker_link import Message
from ..live.messages.messages import members_of, object_of
from ..live.node.node_states import NodeStates
from ..live.node.sessions import now_text, time_of
from ..live.messages.topics import Topics
from ..logs import NodeLog
from .mqtt import BrokerPlace, Client

# The seconds between tries to connect, those within which something is written, and those of silence after which a connection counts as
# lost; and the bytes that are read at once.
AGAIN, WRITTEN, SILENCE, PIECE = 2.0, 5.0, 120.0, 65_536


@dataclass(frozen=True)
class Setpoint:
    """The market's word: take so many watts. `price` is in price units.

    holds:     for how many seconds from now, None if that was not told
    reference: the number of the offer that it answers, None if that was not told
    """

    power: int
    price: int
    holds: float | None = None
    reference: int | None = None


@dataclass(frozen=True)
class Silent:
    """The market says that it is silent."""

    why: str


@dataclass(frozen=True)
class Standing:
    """How the agent's node is, such as up or down, or whether its hub is up or away. `why` may be empty."""

    state: str
    why: str


Word = Setpoint | Silent | Basis | Standing


class Link(Protocol):
    """What joins an agent to its market."""

    def start(self, take: Callable[[Word], None], log: NodeLog) -> None:
        """Calls `take` with each word of the market from now on, from any thread; first of all with the basis."""

    def offer(self, offer: AnyOffer | None) -> int:
        """Offers this, None to leave, and gives the offer's number. The newest offer counts, also after a connection was lost."""

    def repeat(self) -> None:
        """Offers the newest again, as it was: the device lives."""

    def measure(self, watts: int) -> None:
        """Says what the device takes, in watts, below 0 if it gives. The newest counts."""

    def close(self) -> None:
        """Ends the connection."""


@dataclass(frozen=True, kw_only=True)
class HubPlace:
    """Where a hub is: lines over TCP. With `ca`, the file of the hub's certificate, by TLS.

    agent, token_file: who the agent is, and the file of its token
    """

    hub: str
    agent: str
    token_file: str
    ca: str | None = None


class HubLink:
    """A connection to a hub, which comes back by itself. See Link. One thread does all with it, since TLS may have no other."""

    def __init__(self, place: HubPlace) -> None:
        """Takes the place."""
        self._place = place
        host, _, port = place.hub.rpartition(":")
        self._host, self._port = host.strip("[]"), int(port)
        self._lock = threading.Lock()
        self._newest: bytes | None = None
        self._measured: bytes | None = None
        self._number = first_number()
        self._is_new = self._is_closed = False
        # A byte here wakes the thread.
        self._wakes, self._woken = socket.socketpair()
        for end in (self._wakes, self._woken):
            end.setblocking(False)

    def start(self, take: Callable[[Word], None], log: NodeLog) -> None:
        """See Link."""
        self._take, self._log = take, log
        self._thread = threading.Thread(target=self._work, daemon=True)
        self._thread.start()

    def offer(self, offer: AnyOffer | None) -> int:
        """See Link."""
        with self._lock:
            self._number += 1
            number = self._number
            self._newest, self._is_new = b"".join(json.dumps(words).encode() + b"\n" for words in _words_of(offer, number)), True
        self._wake()
        return number

    def repeat(self) -> None:
        """See Link."""
        with self._lock:
            self._is_new = self._newest is not None
        self._wake()

    def measure(self, watts: int) -> None:
        """See Link."""
        with self._lock:
            self._measured = json.dumps({"measured": watts}).encode() + b"\n"
        self._wake()

    def close(self) -> None:
        """See Link. What was offered last is sent before."""
        self._is_closed = True
        self._wake()
        self._thread.join(WRITTEN)
        self._wakes.close()

    def _wake(self) -> None:
        """Wakes the thread. If it has ended, or is to wake already, there is nothing to do."""
        with contextlib.suppress(OSError):
            self._wakes.send(b".")

    def _work(self) -> None:
        said = ""
        while not self._is_closed:
            try:
                self._talk()
                why = "the hub has ended the connection"
            except (OSError, BadMessage) as error:
                why = str(error)
            self._take(Standing("away", why))
            if why != said and not self._is_closed:
                said = why
                self._log.warning(f"{self._place.hub}: {why}. It is tried again each {AGAIN:g} s")
            end = time.monotonic() + AGAIN
            while not self._is_closed and (left := end - time.monotonic()) > 0:
                self._waits([], left)
        self._woken.close()

    def _waits(self, others: list[socket.socket], seconds: float) -> list[socket.socket]:
        """Which of these can be read, within so many seconds or until the thread is woken."""
        found = select.select([self._woken, *others], [], [], seconds)[0]
        if self._woken in found:
            with contextlib.suppress(BlockingIOError):
                self._woken.recv(PIECE)
        return [event for event in found if event is not self._woken]

    def _talk(self) -> None:
        """Logs in, and works until the connection ends. Raises OSError and BadMessage."""
        place = self._place
        token = Path(place.token_file).read_text().strip()
        with socket.create_connection((self._host, self._port), timeout=WRITTEN) as plain:
            context = None if place.ca is None else ssl.create_default_context(cafile=place.ca)
            one = plain if context is None else context.wrap_socket(plain, server_hostname=self._host)
            with one:
                one.sendall(json.dumps({"agentId": place.agent, "token": token}).encode() + b"\n")
                self._talk_by(one)

    def _talk_by(self, one: socket.socket) -> None:
        kept, heard, is_in = b"", time.monotonic(), False
        while time.monotonic() < heard + SILENCE:
            if is_in:
                self._send(one)
            if self._is_closed:
                return
            if not self._waits([one], 1.0):
                continue
            while piece := _read(one):
                *lines, kept = (kept + piece).split(b"\n")
                heard = time.monotonic()
                for line in lines:
                    if is_in:
                        self._hear(line)
                    else:
                        self._welcome(line)
                        is_in = self._is_new = True
            if piece == b"":
                return
        raise OSError(f"nothing came for {SILENCE:g} s")

    def _send(self, one: socket.socket) -> None:
        """Sends the newest offer, if it is not sent yet."""
        with self._lock:
            lines, self._is_new = self._newest if self._is_new else None, False
            measured, self._measured = self._measured, None
        for told in (lines, measured):
            if told is not None:
                one.sendall(told)

    def _welcome(self, line: bytes) -> None:
        told = object_of(line, "the hub's answer")
        if "error" in told:
            raise BadMessage(str(told["error"]))
        try:
            basis = told["marketBasis"]
            self._take(Basis(basis["minimumPrice"], basis["maximumPrice"], basis["priceSteps"]))
            self._take(Standing("up", ""))
        except (KeyError, TypeError):
            raise BadMessage("the hub has not answered the login") from None

    def _hear(self, line: bytes) -> None:
        told = object_of(line, "a line of the hub")
        update, market = told.get("priceUpdate"), told.get("marketUpdate")
        if isinstance(update, dict):
            try:
                self._take(setpoint_of(update, "bidNumber", is_kept=False))
            except (KeyError, TypeError, ValueError):
                raise BadMessage("a priceUpdate of the hub has no power or no price") from None
        elif isinstance(market, dict) and market.get("market") == "silent":
            self._take(Silent(f"the market is silent ({market.get('why', 'no word why')})"))
        elif "error" in told:
            self._log.warning(f"{self._place.hub}: {told['error']}")


def _read(one: socket.socket) -> bytes | None:
    """What has come, None if there is nothing more now, b"" at the end. Raises OSError."""
    one.setblocking(False)
    try:
        return one.recv(PIECE)
    except (BlockingIOError, ssl.SSLWantReadError):
        return None
    finally:
        one.settimeout(WRITTEN)


def _words_of(offer: AnyOffer | None, number: int) -> list[dict[str, Any]]:
    """An offer of this number in the words of a hub. A connection that is new knows no kind, so a state has its kind before it."""
    match offer:
        case None:
            return [{"leave": True}]
        case Offer():
            bid: dict[str, Any] = {"demandArray": offer.demands}
        case Points():
            bid = {"pricePoints": [{"price": price, "demand": power} for price, power in offer.points]}
        case Stated():
            bid = {"state": offer.state}
    kinds = [{"device": offer.kind.members()}] if isinstance(offer, Stated) else []
    return [*kinds, {"bidUpdate": {"bidNumber": number, **bid}}]


def first_number() -> int:
    """A number before those of this run's offers: above those of runs before, unless the clock was set back meanwhile."""
    return time.time_ns() // 1_000_000


def setpoint_of(told: Mapping[str, Any], reference: str, is_kept: bool) -> Setpoint:
    """The setpoint that members tell. Raises KeyError, TypeError, ValueError and BadMessage.

    reference: the member with the number of the offer that it answers
    is_kept:   whether a broker had kept it, and nobody knows for how long; then the clock of the day says what is left of it
    """
    holds, number = told.get("holds"), told.get(reference)
    seconds = None if holds is None else float(holds)
    if is_kept:
        left = (time_of(told["until"]) - datetime.now(timezone.utc)).total_seconds()
        seconds = left if seconds is None else min(seconds, left)
    return Setpoint(int(told["power"]), int(told["price"]), seconds, None if number is None else int(number))


class NodeLink:
    """The topics of the device's node at a broker: the agent is its control. See Link."""

    def __init__(self, place: BrokerPlace, prefix: str, node: str) -> None:
        """Takes the broker, the prefix of the market's topics, and the name of the device's node."""
        self._place = place
        kinds = {"basis": "basis", **{kind: f"{node}/{kind}" for kind in ("setpoint", "offer", "state", "measured")}}
        self._node, self._topics = node, {kind: f"{prefix}/{name}" for kind, name in kinds.items()}
        self._states = NodeStates(Topics(prefix), lambda topic: self._client.also_read(topic))
        self._newest: queue.Queue[str | None] = queue.Queue()
        self._words: str | None = None
        self._number = first_number()
        self._sending: threading.Thread | None = None

    def start(self, take: Callable[[Word], None], log: NodeLog) -> None:
        """See Link."""
        self._take, self._log = take, log
        self._client = Client(self._place, [self._topics[word] for word in ("basis", "setpoint", "state")], self._hear)
        self._sending = threading.Thread(target=self._send_all, daemon=True)
        self._sending.start()

    def offer(self, offer: AnyOffer | None) -> int:
        """See Link."""
        self._number += 1
        words = members_of(Leave()) if offer is None else {**members_of(offer), "reference": self._number}
        self._words = json.dumps(words)
        self._newest.put(self._words)
        return self._number

    def repeat(self) -> None:
        """See Link."""
        if self._words is not None:
            self._newest.put(self._words)

    def measure(self, watts: int) -> None:
        """See Link."""
        self._client.post(self._topics["measured"], json.dumps({"power": watts, "time": now_text()}))

    def _send_all(self) -> None:
        """Publishes the newest offer until the broker has it."""
        while (offer := self._newest.get()) is not None:
            while not self._client.publish(self._topics["offer"], offer, True) and self._newest.empty():
                time.sleep(0.2)

    def _hear(self, topic: str, payload: bytes, retained: bool) -> None:
        try:
            if topic == self._topics["state"] or topic.endswith("/site"):
                state = self._states.take(Message(topic, payload)).get(self._node)
                if state is not None:
                    self._take(Standing(state.state, state.why))
                return
            told = object_of(payload, "the message")
            if topic == self._topics["basis"]:
                self._take(Basis(told["min"], told["max"], told["steps"]))
            elif told.get("market") == "silent":
                self._take(Silent(f"the market is silent ({told.get('why', 'no word why')})"))
            elif "power" in told:
                setpoint = setpoint_of(told, "reference", is_kept=retained)
                if setpoint.holds is None or setpoint.holds > 0:
                    self._take(setpoint)
        except (BadMessage, KeyError, TypeError, ValueError) as error:
            self._log.warning(f"{topic} is not taken: {error}")

    def close(self) -> None:
        """See Link."""
        self._newest.put(None)
        if self._sending is not None:
            self._sending.join(AGAIN)
        self._client.close()
