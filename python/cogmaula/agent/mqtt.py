"""Values in topics of an MQTT broker, such as those of Home Assistant, Tasmota or Zigbee2MQTT. It needs Debian's python3-paho-mqtt."""

from __future__ import annotations

import contextlib
import ssl
import threading
import time
from collections.abc import Callable
from dataclasses import dataclass
from typing import Any

from ..errors import NoPackage
from ..live.broker.connection import send_at_once
from ..live.node.node_errors import BadSettings
from ..live.node.safely import read_password
from .device_values import NoReading, NotWritten, Place, number_in, require_pointer, text_with

# The seconds within which the broker has to confirm a message, its keepalive, and the most between tries to connect.
CONFIRMED, KEEPALIVE, AGAIN = 5.0, 30, 2


@dataclass(frozen=True, kw_only=True)
class BrokerPlace(Place):
    """A broker, as all places there have it.

    port:          by default 8883 with a CA and 1883 without
    ca:            the file of the CA that signed the broker's certificate: the connection is by TLS
    user:          the login there, and `password_file` a file whose first line is the password
    """

    host: str = "127.0.0.1"
    port: int | None = None
    user: str | None = None
    password_file: str | None = None
    ca: str | None = None


@dataclass(frozen=True, kw_only=True)
class MqttPlace(BrokerPlace):
    """A topic.

    pointer:  a JSON pointer to the value in what is read, such as /ENERGY/Power; without it all is the value
    payload:  what is written, with VALUE for the number
    zero:     what is written for a power of 0 in its place, such as OFF; None if `payload` is
    retain:   whether what is written is retained
    """

    topic: str
    pointer: str = ""
    payload: str = "VALUE"
    zero: str | None = None
    retain: bool = False

    def __post_init__(self) -> None:
        """Raises BadSettings."""
        super().__post_init__()
        require_pointer(self.pointer)
        if not self.topic or set("+#") & set(self.topic):
            raise BadSettings(f"the topic is {self.topic!r}: give one topic, without + and #")


class Client:
    """A connection to a broker, which comes back by itself. Topics are read again after each connection."""

    def __init__(
        self,
        place: BrokerPlace,
        topics: list[str],
        take: Callable[[str, bytes, bool], None],
        *,
        will: tuple[str, str] | None = None,
        greet: Callable[[], None] | None = None,
    ) -> None:
        """Takes the broker, the topics that are read, and a call for each message: its topic, payload and whether it was retained.

        will:  the topic and the payload that the broker publishes, retained, if the connection is lost
        greet: called after each connection

        Raises NoPackage, and OSError if the password cannot be read.
        """
        try:
            import paho.mqtt.client as paho
        except ImportError:
            raise NoPackage("MQTT needs paho (Debian: python3-paho-mqtt)") from None
        self.is_connected = False
        self._client: Any = paho.Client()
        if place.user is not None:
            word = None if place.password_file is None else read_password(place.password_file)
            self._client.username_pw_set(place.user, word)
        if place.ca is not None:
            self._client.tls_set(place.ca, tls_version=ssl.PROTOCOL_TLS_CLIENT)
        if will is not None:
            self._client.will_set(*will, 1, True)
        self._greet = greet
        self._topics = topics
        self._client.on_socket_open = lambda _client, _data, one: send_at_once(one)
        self._client.on_connect = self._connected
        self._client.on_disconnect = self._disconnected
        self._client.on_message = lambda _client, _data, message: take(message.topic, message.payload, bool(message.retain))
        self._client.reconnect_delay_set(1, AGAIN)
        self._closing = threading.Event()
        self._client.loop_forever = self._kept(self._client.loop_forever)
        self._client.connect_async(place.host, place.port or (1883 if place.ca is None else 8883), KEEPALIVE)
        self._client.loop_start()

    def _kept(self, loop: Callable[..., Any]) -> Callable[..., Any]:
        """The loop of the connection, begun again where paho 1 lets an error of a broken connection end it."""

        def run(*arguments: object, **named: object) -> Any:
            while True:
                try:
                    return loop(*arguments, **named)
                except (OSError, AttributeError):
                    if self._closing.wait(AGAIN):
                        return None

        return run

    def _connected(self, client: Any, _data: object, _flags: object, code: int) -> None:
        self.is_connected = code == 0
        if self.is_connected:
            for topic in self._topics:
                client.subscribe(topic, 1)
            if self._greet is not None:
                self._greet()

    def also_read(self, topic: str) -> None:
        """Reads one more topic, now and after each connection."""
        self._topics = [*self._topics, topic]
        if self.is_connected:
            self._client.subscribe(topic, 1)

    def _disconnected(self, _client: Any, _data: object, _code: int) -> None:
        self.is_connected = False

    def publish(self, topic: str, payload: str, retain: bool) -> bool:
        """Publishes, and says whether the broker has confirmed it in time."""
        if not self.is_connected:
            return False
        sent = self._client.publish(topic, payload, 1, retain)
        with contextlib.suppress(ValueError, RuntimeError):
            sent.wait_for_publish(CONFIRMED)
        return bool(sent.is_published())

    def post(self, topic: str, payload: str) -> None:
        """Publishes, retained, and waits for nothing. Without a connection it is dropped."""
        if self.is_connected:
            self._client.publish(topic, payload, 1, True)

    def close(self) -> None:
        """Ends the connection."""
        self._closing.set()
        self._client.disconnect()
        self._client.loop_stop()


class Mqtt:
    """A value in a topic. It is as old as its message. One that the broker has kept does not count, since nobody knows its age."""

    def __init__(self, place: MqttPlace, stale: float) -> None:
        """Takes the place, and the seconds after which a message is too old. Raises NoPackage and OSError."""
        self.place = place
        self._stale = stale
        self._lock = threading.Lock()
        self._newest: tuple[bytes, float] | None = None
        self._why_none = "no message has come"
        self._client = Client(place, [place.topic], self._take)

    def _take(self, _topic: str, payload: bytes, retained: bool) -> None:
        with self._lock:
            if retained:
                self._why_none = "the broker has a message of before, whose age nobody knows"
            else:
                self._newest = payload, time.monotonic()

    def read(self) -> float:
        """What the newest message has. Raises NoReading if there is none, or it is too old."""
        with self._lock:
            newest = self._newest
        where = f"topic {self.place.topic}"
        if newest is None:
            raise NoReading(f"{where}: {self._why_none}{'' if self._client.is_connected else ', and there is no connection'}")
        if time.monotonic() - newest[1] >= self._stale:
            raise NoReading(f"{where}: no message came for {self._stale:g} s")
        try:
            return number_in(newest[0], self.place.pointer)
        except NoReading as error:
            raise NoReading(f"{where}: {error}") from None

    def write(self, number: float) -> None:
        """Publishes the number. Raises NotWritten."""
        place = self.place
        form = place.payload if place.zero is None or number != place.offset else place.zero
        if not self._client.publish(place.topic, text_with(form, number), place.retain):
            raise NotWritten(f"topic {self.place.topic}: the broker has not confirmed it")

    def close(self) -> None:
        """Ends the connection."""
        self._client.close()
