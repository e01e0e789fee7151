"""What all connections to an MQTT 5 broker share: the client of paho by the settings, and what is wrong, in words."""

from __future__ import annotations

import select
import socket
import ssl
import sys
import threading
from collections.abc import Callable, Sequence
from typing import Any

from ...errors import NoPackage
from ...logs import NodeLog
from ..node.node_settings import BrokerSettings
from .packet_guard import PacketGuard

# The pauses between tries in seconds: the first, and the longest; each is twice the one before.
FIRST_PAUSE, LONGEST_PAUSE = 1.0, 60.0
# The longest message taken, in bytes.
LONGEST = 32_768
# The most bytes of the user properties of a message: the numbers and digests of 256 bids, and some words.
LONGEST_PROPERTIES = 12_288
REFUSED = 128
# The number of a user property of MQTT 5.
USER_PROPERTY = 38
NO_LOGIN = {134, 135, 138, 140}


class Waiting:
    """Waits for files as `select.select` does, but also for those above number 1023, which a process of many nodes has."""

    @staticmethod
    def select(reads: Sequence[Any], writes: Sequence[Any], _: Sequence[Any], seconds: float) -> tuple[list[Any], list[Any], list[Any]]:
        """The files that can be read, and those that can be written, after so many seconds at most. Raises ValueError for a closed one."""
        masks: dict[int, int] = {}
        for files, mask in ((reads, select.POLLIN | select.POLLPRI), (writes, select.POLLOUT)):
            for file in files:
                masks[file.fileno()] = masks.get(file.fileno(), 0) | mask
        poll = select.poll()
        for number, mask in masks.items():
            poll.register(number, mask)
        ready = dict(poll.poll(seconds * 1000))
        # A file at its end, or broken, is told to who waits for it, whose next call says what it is.
        return (
            [file for file in reads if ready.get(file.fileno(), 0) & ~select.POLLOUT],
            [file for file in writes if ready.get(file.fileno(), 0) & ~(select.POLLIN | select.POLLPRI)],
            [],
        )


def paho() -> Any:
    """The module paho.mqtt.client, which waits by `Waiting`. Raises NoPackage if it is not installed."""
    try:
        import paho.mqtt.client
        import paho.mqtt.properties
    except ImportError:
        raise NoPackage(
            f"a node needs the package paho-mqtt, which {sys.executable} does not have. Debian's python3-paho-mqtt is for /usr/bin/python3"
        ) from None
    # Its own way to wait fails above file number 1023, and it takes that for a lost connection.
    paho.mqtt.client.select = Waiting
    ease_properties(paho.mqtt.properties)
    return paho.mqtt.client


def ease_properties(module: Any) -> None:
    """Lets a module paho.mqtt.properties find names by one look, read user properties in one pass, and have its tables once for all messages.

    Its own ways make the tables for each message, go over all names for each property, and over all characters of each text. That took a
    quarter of the time of a parent of many children.
    """
    kind = getattr(module, "Properties", None)
    if getattr(module, "is_eased", False) or not all(hasattr(kind, name) for name in ("getIdentFromName", "unpack")):
        return
    tables = {name: value for name, value in vars(module.Properties(1)).items() if name != "packetType"}
    if not {"names", "properties"} <= tables.keys():
        return
    names = {name.replace(" ", ""): number for name, number in tables["names"].items()}
    kinds, unpack_any = tables["properties"][USER_PROPERTY][1], module.Properties.unpack

    def begin(self: Any, packetType: int) -> None:  # noqa: N803 - the name is the module's
        vars(self).update(tables, packetType=packetType)

    def unpack(self: Any, buffer: bytes | bytearray) -> Any:
        """Reads what has come. What is not of user properties alone, or wrong, is read by the module's own way."""
        is_fresh = len(vars(self)) == len(tables) + 1
        found = user_properties_in(buffer) if is_fresh and self.packetType in kinds else None
        if found is None:
            return unpack_any(self, buffer)
        pairs, size = found
        if pairs:
            vars(self)["UserProperty"] = pairs
        return self, size

    module.Properties.__init__ = begin
    module.Properties.unpack = unpack
    module.Properties.getIdentFromName = lambda _, name: names.get(name, -1)
    module.is_eased = True


def user_properties_in(buffer: bytes | bytearray) -> tuple[list[tuple[str, str]], int] | None:
    """The user properties of MQTT 5 with which a buffer begins, and how many bytes they have. None if others are among them, or one is wrong."""
    length = at = shift = 0
    is_last = False
    while not is_last:
        if at == min(4, len(buffer)):
            return None
        length, is_last = length | (buffer[at] & 0x7F) << shift, buffer[at] < 0x80
        at, shift = at + 1, shift + 7
    end, texts = at + length, []
    if end > len(buffer):
        return None
    try:
        while at < end:
            if buffer[at] != USER_PROPERTY:
                return None
            at += 1
            for _ in range(2):
                begin = at + 2
                at = begin + int.from_bytes(buffer[at:begin], "big")
                if at > end:
                    return None
                texts.append(buffer[begin:at].decode())
    except UnicodeDecodeError:
        return None
    if any("\0" in text or "\ufeff" in text for text in texts):
        return None
    return list(zip(texts[::2], texts[1::2], strict=True)), end


def properties_of(kind: str, **members: object) -> Any:
    """Properties of MQTT 5 for a packet of this kind."""
    from paho.mqtt.packettypes import PacketTypes
    from paho.mqtt.properties import Properties

    found = Properties(getattr(PacketTypes, kind))
    for name, value in members.items():
        setattr(found, name, value)
    return found


def user_properties_of(message: Any) -> dict[str, str]:
    """The user properties of MQTT 5 that a message has. None if they are longer than those of any node."""
    found = getattr(message.properties, "UserProperty", [])
    return dict(found) if sum(len(name) + len(value) for name, value in found) <= LONGEST_PROPERTIES else {}


def new_client(
    settings: BrokerSettings,
    client_id: str,
    ended: threading.Event,
    words: list[str],
    log: NodeLog,
    dropped: Callable[[Any, str], None] = lambda _client, _topic: None,
) -> Any:
    """A client of paho with the login and the TLS of the settings, for one connection. No packet ends it by what it says.

    ended: is set when the connection has ended
    words: get the reason, if it is known
    log:   is told of packets that are dropped
    dropped: is called with the client and the topic of each message that is

    Raises OSError if a file cannot be read.
    """
    mqtt = paho()
    version = getattr(mqtt, "CallbackAPIVersion", None)
    first = () if version is None else (version.VERSION1,)
    client = mqtt.Client(*first, client_id=client_id, protocol=mqtt.MQTTv5, reconnect_on_failure=False)
    if settings.user is not None:
        client.username_pw_set(settings.user, settings.password())
    if settings.with_tls:
        client.tls_set(settings.ca, settings.certificate, settings.key)
    client.loop_forever = _ending(client.loop_forever, settings, ended, words)
    PacketGuard(client, log, settings.address, dropped)
    return client


def _confirms_nothing(_number: int) -> int:
    return 0


class LateConfirms:
    """Lets a client of paho confirm messages by a call, from any thread, and not once its own call for them returns."""

    def __init__(self, client: Any) -> None:
        """Takes a client that has not connected yet."""
        self.client = client
        if hasattr(client, "manual_ack_set"):
            client.manual_ack_set(True)
            self._send: Callable[[int], Any] = lambda number: client.ack(number, 1)
        else:
            self._send = client._send_puback
            client._send_puback = _confirms_nothing

    def confirm(self, number: int) -> None:
        """Confirms the message of this number; 0 is that of one without a confirmation."""
        if number:
            self._send(number)


def connect(client: Any, settings: BrokerSettings, session: int = 0, unconfirmed: int = 0) -> None:
    """Connects a client. Raises OSError or ValueError, which `words_of` tells in words.

    session:     for how many seconds the broker keeps what it could not tell; 0 begins anew
    unconfirmed: how many messages it may hand on before one is confirmed; 0 leaves that to the broker
    """
    more = {"SessionExpiryInterval": session} if session else {}
    more |= {"ReceiveMaximum": unconfirmed} if unconfirmed else {}
    client.connect(
        settings.host,
        settings.port_due,
        settings.keepalive,
        clean_start=not session,
        properties=properties_of("CONNECT", MaximumPacketSize=LONGEST, **more),
    )
    send_at_once(client.socket())


def send_at_once(one: socket.socket) -> None:
    """Lets a small message go out at once: by itself it waits until the one before is acknowledged, for some 40 ms."""
    one.setsockopt(socket.IPPROTO_TCP, socket.TCP_NODELAY, 1)


def _ending(loop: Callable[..., Any], settings: BrokerSettings, ended: threading.Event, words: list[str]) -> Callable[..., Any]:
    """The loop of a client, which also ends the connection at what TLS raises: paho 1 does not catch that."""

    def run(*arguments: object, **named: object) -> Any:
        try:
            return loop(*arguments, **named)
        except OSError as error:
            words.append(words_of(error, settings))
            return paho().MQTT_ERR_CONN_LOST
        finally:
            ended.set()

    return run


def keep_connected(
    connection: Callable[[], tuple[bool, str]],
    closing: threading.Event,
    log: NodeLog,
    address: str,
    pauses: tuple[float, float],
) -> None:
    """Makes one connection after the other until `closing` is set, and says why each ended.

    connection: makes one and waits for its end: whether it was there, and why it ended
    pauses:     the seconds between tries, the first and the longest
    """
    pause = pauses[0]
    while not closing.is_set():
        was_there, why = connection()
        if closing.is_set():
            return
        pause = pauses[0] if was_there else pause
        log.warning(f"{address}: {why}. The next try is in {pause:g} s")
        closing.wait(pause)
        pause = min(2 * pause, pauses[1])


def words_of_refusal(code: Any, settings: BrokerSettings) -> str:
    """Why a broker refuses a connection, and what to do."""
    if code.value not in NO_LOGIN:
        return f"the broker refuses the connection: {code}"
    user = f"the login of {settings.user}" if settings.user else "a login without a user"
    return f"the broker refuses {user} ({code}): look at user, password_file and the broker's list of users"


def words_of_end(code: Any, was_there: bool) -> str:
    """Why a connection ended, that was there or was not."""
    if not isinstance(code, int):
        return f"the broker ends the connection: {code}"
    if not was_there:
        return "the connection ended before a login: does the broker want TLS, or a certificate of the node?"
    more = "" if code == paho().MQTT_ERR_CONN_LOST else f": {paho().error_string(code)}"
    return f"the connection was lost{more}"


def words_of(error: Exception, settings: BrokerSettings) -> str:
    """Why no connection was made, in words, and what to do."""
    if isinstance(error, ssl.SSLCertVerificationError):
        return f"the broker's certificate is not trusted ({error.verify_message}): give the CA that signed it by ca, and its own host name"
    if isinstance(error, ssl.SSLError):
        return f"TLS fails ({getattr(error, 'reason', None) or error}): look at tls, ca, certificate, key and the port"
    if isinstance(error, FileNotFoundError | PermissionError):
        return f"{error.filename or 'a file of the settings'} cannot be read: {error.strerror}"
    if isinstance(error, ConnectionResetError) and settings.with_tls:
        return "the broker ended the connection before TLS was there: does it speak TLS at this port?"
    if isinstance(error, OSError):
        return f"the broker cannot be reached ({error.strerror or error})"
    return f"the settings of the broker are refused: {error}"
