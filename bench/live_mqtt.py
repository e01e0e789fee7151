"""A connection of MQTT 5 for one simulated device, or for thousands at once: QoS 1 alone, and no connection after the first.

A simulation has to be small beside what it measures. paho takes longer for a message than a node needs to count a bid, so
the little that a device says and hears is written and read here.
"""

import socket
import ssl
import struct
import time

CONNECT, CONNACK, PUBLISH, PUBACK, SUBSCRIBE, SUBACK, PING, PONG = 0x10, 0x20, 0x30, 0x40, 0x82, 0x90, 0xC0, 0xD0
QOS, RETAINED = 0x02, 0x01
USER_PROPERTY = b"\x26"
# More than a record of TLS, so one read leaves nothing behind that a selector does not see.
PIECE = 262_144
KEEPALIVE = 60
# What a socket says that does not wait.
NOT_NOW = (BlockingIOError, ssl.SSLWantReadError, ssl.SSLWantWriteError)


def text(data):
    """A text or bytes with their length before them."""
    data = data.encode() if isinstance(data, str) else data
    return struct.pack(">H", len(data)) + data


def counted(data):
    """Bytes with their length before them, as MQTT writes a length: seven bits a byte, the least first."""
    length, before = len(data), b""
    while True:
        length, bits = divmod(length, 128)
        before += bytes([bits | (0x80 if length else 0)])
        if not length:
            return before + data


def user_properties(**members):
    """The properties of a message: texts by name."""
    return counted(b"".join(USER_PROPERTY + text(name) + text(value) for name, value in members.items()))


class Connection:
    """A connection that never waits, except for its begin. With a context of TLS it is over TLS."""

    def __init__(self, host, port, client_id, context=None):
        self._socket = socket.create_connection((host, port))
        self._socket.setsockopt(socket.IPPROTO_TCP, socket.TCP_NODELAY, 1)
        if context is not None:
            self._socket = context.wrap_socket(self._socket, server_hostname=host)
        self._in, self._out = b"", bytearray()
        self._last = 0
        self._pinged, self._waits_for_pong = time.monotonic(), False
        self.published = self.confirmed = self.suback = 0
        told = text("MQTT") + b"\x05\x02" + struct.pack(">H", KEEPALIVE) + b"\x00" + text(client_id)
        self._socket.sendall(bytes([CONNECT]) + counted(told))
        kind, length = self._exactly(2)
        if kind != CONNACK or self._exactly(length)[1] != 0:
            raise OSError("the broker refuses the connection of the devices")
        self._socket.setblocking(False)

    def _exactly(self, length):
        found = b""
        while len(found) < length:
            found += self._read(length - len(found))
        return found

    def fileno(self):
        """For a selector."""
        return self._socket.fileno()

    @property
    def unconfirmed(self):
        """How many messages the broker has not confirmed."""
        return self.published - self.confirmed

    @property
    def waits_to_write(self):
        """Whether bytes wait to be written."""
        return bool(self._out)

    def _number(self):
        self._last = self._last % 65_535 + 1
        return struct.pack(">H", self._last)

    def subscribe(self, topics):
        """Subscribes to topics, each with QoS 1."""
        told = self._number() + b"\x00" + b"".join(text(topic) + b"\x01" for topic in topics)
        self._out += bytes([SUBSCRIBE]) + counted(told)

    def publish(self, topic, payload, properties):
        """Publishes a retained message with QoS 1. `topic` is bytes with their length before them."""
        self._out += bytes([PUBLISH | QOS | RETAINED]) + counted(topic + self._number() + properties + payload)
        self.published += 1

    def write(self):
        """Writes what the socket takes."""
        if time.monotonic() > self._pinged + KEEPALIVE / 3:
            self._ping()
        if self._out:
            try:
                del self._out[: self._socket.send(self._out)]
            except NOT_NOW:
                pass

    def _ping(self):
        if self._waits_for_pong:
            raise OSError(f"the broker has not answered a ping for {KEEPALIVE / 3:.0f} s")
        self._pinged, self._waits_for_pong = time.monotonic(), True
        self._out += bytes([PING, 0])

    def _read(self, most=PIECE):
        piece = self._socket.recv(most)
        if not piece:
            raise OSError("the broker has ended the connection of the devices")
        return piece

    def messages(self):
        """Reads what has come, and gives the topic and the payload of each message. Each is confirmed."""
        try:
            self._in += self._read()
        except NOT_NOW:
            return
        data, at, size = self._in, 0, len(self._in)
        while at + 2 <= size:
            begin, length, shift = at + 1, 0, 0
            while begin < size:
                byte = data[begin]
                length |= (byte & 0x7F) << shift
                begin, shift = begin + 1, shift + 7
                if byte < 0x80:
                    break
            else:
                break
            end = begin + length
            if end > size or byte >= 0x80:
                break
            kind = data[at]
            at = end
            if kind & 0xF0 == PUBLISH:
                yield self._message(kind, data, begin, end)
            elif kind == PUBACK:
                self.confirmed += 1
            elif kind == PONG:
                self._waits_for_pong = False
            elif kind == SUBACK:
                self.suback += 1
        self._in = data[at:]

    def _message(self, kind, data, begin, end):
        behind = begin + 2 + (data[begin] << 8 | data[begin + 1])
        topic = data[begin + 2 : behind]
        if kind & QOS:
            self._out += bytes([PUBACK, 2]) + data[behind : behind + 2]
            behind += 2
        length = shift = 0
        while True:
            byte = data[behind]
            length |= (byte & 0x7F) << shift
            behind, shift = behind + 1, shift + 7
            if byte < 0x80:
                return topic, data[behind + length : end]
