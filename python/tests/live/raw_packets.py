"""Packets of MQTT 5 made byte by byte, and a client that writes them: for what no library would send."""

from __future__ import annotations

import socket
import struct

# The kinds of packets that are made here, and the numbers of properties.
CONNECT, PUBLISH = 0x10, 0x30
CONTENT_TYPE, RESPONSE_TOPIC, USER_PROPERTY = 3, 8, 38


def text_of(data):
    """A text as packets have it: its length, and its bytes in UTF-8."""
    data = data.encode("utf-8", "surrogatepass") if isinstance(data, str) else data
    return struct.pack("!H", len(data)) + data


def length_of(count):
    """A length as packets have it: seven bits a byte, the lowest first."""
    found = b""
    while True:
        count, digit = divmod(count, 128)
        found += bytes([digit | (0x80 if count else 0)])
        if not count:
            return found


def packet(kind, body):
    """A packet of a kind."""
    return bytes([kind]) + length_of(len(body)) + body


def user_property(name, value):
    """A user property."""
    return bytes([USER_PROPERTY]) + text_of(name) + text_of(value)


def publish(topic, payload, properties=b"", mid=1, qos=1):
    """A retained message, its properties byte by byte."""
    number = struct.pack("!H", mid) if qos else b""
    return packet(
        PUBLISH | qos << 1 | 1,
        text_of(topic) + number + length_of(len(properties)) + properties + payload,
    )


class RawClient:
    """A login at a broker that writes bytes as they are."""

    def __init__(self, port, user="", password="word"):
        self._port, self._user, self._password = port, user, password

    def __enter__(self):
        self.socket = socket.create_connection(("127.0.0.1", self._port), 10)
        login = text_of(self._user) + text_of(self._password) if self._user else b""
        flags = 0x02 | (0xC0 if self._user else 0)
        self.socket.sendall(
            packet(CONNECT, text_of("MQTT") + bytes([5, flags, 0, 60, 0]) + text_of("") + login)
        )
        kind, _ = self.reads()
        assert kind == 0x20, "the broker lets it in"
        return self

    def __exit__(self, *_):
        self.socket.close()

    def _piece(self, count):
        found = b""
        while len(found) < count:
            piece = self.socket.recv(count - len(found))
            if not piece:
                raise ConnectionError("the broker has ended the connection")
            found += piece
        return found

    def reads(self):
        """The next packet of the broker: its first byte, and what is behind its length."""
        kind, length, shift = self._piece(1)[0], 0, 0
        while True:
            (digit,) = self._piece(1)
            length, shift = length | (digit & 0x7F) << shift, shift + 7
            if digit < 0x80:
                return kind, self._piece(length)

    def passes(self, told):
        """Writes a packet, and says whether the broker answers without ending the connection."""
        try:
            self.socket.sendall(told)
            kind, _ = self.reads()
        except OSError:
            return False
        return kind & 0xF0 != 0xE0
