"""Lets no packet of a broker end a connection, and no message take much of the time in which others are read.

A broker passes on what its members write. mosquitto 2.0 passes U+FEFF in properties, a payload format of 2 and more that paho
refuses by an exception, which ends its thread. A message that is retained would do so again on each connection. And a message of
some kB of properties takes a hundred times as long to read as one of a node.
"""

from __future__ import annotations

from collections.abc import Callable
from typing import Any

from ...logs import NodeLog

# The kind of a packet is in the upper half of its first byte, and the QoS of a message in two bits below.
PUBLISH, QOS = 0x30, 0x06
# The most characters of a topic in a line.
LONGEST = 200
# The most bytes of the properties of a message, and of those of a parent's Resume, which name its bids.
PROPERTIES, PROPERTIES_OF_RESUME = 1_024, 16_384


class PacketGuard:
    """Handles the packets of one client of paho in place of the client's own call, which it makes."""

    def __init__(
        self, client: Any, log: NodeLog, address: str, dropped: Callable[[Any, str], None]
    ) -> None:
        """Takes the client, a log, the broker's address as lines name it, and a call for the topic of each message that is dropped."""
        self._client = client
        self._log = log
        self._address = address
        self._told = dropped
        self._handle: Callable[[], Any] | None = getattr(client, "_packet_handle", None)
        # Its own, also if the client confirms late.
        self._confirm: Callable[[int], Any] = getattr(client, "_send_puback", lambda _number: 0)
        if self._handle is not None:
            client._packet_handle = self.handle

    def handle(self) -> Any:
        """Handles the packet that has come, and gives what the client's own call gives.

        Raises OSError alone: the connection is lost.
        """
        assert self._handle is not None
        packet = self._client._in_packet
        kind, body = packet["command"], packet["packet"]
        if kind & 0xF0 == PUBLISH:
            topic, number, properties = head_of(body, bool(kind & QOS))
            most = PROPERTIES_OF_RESUME if topic.endswith(b"/resume") else PROPERTIES
            if properties > most:
                return self._drop(topic, number, f"it has {properties} bytes of properties, and at most {most} are taken")
        try:
            return self._handle()
        except OSError:
            raise
        except Exception as error:  # noqa: BLE001 - whatever a packet leads to, the next one counts
            why = f"{type(error).__name__}: {error}"
        if kind & 0xF0 == PUBLISH:
            return self._drop(topic, number, f"it cannot be read: {why}")
        self._log.of_stranger(self._address).warning(f"{self._address}: a packet of kind {kind >> 4} is dropped: {why}")
        return 0

    def _drop(self, topic: bytes, number: int, why: str) -> Any:
        """Says that a message is dropped, and confirms it: otherwise the broker gives few further ones."""
        name = topic.decode(errors="replace")
        self._log.of_stranger(name).warning(f"{name[:LONGEST]}: a message is dropped: {why}")
        self._told(self._client, name)
        return self._confirm(number) if number else 0


def head_of(body: bytes | bytearray, has_number: bool) -> tuple[bytes, int, int]:
    """The topic of a message, its number, 0 without one, and how many bytes its properties have. What lacks is 0."""
    at = 2 + int.from_bytes(body[:2], "big")
    topic, number = bytes(body[2:at]), 0
    if has_number:
        number, at = int.from_bytes(body[at : at + 2], "big"), at + 2
    length = shift = 0
    for digit in body[at : at + 4]:
        length, shift = length | (digit & 0x7F) << shift, shift + 7
        if digit < 0x80:
            break
    return topic, number, length
