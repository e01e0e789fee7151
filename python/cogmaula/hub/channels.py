"""The two channels that carry lines: TCP, and WebSocket. Each holds little for a slow reader."""

from __future__ import annotations

import asyncio
import socket
from typing import Any

from ..live.page.websocket import WebSocket, close_once
from .agent_messages import LONGEST
from .login_refusals import LineTooLong

# The bytes that the system keeps for a reader, so that old priceUpdates do not pile up there, and those that wait beside. With 0
# of them asyncio would never write by TLS.
KEPT, KEPT_BESIDE = 16_384, 1
# The longest message of a WebSocket that is read; a longer one ends the connection by its code 1009, without a line.
LONGEST_MESSAGE = 4 * LONGEST
# The seconds of silence after which the system asks the other side over TCP, and how often it asks.
SILENCE, PROBES = 20, 3
# The seconds that a connection takes to end, and the connections that wait until they are accepted.
LAST_SECONDS, WAITING = 0.5, 256


def open_socket(host: str, port: int) -> socket.socket:
    """A socket that listens. Raises OSError."""
    family, kind, protocol, _, address = socket.getaddrinfo(host, port, type=socket.SOCK_STREAM, flags=socket.AI_PASSIVE)[0]
    found = socket.socket(family, kind, protocol)
    try:
        found.setblocking(False)
        found.setsockopt(socket.SOL_SOCKET, socket.SO_REUSEADDR, 1)
        # Connections that are accepted have these too.
        found.setsockopt(socket.SOL_SOCKET, socket.SO_SNDBUF, KEPT)
        found.setsockopt(socket.SOL_SOCKET, socket.SO_KEEPALIVE, 1)
        if family == socket.AF_INET6:
            found.setsockopt(socket.IPPROTO_IPV6, socket.IPV6_V6ONLY, 1)
        probes = (("TCP_KEEPIDLE", SILENCE), ("TCP_KEEPINTVL", SILENCE // PROBES), ("TCP_KEEPCNT", PROBES))
        # What is on its way and is not confirmed counts as silence too.
        for name, value in (*probes, ("TCP_USER_TIMEOUT", 2_000 * SILENCE)):
            if hasattr(socket, name):
                found.setsockopt(socket.IPPROTO_TCP, getattr(socket, name), value)
        found.bind(address)
        found.listen(WAITING)
    except OSError:
        found.close()
        raise
    return found


def peer_of(address: Any) -> str:
    """The other side of a connection, as lines name it."""
    if not address:
        return "?"
    host, port = str(address[0]), address[1]
    return f"[{host}]:{port}" if ":" in host else f"{host}:{port}"


class TcpChannel:
    """Lines over TCP, with or without TLS. See Channel."""

    def __init__(self, reader: asyncio.StreamReader, writer: asyncio.StreamWriter, peer: str) -> None:
        """Takes the two ends, and the name of the other side. The reader's limit is the longest line."""
        self._reader = reader
        self._writer = writer
        self.peer = peer

    async def read(self) -> bytes | None:
        """See Channel."""
        try:
            line = await self._reader.readuntil(b"\n")
        except asyncio.IncompleteReadError as error:
            return error.partial or None
        except asyncio.LimitOverrunError:
            raise LineTooLong() from None
        return line

    async def write(self, line: bytes) -> None:
        """See Channel."""
        self._writer.write(line + b"\n")
        await self._writer.drain()

    async def close(self) -> None:
        """See Channel. What the other side still sends is read for a moment: else the system might drop the last line to it."""
        try:
            async with asyncio.timeout(LAST_SECONDS):
                if self._writer.can_write_eof():
                    self._writer.write_eof()
                while await self._reader.read(LONGEST):
                    pass
                close_once(self._writer)
                await self._writer.wait_closed()
        except (OSError, TimeoutError):
            self._writer.transport.abort()


class WebSocketChannel:
    """Messages of a WebSocket. See Channel."""

    def __init__(self, opened: WebSocket, peer: str) -> None:
        """Takes a WebSocket behind its handshake, and the name of the other side."""
        self._websocket = opened
        self.peer = peer

    async def read(self) -> bytes | None:
        """See Channel."""
        message = await self._websocket.receive()
        if message is not None and len(message) > LONGEST:
            raise LineTooLong()
        return message

    async def write(self, line: bytes) -> None:
        """See Channel."""
        await self._websocket.send(line)

    async def close(self) -> None:
        """See Channel."""
        await self._websocket.close(2 * LAST_SECONDS)
