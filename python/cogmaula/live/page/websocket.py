"""The server's end of one WebSocket, or of one request of HTTP, over asyncio's streams. A page and a hub serve by it.

The package websockets gives the protocol, without input and output. So whoever accepts a connection also bounds it. Debian's is 10.4,
whose server half loads its legacy half by itself: none of our code names it.
"""

from __future__ import annotations

import asyncio
import logging
from collections import deque
from collections.abc import Iterable
from email.utils import formatdate
from http import HTTPStatus
from typing import Any

from ...errors import NoPackage
from ..node.node_errors import LiveError

# The bytes that are read at a time, and the most bytes of a request.
PIECE, LONGEST_REQUEST = 16_384, 16_384
# The most frames of one piece that are no whole message, such as pings: a client sends them one by one.
MOST_FRAMES = 64
# The seconds of silence after which the client is asked, and those within which it has to answer.
SILENCE, ANSWER = 20.0, 20.0
# The kinds of frames of which messages are made, and the codes by which a connection ends.
CONTINUATION, TEXT, BINARY = 0, 1, 2
NORMAL, AGAINST_RULES = 1000, 1008

Headers = Iterable[tuple[str, str]]


class NoHandshake(LiveError):
    """What a client sends is no request of HTTP, or none for a WebSocket. The message says why."""


def protocol_of(needs: str) -> Any:
    """The class of a server's protocol. `needs` says who needs it. Raises NoPackage if websockets is not installed."""
    try:
        from websockets import server
    except ImportError:
        raise NoPackage.lacking(f"{needs} needs the package websockets", "python3-websockets") from None
    # Version 10 has it under another name.
    return getattr(server, "ServerProtocol", None) or server.ServerConnection


def answer_bytes(status: HTTPStatus, headers: Headers, body: bytes) -> bytes:
    """An answer of HTTP behind which the connection ends."""
    more = [("Date", formatdate(usegmt=True)), ("Connection", "close"), ("Content-Length", str(len(body)))]
    lines = [f"HTTP/1.1 {status.value} {status.phrase}", *(f"{name}: {value}" for name, value in [*more, *headers])]
    return "\r\n".join([*lines, "", ""]).encode() + body


def close_once(writer: asyncio.StreamWriter) -> None:
    """Closes a connection, unless one of the two sides has begun to: by TLS asyncio would then lose it, and nobody could abort it."""
    if not writer.is_closing():
        writer.close()


class WebSocket:
    """A connection from its request to its end. Messages are bytes, also those of text."""

    def __init__(self, reader: asyncio.StreamReader, writer: asyncio.StreamWriter, longest: int) -> None:
        """Takes the two ends, and the most bytes of a message of the client. Raises NoPackage."""
        self._reader, self._writer = reader, writer
        self._protocol = protocol_of("a WebSocket")(max_size=longest, logger=_SILENT)
        self._events: deque[Any] = deque()
        self._message = bytearray()
        self._request: Any = None
        # Whether the handshake is done.
        self._is_open = False

    @property
    def _is_ending(self) -> bool:
        return not self._is_open or bool(self._protocol.close_expected())

    # The request.

    async def request(self) -> tuple[str, dict[str, str]]:
        """The path of the client's request, and by small letters the headers that it has once. Raises NoHandshake and ConnectionError."""
        taken = 0
        while self._request is None:
            piece = await self._reader.read(PIECE)
            taken += len(piece)
            if not piece:
                raise NoHandshake("the connection ended before a request")
            if taken > LONGEST_REQUEST:
                raise NoHandshake(f"the request is above {LONGEST_REQUEST} bytes")
            try:
                self._protocol.receive_data(piece)
            except Exception as error:
                # The package has an error of its own for each mistake, and raises it here up to version 10.
                raise NoHandshake(f"it is no request of HTTP: {error}") from None
            if self._protocol.handshake_exc is not None:
                raise NoHandshake(f"it is no request of HTTP: {self._protocol.handshake_exc}")
            events = self._protocol.events_received()
            if events:
                self._request, *rest = events
                self._events.extend(rest)
        values: dict[str, list[str]] = {}
        for name, value in self._request.headers.raw_items():
            values.setdefault(name.lower(), []).append(value)
        return self._request.path, {name: found[0] for name, found in values.items() if len(found) == 1}

    async def accept(self) -> None:
        """Goes on as a WebSocket. Raises NoHandshake if the request is none for one, which the client is told, and ConnectionError."""
        response = self._protocol.accept(self._request)
        self._protocol.send_response(response)
        await self._flush()
        if response.status_code != HTTPStatus.SWITCHING_PROTOCOLS:
            raise NoHandshake(f"it is no request for a WebSocket: {self._protocol.handshake_exc}")
        self._is_open = True

    async def answer(self, status: HTTPStatus, headers: Headers, body: bytes) -> None:
        """Answers the request, or what is none, in place of going on. Raises ConnectionError."""
        self._writer.write(answer_bytes(status, headers, body))
        self._write_end()
        await self._writer.drain()

    # Messages.

    async def receive(self) -> bytes | None:
        """The next message of the client, None once the connection is over. Raises ConnectionError."""
        while True:
            while self._events:
                frame = self._events.popleft()
                if frame.opcode in (CONTINUATION, TEXT, BINARY):
                    self._message += frame.data
                    if frame.fin:
                        message = bytes(self._message)
                        self._message.clear()
                        return message
            if self._is_ending or not (piece := await self._read()):
                return None
            self._protocol.receive_data(piece)
            found = self._protocol.events_received()
            if sum(not (frame.fin and frame.opcode <= BINARY) for frame in found) > MOST_FRAMES:
                self._protocol.fail(AGAINST_RULES, "too many frames at once")
                found = []
            self._events.extend(found)
            await self._flush()

    async def _read(self) -> bytes:
        """The next bytes, none at the end. A client that is silent is asked, and one that does not answer has ended."""
        try:
            async with asyncio.timeout(SILENCE):
                return await self._reader.read(PIECE)
        except TimeoutError:
            self._protocol.send_ping(b"")
            await self._flush()
        try:
            async with asyncio.timeout(ANSWER):
                return await self._reader.read(PIECE)
        except TimeoutError:
            return b""

    async def send(self, text: bytes) -> None:
        """Sends a message of text, in UTF-8, and waits until the system has it. Raises ConnectionError."""
        if self._is_ending or self._writer.is_closing():
            raise ConnectionResetError("the WebSocket is closed")
        self._protocol.send_text(text)
        await self._flush()

    async def close(self, seconds: float) -> None:
        """Ends the connection, within so many seconds."""
        try:
            async with asyncio.timeout(seconds):
                if not self._is_ending:
                    self._protocol.send_close(NORMAL)
                    await self._flush()
                # What the client still sends is read, else the system might drop the last bytes to it.
                while piece := await self._reader.read(PIECE):
                    if self._is_open:
                        self._protocol.receive_data(piece)
                        self._protocol.events_received()
                        await self._flush()
                close_once(self._writer)
                await self._writer.wait_closed()
        except (OSError, TimeoutError):
            self._writer.transport.abort()

    async def _flush(self) -> None:
        for data in self._protocol.data_to_send():
            if data:
                self._writer.write(data)
            else:
                self._write_end()
        await self._writer.drain()

    def _write_end(self) -> None:
        if self._writer.can_write_eof():
            self._writer.write_eof()
        else:
            close_once(self._writer)


# What is wrong with a connection is told by its errors.
_SILENT = logging.Logger("websockets", logging.CRITICAL + 1)
