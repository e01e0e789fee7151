"""Where the hub listens: WebSocket and lines over TCP, with the same words, and both by TLS if there is a certificate.

A connection is a guest of the hub from when it is accepted. By TLS nothing is made for it before it has sent its first bytes.
"""

from __future__ import annotations

import asyncio
import errno
import logging
import os
import socket
import ssl
from asyncio import sslproto
from collections.abc import Awaitable, Callable
from http import HTTPStatus
from typing import Any

from ..live.node.node_errors import BadSettings, LiveError
from ..live.page.websocket import NoHandshake, WebSocket, protocol_of
from .admission import Admission, Guest
from .agent_connection import LOGIN_SECONDS, Channel
from .agent_messages import LONGEST
from .channels import KEPT, KEPT_BESIDE, LONGEST_MESSAGE, TcpChannel, WebSocketChannel, open_socket, peer_of
from .hub_settings import Address, HubSettings
from .lines import Lines

# What the system says if it has no file for another connection, and the seconds until the hub tries again.
NO_FILES, PAUSE = (errno.EMFILE, errno.ENFILE), 0.5
# By itself asyncio keeps a buffer of 256 kB for each connection by TLS.
sslproto.SSLProtocol.max_size = KEPT

Serve = Callable[[Channel, Guest], Awaitable[None]]


class Certificate:
    """The hub's certificate and its key, which are read again when one of them changes."""

    def __init__(self, certificate: str, key: str) -> None:
        """Reads both. Raises BadSettings if they cannot be read, or do not belong together."""
        self._files = (certificate, key)
        self.context = ssl.SSLContext(ssl.PROTOCOL_TLS_SERVER)
        self.context.minimum_version = ssl.TLSVersion.TLSv1_2
        self._mark = self._marked()
        self._load(self.context)

    def _marked(self) -> list[int]:
        return [os.stat(file).st_mtime_ns if os.path.exists(file) else 0 for file in self._files]

    def _load(self, context: ssl.SSLContext) -> None:
        try:
            context.load_cert_chain(*self._files, password=lambda: "")
        except (ssl.SSLError, OSError) as error:
            why = getattr(error, "reason", None) or error.strerror or error
            raise BadSettings(f"the certificate {self._files[0]} and the key {self._files[1]} cannot be used: {why}") from None

    def look(self) -> bool:
        """Reads both again if one has changed, for new connections, and says whether it did. Raises BadSettings, once a change."""
        mark = self._marked()
        if mark == self._mark:
            return False
        self._mark = mark
        # They are tried apart first, since a context that was given a wrong key is of no use.
        self._load(ssl.SSLContext(ssl.PROTOCOL_TLS_SERVER))
        self._load(self.context)
        return True


class Server:
    """All addresses at which the hub listens."""

    def __init__(self, settings: HubSettings, serve: Serve, admission: Admission, lines: Lines) -> None:
        """Takes the settings, what works a connection, and what the hub has. Raises BadSettings and NoPackage."""
        self._settings = settings
        self._serve = serve
        self._admission = admission
        self._lines = lines
        self._sockets: list[socket.socket] = []
        self._tasks: set[asyncio.Task[None]] = set()
        self._certificate = None
        if settings.certificate is not None and settings.key is not None:
            self._certificate = Certificate(settings.certificate, settings.key)
        if settings.listen:
            protocol_of("listen, other than listen_tcp,")
        # Where it listens in fact, for WebSocket and for TCP.
        self.addresses: list[Address] = []
        self.addresses_tcp: list[Address] = []

    async def start(self) -> None:
        """Listens. Raises LiveError if an address cannot be had."""
        for address in self._settings.addresses:
            self._listen(address, self._websocket, self.addresses)
        for address in self._settings.addresses_tcp:
            self._listen(address, self._tcp, self.addresses_tcp)

    async def stop(self) -> None:
        """Listens no more, and ends what is left of connections."""
        for task in self._tasks:
            task.cancel()
        await asyncio.gather(*self._tasks, return_exceptions=True)
        for opened in self._sockets:
            opened.close()

    def look(self) -> None:
        """Reads the certificate again if it has changed."""
        try:
            if self._certificate is not None and self._certificate.look():
                self._lines.log.info("the certificate has changed: new connections have the new one")
        except BadSettings as error:
            self._lines.log.error(f"{error}: connections have the one of before")

    def _listen(self, address: Address, carry: _Carry, found: list[Address]) -> None:
        try:
            opened = open_socket(address.host, address.port)
        except OSError as error:
            raise LiveError(f"the hub cannot listen at {address}: {error.strerror or error}") from None
        self._sockets.append(opened)
        found.append(Address(address.host, opened.getsockname()[1]))
        self._start(self._accept_all(opened, carry))

    def _start(self, work: Any) -> asyncio.Task[None]:
        task: asyncio.Task[None] = asyncio.get_running_loop().create_task(work)
        self._tasks.add(task)
        task.add_done_callback(self._tasks.discard)
        return task

    # Connections.

    async def _accept_all(self, opened: socket.socket, carry: _Carry) -> None:
        """Accepts connections for ever, one at a turn of the loop, so that many of them hold up nobody."""
        loop = asyncio.get_running_loop()
        while True:
            try:
                self._welcome(*await loop.sock_accept(opened), carry)
            except ConnectionError:
                # The other side has gone already.
                pass
            except OSError as error:
                do = ": raise LimitNOFILE of the hub's unit" if error.errno in NO_FILES else ""
                self._lines.log_seldom(logging.ERROR, "no connection", f"no connection is accepted, {error.strerror}{do}")
                await asyncio.sleep(PAUSE)
            await asyncio.sleep(0)

    def _welcome(self, one: socket.socket, address: Any, carry: _Carry) -> None:
        """Takes a connection as a guest."""
        visit = _Visit(one, peer_of(address))
        guest = visit.guest = Guest(str(address[0]) if address else "?", visit.end)
        visit.task = self._start(self._work(visit, carry))
        visit.task.add_done_callback(lambda task: self._ended(visit, task))
        if self._admission.enter(guest):
            self._lines.log_seldom(logging.WARNING, "too many", f"too many connections wait for a login, many of {guest.network}: the oldest of these ends")

    async def _work(self, visit: _Visit, carry: _Carry) -> None:
        """Works one connection."""
        try:
            async with asyncio.timeout(LOGIN_SECONDS):
                if self._certificate is not None:
                    await visit.first_bytes()
                channel = await carry(visit)
            await self._serve(channel, visit.guest)
        except TimeoutError:
            self._lines.log_seldom(logging.WARNING, "no handshake", f"{visit.peer}: no handshake came for {LOGIN_SECONDS:g} s: the connection ends")
        except ssl.SSLError as error:
            why = error.reason or error
            told = f"{visit.peer}: a handshake of TLS fails ({why}): does the agent connect by TLS, and trust the certificate?"
            self._lines.log_seldom(logging.WARNING, "TLS", told)
        except NoHandshake as error:
            self._lines.log_seldom(logging.WARNING, NoHandshake, f"{visit.peer}: {error}")
        except OSError:
            # The other side has gone.
            pass

    def _ended(self, visit: _Visit, task: asyncio.Task[None]) -> None:
        """Lets a guest go whose work is over."""
        self._admission.leave(visit.guest)
        visit.abort()
        error = None if task.cancelled() else task.exception()
        if error is not None:
            self._lines.log_seldom(logging.ERROR, type(error), f"{visit.peer}: the connection failed, {error!r}")

    async def _tcp(self, visit: _Visit) -> Channel:
        reader, writer = await visit.open(self._certificate)
        return TcpChannel(reader, writer, visit.peer)

    async def _websocket(self, visit: _Visit) -> Channel:
        reader, writer = await visit.open(self._certificate)
        found = WebSocket(reader, writer, LONGEST_MESSAGE)
        try:
            await found.request()
        except NoHandshake as error:
            await found.answer(HTTPStatus.BAD_REQUEST, [("Content-Type", "text/plain; charset=utf-8")], f"{error}\n".encode())
            await found.close(1.0)
            raise
        try:
            await found.accept()
        except NoHandshake:
            await found.close(1.0)
            raise
        return WebSocketChannel(found, visit.peer)


class _Visit:
    """A connection that was accepted: its socket, and what was made for it."""

    guest: Guest
    task: asyncio.Task[None]

    def __init__(self, opened: socket.socket, peer: str) -> None:
        self._socket = opened
        self.peer = peer
        self._transport: asyncio.Transport | None = None

    async def first_bytes(self) -> None:
        """Waits until the other side has sent something. Raises ConnectionError if it has gone."""
        loop = asyncio.get_running_loop()
        came = loop.create_future()
        loop.add_reader(self._socket, lambda: None if came.done() else came.set_result(None))
        try:
            await came
        finally:
            loop.remove_reader(self._socket)
        if not self._socket.recv(1, socket.MSG_PEEK):
            raise ConnectionResetError("it has gone")

    async def open(self, certificate: Certificate | None) -> tuple[asyncio.StreamReader, asyncio.StreamWriter]:
        """The two ends, by TLS with a certificate. Raises ssl.SSLError and ConnectionError."""
        loop = asyncio.get_running_loop()
        reader = asyncio.StreamReader(limit=LONGEST, loop=loop)
        protocol = asyncio.StreamReaderProtocol(reader, loop=loop)
        by = {} if certificate is None else {"ssl": certificate.context, "ssl_handshake_timeout": LOGIN_SECONDS}
        made, _ = await loop.connect_accepted_socket(lambda: protocol, self._socket, **by)  # type: ignore[arg-type]
        self._transport = made
        made.set_write_buffer_limits(high=KEPT_BESIDE)
        return reader, asyncio.StreamWriter(made, protocol, reader, loop)

    def abort(self) -> None:
        """Closes the connection at once."""
        if self._transport is not None:
            self._transport.abort()
        else:
            self._socket.close()

    def end(self) -> None:
        """Ends the connection at once, and its work."""
        if self._transport is not None:
            self._transport.abort()
        self.task.cancel()


# Makes the channel of a connection that has sent its first bytes. Raises NoHandshake, ssl.SSLError and ConnectionError.
_Carry = Callable[[_Visit], Awaitable[Channel]]
