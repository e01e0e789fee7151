"""A page that shows a market as it lives, read-only, over HTTP and a WebSocket. docs/OPERATE.md says what it shows.

It works in a thread of its own, from copies of messages. What goes wrong in it is a line, and the node goes on. `GET /trend` has the lines
of three hours. `GET /view` has all else, a `MarketView` and beside it

    time:       when the view was made
    note:       whether the devices are models
    own:        the only node whose messages it has; of the whole market null
    lost_since: since when the broker is away
"""

from __future__ import annotations

import asyncio
import base64
import contextlib
import hashlib
import json
import os
import re
import threading
import time
from collections.abc import Callable
from http import HTTPStatus
from importlib.resources import files
from typing import Any
from urllib.parse import urlsplit

from ...errors import NoPackage
from ...logs import NodeLog
from .board import Board
from ..node.counting import NodeFacts
from .metrics import metrics_bytes
from .page_settings import PageSettings
from ..node.sessions import now_text
from .trend import Trend
from .view import MarketView, view_of
from .websocket import NoHandshake, WebSocket, protocol_of

# The least seconds between two views, and the greatest part of a processor that making them may take.
BETWEEN, MOST_WORK = 0.5, 0.1
# The most WebSockets, and the most connections with those that ask for something.
MOST_SOCKETS, MOST_CONNECTIONS = 64, 128
# The most lines about what is wrong that are remembered, each of which is written once.
MOST_WARNED = 256
# The longest message of a client in bytes, the seconds within which a client has to say what it wants, and those that an end takes.
LONGEST, PATIENCE, LAST_SECONDS = 1_024, 5.0, 1.0
# The seconds after which a view is told again, so that a client notices a connection that is lost.
SILENCE = 10.0
# The seconds between tries to listen.
PAUSE = 10.0

# The seconds that a turn of a node's loop may take.
PATIENCE_OF_LOOP = 10.0

HTML, JSON, TEXT = "text/html; charset=utf-8", "application/json", "text/plain; charset=utf-8"
METRICS = "text/plain; version=0.0.4; charset=utf-8"
Answer = tuple[HTTPStatus, list[tuple[str, str]], bytes]
COMMON = [
    ("X-Content-Type-Options", "nosniff"),
    ("Cache-Control", "no-store"),
    ("Referrer-Policy", "no-referrer"),
    ("Cross-Origin-Resource-Policy", "same-origin"),
]


def page_bytes() -> bytes:
    """The page as one file, with its style and its script in it."""
    folder = files("cogmaula.live.page")
    page = folder.joinpath("page.html").read_bytes()
    for tag, name in (("style", "page.css"), ("script", "page.js")):
        page = page.replace(f"<{tag}>{name}</{tag}>".encode(), b"<%b>\n%b</%b>" % (tag.encode(), folder.joinpath(name).read_bytes(), tag.encode()))
    return page


def policy_of(page: bytes) -> str:
    """The Content-Security-Policy of the page: its own style, its own script, its own server, and nothing else."""

    def hashes(tag: str) -> str:
        found = re.findall(rf"<{tag}>(.*?)</{tag}>".encode(), page, re.DOTALL)
        return " ".join(f"'sha256-{base64.b64encode(hashlib.sha256(code).digest()).decode()}'" for code in found)

    return (
        f"default-src 'none'; script-src {hashes('script')}; style-src {hashes('style')}; connect-src 'self'; "
        "base-uri 'none'; form-action 'none'; frame-ancestors 'none'"
    )


class Page:
    """Serves a page of what a board holds, from `start` to `close`."""

    def __init__(
        self,
        settings: PageSettings,
        prefix: str,
        board: Board,
        log: NodeLog,
        own: str | None = None,
        facts: Callable[[], list[NodeFacts]] = list,
        pause: float = PAUSE,
        note: str = "",
    ) -> None:
        """Takes the settings, the market's prefix, the board and a call for lines. Raises NoPackage if websockets is missing.

        own:   the node whose messages alone the board holds, None if it holds all of the market
        facts: what the nodes of this process tell of themselves
        pause: the seconds between tries to listen
        note:  what the page says of the market, such as that its devices are models
        """
        protocol_of("a page")
        self.settings = settings
        self._prefix, self._own, self._facts, self._note = prefix, own, facts, note
        self._board = board
        self._log = log
        self._warned: set[str] = set()
        self._pause = pause
        self._html = page_bytes()
        self._policy = policy_of(self._html)
        # The port that is listened at, 0 before that.
        self.port = 0
        self._closing = threading.Event()
        self._loop: asyncio.AbstractEventLoop | None = None
        # Whether the page's thread was told that something changed.
        self._is_told = False
        self._thread = threading.Thread(target=self._run, daemon=True)
        # Of the page's thread alone: the newest view as JSON, when it was made, and the seconds that this took.
        self._text = ""
        self._view: MarketView | None = None
        self._trend = Trend(time.time())
        self._made_at = self._work = 0.0
        self._is_old = True
        self._sockets = 0
        self._clients: set[asyncio.Task[Any]] = set()

    # The calls of other threads.

    def start(self) -> None:
        """Serves from now on."""
        self._board.on_change = self._on_change
        self._thread.start()

    def close(self, seconds: float) -> None:
        """Ends all connections and the thread, within so many seconds."""
        self._closing.set()
        self._call(lambda: self._ending.set())
        self._thread.join(seconds)

    def _on_change(self) -> None:
        if not self._is_told:
            self._is_told = True
            self._call(lambda: self._changed.set())

    def _call(self, work: Callable[[], None]) -> None:
        """Lets the page's thread do something, if it works."""
        loop = self._loop
        if loop is not None and not loop.is_closed():
            with contextlib.suppress(RuntimeError):
                loop.call_soon_threadsafe(work)

    def _warn_once(self, text: str) -> None:
        if text not in self._warned and len(self._warned) < MOST_WARNED:
            self._warned.add(text)
            self._log.of_stranger("the view").warning(text)

    # The thread.

    def _run(self) -> None:
        """Serves until the page is closed. No fault gets out of here, since the node has to go on."""
        while not self._closing.is_set():
            try:
                asyncio.run(self._serve())
            except OSError as error:
                why = os.strerror(error.errno) if error.errno else str(error)
                self._warn_once(f"the page cannot be served at {self.settings.listen} ({why}): it is tried again each {self._pause:g} s")
            except Exception as error:
                self._warn_once(f"the page has failed ({error!r}): it is tried again each {self._pause:g} s")
            self._loop = None
            self._closing.wait(self._pause)

    async def _serve(self) -> None:
        self._ending, self._changed, self._news = asyncio.Event(), asyncio.Event(), asyncio.Event()
        self._sockets, self._is_old, self._is_told = 0, True, False
        server = await asyncio.start_server(self._serve_client, self.settings.host, self.settings.port)
        async with server:
            self.port = server.sockets[0].getsockname()[1]
            self._loop = asyncio.get_running_loop()
            telling = asyncio.create_task(self._tell_news())
            if not self._closing.is_set():
                await self._ending.wait()
            for task in (telling, *self._clients):
                task.cancel()

    # The view.

    def _newest(self, is_due: bool = False) -> str:
        """The newest view as JSON. It is made anew if something has changed and it is due, or if it may be."""
        now = time.monotonic()
        if self._is_old and (is_due or now >= self._made_at + self._gap):
            self._is_old = self._is_told = False
            self._text, self._made_at = self._made(), now
            self._work = time.monotonic() - now
        return self._text

    @property
    def _gap(self) -> float:
        """The least seconds between two views."""
        return max(BETWEEN, self._work / MOST_WORK) if self._text else 0.0

    def _made(self) -> str:
        """A view as JSON, with the time when it was made and since when there is no connection to the broker."""
        messages, lost_since = self._board.copy()
        told = {"time": now_text(), "own": self._own, "note": self._note, "lost_since": lost_since}
        self._view = None
        try:
            view = self._view = view_of(self._prefix, messages, self._own)
            self._trend.take(time.time(), view)
            return json.dumps({**told, **view.to_json()})
        except Exception as error:
            self._warn_once(f"the page cannot show the market: {error!r}")
            return json.dumps({**told, "fault": repr(error)})

    async def _tell_news(self) -> None:
        """Tells all who look that there is a newer view, as often as that may be."""
        while True:
            await self._changed.wait()
            self._changed.clear()
            self._is_old = True
            await asyncio.sleep(max(0.0, self._made_at + self._gap - time.monotonic()))
            if self._sockets or self._trend.is_due(time.time()):
                self._newest(is_due=True)
            else:
                # Nobody looks: the view is made when somebody asks.
                self._is_told = False
            news, self._news = self._news, asyncio.Event()
            news.set()

    # The clients.

    async def _serve_client(self, reader: asyncio.StreamReader, writer: asyncio.StreamWriter) -> None:
        """Answers one client. It is ended if there are too many, or if it asks for nothing."""
        task = asyncio.current_task()
        assert task is not None
        if len(self._clients) >= MOST_CONNECTIONS:
            writer.transport.abort()
            return
        self._clients.add(task)
        try:
            await self._serve_socket(WebSocket(reader, writer, LONGEST))
        except (NoHandshake, OSError, TimeoutError):
            # It went, or it asks for nothing that is here.
            pass
        finally:
            self._clients.discard(task)
            writer.transport.abort()

    async def _serve_socket(self, socket: WebSocket) -> None:
        """Answers a request, and goes on with one who looks. Raises NoHandshake, ConnectionError and TimeoutError."""
        async with asyncio.timeout(PATIENCE):
            answer = await self._answer_to(socket)
            if answer is None:
                await socket.accept()
            else:
                await socket.answer(*answer)
        if answer is None:
            await self._tell(socket)
        await socket.close(LAST_SECONDS)

    async def _answer_to(self, socket: WebSocket) -> Answer | None:
        """What the request of a connection is answered by, None if it goes on as a WebSocket."""
        try:
            path, headers = await socket.request()
        except NoHandshake as error:
            return _words(HTTPStatus.BAD_REQUEST, str(error))
        return self._answer(path, headers)

    async def _tell(self, socket: WebSocket) -> None:
        """Sends the view at each change, and after a silence, to one who looks, until that one goes. What it sends is dropped."""
        self._sockets += 1
        reading = asyncio.ensure_future(self._drop_all(socket))
        try:
            while not reading.done():
                news = asyncio.ensure_future(self._news.wait())
                async with asyncio.timeout(PATIENCE):
                    # One that does not read what it is sent ends.
                    await socket.send(self._newest().encode())
                await asyncio.wait({reading, news}, timeout=SILENCE, return_when=asyncio.FIRST_COMPLETED)
                news.cancel()
        finally:
            reading.cancel()
            self._sockets -= 1

    async def _drop_all(self, socket: WebSocket) -> None:
        """Reads all that a client sends, and drops it, until the connection ends."""
        with contextlib.suppress(OSError):
            while await socket.receive() is not None:
                pass

    def _answer(self, path: str, headers: dict[str, str]) -> Answer | None:
        """What a request is answered by, None if it goes on as a WebSocket."""
        path = urlsplit(path).path
        if not self._is_own_host(headers.get("host", "")):
            return _words(HTTPStatus.FORBIDDEN, "this name is not the page's: give page.origin, the address that browsers have for it")
        if path == "/":
            return HTTPStatus.OK, [*COMMON, ("Content-Security-Policy", self._policy), ("Content-Type", HTML)], self._html
        if path == "/view":
            return HTTPStatus.OK, [*COMMON, ("Content-Type", JSON)], self._newest().encode()
        if path == "/trend":
            return HTTPStatus.OK, [*COMMON, ("Content-Type", JSON)], json.dumps(self._trend.to_json()).encode()
        if path == "/metrics":
            return self._metrics()
        if path == "/healthz":
            return self._health()
        if path != "/live":
            return _words(HTTPStatus.NOT_FOUND, "there are /, /view, /trend, /metrics, /healthz and /live")
        if not self._is_own_origin(headers.get("origin", ""), headers.get("host", "")):
            return _words(HTTPStatus.FORBIDDEN, "only the page itself may connect: read /view, or give page.origin")
        if self._sockets >= MOST_SOCKETS:
            return _words(HTTPStatus.SERVICE_UNAVAILABLE, f"{MOST_SOCKETS} are looking, and no more may")
        return None

    def _metrics(self) -> Answer:
        """The metrics of the process and of the market that is shown."""
        self._newest()
        try:
            body = metrics_bytes(self._view, self._board.is_connected, self._facts())
        except NoPackage as error:
            return _words(HTTPStatus.NOT_IMPLEMENTED, str(error))
        return HTTPStatus.OK, [*COMMON, ("Content-Type", METRICS)], body

    def _health(self) -> Answer:
        """Whether the nodes of the process are well, and else why not."""
        why = [line for facts in self._facts() for line in facts.faults(PATIENCE_OF_LOOP)]
        status = HTTPStatus.SERVICE_UNAVAILABLE if why else HTTPStatus.OK
        return status, [*COMMON, ("Content-Type", JSON)], json.dumps({"healthy": not why, "why": why}).encode()

    def _is_own_host(self, host: str) -> bool:
        """Whether a request names this page. So no other name leads a browser of this machine here."""
        if not self.settings.is_loopback:
            return True
        name = urlsplit(f"//{host}").hostname or ""
        origin = urlsplit(self.settings.origin or "").hostname
        return name in ("localhost", "127.0.0.1", "::1", self.settings.host, origin)

    def _is_own_origin(self, origin: str, host: str) -> bool:
        return origin == self.settings.origin or (bool(host) and urlsplit(origin).netloc == host)


def _words(status: HTTPStatus, text: str) -> Answer:
    return status, [*COMMON, ("Content-Type", TEXT)], f"{text}\n".encode()
