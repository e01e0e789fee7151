"""Hubs that a test starts: in a thread, or in a process that it may kill. And agents that connect to them by WebSocket or TCP."""

from __future__ import annotations

import asyncio
import contextlib
import json
import os
import resource
import select
import signal
import socket
import ssl
import subprocess
import sys
import threading
import time
from pathlib import Path

import pytest
from brokers import SECONDS, TOP, free_port, wait_until
from logged import log_to

from cogmaula.cluster import Basis
from cogmaula.hub import Hub, HubSettings, TokenFile
from cogmaula.live import LiveError

STEPS = 10
BASIS = Basis(0, STEPS - 1, STEPS)
CONSTANT = [100] * STEPS
# What a socket raises that would have to wait.
WAITS = (BlockingIOError, ssl.SSLWantReadError, ssl.SSLWantWriteError)
CHILDREN = {"house": 1, "store": 2, "mill": 3}
TABLES_OF_PAGE = {
    "hub": {"state": "state", "agents": "agents", "listen_tcp": ["127.0.0.1:0"], "record": "recorded"},
    "basis": {"min": 0, "max": 9, "steps": 10},
}


def falls_at(step, before, behind):
    """Demands that fall from one power to another at a step, in watts."""
    return [before] * step + [behind] * (STEPS - step)


def clearing_step(*offers):
    """The first step at which these offers together are not positive, or the last."""
    sums = [sum(them) for them in zip(*offers, strict=True)]
    return next((step for step, total in enumerate(sums) if total <= 0), STEPS - 1)


def tokens_in(folder, children=CHILDREN):
    """A file of tokens in a folder, and the token of each agent."""
    file = TokenFile(Path(folder) / "agents")
    return {agent: file.add(agent, child) for agent, child in children.items()}


class HubInThread:
    """A hub in a thread of the test."""

    def __init__(self, folder, live, tokens=None, **more):
        self.folder = Path(folder)
        self.folder.mkdir(parents=True, exist_ok=True)
        self.tokens = tokens_in(folder) if tokens is None else tokens
        self.said, self.raised = [], None
        common = {"state": str(self.folder / "state"), "agents": str(self.folder / "agents"), "basis": BASIS, "live": live}
        common |= {"listen_tcp": ("127.0.0.1:0",), "pause": 0.05}
        self.settings = HubSettings(**{**common, **more})

    def start(self):
        self.hub = Hub(self.settings, log_to(self.said.append, self.settings.name))
        self.thread = threading.Thread(target=self._run)
        self.thread.start()
        wait_until(lambda: self.hub.is_up or not self.thread.is_alive(), f"the hub is up: {self.said}")
        return self

    def _run(self):
        try:
            self.hub.run()
        except LiveError as error:
            self.raised = error

    def stop(self):
        self.hub.stop()
        self.thread.join(SECONDS)
        assert not self.thread.is_alive()

    @property
    def port(self):
        return self.hub.addresses_tcp[0].port

    @property
    def websocket_port(self):
        return self.hub.addresses[0].port

    def agent(self, name, **more):
        """An agent that connects by TCP and logs in."""
        return TcpAgent(self.port, **more).login(name, self.tokens[name])

    def running(self, name):
        """The node of an agent, or the auctioneer's, at work."""
        return self.hub._auctioneer if name == "auctioneer" else self.hub._agents._agents[name].running

    __enter__ = start

    def __exit__(self, *_):
        self.stop()


class HubProcess:
    """A hub in a process of its own, which the test may kill. It may open so many files at most."""

    def __init__(self, folder, live, *words, tokens=None, listen="listen_tcp", files=None, **members):
        self.folder, self.live, self.words, self.files = Path(folder), live, words, files
        self.tokens = tokens_in(folder) if tokens is None else tokens
        self.port = free_port()
        told = {"state": str(self.folder / "state"), "agents": str(self.folder / "agents"), "pause": 0.05}
        told |= {listen: [f"127.0.0.1:{self.port}"], **members}
        lines = ["[hub]", *[f"{name} = {json.dumps(value)}" for name, value in told.items()]]
        (self.folder / "hub.toml").write_text("\n".join([*lines, "[basis]", "min = 0", "max = 9", "steps = 10"]) + "\n")
        self.process = None

    def command(self, *words):
        return [sys.executable, "-m", "cogmaula", "hub", "--config", str(self.folder / "hub.toml"), *words]

    @property
    def environment(self):
        return {**os.environ, "PYTHONPATH": str(TOP / "python"), "PYTHONDONTWRITEBYTECODE": "1", "COGMAULA_LIVE": self.live}

    def start(self):
        bound = None if self.files is None else lambda: resource.setrlimit(resource.RLIMIT_NOFILE, (self.files, self.files))
        with open(self.folder / "hub.err", "ab") as log:
            self.process = subprocess.Popen(self.command(*self.words), stderr=log, env=self.environment, preexec_fn=bound)
        wait_until(lambda: self._listens() or self.process.poll() is not None, "the hub listens")
        return self

    def _listens(self):
        with socket.socket() as one:
            return one.connect_ex(("127.0.0.1", self.port)) == 0

    @property
    def lines(self):
        return (self.folder / "hub.err").read_text().splitlines()

    @property
    def megabytes(self):
        """The memory of the process that no other shares."""
        rows = Path(f"/proc/{self.process.pid}/smaps_rollup").read_text().splitlines()
        return sum(int(row.split()[1]) for row in rows if row.startswith("Private")) / 1024

    def agent(self, name, **more):
        return TcpAgent(self.port, **more).login(name, self.tokens[name])

    def kill(self):
        self.process.kill()
        self.process.wait()

    def stop(self):
        """Ends it by SIGTERM, and gives its status and the seconds that this took."""
        begin = time.monotonic()
        if self.process.poll() is None:
            self.process.send_signal(signal.SIGTERM)
        return self.process.wait(SECONDS), time.monotonic() - begin

    __enter__ = start

    def __exit__(self, *_):
        self.stop()


@contextlib.contextmanager
def silent_connections(port, count, data=b""):
    """So many connections that say nothing behind these bytes."""
    opened = []
    try:
        for _ in range(count):
            one = socket.create_connection(("127.0.0.1", port), timeout=SECONDS)
            opened.append(one)
            if data:
                with contextlib.suppress(OSError):
                    one.sendall(data)
        yield opened
    finally:
        for one in opened:
            one.close()


class Told:
    """What an agent was told, line by line, and what it says. A connection is a subclass."""

    def __init__(self):
        self.told, self.is_over = [], False

    def login(self, name, token):
        self.name = name
        return self.says({"agentId": name, "token": token})

    def bids(self, demands, number=None):
        bid = {"demandArray": demands}
        return self.says({"bidUpdate": bid if number is None else {**bid, "bidNumber": number}})

    @property
    def prices(self):
        return [message["priceUpdate"] for message in self.told if "priceUpdate" in message]

    @property
    def errors(self):
        return [message["error"] for message in self.told if "error" in message]

    @property
    def welcome(self):
        wait_until(lambda: self.told, "the agent is told a line")
        return self.told[0]

    def has(self, **due):
        """Whether the newest priceUpdate has these members."""
        return bool(self.prices) and due.items() <= self.prices[-1].items()

    def waits_for(self, **due):
        wait_until(lambda: self.has(**due), f"{due}, and not {self.told[-3:]}")
        return self

    def waits_for_error(self, words):
        wait_until(lambda: any(words in error for error in self.errors), f"{words!r}, and not {self.told[-3:]}")
        return self

    def waits_for_end(self):
        wait_until(lambda: self.is_over, f"the connection ends, after {self.told[-3:]}")
        return self


class TcpAgent(Told):
    """An agent over TCP, by TLS if a CA is given. A slow one reads nothing until it is let. It may have another address."""

    def __init__(self, port, ca=None, is_slow=False, address="127.0.0.1"):
        super().__init__()
        one = socket.socket()
        one.bind((address, 0))
        if is_slow:
            one.setsockopt(socket.SOL_SOCKET, socket.SO_RCVBUF, 4_096)
        one.connect(("127.0.0.1", port))
        if ca is not None:
            one = ssl.create_default_context(cafile=ca).wrap_socket(one, server_hostname="127.0.0.1")
        one.setblocking(False)
        self.socket = one
        # One thread alone may use a TLS connection at a time, and nobody waits with the lock.
        self.lock = threading.Lock()
        if not is_slow:
            self.reads()

    def reads(self):
        threading.Thread(target=self._read_all, daemon=True).start()
        return self

    def _pieces(self):
        """The bytes that come, piece by piece."""
        while self.socket.fileno() >= 0:
            try:
                with self.lock:
                    piece = self.socket.recv(65_536)
            except WAITS:
                select.select([self.socket], [], [], 1)
                continue
            if not piece:
                return
            yield piece

    def _read_all(self):
        kept = b""
        try:
            for piece in self._pieces():
                *lines, kept = (kept + piece).split(b"\n")
                self.told += [json.loads(line) for line in lines]
        except OSError:
            pass
        self.is_over = True

    def says(self, told):
        return self.says_bytes(json.dumps(told).encode() + b"\n")

    def says_bytes(self, data):
        try:
            while data:
                try:
                    with self.lock:
                        data = data[self.socket.send(data) :]
                except WAITS:
                    select.select([], [self.socket], [], 1)
        except OSError:
            pass
        return self

    def close(self):
        """Ends the connection, also if a thread reads."""
        with self.lock, contextlib.suppress(OSError):
            self.socket.shutdown(socket.SHUT_RDWR)


class WebSocketAgent(Told):
    """An agent over WebSocket, by TLS if a CA is given."""

    def __init__(self, port, ca=None):
        super().__init__()
        self.websockets = pytest.importorskip("websockets", reason="apt-get install python3-websockets")
        self.url = f"{'ws' if ca is None else 'wss'}://127.0.0.1:{port}"
        self.context = {} if ca is None else {"ssl": ssl.create_default_context(cafile=ca)}
        self.code, self.loop, self.is_open = None, None, threading.Event()
        threading.Thread(target=lambda: asyncio.run(self._work()), daemon=True).start()
        assert self.is_open.wait(SECONDS)

    async def _work(self):
        self.loop = asyncio.get_running_loop()
        try:
            async with self.websockets.connect(self.url, **self.context) as one:
                self.connection = one
                self.is_open.set()
                async for message in one:
                    self.told.append(json.loads(message))
        except self.websockets.ConnectionClosed:
            pass
        self.code = self.connection.close_code
        self.is_over = True

    def says(self, told):
        return self.says_text(json.dumps(told))

    def says_text(self, text):
        asyncio.run_coroutine_threadsafe(self.connection.send(text), self.loop).result(SECONDS)
        return self

    def close(self):
        asyncio.run_coroutine_threadsafe(self.connection.close(), self.loop).result(SECONDS)
