"""A hub: one whole market in one process, for agents that connect by WebSocket or TCP. docs/HUB.md says how to run one.

It is a carrier, and no market of its own. It runs a node of sort auctioneer, and one of sort device for each agent. Each node has
its own process of `live` and its own folder. So a proved service numbers each bid, clears each price and gives each setpoint.
"""

from __future__ import annotations

import asyncio
import logging
import math
from collections.abc import Callable
from typing import Any

from ..live.node.counting import NodeFacts
from ..live.node.node_errors import LiveError
from ..live.node.node import Node
from ..live.page.market_page import MOST_CONNECTIONS as CONNECTIONS_OF_PAGE
from ..live.page.market_page import PATIENCE_OF_LOOP
from ..live.node.sessions import Session, now_text
from ..logs import NodeLog
from .admission import Admission, Guest, files_allowed
from .agent_control import Agent
from .agent_connection import Channel, Connection
from .agent_messages import error_line, welcome
from .agents import Agents
from .exchange import Exchange
from .hub_page import HubPageFeed
from .hub_settings import Address, HubSettings
from .lines import Lines
from .memory import Memory
from .node_thread import Running
from .server import Server

# The seconds between looks at the files of tokens and of the certificate, and those in which connections have to end.
LOOK, LAST_SECONDS = 1.0, 3.0


class Hub:
    """A hub, from its start to its end. `run` does the work, and `stop` ends it from anywhere."""

    def __init__(
        self, settings: HubSettings, log: NodeLog | None = None, turns: Callable[[], None] = lambda: None
    ) -> None:
        """Takes the settings, and a log, by default that of this module.

        turns: is called about each second, as long as the hub and its auctioneer's node do their work

        Raises LiveError if the certificate cannot be used, NoPackage if websockets is missing and needed, and OSError.
        """
        self.settings = settings
        self._turns = turns
        self.exchange = Exchange()
        self._lines = Lines(log or NodeLog(logging.getLogger(__name__)))
        self._log = self._lines.log
        self._admission = Admission(files_allowed() - (0 if settings.page is None else CONNECTIONS_OF_PAGE))
        self._memory = Memory()
        self._server = Server(settings, self._serve, self._admission, self._lines)
        self.showing = HubPageFeed(settings.page, settings.topics.prefix, self.exchange, self._log, self.facts)
        self._connections: dict[Connection, asyncio.Task[Any] | None] = {}
        self._loop: asyncio.AbstractEventLoop | None = None
        self._stopping: asyncio.Event | None = None
        self._is_stopped = False
        self._auctioneer: Running | None = None
        self._agents: Agents | None = None
        self._session: Session | None = None
        # Whether agents can connect.
        self.is_up = False

    def facts(self) -> list[NodeFacts]:
        """What the nodes of the hub tell of themselves, the auctioneer's first. It may be called from any thread."""
        nodes = [] if self._auctioneer is None else [self._auctioneer.node]
        nodes += [] if self._agents is None else self._agents.nodes
        return [node.facts() for node in nodes]

    @property
    def addresses(self) -> list[Address]:
        """Where the hub listens for WebSocket, once it is up."""
        return self._server.addresses

    @property
    def addresses_tcp(self) -> list[Address]:
        """Where the hub listens for lines over TCP, once it is up."""
        return self._server.addresses_tcp

    def run(self) -> None:
        """Works until `stop` is called.

        Raises BadSettings if the file of tokens is wrong, NodeRefused if a person has to look first, another LiveError, or
        OSError, such as that of a full disk.
        """
        asyncio.run(self._run())

    def stop(self) -> None:
        """Ends `run`, from any thread or from the handler of a signal."""
        self._is_stopped = True
        loop, stopping = self._loop, self._stopping
        if loop is not None and stopping is not None:
            loop.call_soon_threadsafe(stopping.set)

    async def _run(self) -> None:
        loop = self._loop = asyncio.get_running_loop()
        loop.set_exception_handler(self._log_error)
        stopping = self._stopping = asyncio.Event()
        if self._is_stopped:
            return
        self.showing.start()
        node = Node(self.settings.of_auctioneer(), None, self._log.of_node(self.settings.name), self.exchange.link)
        auctioneer = self._auctioneer = Running(node, lambda _: loop.call_soon_threadsafe(stopping.set))
        try:
            await self._begin(auctioneer, stopping)
            while not stopping.is_set():
                self._look()
                await _wait(stopping, LOOK)
        finally:
            self.is_up = False
            await self._end(auctioneer)
        if auctioneer.error is not None:
            raise auctioneer.error
        if not self._is_stopped:
            raise LiveError("the auctioneer's node has failed: the lines above say why")

    async def _begin(self, auctioneer: Running, stopping: asyncio.Event) -> None:
        """Starts what stands on the auctioneer's session, once that has begun."""
        loop = asyncio.get_running_loop()
        while (session := auctioneer.node.session) is None:
            await _wait(stopping, 0.01)
            if stopping.is_set():
                return
        self._session = session
        self._agents = Agents(self.settings, self.exchange, session, loop, self._log)
        self._agents.begin()
        lacking = self._admission.files_lacking(self._agents.allowed)
        if lacking:
            self._log.error(f"{self._agents.allowed} agents may log in, and {lacking} files are lacking for them: raise LimitNOFILE of the hub's unit")
        self._admission.agents = self._agents.with_node
        await self._server.start()
        for how, found in (("WebSocket", self.addresses), ("TCP", self.addresses_tcp)):
            for address in found:
                self._log.info(f"listens at {address} for {how}{' by TLS' if self.settings.certificate else ''}")
        self.is_up = True

    def _look(self) -> None:
        assert self._agents is not None and self._auctioneer is not None
        if self._auctioneer.node.facts().loop_age < PATIENCE_OF_LOOP:
            self._turns()
        self._agents.look()
        self._server.look()
        self._lines.tick()
        self._memory.look(self._admission.ended)

    async def _end(self, auctioneer: Running) -> None:
        """Tells the agents, and ends all: first the connections, then the nodes of agents, and then the auctioneer."""
        for connection in self._connections:
            connection.end("the hub ends: connect again later", "the hub ends")
        tasks = [connection for connection in self._connections.values() if connection is not None]
        if tasks:
            await asyncio.wait(tasks, timeout=LAST_SECONDS)
        await self._server.stop()
        if self._agents is not None:
            await asyncio.to_thread(self._agents.stop)
        auctioneer.stop()
        await asyncio.to_thread(auctioneer.join, LAST_SECONDS)
        await asyncio.to_thread(self.showing.close)
        self._lines.tick(math.inf)

    # Connections.

    async def _serve(self, channel: Channel, guest: Guest) -> None:
        """Works one connection."""
        if not self.is_up:
            await channel.write(error_line("the hub ends: connect again later", "end"))
            await channel.close()
            return
        connection = Connection(channel, lambda line: self._login(line, guest), self._welcome, self.settings.basis, self._lines)
        self._connections[connection] = asyncio.current_task()
        try:
            await connection.run()
        finally:
            del self._connections[connection]

    def _login(self, line: bytes, guest: Guest) -> Agent:
        """The agent that a guest logs in as. Raises LiveError."""
        assert self._agents is not None
        agent = self._agents.login(line, guest.network)
        self._admission.admit(guest)
        self._admission.agents = self._agents.with_node
        return agent

    def _welcome(self, agent: Agent) -> bytes:
        assert self._session is not None
        settings = self.settings
        return welcome(agent.name, settings.cluster, settings.basis, self._session.id, now_text(), settings.offer_validity)

    def _log_error(self, _loop: asyncio.AbstractEventLoop, told: dict[str, Any]) -> None:
        """Logs what the loop finds wrong."""
        error = told.get("exception")
        self._lines.log_seldom(logging.ERROR, type(error), f"{told.get('message', 'a connection failed')}{'' if error is None else f': {error}'}")


async def _wait(event: asyncio.Event, seconds: float) -> None:
    """Waits for an event, at most so many seconds."""
    try:
        await asyncio.wait_for(event.wait(), seconds)
    except asyncio.TimeoutError:
        pass
