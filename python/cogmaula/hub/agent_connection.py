"""One connection, from its login to its end, over whatever carries its lines. All calls are of the thread of the hub's loop."""

from __future__ import annotations

import asyncio
import logging
from collections import deque
from collections.abc import Callable
from typing import Protocol

from ..cluster import Basis
from ..live.node.node_errors import BadMessage, LiveError
from ..live.device.device_kinds import DeviceKind
from .agent_control import Agent
from .agent_messages import LEAVE_OFFER, BidUpdate, ErrorCode, PowerWord, RefusedBid, error_line, word_of
from .lines import Lines
from .login_refusals import LineTooLong, NoLogin, WrongLogin

# The seconds within which a login has to come, and those in which a connection that is to end may still write.
LOGIN_SECONDS, LAST_SECONDS = 10.0, 1.0
# The least seconds between two lines of one agent: a flood of lines waits, and others do not.
BETWEEN = 0.02
# The most lines that wait to be written beside the newest priceUpdate.
WAITING = 8


class Channel(Protocol):
    """What carries the lines of one connection."""

    # The other side as lines name it.
    peer: str

    async def read(self) -> bytes | None:
        """The next line, None at the end. Raises LineTooLong and ConnectionError."""

    async def write(self, line: bytes) -> None:
        """Writes a line, and waits until the system has it. Raises ConnectionError."""

    async def close(self) -> None:
        """Ends the connection, within a second or so."""


class Connection:
    """A connection of an agent, or of one that wants to log in."""

    def __init__(
        self,
        channel: Channel,
        login: Callable[[bytes], Agent],
        welcome: Callable[[Agent], bytes],
        basis: Basis,
        log: Lines,
    ) -> None:
        """Takes the channel, and what the hub has.

        login:   finds the agent of a line, or raises LiveError
        welcome: the answer to a login
        """
        self._channel = channel
        self._login = login
        self._welcome = welcome
        self._basis = basis
        self._log = log
        # What the agent named of its device, in this connection.
        self._kind: DeviceKind | None = None
        self._agent: Agent | None = None
        self._lines: deque[bytes] = deque(maxlen=WAITING)
        self._told: bytes | None = None
        self._news = asyncio.Event()
        self._is_ending = False
        self._sending: asyncio.Task[None] | None = None

    async def run(self) -> None:
        """Works until one of the two sides ends the connection."""
        reading = asyncio.create_task(self._read_all())
        sending = self._sending = asyncio.create_task(self._send_all())
        try:
            await asyncio.wait([reading, sending], return_when=asyncio.FIRST_COMPLETED)
            self._is_ending = True
            self._news.set()
            await asyncio.wait([sending], timeout=LAST_SECONDS)
        finally:
            if self._agent is not None:
                self._agent.disconnect(self)
            for task in (reading, sending):
                task.cancel()
            for found in await asyncio.gather(reading, sending, return_exceptions=True):
                if isinstance(found, Exception) and not isinstance(found, OSError):
                    self._log.log_seldom(logging.ERROR, type(found), f"{self._name}: the connection failed, {found!r}")
            await self._channel.close()

    @property
    def _name(self) -> str:
        return self._channel.peer if self._agent is None else f"{self._agent.name} ({self._channel.peer})"

    # The calls of a Listener.

    def has_news(self) -> None:
        """See Listener."""
        self._news.set()

    def end(self, why: str, kind: object = "end", code: ErrorCode = "end") -> None:
        """See Listener. Lines of one kind and one agent are said seldom."""
        if not self._is_ending:
            self._tell_error(why, kind, code)
            self._is_ending = True
            if self._sending is not None:
                asyncio.get_running_loop().call_later(LAST_SECONDS, self._sending.cancel)

    # The lines of the agent.

    async def _read_all(self) -> None:
        try:
            await self._read_login()
            while not self._is_ending and (line := await self._channel.read()) is not None:
                if line.strip() and not self._is_ending:
                    self._take(line)
                await asyncio.sleep(BETWEEN)
        except LiveError as error:
            self.end(str(error), type(error), code_of(error))

    async def _read_login(self) -> None:
        try:
            line = await asyncio.wait_for(self._channel.read(), LOGIN_SECONDS)
        except asyncio.TimeoutError:
            raise NoLogin(f"no login came for {LOGIN_SECONDS:g} s: the connection ends") from None
        if line is None:
            self._is_ending = True
            return
        agent = self._login(line)
        self._lines.append(self._welcome(agent))
        self._agent = agent
        agent.connect(self)

    def _take(self, line: bytes) -> None:
        assert self._agent is not None
        try:
            word = word_of(line, self._basis, self._kind)
        except BadMessage as error:
            self._tell_error(str(error), type(error), code_of(error), error.number if isinstance(error, RefusedBid) else None)
            return
        if isinstance(word, DeviceKind):
            self._kind = word
        elif isinstance(word, PowerWord):
            self._agent.measures(word.line)
        else:
            self._agent.offer(word.to_offer() if isinstance(word, BidUpdate) else LEAVE_OFFER)

    # What the agent is told.

    def _tell_error(self, text: str, kind: object, code: ErrorCode, number: int | None = None) -> None:
        self._log.log_seldom(logging.WARNING, (kind, "" if self._agent is None else self._agent.name), f"{self._name}: {text}")
        self._lines.append(error_line(text, code, number))
        self._news.set()

    async def _send_all(self) -> None:
        """Writes what waits, and of the priceUpdates the newest alone: one that the agent was told is not written again."""
        while True:
            await self._news.wait()
            self._news.clear()
            while self._lines:
                await self._channel.write(self._lines.popleft())
            newest = None if self._agent is None or self._is_ending else self._agent.newest
            if newest is not None and newest != self._told:
                self._told = newest
                await self._channel.write(newest)
            if self._is_ending and not self._lines:
                return


def code_of(error: LiveError) -> ErrorCode:
    """What an error is about, as its line tells it."""
    match error:
        case NoLogin() | WrongLogin():
            return "login"
        case RefusedBid():
            return "bid"
        case BadMessage() | LineTooLong():
            return "line"
        case _:
            return "node"
