"""One connection over a pretended channel, and an agent over a pretended node: who is told what, and in which order."""

from __future__ import annotations

import asyncio
import json

import pytest
from logged import log_to

from cogmaula.cluster import Basis
from cogmaula.hub import agent_connection as module
from cogmaula.hub.agent_control import Agent
from cogmaula.hub.agent_connection import Connection
from cogmaula.hub.lines import Lines
from cogmaula.hub.login_refusals import LineTooLong
from cogmaula.live import BadMessage
from cogmaula.live.messages.messages import SetpointMessage

BASIS = Basis(0, 1, 2)
OVER = object()


class PretendedChannel:
    """A channel that the test feeds, and whose writing it may hold up."""

    def __init__(self):
        self.peer = "192.0.2.1:5"
        self.lines, self.written, self.is_closed = asyncio.Queue(), [], False
        self.open = asyncio.Event()
        self.open.set()

    async def read(self):
        line = await self.lines.get()
        if line is OVER:
            return None
        if isinstance(line, Exception):
            raise line
        return line

    async def write(self, line):
        await self.open.wait()
        self.written.append(json.loads(line))

    async def close(self):
        self.is_closed = True


class Table:
    """A hub of one agent, house, and what came to its node."""

    def __init__(self, gone=60.0):
        self.offers, self.said = [], []
        self.agent = Agent("house", 1, gone, asyncio.get_running_loop())
        self.agent.start(self.offers.append, None)

    def login(self, line):
        if json.loads(line) != {"agentId": "house"}:
            raise BadMessage("no such agent")
        return self.agent

    def connect(self):
        channel = PretendedChannel()
        one = Connection(channel, self.login, lambda agent: json.dumps({"welcome": agent.name}).encode(), BASIS, Lines(log_to(self.said.append)))
        channel.work = asyncio.create_task(one.run())
        channel.connection = one
        return channel

    async def logged_in(self):
        channel = self.connect()
        channel.lines.put_nowait(b'{"agentId": "house"}')
        await until(lambda: channel.written)
        return channel


async def until(holds):
    async with asyncio.timeout(10):
        while not holds():
            await asyncio.sleep(0.005)


def price(index):
    return SetpointMessage(1, 0, 0, 1, index, "2026-01-31T06:30:00.000Z", "2026-01-31T06:32:00.000Z")


def clearings(channel):
    return [message["priceUpdate"]["clearing"] for message in channel.written if "priceUpdate" in message]


def run(work):
    asyncio.run(work())


def test_a_reader_that_is_slow_gets_the_newest_alone():
    async def work():
        table = Table()
        channel = await table.logged_in()
        table.agent.write(price(1))
        await until(lambda: clearings(channel) == [1])
        channel.open.clear()
        for index in range(2, 100):
            table.agent.write(price(index))
            await asyncio.sleep(0)
        channel.open.set()
        await until(lambda: clearings(channel)[-1] == 99)
        # The first, one that was on its way, and the newest.
        first, _, newest = clearings(channel)
        assert (first, newest) == (1, 99)

    run(work)


def test_the_newest_price_comes_after_the_welcome_and_once():
    async def work():
        table = Table()
        table.agent.write(price(7))
        channel = await table.logged_in()
        await until(lambda: clearings(channel))
        table.agent.write(price(7))
        await asyncio.sleep(0.05)
        table.agent.write(price(8))
        await until(lambda: 8 in clearings(channel))
        assert channel.written[0] == {"welcome": "house"}
        assert clearings(channel) == [7, 8]

    run(work)


def test_what_an_agent_that_left_was_told_is_forgotten():
    async def work():
        table = Table()
        table.agent.write(price(7))
        table.agent.forget()
        channel = await table.logged_in()
        await asyncio.sleep(0.05)
        assert channel.written == [{"welcome": "house"}]

    run(work)


def test_bids_and_leaves_go_to_the_node():
    async def work():
        table = Table()
        channel = await table.logged_in()
        channel.lines.put_nowait(b'{"bidUpdate": {"demandArray": [3, -3], "bidNumber": 4}}')
        channel.lines.put_nowait(b" \r\n")
        channel.lines.put_nowait(b'{"leave": true}')
        await until(lambda: len(table.offers) == 2)
        assert [json.loads(offer) for offer in table.offers] == [{"power": [3, -3], "reference": 4}, {"leave": True}]
        assert table.said == []

    run(work)


def test_an_offer_waits_for_its_node():
    async def work():
        table = Table()
        agent = Agent("house", 1, 60.0, asyncio.get_running_loop())
        agent.offer(b"old")
        agent.offer(b"new")
        assert table.offers == []
        agent.start(table.offers.append, None)
        assert table.offers == [b"new"]
        agent.lose_node()
        agent.offer(b"newer")
        agent.start(table.offers.append, None)
        assert table.offers == [b"new", b"newer"]

    run(work)


def test_a_flood_of_lines_is_taken_at_its_rate(monkeypatch):
    monkeypatch.setattr(module, "BETWEEN", 0.05)

    async def work():
        table = Table()
        channel = await table.logged_in()
        for _ in range(100):
            channel.lines.put_nowait(b'{"leave": true}')
        await asyncio.sleep(0.4)
        assert 1 <= len(table.offers) <= 9

    run(work)


def test_an_end_is_told_and_closes():
    async def work():
        table = Table()
        channel = await table.logged_in()
        channel.connection.end("the hub ends")
        channel.connection.end("and once more")
        await channel.work
        assert channel.written[1:] == [{"error": "the hub ends", "code": "end"}]
        assert channel.is_closed
        assert table.said == ["house (192.0.2.1:5): the hub ends"]

    run(work)


def test_an_end_does_not_wait_for_a_reader_that_is_stuck(monkeypatch):
    monkeypatch.setattr(module, "LAST_SECONDS", 0.1)

    async def work():
        table = Table()
        channel = await table.logged_in()
        channel.open.clear()
        table.agent.write(price(1))
        channel.connection.end("the hub ends")
        async with asyncio.timeout(5):
            await channel.work
        assert channel.is_closed

    run(work)


@pytest.mark.parametrize("last", [OVER, LineTooLong(), ConnectionResetError("reset")])
def test_the_other_side_ends(last):
    async def work():
        table = Table(gone=0.05)
        channel = await table.logged_in()
        channel.lines.put_nowait(last)
        await channel.work
        assert channel.is_closed
        assert [message.get("error") for message in channel.written[1:]] == ([str(last)] if isinstance(last, LineTooLong) else [])
        # The agent has a while to come back, and then leaves.
        await until(lambda: table.offers == [b'{"leave": true}'])

    run(work)


def test_an_agent_that_is_back_in_time_stays():
    async def work():
        table = Table(gone=0.2)
        channel = await table.logged_in()
        channel.lines.put_nowait(OVER)
        await channel.work
        await table.logged_in()
        await asyncio.sleep(0.4)
        assert table.offers == []

    run(work)


def test_a_fault_of_the_hub_itself_is_said():
    async def work():
        table = Table()
        channel = table.connect()
        channel.lines.put_nowait(b"no JSON at all")
        await channel.work
        assert channel.is_closed
        assert len(table.said) == 1
        assert "JSONDecodeError" in table.said[0]

    run(work)
