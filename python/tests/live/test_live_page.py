"""The page of a live market as a real server has it: what it answers, whom it refuses, and what it tells at a change."""

from __future__ import annotations

import asyncio
import base64
import hashlib
import json
import re
import socket
import time

import pytest
from brokers import SECONDS, wait_until
from logged import QUIET
from looking import Served, cells_of, dom_of, get, require_browser, require_page
from pretended import MOMENT, settings
from told import Told, village

from cogmaula.live import BadSettings, BrokerSettings, PageSettings
from cogmaula.live.page import market_page
from cogmaula.live.page.board import Board
from cogmaula.live.page.page_feed import PageFeed, reading_settings


@pytest.fixture(autouse=True)
def needs():
    require_page()


@pytest.fixture
def served():
    with Served(village()) as one:
        yield one


# HTTP.


def test_the_page_is_one_file_and_may_load_nothing_else(served):
    status, headers, body = served.get()
    assert (status, headers["Content-Type"]) == (200, "text/html; charset=utf-8")
    assert (headers["X-Content-Type-Options"], headers["Cache-Control"]) == ("nosniff", "no-store")
    policy = dict(word.split(" ", 1) for word in headers["Content-Security-Policy"].split("; "))
    for tag in ("script", "style"):
        (text,) = re.findall(rf"<{tag}>(.*?)</{tag}>".encode(), body, re.DOTALL)
        assert policy[f"{tag}-src"] == f"'sha256-{base64.b64encode(hashlib.sha256(text).digest()).decode()}'"
    assert policy["default-src"] == policy["frame-ancestors"] == policy["base-uri"] == policy["form-action"] == "'none'"
    assert policy["connect-src"] == "'self'"
    assert len(body) < 40_000
    assert b"//" not in re.sub(rb"^ *//.*$", b"", body, flags=re.MULTILINE), "an outside address"
    assert b"innerHTML" not in body


def test_the_view_is_json_for_scripts(served):
    status, headers, body = served.get("/view")
    assert (status, headers["Content-Type"], headers["Cache-Control"]) == (200, "application/json", "no-store")
    told = json.loads(body)
    assert (told["own"], told["lost_since"], told["clearing"], told["price"]["price"]) == (None, None, 7, 2)
    assert [node["power"]["power"] for node in told["nodes"]] == [-110, -50, 100, -150, -60]


@pytest.mark.parametrize("path", ["/favicon.ico", "/view/", "/../view", "/index.html", "//", "/%2e"])
def test_other_paths_are_not_found(served, path):
    status, headers, _ = served.get(path)
    assert (status, headers["Cache-Control"]) == (404, "no-store")


@pytest.mark.parametrize("method", ["POST", "PUT", "DELETE", "HEAD", "OPTIONS"])
def test_other_methods_are_refused(served, method):
    assert served.get("/view", method)[0] == 400
    assert served.get("/view")[0] == 200


def test_another_name_does_not_lead_here(served):
    """A page elsewhere may have a name that leads to this machine, and so would read the market."""
    assert served.get("/view", Host="market.example:8080")[0] == 403
    assert served.get("/view", Host="localhost:8080")[0] == 200
    with Served(village(), origin="https://market.example") as other:
        assert other.get("/view", Host="market.example")[0] == 200
        assert other.get("/view", Host="other.example")[0] == 403


def test_a_plain_request_for_the_socket_is_told_so(served):
    status, _, _ = served.get("/live", Origin=f"http://127.0.0.1:{served.page.port}")
    assert status == 426


# The WebSocket.


async def refused(connect):
    """The status by which a WebSocket is refused."""
    from websockets.exceptions import InvalidStatusCode

    with pytest.raises(InvalidStatusCode) as found:
        await connect()
    return found.value.status_code


@pytest.mark.parametrize("origin", ["http://evil.example", "null", "http://127.0.0.1", "http://127.0.0.1:1", "https://evil.example:{port}"])
def test_only_the_page_itself_may_connect(served, origin):
    assert asyncio.run(refused(lambda: served.socket(origin.format(port=served.page.port)))) == 403


def test_without_an_origin_nobody_may_connect(served):
    from websockets import connect

    assert asyncio.run(refused(lambda: connect(f"ws://127.0.0.1:{served.page.port}/live"))) == 403
    assert asyncio.run(refused(lambda: served.socket(path="/other"))) == 404


def test_the_origin_of_a_proxy_may_connect():
    async def first():
        async with served.socket("https://market.example") as one:
            return json.loads(await one.recv())["clearing"]

    with Served(village(), origin="https://market.example") as served:
        assert asyncio.run(first()) == 7
        assert asyncio.run(refused(lambda: served.socket("https://other.example"))) == 403


def test_a_change_is_told(served):
    async def prices():
        async with served.socket() as one:
            found = [json.loads(await one.recv())]
            served.board.take(Told().price("auctioneer", 1, 6, 8, 5).messages.values())
            found.append(json.loads(await asyncio.wait_for(one.recv(), SECONDS)))
            served.board.lost()
            found.append(json.loads(await asyncio.wait_for(one.recv(), SECONDS)))
            return found

    before, after, lost = asyncio.run(prices())
    assert (before["price"]["price"], before["clearing"]) == (2, 7)
    assert (after["price"]["price"], after["clearing"], after["lost_since"]) == (5, 8, None)
    assert lost["lost_since"] is not None


def test_changes_are_told_at_most_twice_a_second(served):
    """The last is told, however many come."""

    async def told():
        async with served.socket() as one:
            await one.recv()
            found, begin = [], time.monotonic()
            for index in range(8, 208):
                served.board.take(Told().price("auctioneer", 1, 6, index, 5).messages.values())
                await asyncio.sleep(0.01)
            while not found or found[-1] != 207:
                found.append(json.loads(await asyncio.wait_for(one.recv(), SECONDS))["clearing"])
            return found, time.monotonic() - begin

    found, seconds = asyncio.run(told())
    assert 1 < len(found) <= 2 * seconds + 2
    assert found == sorted(set(found))


def test_a_view_is_told_again_after_a_silence(served, monkeypatch):
    monkeypatch.setattr(market_page, "SILENCE", 0.2)

    async def two():
        async with served.socket() as one:
            return [await asyncio.wait_for(one.recv(), SECONDS) for _ in range(2)]

    first, again = asyncio.run(two())
    assert first == again


def test_nothing_is_made_while_nobody_looks(served, monkeypatch):
    made = []
    monkeypatch.setattr(market_page, "view_of", lambda *_: made.append(1) or Told().view())
    for index in range(8, 40):
        served.board.take(Told().price("auctioneer", 1, 6, index, 5).messages.values())
        time.sleep(0.01)
    assert made == []


def test_what_a_client_sends_is_dropped_and_a_large_message_ends_it(served):
    from websockets.exceptions import ConnectionClosed

    async def codes():
        async with served.socket() as one:
            await one.recv()
            for _ in range(200):
                await one.send("x" * 1_000)
            served.board.take(Told().price("auctioneer", 1, 6, 8, 5).messages.values())
            assert json.loads(await asyncio.wait_for(one.recv(), SECONDS))["clearing"] == 8
            await one.send("x" * 1_025)
            with pytest.raises(ConnectionClosed):
                while True:
                    await asyncio.wait_for(one.recv(), SECONDS)
            return one.close_code

    assert asyncio.run(codes()) == 1009
    wait_until(lambda: served.page._sockets == 0, "the connection is over", 5)


def test_only_so_many_may_look(served):
    async def look():
        looking = [await served.socket() for _ in range(64)]
        assert await refused(served.socket) == 503
        found = {json.loads(await socket.recv())["clearing"] for socket in looking}
        await looking.pop().close()
        while served.page._sockets == 64:
            await asyncio.sleep(0.01)
        async with served.socket() as one:
            found.add(json.loads(await one.recv())["clearing"])
        for socket in looking:
            await socket.close()
        return found

    assert asyncio.run(look()) == {7}
    assert served.get("/view")[0] == 200


def test_connections_that_ask_for_nothing_are_ended(served, monkeypatch):
    """Else they would take all the files that a node may open."""
    monkeypatch.setattr(market_page, "PATIENCE", 1.0)
    silent = [socket.create_connection(("127.0.0.1", served.page.port)) for _ in range(160)]
    for connection in silent:
        connection.settimeout(5)

    def is_over(one):
        try:
            return one.recv(1) == b""
        except ConnectionResetError:
            return True

    assert all(is_over(connection) for connection in silent)
    wait_until(lambda: served.get("/view")[0] == 200, "the page answers", 5)
    for connection in silent:
        connection.close()


def test_a_client_that_never_reads_is_ended_and_holds_nobody_up(monkeypatch):
    """Its view is larger than all that the system keeps for a connection."""
    monkeypatch.setattr(market_page, "PATIENCE", 8.0)
    told = village()
    for number in range(400):
        told.state(f"device{number}", "device", "street", 9, why="y" * 30_000)

    async def look(served):
        reader, writer = await asyncio.open_connection("127.0.0.1", served.page.port)
        key = base64.b64encode(b"k" * 16).decode()
        address = f"127.0.0.1:{served.page.port}"
        writer.write(
            f"GET /live HTTP/1.1\r\nHost: {address}\r\nOrigin: http://{address}\r\nUpgrade: websocket\r\nConnection: Upgrade\r\n"
            f"Sec-WebSocket-Key: {key}\r\nSec-WebSocket-Version: 13\r\n\r\n".encode()
        )
        assert b"101" in await reader.readline()
        reader._transport.pause_reading()
        async with served.socket(max_size=None) as other:
            assert json.loads(await asyncio.wait_for(other.recv(), 100))["clearing"] == 7
        end = time.monotonic() + 100
        while served.page._sockets:
            assert time.monotonic() < end, "the client that never reads is still there"
            await asyncio.sleep(0.1)
        writer.close()

    with Served(told) as served:
        asyncio.run(look(served))


# What goes wrong.


def test_a_port_that_is_taken_is_a_line_and_tried_again():
    taken = socket.create_server(("127.0.0.1", 0))
    port = taken.getsockname()[1]
    one = Served(village(), listen=f"127.0.0.1:{port}")
    one.page.start()
    wait_until(lambda: one.said, "the line")
    taken.close()
    wait_until(lambda: one.page.port == port, "the page is served")
    assert one.said == [f"the page cannot be served at 127.0.0.1:{port} (Address already in use): it is tried again each 0.1 s"]
    assert one.view()["clearing"] == 7
    one.page.close(5)


def test_a_view_that_fails_is_a_line_and_says_so(served, monkeypatch):
    monkeypatch.setattr(market_page, "view_of", lambda *_: 1 // 0)
    assert "ZeroDivisionError" in served.view()["fault"]
    served.board.lost()
    time.sleep(0.6)
    assert "ZeroDivisionError" in served.view()["fault"]
    assert len(served.said) == 1


def test_a_page_that_fails_leaves_the_node_alone(tmp_path, monkeypatch, caplog):
    monkeypatch.setattr(market_page.Page, "_serve", lambda _: 1 // 0)
    showing = PageFeed(settings("relay", tmp_path, page=PageSettings("127.0.0.1:0")), QUIET)
    showing.start()
    wait_until(lambda: caplog.messages, "the line")
    showing.take([])
    showing.tick(True)
    showing.close(1)
    assert caplog.messages == ["page: the page has failed (ZeroDivisionError('integer division or modulo by zero')): it is tried again each 10 s"]


def test_without_websockets_the_node_goes_on_with_a_line(tmp_path, monkeypatch, caplog):
    import sys

    monkeypatch.setitem(sys.modules, "websockets", None)
    showing = PageFeed(settings("relay", tmp_path, page=PageSettings("127.0.0.1:0")), QUIET)
    showing.start()
    showing.tick(True)
    showing.close(1)
    lacks = f"a page needs the package websockets, which {sys.executable} does not have"
    assert caplog.messages == [f"page: {lacks}. Debian's python3-websockets is for /usr/bin/python3"]


def test_a_node_shows_what_it_hears(joined):
    one = joined("relay", page=PageSettings("127.0.0.1:0")).begun()
    one.node.showing.start()
    wait_until(lambda: one.node.showing.port, "the page is served")
    one.node.showing.tick(True)
    told = json.loads(get(one.node.showing.port, "/view")[2])
    assert (told["own"], told["lost_since"], told["basis"]) == ("street", None, {"min": 0, "max": 9, "steps": 2})
    one.node.showing.close(1)


# The board.


def test_what_the_broker_no_longer_has_goes_with_the_next_connection(caplog):
    changes = []
    board = Board(QUIET, most=4)
    board.on_change = lambda: changes.append(board.copy()[1])
    told = Told(basis=None).put("a/state", b"1").put("b/state", b"2").put("c/state", b"3")
    board.take(told.messages.values())
    assert board.copy()[1] is not None
    board.settled()
    assert board.copy()[1] is None
    board.lost()
    since = board.copy()[1]
    board.lost()
    assert board.copy()[1] == since is not None
    board.take([told.messages["market/a/state"]])
    board.take(Told(basis=None).put("b/state", b"").messages.values())
    assert sorted(board.copy()[0]) == ["market/a/state", "market/c/state"]
    board.settled()
    assert sorted(board.copy()[0]) == ["market/a/state"]
    assert len(changes) == 6
    board.take(Told(basis=None).put("d/state", b"1").put("e/state", b"1").put("f/state", b"1").put("g/state", b"1").messages.values())
    assert len(board.copy()[0]) == 4
    assert caplog.messages == ["the page keeps 4 topics and 67108864 bytes, and shows no further ones"]


# Settings.


@pytest.mark.parametrize(
    ("more", "why"),
    [
        ({"listen": "127.0.0.1"}, "give an address and a port, as in 127.0.0.1:8080"),
        ({"listen": "127.0.0.1:x"}, "give an address and a port"),
        ({"listen": "market.example:80"}, "give an address such as 127.0.0.1, and no name"),
        ({"listen": "127.0.0.1:70000"}, "give a port from 0 to 65535"),
        ({"listen": "0.0.0.0:8080"}, "the page has no login"),
        ({"listen": "[::]:8080"}, "the page has no login"),
        ({"user": "operator", "whole": True}, "go together"),
        ({"user": "operator", "password_file": "x"}, "give whole = true"),
        ({"origin": "market.example"}, "give the scheme, the host and the port"),
        ({"origin": "https://market.example/"}, "give the scheme, the host and the port"),
    ],
)
def test_each_mistake_about_the_page_has_a_line(more, why):
    with pytest.raises(BadSettings, match=re.escape(why)):
        PageSettings(**more)


def test_pages_of_loopback_and_others():
    assert (PageSettings().host, PageSettings().port) == ("127.0.0.1", 8080)
    assert PageSettings("[::1]:80").host == "::1"
    assert PageSettings("localhost:80").is_loopback
    assert not PageSettings("192.168.0.4:80", insecure=True).is_loopback


def test_the_login_that_reads():
    broker = BrokerSettings(user="street", password_file="a")
    assert reading_settings(PageSettings(), broker) == broker
    found = reading_settings(PageSettings(whole=True, user="operator", password_file="b"), broker)
    assert (found.user, found.password_file, found.host) == ("operator", "b", broker.host)


# The browser.


LOST = '<p class="alert" id="lost" role="alert">No connection since'


@pytest.fixture
def browser():
    require_browser()


def test_a_browser_shows_the_figures(browser, tmp_path):
    told = village().bid("street", 1, 4, *[2_500] * 10).put("mill/state", b"<script>alert(1)</script>")
    told.state("old", "device", "street", 3, why="<b>gone</b>")
    with Served(told) as served:
        dom = dom_of(served.page.port, tmp_path)
    assert cells_of(dom, "street")[:-2] == [
        "-", "street", "relay, child 1 of auctioneer, 3 nodes below", "up", "2", "passes 4 down", "clearing 7",
        "-50 W", "bid 5: -50 W", "-50 W", "sum of what is below, clearing 7",
    ]
    assert cells_of(dom, "street")[-2:] == ["its limits bind", "no floor to 50 W"]
    assert cells_of(dom, "house") == [
        "house", "device, child 1 of street", "up", "4", "clearing 7", "2.5 kW", "not yet answered", "bid 4: 2.5 kW",
        "100 W", "setpoint, clearing 7",
    ]
    assert '<dd id="price" aria-live="polite">2 price units</dd>' in dom
    assert "&lt;b&gt;gone&lt;/b&gt;" in dom
    assert "market/mill/state: the state is no JSON" in dom
    assert 'id="lost" role="alert" hidden=""' in dom


def test_a_browser_shows_what_is_wrong_first_and_folds_a_large_market(browser, tmp_path):
    """Of 100 agents one is down and one was let go. A load that cannot change fills no bar, and all agents are folded."""
    told = Told().state("hub", "auctioneer")
    for child in range(1, 101):
        down = {"state": "down", "why": "stopped"} if child == 77 else {}
        told.state(f"agent{child}", "device", "hub", child, **down).bid("hub", child, 2, *[800] * 10).price("hub", child, 2, 9, 3)
        told.setpoint(f"agent{child}", 800, 2, 9, 3)
    told.put("hub/lapsed/5", json.dumps({"number": 3, "why": "by hand", "time": MOMENT}).encode())
    with Served(told) as served:
        dom = dom_of(served.page.port, tmp_path)
    assert dom.index('<section id="wrong" class="wrong"') < dom.index('<dd id="price"')
    faults = re.findall(r'<li class="(\w+)"><a href="#node-(\w+)">\w+</a>([^<]*)', dom)
    assert faults == [("bad", "agent77", " is down: stopped · "), ("mild", "agent5", " is let go, by hand · ")]
    assert '<h2 id="verdict">2 things are wrong</h2>' in dom
    assert '<dd id="up">100 of 101</dd>' in dom
    assert len(re.findall(r'<tr role="row" [^>]*id="node-agent\d+"[^>]*hidden=""|<tr role="row" hidden=""[^>]*id="node-agent\d+"', dom)) == 100
    assert '<div class="bar' in dom
    assert len(re.findall(r'<div class="bar[^>]* hidden=""', dom)) == 101
    assert re.search(r'<div class="trend"><b>hub</b><svg', dom)


def test_a_browser_says_since_when_there_is_no_connection(browser, tmp_path):
    with Served(village()) as served:
        served.board.lost()
        dom = dom_of(served.page.port, tmp_path)
        assert "No connection to the broker since" in dom
        refused_sockets = Served(village())
    assert LOST not in dom
    refused_sockets.page._is_own_origin = lambda *_: False
    with refused_sockets as served:
        dom = dom_of(served.page.port, tmp_path)
    assert LOST in dom
