"""A page that a test serves, and clients that look at it: by HTTP, by a WebSocket, and by a browser without a window."""

from __future__ import annotations

import http.client
import json
import os
import re
import shutil
import subprocess

import pytest
from brokers import SECONDS, wait_until
from logged import log_to

from cogmaula.live.page.board import Board
from cogmaula.live.page.page_settings import PageSettings

CHROMIUM = shutil.which("chromium")


def require_page():
    """Skips the test if the page's package is not installed."""
    pytest.importorskip("websockets", reason="websockets is not installed: apt-get install python3-websockets")


def require_browser():
    """Skips the test if there is no browser."""
    require_page()
    if CHROMIUM is None:
        pytest.skip("chromium is not installed: apt-get install chromium")


class Served:
    """A page of a test's messages, from its start to its end. What it says is in `said`."""

    def __init__(self, told=None, own=None, facts=list, **settings):
        from cogmaula.live.page.market_page import Page

        self.said = []
        self.board = Board(log_to(self.said.append))
        settings = {"listen": "127.0.0.1:0", **settings}
        self.page = Page(PageSettings(**settings), "market", self.board, log_to(self.said.append), own, facts, pause=0.1)
        if told is not None:
            self.board.take(told.messages.values())
            self.board.settled()

    def __enter__(self):
        self.page.start()
        wait_until(lambda: self.page.port, f"the page is served: {self.said}")
        return self

    def __exit__(self, *_):
        self.page.close(5)
        assert not self.page._thread.is_alive()

    def get(self, path="/", method="GET", **headers):
        return get(self.page.port, path, method, **headers)

    def view(self):
        return json.loads(self.get("/view")[2])

    def socket(self, origin=None, path="/live", **more):
        """A WebSocket of a client. Its origin is the page's."""
        return socket_of(self.page.port, origin, path, **more)


def get(port, path="/", method="GET", **headers):
    """The status, the headers and the body of an answer."""
    connection = http.client.HTTPConnection("127.0.0.1", port, timeout=SECONDS)
    try:
        connection.request(method, path, headers=headers)
        answer = connection.getresponse()
        return answer.status, dict(answer.getheaders()), answer.read()
    finally:
        connection.close()


def socket_of(port, origin=None, path="/live", **more):
    from websockets import connect

    more = {"compression": None, **more}
    return connect(f"ws://127.0.0.1:{port}{path}", origin=origin or f"http://127.0.0.1:{port}", **more)


def dom_of(port, folder, milliseconds=4_000):
    """The page as a browser has it after so long."""
    words = ["--headless", "--no-sandbox", "--disable-gpu", "--dump-dom", f"--virtual-time-budget={milliseconds}"]
    words += [f"--user-data-dir={folder / 'browser'}", f"http://127.0.0.1:{port}/"]
    found = subprocess.run([CHROMIUM, *words], capture_output=True, timeout=4 * SECONDS, check=True, env={**os.environ, "HOME": str(folder)})
    return found.stdout.decode()


def cells_of(dom, name):
    """The texts of a node's row, without those that are hidden, and without ages."""
    dom = dom.replace("&nbsp;", " ").replace("\u2212", "-")
    (row,) = [row for row in re.findall(r"<tr.*?</tr>", dom, re.DOTALL) if f'<span class="main">{name}</span>' in row]
    shown = re.sub(r'<(\w+)[^>]* hidden=""[^>]*>.*?</\1>|<span class="more age"[^>]*>[^<]*</span>', "", row)
    return re.findall(r">([^<]+)<", shown)
