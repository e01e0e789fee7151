"""The page of a market of real nodes over a real broker: its figures are those that the devices' controls were told."""

from __future__ import annotations

import json
import subprocess

import pytest
from brokers import Mosquitto, Onlooker, live_program, passwords, require_broker, wait_until
from logged import log_to
from looking import cells_of, dom_of, get, require_browser, require_page
from markets import STEPS, Market, falls_at

from cogmaula.live import BrokerSettings, PageSettings
from cogmaula.live.page.board import Board
from cogmaula.live.broker.market_reader import Reader

WHOLE, OWN = PageSettings("127.0.0.1:0", whole=True), PageSettings("127.0.0.1:0")


@pytest.fixture
def live():
    require_page()
    require_broker()
    return live_program()


@pytest.fixture
def broker(tmp_path, live):
    with Mosquitto(tmp_path / "broker") as one:
        yield one


@pytest.fixture
def market(broker, live, tmp_path):
    with Market(broker.port, live, tmp_path) as one:
        yield one


def view_at(market, name):
    """What the page of a node tells."""
    port = market.nodes[name].showing.port
    return json.loads(get(port, "/view")[2]) if port else {"nodes": [], "clearing": None, "lost_since": ""}


def node_of(view, name):
    return next((node for node in view["nodes"] if node["name"] == name), None)


def start_limited(market, **pages):
    """The market of `test_a_relay_keeps_its_limits`: it clears at 2, and the street, which takes at most 50 W, passes 4.

    A price that gives what the one before gave is told within two heartbeats, here within four seconds.
    """
    for name, more in (("auctioneer", {"validity": 20.0, "heartbeat": 2.0}), ("street", {"ceiling": 50}), ("house", {}), ("store", {}), ("mill", {})):
        market.start(name, **more, **({"page": pages[name]} if name in pages else {}))
    market.offers(house=[100] * STEPS, store=falls_at(4, 0, -150), mill=falls_at(2, 60, -60))
    market.settles_at(2, mill=-60)
    market.settles_at(4, house=100, store=-150)


def shows_setpoints(market, view):
    """Whether a page shows each device's newest setpoint, and the sums of just these."""
    told = {name: market.controls[name].setpoints[-1] for name in ("house", "store", "mill")}
    shown = {name: (node_of(view, name) or {}).get("setpoint") for name in told}
    clearings = {price["clearing"] for price in told.values()}
    return shown == told and clearings == {view["clearing"]} and view["lost_since"] is None


def test_the_figures_are_the_setpoints(market):
    """The house takes 100 W and the store gives 150 W, so the street gives 50 W, which it announces at each price. With the mill's 60 W the market gives 110 W."""
    start_limited(market, auctioneer=WHOLE)
    wait_until(lambda: shows_setpoints(market, view_at(market, "auctioneer")), "the setpoints")
    view = view_at(market, "auctioneer")
    assert [(node["name"], node["depth"], node["sort"], node["state"]) for node in view["nodes"]] == [
        ("auctioneer", 0, "auctioneer", "up"), ("street", 1, "relay", "up"), ("house", 2, "device", "up"), ("store", 2, "device", "up"),
        ("mill", 1, "device", "up"),
    ]
    assert [node["power"]["power"] for node in view["nodes"]] == [-110, -50, 100, -150, -60]
    assert {(node["power"]["first"], node["power"]["last"]) for node in view["nodes"]} == {(view["clearing"], view["clearing"])}
    street = node_of(view, "street")
    assert (street["price"]["price"], street["passed"]["price"], street["is_within"]) == (2, 4, True)
    assert (street["floor"], street["ceiling"], street["bid"]["demand"]) == (None, 50, -50)
    assert all(node["bid"]["is_answered"] for node in view["nodes"][1:])
    assert (view["price"]["price"], view["own"], view["lost_since"], view["not_taken"]) == (2, None, None, [])
    assert view["session"] == market.nodes["auctioneer"].session.id
    market.offers(house=[0] * STEPS, mill=falls_at(6, 200, 0))
    market.settles_at(6, mill=0, store=-150, house=0)
    wait_until(lambda: shows_setpoints(market, view_at(market, "auctioneer")), "the setpoints of the next clearing")
    assert view_at(market, "auctioneer")["clearing"] > view["clearing"]
    market.nodes["house"].stop()
    wait_until(lambda: node_of(view_at(market, "auctioneer"), "house")["state"] == "down", "the house is down")
    house = node_of(view_at(market, "auctioneer"), "house")
    assert (house["why"], house["power"]["power"]) == ("stopped", 0)


def test_without_whole_a_relay_shows_what_it_hears(market):
    start_limited(market, street=OWN)

    def shown():
        view = view_at(market, "street")
        return [(node["name"], node["child"], node["power"] and node["power"]["power"]) for node in view["nodes"]], view["lost_since"]

    due = [("auctioneer", None, None), ("street", 1, -50), ("house", 1, 100), ("store", 2, -150)], None
    wait_until(lambda: shown() == due, f"the street sees its children: {shown()}")
    assert view_at(market, "street")["own"] == "street"
    assert view_at(market, "street")["price"]["price"] == 2


def test_a_page_of_a_device_shows_its_setpoint(market):
    start_limited(market, house=OWN)
    newest = market.controls["house"].setpoints[-1]
    wait_until(lambda: (node_of(view_at(market, "house"), "house") or {}).get("setpoint") == newest, "the setpoint")


def test_a_browser_shows_the_setpoints(market, tmp_path):
    require_browser()
    start_limited(market, auctioneer=WHOLE)
    wait_until(lambda: shows_setpoints(market, view_at(market, "auctioneer")), "the setpoints")
    dom = dom_of(market.nodes["auctioneer"].showing.port, tmp_path)
    for name, power, price in (("house", "100 W", "4"), ("store", "-150 W", "4"), ("mill", "-60 W", "2"), ("street", "-50 W", "2")):
        cells = cells_of(dom, name)
        assert power in cells, cells
        assert price in cells, cells
    assert "passes 4 down" in cells_of(dom, "street")


def test_the_page_outlives_the_broker(market, broker):
    """The broker comes back with nothing that it retained. The nodes publish it again, and the page shows it."""
    start_limited(market, auctioneer=WHOLE)
    wait_until(lambda: shows_setpoints(market, view_at(market, "auctioneer")), "the setpoints")
    broker.kill()
    wait_until(lambda: view_at(market, "auctioneer")["lost_since"] is not None, "the page says that the broker is away")
    assert node_of(view_at(market, "auctioneer"), "house")["setpoint"] == market.controls["house"].setpoints[-1]
    broker.start()
    wait_until(lambda: shows_setpoints(market, view_at(market, "auctioneer")), "the setpoints again")


# The reading connection.


class Reading:
    """A reading connection of a test, with its board and its lines."""

    def __init__(self, port, **more):
        self.said = []
        self.board = Board(log_to(self.said.append))
        settings = BrokerSettings(port=port, **more)
        self.reader = Reader(settings, "cogmaula.market.auctioneer.page", self.board, log_to(self.said.append), pauses=(0.1, 0.4))

    def has(self, *topics):
        """Waits until the broker has told all that it retains, and the board has these topics."""
        wait_until(lambda: self.board.copy()[1] is None and sorted(self.board.copy()[0]) == sorted(topics), f"{topics}: {self.said}")

    def __enter__(self):
        self.reader.start()
        return self

    def __exit__(self, *_):
        self.reader.close(5)
        assert not self.reader._thread.is_alive()


def test_it_reads_what_a_page_shows_and_forgets_what_goes(live, tmp_path):
    with Mosquitto(tmp_path / "broker") as broker, Onlooker(broker.port) as onlooker:
        shown = ["market/basis", "market/a/state", "market/a/bid/1", "market/a/price/1", "market/b/setpoint"]
        for topic in (*shown, "market/b/offer", "market/a/resume", "other/a/state"):
            onlooker.publish(topic, b"1")
        with Reading(broker.port) as one:
            one.has(*shown)
            onlooker.publish("market/a/bid/1", b"")
            onlooker.publish("market/a/bid/2", b"2")
            one.has("market/a/bid/2", *(topic for topic in shown if topic != "market/a/bid/1"))
            broker.stop()
            wait_until(lambda: one.board.copy()[1] is not None, "the connection is lost")
            assert sorted(one.board.copy()[0]) == sorted(["market/a/bid/2", *(topic for topic in shown if topic != "market/a/bid/1")])
            # The broker comes back with nothing that it retained.
            broker.start()
            with Onlooker(broker.port, "#") as other:
                other.publish("market/basis", b"3")
                one.has("market/basis")
                assert [message[0] for message in other.all] == ["market/basis"], "the reading connection publishes nothing"


def test_a_login_that_may_only_read_is_enough(live, tmp_path):
    (tmp_path / "operator").write_text("word\n")
    (tmp_path / "rights").write_text("user operator\ntopic read market/#\n\nuser writer\ntopic write market/#\n")
    logins = passwords(tmp_path, operator="word", writer="pen")
    with Mosquitto(tmp_path / "broker", f"password_file {logins}", f"acl_file {tmp_path / 'rights'}") as broker:
        words = ["-p", str(broker.port), "-u", "writer", "-P", "pen", "-r", "-q", "1", "-t", "market/a/state", "-m", "1"]
        subprocess.run(["mosquitto_pub", *words], check=True)
        with Reading(broker.port, user="operator", password_file=str(tmp_path / "operator")) as one:
            one.has("market/a/state")
            assert one.said == []
        with Reading(broker.port, user="operator", password_file=str(tmp_path / "rights")) as other:
            wait_until(lambda: any("the broker refuses the login of operator" in line for line in other.said), "the line")
