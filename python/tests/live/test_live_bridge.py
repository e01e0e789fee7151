"""A market over two brokers that a bridge joins, by the settings of docs/OPERATE.md; a bridge of mosquitto's default carries none."""

from __future__ import annotations

import re

import pytest
from brokers import TOP, Mosquitto, Onlooker, live_program, require_broker, wait_until
from markets import STEPS, Market, falls_at


def bridge_lines(address):
    """The lines of the page, for a broker at this address."""
    page = (TOP / "docs" / "OPERATE.md").read_text()
    block = re.search(r"\n## Two brokers\n.*?\n((?:    [^\n]*\n)+)", page, re.S)
    lines = [line.strip() for line in block[1].splitlines()]
    return [f"address {address}" if line.startswith("address ") else line for line in lines]


@pytest.fixture
def brokers(tmp_path):
    require_broker()
    with Mosquitto(tmp_path / "near") as near:
        yield near, lambda lines: Mosquitto(tmp_path / "far", *lines)


def test_a_market_lives_over_a_bridge(brokers, tmp_path):
    """The auctioneer is at one broker, all below at the other. The bridge is cut, and the market goes on when it is back."""
    (near, far_of), live = brokers, live_program()
    lines = bridge_lines(f"127.0.0.1:{near.port}")
    with far_of(lines) as far, Market(near.port, live, tmp_path / "a") as above, Market(far.port, live, tmp_path / "b") as below:
        above.start("auctioneer")
        below.start("street", "house", "store")
        below.offers(house=[100] * STEPS, store=falls_at(4, 0, -150))
        below.settles_at(4, house=100, store=-150)
        near.kill()
        near.start()
        below.offers(store=falls_at(7, 0, -120))
        below.settles_at(7, house=100, store=-120)


def test_a_bridge_of_the_default_loses_what_a_market_needs(brokers):
    """It speaks MQTT 3.1.1, which has no properties: a bid is then of no session."""
    (near, far_of) = brokers
    lines = [line for line in bridge_lines(f"127.0.0.1:{near.port}") if not line.startswith("bridge_protocol_version")]
    with far_of(lines) as far, Onlooker(near.port, "market/#") as above, Onlooker(far.port, "none") as below:
        def arrives():
            below.publish("market/a/bid/1", b"x", UserProperty=[("session", "s")])
            return "market/a/bid/1" in above.newest

        wait_until(arrives, "a message over the bridge")
        assert above.newest["market/a/bid/1"] == (b"x", {})
