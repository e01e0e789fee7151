"""The exchange: what a broker promises the nodes, and a market of four nodes over it without a broker."""

from __future__ import annotations

import json
import threading

import pytest
from logged import QUIET

from cogmaula.hub import Exchange
from cogmaula.live.broker.broker_link import Arrived, Message, Publication, Settled


class Reader:
    """A link, and the events that it told."""

    def __init__(self, exchange, *topics, marker=Publication("market/one/state", b"up")):
        self.events, self.marker = [], marker
        self.link = exchange.link(self.events.append, QUIET)
        self.topics = topics

    def start(self):
        self.link.start(self.topics, None, lambda: self.marker)
        return self

    def taken(self):
        return [(publication.topic, publication.payload) for publication in self.link.taken()]


def publish(exchange, topic, payload, **properties):
    exchange.publish(Publication(topic, payload, tuple(properties.items())))


@pytest.fixture
def exchange():
    return Exchange()


def test_what_is_retained_comes_before_settled(exchange):
    publish(exchange, "market/basis", b"old")
    publish(exchange, "market/basis", b"new", session="one")
    publish(exchange, "market/other", b"not read")
    reader = Reader(exchange, "market/basis")
    assert not reader.link.is_settled
    reader.start()
    assert reader.link.is_settled
    assert reader.events == [Arrived(), Settled()]
    assert reader.link.taken() == [Message("market/basis", b"new", {"session": "one"}, retained=True)]


def test_the_newest_alone_of_each_topic_in_the_order_in_which_they_came(exchange):
    reader = Reader(exchange, "market/a/bid/+", "market/b").start()
    reader.link.taken()
    for topic, payload in (("market/a/bid/1", b"1"), ("market/b", b"2"), ("market/a/bid/2", b"3"), ("market/a/bid/1", b"4")):
        publish(exchange, topic, payload)
    assert reader.taken() == [("market/b", b"2"), ("market/a/bid/2", b"3"), ("market/a/bid/1", b"4")]
    assert reader.taken() == []
    assert reader.events[1:] == [Arrived()]


@pytest.mark.parametrize("topic", ["market/a/bid", "market/a/bid/1/2", "market/ab/bid/1", "market/a/price/1", "market"])
def test_a_plus_stands_for_one_level(exchange, topic):
    reader = Reader(exchange, "market/a/bid/+").start()
    publish(exchange, topic, b"x")
    assert reader.taken() == []


def test_a_cleared_topic_is_told_and_not_retained(exchange):
    reader = Reader(exchange, "market/a").start()
    publish(exchange, "market/a", b"x")
    publish(exchange, "market/a", b"")
    assert reader.taken() == [("market/a", b"")]
    assert exchange.messages() == {"market/one/state": Message("market/one/state", b"up")}
    assert exchange.message("market/a") is None
    assert Reader(exchange, "market/a").start().taken() == []


def test_a_link_hears_what_it_publishes_itself(exchange):
    reader = Reader(exchange, "market/one/state", "market/a").start()
    assert reader.taken() == [("market/one/state", b"up")]
    publication = Publication("market/a", b"x")
    reader.link.publish(publication)
    assert reader.taken() == [("market/a", b"x")]
    assert reader.link.kept("market/a") == publication
    assert reader.link.kept("market/b") is None
    assert not reader.link.is_unconfirmed(["market/a"])


def test_all_is_published_again(exchange):
    reader = Reader(exchange, "market/a").start()
    reader.link.publish(Publication("market/a", b"x"))
    publish(exchange, "market/a", b"another's")
    reader.link.publish_all()
    assert exchange.message("market/a").payload == b"x"


def test_a_closed_link_has_told_its_last_and_hears_no_more(exchange):
    reader = Reader(exchange, "market/a").start()
    reader.link.taken()
    reader.link.close(Publication("market/one/state", b"down"), 1.0)
    publish(exchange, "market/a", b"x")
    assert reader.taken() == []
    assert exchange.message("market/one/state").payload == b"down"


def test_news_is_told_to_a_watch_in_order(exchange):
    seen = []
    exchange.watch(seen.append)
    publish(exchange, "market/a", b"1")
    publish(exchange, "market/a", b"", session="x")
    assert seen == [Message("market/a", b"1"), Message("market/a", b"", {"session": "x"})]


def test_many_threads_lose_nothing(exchange):
    """Eight threads write 500 times each to a topic of their own. The reader sees each topic rise, and each one's last."""
    reader = Reader(exchange, "market/a/bid/+").start()
    reader.link.taken()

    def write(child):
        for number in range(1, 501):
            publish(exchange, f"market/a/bid/{child}", str(number).encode())

    threads = [threading.Thread(target=write, args=(number,)) for number in range(1, 9)]
    for thread in threads:
        thread.start()
    seen = {f"market/a/bid/{number}": [0] for number in range(1, 9)}
    while any(thread.is_alive() for thread in threads):
        for topic, payload in reader.taken():
            seen[topic].append(int(payload))
    for topic, payload in reader.taken():
        seen[topic].append(int(payload))
    assert all(numbers == sorted(set(numbers)) and numbers[-1] == 500 for numbers in seen.values())


def test_a_market_of_four_nodes_over_an_exchange(exchange, live, tmp_path):
    """House takes 100 W always. Store gives 150 W from price 4 on, and then from 8 on, where house takes 100 W of 200."""
    from brokers import wait_until
    from markets import BASIS, PLACES, Control, falls_at

    from cogmaula.live import Settings
    from cogmaula.live.node.node import Node

    nodes, controls, threads = {}, {"house": Control(), "store": Control()}, []
    for name in ("auctioneer", "street", "house", "store"):
        sort, parent, child = PLACES[name]
        settings = Settings(sort, name, str(tmp_path / name), BASIS, live, parent, child, pause=0.05)
        nodes[name] = Node(settings, controls.get(name), QUIET, exchange.link)
        threads.append(threading.Thread(target=nodes[name].run))
    for thread in threads:
        thread.start()
    try:
        wait_until(lambda: all(node.serving.service for node in nodes.values()), "all nodes are up")
        controls["house"].offers([100] * 10)
        controls["store"].offers(falls_at(4, 0, -150))
        wait_until(lambda: controls["house"].has(step=4, power=100) and controls["store"].has(step=4, power=-150), "price 4")
        controls["house"].offers(falls_at(8, 200, 100))
        wait_until(lambda: controls["house"].has(step=8, power=100) and controls["store"].has(step=8, power=-150), "price 8")
        found = exchange.messages()
        assert json.loads(found["market/store/setpoint"].payload)["step"] == 8
        assert json.loads(found["market/basis"].payload)["session"] == nodes["auctioneer"].session.id
    finally:
        for node in nodes.values():
            node.stop()
        for thread in threads:
            thread.join(60)
    assert {json.loads(exchange.message(f"market/{name}/state").payload)["state"] for name in nodes} == {"down"}
