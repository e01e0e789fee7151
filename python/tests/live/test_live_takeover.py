"""A node that goes on elsewhere, and comes back: no number names two things, and no start is taken for a later one. Over a real broker."""

from __future__ import annotations

import shutil

import pytest
from brokers import Mosquitto, Onlooker, live_program, require_broker, wait_until
from markets import STEPS, Market
from test_live_storm import FAST, kill

from cogmaula.live import LiveError
from cogmaula.live.broker.broker import Broker
from cogmaula.live.messages.frames import BIDS, RESUMES, frame_of
from cogmaula.live.node.silence import Heartbeat


@pytest.fixture
def live():
    require_broker()
    return live_program()


@pytest.fixture
def broker(tmp_path, live):
    with Mosquitto(tmp_path / "broker") as one:
        yield one


@pytest.fixture
def onlooker(broker):
    with Onlooker(broker.port) as one:
        yield one


@pytest.fixture
def market(broker, live, tmp_path):
    with Market(broker.port, live, tmp_path) as one:
        yield one


def test_an_auctioneer_that_lost_its_disk_twice_makes_new_heartbeats(market, onlooker, tmp_path):
    """The last will of the second process has its count from before it knew that of the first."""
    beats = []
    for _ in range(3):
        before = onlooker.payload("market/auctioneer/heartbeat")
        market.start("auctioneer", **FAST)
        wait_until(lambda before=before: onlooker.payload("market/auctioneer/heartbeat") not in (b"", before), "a heartbeat comes")
        beats.append(Heartbeat.of(onlooker.payload("market/auctioneer/heartbeat")))
        kill(market, "auctioneer")
        wait_until(lambda: b"the connection was lost" in onlooker.payload("market/auctioneer/state"), "its last will comes")
        shutil.rmtree(tmp_path / "market" / "auctioneer")
    assert beats[0] < beats[1] < beats[2]


# A relay that is killed between the write of its Resume and its Bid.


def bid_of(onlooker, child):
    """The newest bid of a child of the street."""
    return frame_of(onlooker.payload(f"market/street/bid/{child}"), BIDS, STEPS)


class Killed(LiveError):
    """The process of a relay ends here."""


class KilledRelay:
    """A street that is killed in place of publishing each new Bid, whose Resume it has stored. The Bid of before goes out."""

    def __init__(self, market, onlooker, monkeypatch):
        self.market, self.onlooker, self.least = market, onlooker, 0
        published = Broker.publish

        def publish(link, publication):
            if publication.topic == "market/auctioneer/bid/1" and self.least < frame_of(publication.payload, BIDS, STEPS).number:
                raise Killed("it is killed")
            published(link, publication)

        monkeypatch.setattr(Broker, "publish", publish)

    def number(self):
        return frame_of(self.onlooker.payload("market/street/resume"), RESUMES["relay"], STEPS).last

    def dies(self, **more):
        """One life, up to the next Bid. Its child bids anew before, so that the bids of its newest sum are no more at the broker."""
        self.least = self.number()
        self.market.start("street", **more)
        wait_until(lambda: "street" in self.market.raised, "it is killed")
        assert self.market.raised.pop("street") == "it is killed"
        self.market.threads.pop("street").join()

    def lives(self):
        self.least = 2**32
        self.market.start("street")


@pytest.mark.parametrize("is_lost", [True, False], ids=["elsewhere", "restarts"])
def test_a_relay_that_is_killed_eight_times_before_its_bid_freezes_nothing(market, onlooker, monkeypatch, tmp_path, is_lost):
    """Each life is on another machine, or has no bids of its children on its disk. Eight numbers would fill its window for ever."""
    market.start("auctioneer", "street", "house", "store").offers(house=[100] * STEPS, store=[10] * STEPS)
    market.settles_at(STEPS - 1, house=100, store=10)
    market.stop("street")
    street = KilledRelay(market, onlooker, monkeypatch)
    first = street.number()
    for count in range(1, 10):
        # A device's own window has room for eight, so the two take turns.
        name, child = (("house", 1), ("store", 2))[count % 2]
        market.offers(**{name: [100 + count] * STEPS})
        wait_until(lambda child=child, count=count: bid_of(onlooker, child).demands[0] == 100 + count, "it bids")
        street.dies()
        for path in (tmp_path / "market" / "street").glob("*.bids"):
            path.unlink()
        if is_lost:
            shutil.rmtree(tmp_path / "market" / "street")
    assert street.number() == first + 9
    street.lives()
    market.offers(house=[200] * STEPS)
    market.settles_at(STEPS - 1, house=200, store=109)
