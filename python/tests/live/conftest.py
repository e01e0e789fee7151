"""What the tests of nodes share: a node over pretended parts, and the recordings of a market."""

from __future__ import annotations

import shutil

import pytest
from brokers import live_program
from databases import postgres, url  # noqa: F401 (fixtures)
from markets import STEPS, falls_at
from pretended import Joined, PretendedService
from recorded import Lines, RecordedMarket

from cogmaula.live.node import service_runner

CONSTANT = [100] * STEPS


@pytest.fixture
def joined(tmp_path, monkeypatch):
    """Makes a node of a sort over a pretended connection and a pretended service, with its disk in a folder of that name."""
    monkeypatch.setattr(service_runner, "Service", PretendedService)
    made = []

    def make(sort, **more):
        one = Joined(sort, tmp_path / sort, **more)
        made.append(one)
        return one

    yield make
    for one in made:
        one.node._store.close()


@pytest.fixture(scope="module")
def recorded(tmp_path_factory):
    """The recordings of a market in which services and nodes were killed and a device left: the folder, to be read alone."""
    folder = tmp_path_factory.mktemp("market")
    market = RecordedMarket(folder, live_program())
    try:
        market.start("auctioneer", "street", "mill", "house", "store").offers(house=CONSTANT, store=falls_at(4, 0, -150))
        market.settles_at(4, house=100, store=-150)
        market.offers(mill=falls_at(2, 60, -60))
        market.settles_at(4, mill=-60)
        for step, name in ((5, "street"), (6, "house"), (7, "auctioneer")):
            market.kill_service(name)
            market.offers(store=falls_at(step, 0, -150))
            market.settles_at(step, house=100, store=-150, mill=-60)
        for step, name in ((3, "street"), (8, "store")):
            market.kill(name)
            market.start(name)
            market.offers(house=falls_at(step, 400, 100), store=falls_at(step, 0, -150))
            market.settles_at(step, house=100, store=-150, mill=-60)
        # One offer moves the step, so the mill takes the newest price before it leaves.
        market.offers(store=falls_at(9, 0, -150))
        market.settles_at(9, house=100, store=-150, mill=-60)
        market.leaves("mill")
        market.offers(house=falls_at(6, 300, 100))
        market.settles_at(9, house=100, store=-150)
    finally:
        market.stop()
    return market.recordings


@pytest.fixture
def lines(recorded, tmp_path):
    """A copy of these recordings, which the test may change."""
    return Lines(shutil.copytree(recorded, tmp_path / "recordings"))


@pytest.fixture
def live():
    """The program `live`. Without one the test is skipped."""
    return live_program()
