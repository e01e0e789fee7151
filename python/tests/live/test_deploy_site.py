"""A market of one file with a site, over a real broker: the site's login has the rights of its nodes and no other, and a device more."""

from __future__ import annotations

import json
import logging
import signal
import threading
from dataclasses import replace

import pytest
from brokers import live_program, require_broker, wait_until
from made import TREE, MadeMarket
from markets import STEPS, falls_at
from rights_due import READS, UNWRITTEN, WRITES, require_rights

from cogmaula.deploy import Member, add_device
from cogmaula.live.site.site import Site
from cogmaula.live.site.site_settings import read_site

# The relay of the example and one of its devices are a site. The other device has a process of its own.
BLOCK = '\n[sites.block]\nhost = "attic"\nnodes = ["street", "house"]\n'
TOGETHER = ("street", "house")


# Who reads whether the site is up: the parent of the street, the other child of the street, the control of the house, and who limits the street.
NEAR = ("auctioneer", "store", "house.control", "gridoperator")


def of_site(due, near=()):
    """What each login may do, by hand: the site has what its nodes would have and its own state, and these nodes have no login."""
    others = {login: [*topics, *(["block/site"] if login in near else [])] for login, topics in due.items() if login not in TOGETHER}
    return {**others, "block": ["block/site", *(topic for name in TOGETHER for topic in due[name])]}


@pytest.fixture
def made(tmp_path):
    require_broker()
    path = tmp_path / "TREE.toml"
    path.write_text(TREE.read_text() + BLOCK)
    with MadeMarket(tmp_path, path) as one:
        yield one


def test_a_site_has_the_rights_of_its_nodes_and_no_other(made):
    require_rights(made, of_site(WRITES), of_site(READS, NEAR), UNWRITTEN)


class StartedSite:
    """The site by the file that was made for it, in a thread of the test."""

    def __init__(self, made, live):
        settings = read_site(made.out / "block" / "block.toml")
        nodes = [replace(node, live=live, pause=0.05, children=tuple(replace(one, pause=0.05) for one in node.children)) for node in settings.nodes]
        self.site, self.error = Site(replace(settings, nodes=tuple(nodes))), None
        self.thread = threading.Thread(target=self._run)
        self.thread.start()

    def _run(self):
        try:
            self.site.run()
        except Exception as error:  # noqa: BLE001 - the test looks at it
            self.error = error

    def __enter__(self):
        return self

    def __exit__(self, *_):
        self.site.stop()
        self.thread.join(60)
        assert not self.thread.is_alive() and self.error is None


def offer(client, device, powers):
    client.publish(f"market/{device}/offer", json.dumps({"power": powers}), 1, True).wait_for_publish(30)


def hears(client, device, **due):
    """Waits until a control reads a setpoint of its device with these members."""
    wait_until(lambda: any(due.items() <= json.loads(payload).items() for topic, payload in client.read if topic.endswith("/setpoint") and payload), f"{device}: {due}")


def test_a_site_lives_by_these_rights_alone(made, caplog):
    """Its relay and its device take part with a node of its own. A device more comes into the site, which then starts anew."""
    live = live_program()
    for name in ("auctioneer", "store"):
        made.start(name, live)
    made.controls["store"].offers(falls_at(4, 0, -150))
    house = made.client("house.control")
    offer(house, "house", [100] * STEPS)
    with StartedSite(made, live):
        hears(house, "house", step=4, power=100)
        wait_until(lambda: made.controls["store"].has(step=4, power=-150), "the store is told its setpoint")
    lines = add_device(made.out, Member("device", "car", "street", least=-100, greatest=100, control=True), "block")
    assert lines[1:] == [f"cogmaula site {made.out}/block/block.toml"]
    made.process.send_signal(signal.SIGHUP)
    wait_until(lambda: "Reloading config" in made.log, "the broker reads its files again")
    car = made.client("car.control")
    offer(car, "car", falls_at(7, 100, 50))
    with StartedSite(made, live) as started:
        assert sorted(started.site.nodes) == ["car", "house", "street"]
        # 100 W of the house and 100 W of the car below step 7, and 50 W from there on, against 150 W of the store.
        hears(car, "car", step=7, power=50)
        hears(house, "house", step=7, power=100)
    assert "Denied" not in made.log
    assert [record.getMessage() for record in caplog.records if record.levelno >= logging.WARNING and "does not let" in record.getMessage()] == []
