"""The page of a hub's market, and the recordings of its nodes, with the real `live`. Prices are worked out by hand."""

from __future__ import annotations

import json

import pytest
from brokers import wait_until
from hubs import CONSTANT, TABLES_OF_PAGE, HubInThread, falls_at
from looking import get, require_page

from cogmaula.hub import hub_settings_of
from cogmaula.judge import judge
from cogmaula.live import BadSettings
from cogmaula.live.node.compressing import is_idle
from cogmaula.live.page.page_settings import PageSettings
from cogmaula.live.node.recording import numbered_files


def viewed(hub):
    """The nodes of the hub's page by their names, and the clearing."""
    told = json.loads(get(hub.hub.showing.port, "/view")[2])
    return {node["name"]: node for node in told["nodes"]}, told["clearing"]


def test_the_page_shows_what_the_agents_are_told(live, tmp_path):
    """House takes 100 W at each price, and store gives 150 W from price 4 on: the sum is -50 W there, and the price is 4."""
    require_page()
    with HubInThread(tmp_path, live, page=PageSettings("127.0.0.1:0")) as hub:
        house = hub.agent("house").bids(CONSTANT)
        store = hub.agent("store").bids(falls_at(4, 0, -150))
        store.waits_for(price=4, power=-150)
        house.waits_for(price=4, power=100)
        clearing = store.prices[-1]["clearing"]
        wait_until(lambda: viewed(hub)[1] == clearing and viewed(hub)[0]["house"]["power"], "the page has the clearing")
        nodes, _ = viewed(hub)
        assert {name: nodes[name]["power"]["power"] for name in nodes} == {"hub": -50, "house": 100, "store": -150}
        assert {name: nodes[name]["price"]["price"] for name in nodes} == {"hub": 4, "house": 4, "store": 4}
        assert [nodes[name]["parent"] for name in ("house", "store")] == ["hub", "hub"]
        assert [nodes[name]["child"] for name in ("house", "store")] == [1, 2]
        port = hub.hub.showing.port
    with pytest.raises(ConnectionRefusedError):
        get(port, "/view")


def test_a_hub_without_a_page_serves_none(live, tmp_path):
    with HubInThread(tmp_path, live) as hub:
        assert hub.hub.showing.port == 0


def test_what_the_nodes_of_a_hub_record_is_a_run(live, tmp_path):
    """Also over a kill of each service. A recording of which a price is changed is none."""
    folder = tmp_path / "recorded"
    with HubInThread(tmp_path, live, record=str(folder)) as hub:
        house, store = hub.agent("house").bids(CONSTANT), hub.agent("store").bids(falls_at(4, 0, -150))
        for name, agent in (("auctioneer", store), ("house", house)):
            agent.waits_for(price=4)
            hub.running(name).node.serving.service.kill()
        house.bids([200] * 10).waits_for(price=9, power=200)
    verdict = judge(folder, live)
    assert (verdict.verdict, verdict.nodes, verdict.unmatched) == ("valid", 3, 0)
    assert verdict.lives >= 5
    assert verdict.setpoints >= 3
    path = next(folder.glob("hub.*.frames"))
    lines = path.read_text().splitlines(keepends=True)
    # A Price is its kind 23, the child, the number, the index and then the step, of two bytes.
    at = next(at for at, line in enumerate(lines) if '"out"' in line and '"17' in line)
    begin = lines[at].index('"17') + len('"17') + 2 * (2 + 4 + 4)
    step = "0004" if lines[at][begin : begin + 4] == "0009" else "0009"
    lines[at] = lines[at][:begin] + step + lines[at][begin + 4 :]
    path.write_text("".join(lines))
    fault = judge(folder, live).fault
    assert fault is not None
    assert (fault.node, fault.file, fault.line) == ("hub", path.name, at + 1)


@pytest.mark.parametrize(
    ("page", "words"),
    [
        ({"whole": True}, "a hub shows its whole market"),
        ({"whole": True, "user": "operator", "password_file": "password"}, "a hub shows its whole market"),
        ({"listen": "0.0.0.0:8080"}, "the page has no login"),
        ({"listen": "nowhere"}, "page.listen"),
        ({"port": 80}, "page"),
    ],
)
def test_pages_that_a_hub_cannot_have(page, words):
    with pytest.raises(BadSettings, match=words):
        hub_settings_of({**TABLES_OF_PAGE, "page": page})


def test_the_settings_of_a_page_and_of_recordings():
    found = hub_settings_of({**TABLES_OF_PAGE, "page": {"listen": "127.0.0.1:8080"}})
    assert found.page == PageSettings("127.0.0.1:8080")
    for node in (found.of_auctioneer(), found.of_agent("house", 1)):
        assert (node.record, node.record_size, node.record_files) == ("recorded", 4_194_304, None)
    hub = {**TABLES_OF_PAGE["hub"], "record_size": 2_048, "record_files": 3}
    found = hub_settings_of({**TABLES_OF_PAGE, "hub": hub})
    for node in (found.of_auctioneer(), found.of_agent("house", 1)):
        assert (node.record, node.record_size, node.record_files) == ("recorded", 2_048, 3)


def test_a_hub_keeps_the_newest_files_of_each_node(live, tmp_path):
    folder = tmp_path / "recorded"
    with HubInThread(tmp_path, live, record=str(folder), record_size=2_048, record_files=2) as hub:
        house = hub.agent("house")
        for number in range(1, 25):
            house.bids([number] * 10, number).waits_for(power=number)
    wait_until(is_idle, "all that has ended is compressed")
    for name in ("hub", "house"):
        (first, one), (second, other) = numbered_files(folder, name)
        assert second == first + 1 > 2
        assert (one.suffix, other.suffix) == (".gz", ".frames")
