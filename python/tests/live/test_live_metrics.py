"""Metrics, health and the watchdog of a node: what is counted, what a scrape has, and what rules and dashboard ask for."""

from __future__ import annotations

import json
import re
import shutil
import socket
import subprocess
import urllib.parse
import urllib.request

import pytest
from brokers import SECONDS, TOP, free_port, live_program, require_broker, wait_until
from looking import Served, get, require_page
from made import TREE, MadeMarket
from markets import STEPS, falls_at
from pretended import auctioneer_resume, bid, gone, numbers, price, relay_resume
from told import village

from cogmaula.live import Settings
from cogmaula.live.node.counting import OF_BIDS, OF_PRICES, Counts, NodeFacts
from cogmaula.live.messages.frames import Dropped, NotCaughtUp, NotChanged, OutOfLimits, TooMuch, WindowFull
from cogmaula.live.page.metrics import ALL
from cogmaula.live.node.notifying import Notifier
from cogmaula.live.messages.messages import StateMessage
from cogmaula.version import __version__, commit

RULES, DASHBOARD = TOP / "packaging" / "prometheus" / "market.rules.yml", TOP / "packaging" / "prometheus" / "market.dashboard.json"
COUNTERS = {name for name, (kind, _, _) in ALL.items() if kind == "counter"}
SAMPLES = {f"{metric}_total" if metric in COUNTERS else metric for metric in ALL}


def facts(**more):
    told = {"node": "street", "sort": "relay", "why_down": "", "is_connected": True, "counts": Counts(), "stores": 3, "store_seconds": 0.5}
    told |= {"lapsed": 1, "heartbeat": "2026-01-31T06:30:00.000Z", "loop_age": 0.25}
    return NodeFacts(**{**told, **more})


def scraped(text):
    """The samples of a scrape, by their names and labels."""
    return {line.rpartition(" ")[0]: float(line.rpartition(" ")[2]) for line in text.decode().splitlines() if not line.startswith("#")}


@pytest.mark.parametrize(
    ("frame", "due"),
    [
        (bid(1, 2, 5, 5), ("bids", "sent")), (gone(1, 2), ("bids", "left")), (NotChanged(), ("bids", "not_changed")),
        (WindowFull(), ("bids", "window_full")), (TooMuch(1, 2), ("bids", "refused")), (OutOfLimits(3), ("bids", "out_of_limits")),
        (NotCaughtUp(), ("bids", "not_caught_up")), (price(1, 2, 3, 0), ("prices", "passed")), (Dropped(1, 2), ("prices", "dropped")),
    ],
)
def test_each_frame_counts_once(frame, due):
    counts = Counts()
    counts.wrote(frame, 4)
    kind, outcome = due
    assert {word: number for word, number in getattr(counts, kind).items() if number} == {outcome: 1}
    assert sum([*counts.bids.values(), *counts.prices.values(), counts.clearings]) == 1
    assert counts.waiting == (4 if outcome == "not_caught_up" else 0)


def test_a_state_has_the_build(joined):
    told = StateMessage.of(joined("relay").begun().node._state("up", "").payload)
    assert told.build == f"{__version__} ({commit()})"


def test_a_relay_counts_what_it_does(joined):
    one = joined("relay").begun()
    one.link.confirms = True
    one.writes(NotCaughtUp(), relay_resume(1, 0, 0, numbers((1, 1))), bid(3, 1, 7, 7), price(1, 1, 1, 0))
    one.service.ends()
    one.turned()
    told = one.node.facts()
    assert (told.counts.bids["sent"], told.counts.prices["passed"], told.counts.restarts, told.counts.clearings) == (1, 1, 1, 0)
    assert (told.node, told.sort, told.stores > 0, told.store_seconds > 0, told.lapsed, told.is_connected) == ("street", "relay", True, True, 0, True)
    assert "the service has ended" in told.faults(10)[0]


def test_an_auctioneer_counts_clearings(joined):
    one = joined("auctioneer").begun()
    for index in (1, 2):
        one.writes(auctioneer_resume(index, numbers()))
    assert one.node.facts().counts.clearings == 2


def test_a_scrape_has_the_market_and_the_process():
    require_page()
    pytest.importorskip("prometheus_client", reason="apt-get install python3-prometheus-client")
    told = village().state("street", "relay", "auctioneer", 1, -4000, 50)
    with Served(told, facts=lambda: [facts()]) as page:
        status, headers, body = page.get("/metrics")
        assert (status, headers["Content-Type"]) == (200, "text/plain; version=0.0.4; charset=utf-8")
        found = scraped(body)
        view = page.view()
    for node in view["nodes"]:
        power = None if node["power"] is None else node["power"]["power"]
        assert found.get(f'market_power_watts{{node="{node["name"]}"}}') == power
        assert found[f'market_node_lapsed{{node="{node["name"]}"}}'] == (node["lapsed"] is not None)
    due = {
        'market_children_lapsed{node="street"}': 1, 'market_stores_total{node="street"}': 3, 'market_store_seconds_total{node="street"}': 0.5,
        'market_heartbeat_timestamp_seconds{node="street"}': 1769841000, 'market_loop_age_seconds{node="street"}': 0.25,
        'market_bids_total{node="street",outcome="sent"}': 0, "market_page_connected": 1, "market_messages_not_taken": 0,
        'market_ceiling_watts{node="street"}': 50, 'market_floor_watts{node="street"}': -4000, 'market_node_up{node="street",parent="auctioneer",sort="relay"}': 1,
    }
    assert {series: found[series] for series in due} == due
    assert found[f'market_build_info{{commit="{commit()}",version="{__version__}"}}'] == 1
    names = {series.partition("{")[0] for series in found}
    assert names == SAMPLES, "each metric is in a scrape, and no other"


@pytest.mark.parametrize(
    ("more", "why"),
    [
        ({}, []), ({"why_down": "the service has ended"}, ["street: the service has ended"]),
        ({"is_connected": False}, ["street: the broker is away"]), ({"loop_age": 11.0}, ["street: its loop stands still for 11 s"]),
    ],
)
def test_health(more, why):
    require_page()
    with Served(village(), facts=lambda: [facts(**more)]) as page:
        status, _, body = page.get("/healthz")
    assert (status, json.loads(body)) == (503 if why else 200, {"healthy": not why, "why": why})


def test_systemd_is_told(tmp_path):
    path = tmp_path / "notify"
    with socket.socket(socket.AF_UNIX, socket.SOCK_DGRAM) as one:
        one.bind(str(path))
        one.settimeout(5)
        notifier = Notifier({"NOTIFY_SOCKET": str(path), "WATCHDOG_USEC": "400000"})
        notifier.turns()
        notifier.turns()
        notifier._next = 0.0
        notifier.turns()
        notifier.stops()
        assert [one.recv(100) for _ in range(4)] == [b"READY=1", b"WATCHDOG=1", b"WATCHDOG=1", b"STOPPING=1"]
    Notifier({}).turns()
    Notifier({"NOTIFY_SOCKET": str(tmp_path / "nobody")}).turns()


# The files for Prometheus and Grafana.


def names_of(query):
    """The metrics that a query asks for."""
    return set(re.findall(r"\bmarket_\w+", query))


def queries_of(panels):
    """The queries of a dashboard."""
    return [target["expr"] for panel in panels for target in panel.get("targets", [])]


def test_the_dashboard_asks_for_metrics_that_exist():
    told = json.loads(DASHBOARD.read_text())
    queries = queries_of(told["panels"])
    assert len(queries) > 8
    for query in queries:
        assert names_of(query), query
        assert names_of(query) <= SAMPLES, query
        for name, labels in re.findall(r"\b(market_\w+)\{([^}]*)\}", query):
            known = {"node", "instance", "job", *ALL[name.removesuffix("_total")][1]}
            assert {word.partition("=")[0].rstrip("!") for word in labels.split(",")} <= known, query


def test_the_rules_ask_for_metrics_that_exist():
    text = RULES.read_text()
    assert names_of(text) <= SAMPLES
    for outcome in re.findall(r'outcome="(\w+)"', text):
        assert outcome in {*OF_BIDS.values(), *OF_PRICES.values()}


def test_promtool_takes_the_rules_and_each_alarm_fires():
    if shutil.which("promtool") is None:
        pytest.skip("promtool is not installed: apt-get install prometheus")
    done = subprocess.run(["promtool", "test", "rules", RULES.with_name("market.test.yml")], capture_output=True, text=True, check=False)
    assert done.returncode == 0, done.stdout + done.stderr
    tested = set(re.findall(r"alertname: (\w+)", RULES.with_name("market.test.yml").read_text()))
    assert tested == set(re.findall(r"alert: (\w+)", RULES.read_text()))


SCRAPES = """
global: {scrape_interval: 1s, evaluation_interval: 1s}
rule_files: [RULES]
scrape_configs:
  - job_name: market
    static_configs: [{targets: ["127.0.0.1:PORT"]}]
"""


def test_prometheus_scrapes_a_market_and_each_query_of_the_dashboard_answers(tmp_path):
    """The price and the powers that Prometheus has are those that the devices were told, and no alarm fires."""
    require_page()
    require_broker()
    if shutil.which("prometheus") is None:
        pytest.skip("prometheus is not installed: apt-get install prometheus")
    tree, live, port, own = tmp_path / "TREE.toml", live_program(), free_port(), free_port()
    tree.write_text(TREE.read_text().replace("[auctioneer]\n", f'[auctioneer]\npage = "127.0.0.1:{port}"\n'))
    (tmp_path / "prometheus.yml").write_text(SCRAPES.replace("PORT", str(port)).replace("RULES", str(RULES)))
    words = [f"--config.file={tmp_path}/prometheus.yml", f"--storage.tsdb.path={tmp_path}/data", f"--web.listen-address=127.0.0.1:{own}"]

    def asked(path, **query):
        told = urllib.request.urlopen(f"http://127.0.0.1:{own}/api/v1/{path}?{urllib.parse.urlencode(query)}", timeout=SECONDS).read()
        return json.loads(told)["data"]

    with MadeMarket(tmp_path, tree) as made, open(tmp_path / "said", "wb") as said:
        for name in ("auctioneer", "street", "house", "store"):
            made.start(name, live)
        made.controls["house"].offers([100] * STEPS)
        made.controls["store"].offers(falls_at(4, 0, -150))
        wait_until(lambda: made.controls["store"].has(step=4, power=-150), "the setpoint")
        assert get(port, "/healthz")[0] == 200
        with subprocess.Popen(["prometheus", *words], stdout=said, stderr=said) as process:
            try:
                wait_until(lambda: b"ready to receive" in (tmp_path / "said").read_bytes(), "prometheus is ready")
                due = {"house": "100", "store": "-150", "street": "-50", "auctioneer": "-50"}

                def powers():
                    return {sample["metric"]["node"]: sample["value"][1] for sample in asked("query", query="market_power_watts")["result"]}

                wait_until(lambda: powers() == due, "the powers")
                for query in queries_of(json.loads(DASHBOARD.read_text())["panels"]):
                    wait_until(lambda text=query: asked("query", query=text.replace("$node", ".*"))["result"], query)
                assert asked("query", query="market_price{node='store'}")["result"][0]["value"][1] == "4"
                assert asked("query", query="ALERTS")["result"] == []
            finally:
                process.terminate()
