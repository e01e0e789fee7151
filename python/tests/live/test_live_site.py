"""A site over a real broker: many nodes in one process and one loop, which take part as nodes of their own do."""

from __future__ import annotations

import contextlib
import json
import os
import signal
import socket
import subprocess
import sys
import threading
import time
from functools import partial

import pytest
from brokers import SECONDS, TOP, Certificates, Mosquitto, Onlooker, require_broker, wait_until
from markets import BASIS, PLACES, STEPS, Market, Process, falls_at

from cogmaula.cli import main
from cogmaula.deploy.toml_text import toml_text
from cogmaula.live import BadSettings
from cogmaula.live.site import site_life
from cogmaula.live.broker.broker_link import Message, Publication
from cogmaula.live.page.metrics import metrics_bytes
from cogmaula.live.node.node import Node
from cogmaula.live.node.service import PolledService
from cogmaula.live.site.site import Site
from cogmaula.live.site.site_settings import site_settings_of
from cogmaula.live.page.view import view_of

CONSTANT = [100] * STEPS


def tables_of(folder, port, live, *names, **nodes):
    """The tables of a site with these nodes of the tests' market, and others."""
    found = {}
    for name in names:
        sort, parent, child = PLACES[name]
        place = {} if parent is None else {"parent": parent, "child": child}
        found[name] = {"sort": sort, "pause": 0.05, **place}
    return {
        "site": {"name": "north", "state": str(folder / "north"), "live": live},
        "basis": {"min": BASIS.min, "max": BASIS.max, "steps": BASIS.steps},
        "broker": {"port": port},
        "nodes": {**found, **nodes},
    }


class RunningSite:
    """A site in a thread of the test, whose devices offer and are told by the topics of an onlooker."""

    def __init__(self, tables, onlooker):
        self.onlooker, self.error = onlooker, None
        self.site = Site(site_settings_of(tables))
        self.nodes = dict(self.site.nodes)
        self.thread = threading.Thread(target=self._run)
        self.thread.start()

    def _run(self):
        try:
            self.site.run()
        except Exception as error:  # noqa: BLE001 - the test looks at it
            self.error = error

    def offers(self, **demands):
        for name, powers in demands.items():
            self.onlooker.publish(f"market/{name}/offer", json.dumps({"power": powers}).encode())

    def setpoint(self, name):
        return json.loads(self.onlooker.payload(f"market/{name}/setpoint") or b"{}")

    def settles_at(self, step, **powers):
        def holds():
            told = [self.setpoint(name) for name in powers]
            return all((one.get("step"), one.get("power")) == (step, power) for one, power in zip(told, powers.values(), strict=True))

        wait_until(holds, f"step {step}, {powers}, {self.error}")

    def stop(self):
        self.site.stop()
        self.thread.join(SECONDS)

    def __enter__(self):
        return self

    def __exit__(self, *_):
        self.stop()


@pytest.fixture
def broker(tmp_path):
    require_broker()
    with Mosquitto(tmp_path / "broker") as one:
        yield one


@pytest.fixture
def onlooker(broker):
    with Onlooker(broker.port) as one:
        yield one


@pytest.fixture
def whole(broker, onlooker, live, tmp_path):
    """A whole market in one site: the house takes 100 W, the store gives 150 W from step 4 on, so it clears there."""
    with RunningSite(tables_of(tmp_path, broker.port, live, "auctioneer", "street", "house", "store"), onlooker) as one:
        one.offers(house=CONSTANT, store=falls_at(4, 0, -150))
        one.settles_at(4, house=100, store=-150)
        yield one


def test_a_whole_market_in_one_process_without_a_thread_for_a_node(whole, onlooker):
    names = {thread.name for thread in threading.enumerate()}
    whole.offers(house=falls_at(8, 200, 100))
    whole.settles_at(8, house=100, store=-150)
    assert {thread.name for thread in threading.enumerate()} == names
    for name in whole.nodes:
        assert json.loads(onlooker.payload(f"market/{name}/state"))["state"] == "up"
    whole.stop()
    for name in whole.nodes:
        wait_until(lambda name=name: json.loads(onlooker.payload(f"market/{name}/state"))["state"] == "down", f"{name} says that it ends")
    assert whole.error is None


def test_a_service_that_is_killed_starts_anew_and_the_others_go_on(whole):
    for name, step in (("street", 5), ("store", 6), ("auctioneer", 7)):
        os.kill(whole.nodes[name].serving.service.pid, signal.SIGKILL)
        wait_until(lambda name=name: whole.nodes[name].serving.counts.restarts, "its end is noticed")
        whole.offers(store=falls_at(step, 0, -150))
        whole.settles_at(step, house=100, store=-150)


def test_after_the_broker_was_away_all_is_published_again(whole, broker, onlooker):
    broker.kill()
    wait_until(lambda: not whole.site._connection.is_there, "the loss is noticed")
    time.sleep(0.3)
    broker.start()
    wait_until(lambda: all(node._link.is_settled for node in whole.nodes.values()), "all are settled again")
    whole.offers(store=falls_at(6, 0, -150))
    whole.settles_at(6, house=100, store=-150)


@pytest.mark.parametrize("with_tls", [False, True])
def test_no_node_ends_by_a_connection_that_is_cut_while_it_publishes(with_tls, live, tmp_path):
    """TLS raises at a write what without it is a lost connection. The site ends cleanly too, if the connection is cut then."""
    require_broker()
    lines, way = [], {}
    if with_tls:
        certificates = Certificates(tmp_path / "certificates")
        certificate, key = certificates.make("broker", "127.0.0.1")
        lines, way = [f"cafile {certificates.ca}", f"certfile {certificate}", f"keyfile {key}"], {"ca": certificates.ca}
    with Mosquitto(tmp_path / "broker", *lines) as broker:
        tables = tables_of(tmp_path, broker.port, live, "auctioneer", "street")
        tables["broker"] |= way
        with RunningSite(tables, None) as one:
            connection, published = one.site._connection, []

            def settled():
                return all(node._link.is_settled for node in one.nodes.values())

            def cut():
                # One that is lost already is cut.
                with contextlib.suppress(OSError):
                    connection._client.socket().shutdown(socket.SHUT_RDWR)

            def turn(node):
                if not published and settled():
                    cut()
                    for number in range(3):
                        published.append(number)
                        node._link.publish(Publication(f"market/{node.settings.name}/heartbeat", b"%d" % number))
                return type(node).turn(node)

            wait_until(settled, "all are settled")
            for node in one.nodes.values():
                node.turn = partial(turn, node)
            wait_until(lambda: published, "a node has published on a connection that is cut")
            wait_until(lambda: connection.is_there and settled(), f"all are settled again, {one.error}")
            assert one.site.nodes.keys() == one.nodes.keys()
            # What the site says last is published on a connection that is cut.
            say_down, said = connection.say_down, []
            connection.say_down = lambda why: (cut(), said.append(why), say_down(why))
            one.stop()
            assert (said, one.error, one.thread.is_alive()) == (["stopped"], None, False)


def test_a_site_and_nodes_of_their_own_are_one_market(broker, onlooker, live, tmp_path):
    """The relay and its devices are a site, the auctioneer is not. After a restart the site goes on from its disk."""
    with Market(broker.port, live, tmp_path) as market:
        market.start("auctioneer")
        for turn, step in enumerate((4, 8)):
            with RunningSite(tables_of(tmp_path, broker.port, live, "street", "house", "store"), onlooker) as one:
                one.offers(house=falls_at(8, 200, 100) if turn else CONSTANT, store=falls_at(4, 0, -150))
                one.settles_at(step, house=100, store=-150)
                assert one.setpoint("house")["bid"] == 2 * (turn + 1), "numbers go on"


# Times within which a test sees a device let go: the parent's, in seconds.
TIMES = {"validity": 8, "heartbeat": 1, "grace": 10}
BELOW = ("house", "store")


class SiteProcess:
    """A site in a process of its own, which the test may kill."""

    def __init__(self, tables, folder):
        self.path, self.log, self.process = folder / "north.toml", folder / "north.err", None
        self.path.write_text(toml_text(tables))

    def start(self):
        environment = {**os.environ, "PYTHONPATH": str(TOP / "python"), "PYTHONDONTWRITEBYTECODE": "1"}
        with open(self.log, "ab") as log:
            self.process = subprocess.Popen([sys.executable, "-m", "cogmaula", "site", str(self.path)], stderr=log, env=environment)

    def kill(self):
        self.process.kill()
        self.process.wait()

    def stop(self):
        self.process.terminate()
        return self.process.wait(SECONDS)


class OwnProcesses:
    """The same nodes, each in a process of its own."""

    def __init__(self, port, live, folder):
        self.nodes = [Process(port, live, folder, name) for name in BELOW]

    def start(self):
        for node in self.nodes:
            node.start()

    def kill(self):
        for node in self.nodes:
            node.kill()

    def stop(self):
        return max(node.stop()[0] for node in self.nodes)


def below_of(sort, port, live, folder):
    """The street's two devices: in a site, or each by itself."""
    tables = tables_of(folder, port, live, *BELOW)
    tables["broker"]["keepalive"] = 2
    return SiteProcess(tables, folder) if sort == "site" else OwnProcesses(port, live, folder)


def shown(onlooker):
    """Of each device what a page of the whole market shows: its state, why it is down, and the metric of that."""
    messages = {topic: Message(topic, payload, properties) for topic, (payload, properties) in list(onlooker.newest.items())}
    view = view_of("market", messages)
    found = {node.name: node for node in view.nodes if node.name in BELOW}
    metrics = metrics_bytes(view, True, []).decode()
    lines = {line.partition('node="')[2].partition('"')[0]: float(line.split()[-1]) for line in metrics.splitlines() if line.startswith("market_node_up{")}
    return {name: (node.state, node.why, lines.get(name)) for name, node in found.items()}


@pytest.mark.parametrize("sort", ["site", "processes"])
def test_a_site_that_is_killed_is_to_parents_and_page_as_nodes_of_their_own(sort, broker, onlooker, live, tmp_path):
    """SIGKILL: the page shows its nodes down at once, the street lets its devices go, and they are back after a new start. A clean stop says so."""
    pytest.importorskip("prometheus_client")
    north = "the site north is down: " if sort == "site" else ""

    def require(state, why):
        due = dict.fromkeys(BELOW, (state, why, float(state == "up")))
        wait_until(lambda: shown(onlooker) == due, f"{due}: {shown(onlooker)}")

    def offer(step):
        for name, powers in (("house", CONSTANT), ("store", falls_at(step, 0, -150))):
            onlooker.publish(f"market/{name}/offer", json.dumps({"power": powers}).encode())
        wait_until(lambda: [json.loads(onlooker.payload(f"market/{name}/setpoint") or b"{}").get("step") for name in BELOW] == [step] * 2, f"step {step}")

    with Market(broker.port, live, tmp_path) as market:
        market.start("auctioneer", **TIMES)
        market.start("street")
        below = below_of(sort, broker.port, live, tmp_path)
        below.start()
        try:
            require("up", "")
            offer(4)
            below.kill()
            require("down", f"{north}the connection was lost")
            letting = market.nodes["street"].serving.session.letting
            wait_until(lambda: len(letting.lapses._down) == 2, "their parent hears it as of each of them")
            wait_until(lambda: all(onlooker.payload(f"market/street/lapsed/{child}") for child in (1, 2)), "both are let go")
            below.start()
            require("up", "")
            wait_until(lambda: not letting.lapses._down, "their parent hears it")
            offer(6)
            wait_until(lambda: not any(onlooker.payload(f"market/street/lapsed/{child}") for child in (1, 2)), "both are back")
            assert below.stop() == 0
            require("down", "stopped")
        finally:
            below.kill()
    lines = [line for line in market.said["street"] if "is let go" in line or "is back" in line]
    assert {line.split(",")[0] for line in lines} == {f"child {child} is {what}" for child in (1, 2) for what in ("let go", "back")}


def test_a_market_at_rest_looks_at_the_clock_seldom(whole, monkeypatch):
    """Four looks a second of a parent, and one of a device in five seconds: what is due by the clock is due within that."""
    time.sleep(0.5)
    looks, look = [], Node._look
    monkeypatch.setattr(Node, "_look", lambda node: looks.append(node.settings.name) or look(node))
    time.sleep(2)
    counts = {name: looks.count(name) for name in whole.nodes}
    assert all(counts[name] <= 12 for name in ("auctioneer", "street")), counts
    assert all(counts[name] <= 3 for name in BELOW), counts
    assert counts["street"] >= 2, "but it does look"
    whole.offers(house=falls_at(8, 200, 100))
    whole.settles_at(8, house=100, store=-150)


def test_what_a_site_says_of_itself(whole, onlooker, broker):
    """It is up before its nodes, in the same run. After a lost connection it says so again, and at a clean stop that it has stopped."""
    told = json.loads(onlooker.payload("market/north/site"))
    assert (told["state"], told["why"], told["lost"]) == ("up", "", False)
    states = [json.loads(onlooker.payload(f"market/{name}/state")) for name in whole.nodes]
    assert {(state["run"], state["site"]) for state in states} == {(told["run"], "north")}
    order = [topic for topic, _, _ in onlooker.all if topic.endswith(("/site", "/state"))]
    assert order[0] == "market/north/site"
    broker.kill()
    wait_until(lambda: not whole.site._connection.is_there, "the loss is noticed")
    onlooker.newest.clear()
    broker.start()
    wait_until(lambda: json.loads(onlooker.payload("market/north/site") or b"{}").get("run") == told["run"], "it says so again")
    whole.stop()
    wait_until(lambda: json.loads(onlooker.payload("market/north/site"))["state"] == "down", "it says that it ends")
    last = json.loads(onlooker.payload("market/north/site"))
    assert (last["run"], last["why"], last["lost"]) == (told["run"], "stopped", False)


def test_a_site_that_may_not_write_its_own_state_says_so(live, tmp_path, monkeypatch, caplog):
    """The rights of before: nodes work, and a line says what lacks."""
    require_broker()
    monkeypatch.setattr(site_life, "PATIENCE", 0.5)
    (tmp_path / "acl").write_text("topic read #\n" + "".join(f"topic write market/{name}\n" for name in ("basis", *(f"auctioneer/{word}" for word in ("state", "resume", "heartbeat", "prices")))))
    with Mosquitto(tmp_path / "broker", "allow_anonymous true", f"acl_file {tmp_path}/acl") as broker, Onlooker(broker.port) as onlooker:
        with RunningSite(tables_of(tmp_path, broker.port, live, "auctioneer"), onlooker):
            wait_until(lambda: onlooker.payload("market/auctioneer/state"), "the auctioneer is up")
            wait_until(lambda: any("does not give market/north/site back" in record.getMessage() for record in caplog.records), "a line")
            assert onlooker.payload("market/north/site") == b""


def test_a_node_that_is_refused_ends_alone(broker, onlooker, live, tmp_path, caplog):
    """The mill has the place of its basis, and the disk of another name."""
    folder = tmp_path / "north" / "mill"
    first = RunningSite(tables_of(tmp_path, broker.port, live, "auctioneer", "mill"), onlooker)
    first.offers(mill=CONSTANT)
    first.settles_at(STEPS - 1, mill=100)
    first.stop()
    (damaged,) = folder.glob("*.resume")
    damaged.write_bytes(damaged.read_bytes()[:-1])
    tables = tables_of(tmp_path, broker.port, live, "auctioneer", "street", "house", "store", "mill")
    with RunningSite(tables, onlooker) as one:
        wait_until(lambda: "mill" not in one.site.nodes, "it is refused")
        one.offers(house=CONSTANT, store=falls_at(4, 0, -250))
        one.settles_at(4, house=100, store=-250)
    (line,) = [record for record in caplog.records if "it ends: " in record.getMessage()]
    assert (line.node, "is damaged" in line.getMessage()) == ("mill", True)


def test_a_loop_that_is_asked_to_write_more_than_a_pipe_takes():
    """The bytes wait, and nothing is lost, while the process reads slowly."""
    from cogmaula.live.site.loop import Loop

    loop, happened = Loop(), []
    code = "import sys, time\ntime.sleep(0.3)\nn = len(sys.stdin.buffer.read(1_000_011))\nsys.stdout.buffer.write(b'\\x0a' * (n == 1_000_011))"
    service = PolledService(loop, ["/usr/bin/python3", "-c", code], "device", BASIS, b"", happened.append)
    for _ in range(100):
        service.feed(b"\x0e" * 10_000)
    end = time.monotonic() + SECONDS
    while len(happened) < 2:
        assert time.monotonic() < end
        loop.turn(0.1)
    came, ended = happened
    assert [type(frame).__name__ for frame in came.frames] == ["WindowFull"]
    assert ended.why == "status 0: its input ended"
    service.feed(b"\x0e")
    service.close()
    loop.close()


WRONG = [
    ({"nodes": {}}, "has no node"),
    ({"nodes": {"house": {"parent": "street", "child": 1}}}, "nodes.house.sort is None"),
    ({"nodes": {"house": {"sort": "device", "parent": "street"}}}, "nodes.house: a device needs parent"),
    ({"nodes": {"house": {"sort": "device", "parent": "street", "child": 1, "state": "s"}, "store": {"sort": "device", "parent": "street", "child": 2, "state": "s"}}}, "two nodes have the state s"),
    ({"site": {"name": "a/b", "state": "s"}}, "site.name is 'a/b'"),
    ({"site": {"name": "north"}}, "site.state is missing"),
]


@pytest.mark.parametrize(("change", "why"), WRONG)
def test_settings_that_are_wrong(tmp_path, change, why):
    with pytest.raises(BadSettings, match=why):
        site_settings_of({**tables_of(tmp_path, 1883, "live", "house"), **change})


def test_each_node_has_a_folder_and_what_its_table_says(tmp_path):
    house = {"sort": "device", "parent": "street", "child": 1, "device": {"kind": "load"}, "fallback": 5}
    street = {"sort": "relay", "parent": "auctioneer", "child": 1, "children": {"house": {"child": 1, "least": 0}}, "prices": {"together": False}}
    found = site_settings_of(tables_of(tmp_path, 1883, "live", house=house, street=street))
    one, other = found.nodes
    assert (one.name, one.sort, one.fallback, one.device.kind, one.state) == ("house", "device", 5, "load", str(tmp_path / "north" / "house"))
    assert (other.prices.together, [child.least for child in other.children], other.broker.port) == (False, [0], 1883)


def test_passwords_may_be_in_another_folder(tmp_path, capsys):
    """That of the broker is looked for there, under the name of the settings: a file of that name is missing only there."""
    (tmp_path / "north.password").write_text("word\n")
    tables = tables_of(tmp_path, 1, "/usr/bin/true", "house")
    tables["broker"] |= {"user": "north", "password_file": str(tmp_path / "north.password")}
    path = tmp_path / "north.toml"
    path.write_text(toml_text(tables))
    assert main(["site", str(path), "--password-folder", str(tmp_path / "given")]) == 2
    assert f"broker.password_file is {tmp_path}/given/north.password, which cannot be read" in capsys.readouterr().err
    site_settings_of(tables).require_files()
