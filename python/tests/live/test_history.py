"""The history of a market in tables: what a message becomes, what a day says, and that a kill at any moment loses and repeats nothing."""

from __future__ import annotations

import json
import os
import random
import re
import signal
import subprocess
import sys
import time

import pytest
from brokers import SECONDS, TOP, live_program, require_broker, wait_until
from made import MadeMarket
from markets import STEPS, falls_at, prices_in
from pretended import MOMENT, SESSION
from told import Told, village

from cogmaula.cli import main
from cogmaula.history import Row, open_database, rows_of
from cogmaula.history.days import span_of
from cogmaula.live.broker.broker_link import Message
from cogmaula.live.node.node_errors import BadMessage, BadSettings
from cogmaula.live.messages.frames import BIDS, Bid, frame_of
from cogmaula.live.messages.messages import LapseMessage, SilentMessage
from cogmaula.live.messages.topics import Topics

TOPICS = Topics("market")
AT = 1769841000.0
KEY = {"session": SESSION.id}


def message(below, payload, **properties):
    data = payload if isinstance(payload, bytes) else json.dumps(payload).encode()
    return Message(f"market/{below}", data, {"session": SESSION.id, "time": MOMENT, **properties})


LIMITS = {"state": "kept", "floor": -1, "ceiling": 2, "until": MOMENT, "reference": "r", "clearing": 7, "why": "", "time": MOMENT}


@pytest.mark.parametrize(
    ("below", "due"),
    [
        ("basis", Row("sessions", {**KEY, "begun": AT - 1800, "least": 0, "greatest": 9, "steps": 10})),
        ("street/bid/2", Row("bids", {**KEY, "parent": "street", "child": 2, "number": 4, "at": AT, "demands": json.dumps(falls_at(4, 0, -150))})),
        ("street/price/1", Row("prices", {**KEY, "parent": "street", "child": 1, "clearing": 7, "number": 3, "step": 4, "price": 4, "at": AT})),
        ("mill/setpoint", Row("setpoints", {**KEY, "device": "mill", "clearing": 7, "number": 6, "step": 2, "price": 2, "power": -60, "at": AT})),
        (
            "street/state",
            Row("states", {
                "node": "street", "run": "0" * 16, "at": AT, "state": "up", "sort": "relay", "parent": "auctioneer", "child": 1, "floor": None,
                "ceiling": 50, "alarm": "", "silent": None, "why": "", "session": SESSION.id,
            }),
        ),
    ],
)
def test_what_a_message_of_the_village_becomes(below, due):
    assert rows_of(TOPICS, village().messages[f"market/{below}"]) == [due]


def test_a_table_of_prices_becomes_a_row_for_each_child():
    told = Told().prices("street", 7, 4, {1: 3, 3: 8}).messages["market/street/prices"]
    common = {**KEY, "parent": "street", "clearing": 7, "step": 4, "price": 4, "at": AT}
    assert rows_of(TOPICS, told) == [Row("prices", {**common, "child": 1, "number": 3}), Row("prices", {**common, "child": 3, "number": 8})]


@pytest.mark.parametrize(
    ("told", "due"),
    [
        (message("a/bid/1", b""), []),
        (Told().gone("a", 1, 8).messages["market/a/bid/1"], [Row("bids", {**KEY, "parent": "a", "child": 1, "number": 8, "at": AT, "demands": None})]),
        (message("a/lapsed/1", LapseMessage(9, "w", MOMENT).to_bytes()), [Row("lapses", {**KEY, "parent": "a", "child": 1, "number": 9, "at": AT, "why": "w"})]),
        (message("b/setpoint", SilentMessage(MOMENT, 5, "w").to_bytes()), [Row("fallbacks", {**KEY, "device": "b", "since": AT, "power": 5, "why": "w"})]),
        (message("b/measured", {"power": -7, "time": MOMENT}), [Row("measured", {"device": "b", "at": AT, "power": -7})]),
        (
            message("a/limits/state", LIMITS),
            [Row("limits", {**KEY, "relay": "a", "at": AT, "state": "kept", "floor": -1, "ceiling": 2, "until": AT, "reference": "r", "clearing": 7, "why": ""})],
        ),
        (message("a/offer", {"power": [1]}), []),
        (message("a/heartbeat", {"time": MOMENT}), []),
        (Message("other/a/state", b"x"), []),
    ],
)
def test_what_other_messages_become(told, due):
    assert rows_of(TOPICS, told) == due


def test_a_site_that_is_down_is_a_row_of_each_of_its_nodes(url):
    """Each is like the newest of the node in that run. What is told again changes nothing, and neither does a site that is up."""
    database = open_database(url)
    told = village().state("street", "relay", "auctioneer", 1, None, 50, site="block").state("house", "device", "street", 1, site="block")
    told.messages["market/mill/state"] = Told().state("mill", "device", "auctioneer", 2, run="1" * 16).messages["market/mill/state"]
    names = ("street", "house", "mill")
    database.put(row for name in names for row in rows_of(TOPICS, told.messages[f"market/{name}/state"]))

    def downs():
        return database.read("SELECT node, at, why, sort, parent, child, ceiling FROM states WHERE state = 'down' ORDER BY node")

    database.put(rows_of(TOPICS, told.site("block").messages["market/block/site"]))
    assert downs() == []
    message = told.site("block", "down", why="stopped").messages["market/block/site"]
    for _ in range(2):
        database.put(rows_of(TOPICS, message))
        why = "the site block is down: stopped"
        assert downs() == [("house", AT + 900, why, "device", "street", 1, None), ("street", AT + 900, why, "relay", "auctioneer", 1, 50)]
    database.close()


def test_a_last_will_of_a_site_is_kept_once_with_the_time_at_which_it_came(url):
    database, began = open_database(url), time.time()
    told = Told().state("house", "device", "street", 1, site="block").site("block", "down", why="the connection was lost", lost=True)
    for name in ("house/state", "block/site", "block/site", "house/state"):
        database.put(rows_of(TOPICS, told.messages[f"market/{name}"]))
    ((at, why),) = database.read("SELECT at, why FROM states WHERE state = 'down'")
    assert began <= at <= time.time()
    assert why == "the site block is down: the connection was lost"
    database.close()


def test_a_last_will_of_a_node_is_kept_once_with_the_time_at_which_it_came(url):
    """It is like the newest state of the node in that run, and a node that comes back and is lost again has a row more."""
    database, began = open_database(url), time.time()
    why = "the connection was lost"

    def put(**more):
        database.put(rows_of(TOPICS, Told().state("house", "device", "street", 1, **more).messages["market/house/state"]))

    def downs():
        return database.read("SELECT at, why, alarm, parent, child, session FROM states WHERE state = 'down' ORDER BY at")

    will = {"state": "down", "why": why, "lost": True}
    put(alarm="hot")
    for _ in range(2):
        put(session="", **will)
        ((at, *told),) = downs()
        assert began <= at <= time.time()
        assert told == [why, "hot", "street", 1, SESSION.id]
    database.put([Row("states", {**rows_of(TOPICS, village().messages["market/house/state"])[0].values, "at": time.time()})])
    for _ in range(2):
        put(session="", **will)
        assert [at for at, *_ in downs()] == [at, max(at for at, *_ in downs())]
    # Of another run nothing is known but its will.
    for _ in range(2):
        put(run="2" * 16, session="", **will)
        assert [(alarm, parent, session) for _, _, alarm, parent, _, session in downs()] == [("hot", "street", SESSION.id), ("", "street", SESSION.id), ("", "street", "")]
    assert all(began <= at <= time.time() for at, *_ in downs())
    # What a node says of itself has its own time.
    put(run="3" * 16, state="down", why="stopped")
    assert downs()[0][:2] == (AT, "stopped")
    database.close()


@pytest.mark.parametrize(
    "told",
    [
        message("b/measured", {"power": 1.5, "time": MOMENT}), message("b/measured", {"power": True, "time": MOMENT}),
        message("b/measured", {"power": 1}), message("b/measured", {"power": 10**13, "time": MOMENT}), message("a/state", b"x"), message("a/site", b"x"),
        message("a/bid/1", b"\2\0"), message("a/bid/2", village().messages["market/street/bid/1"].payload), message("a/price/1", b"\x17"), message("a/prices", b"\x1f"),
        message("a/limits/state", {**LIMITS, "floor": "x"}), message("a/limits/state", {**LIMITS, "time": "x"}), message("b/setpoint", {}),
    ],
)
def test_what_is_no_row(told):
    with pytest.raises(BadMessage):
        rows_of(TOPICS, told)


# Databases.


def test_rows_are_kept_once_and_all_or_none(url):
    database = open_database(url)
    rows = [row for messages in village().messages.values() for row in rows_of(TOPICS, messages)]
    database.put(rows)
    database.put(reversed(rows))
    tables = {row.table for row in rows}
    assert {table: database.read(f"SELECT count(*) FROM {table}")[0][0] for table in tables} == {table: sum(row.table == table for row in rows) for table in tables}
    assert database.read("SELECT clearing, price, step FROM clearings") == [(7, 2, 2)]
    (query,) = re.findall(r"^    (SELECT own\.at.*(?:\n    .*)*)", (TOP / "docs" / "OPERATE.md").read_text(), re.MULTILINE)
    assert database.read(query) == [(AT, 2, 4)], "the query of the page: the street passed 4 where it had 2"
    measured = Row("measured", {"device": "x", "at": 1.0, "power": 1})
    with pytest.raises(OSError, match="nowhere"):
        database.put([measured, Row("nowhere", {"a": 1})])
    assert database.read("SELECT count(*) FROM measured") == [(0,)]
    database.close()
    again = open_database(url)
    assert again.read("SELECT count(*) FROM bids") == [(4,)]
    again.read("UPDATE history SET version = 2 RETURNING version")
    again.close()
    with pytest.raises(BadSettings, match="the tables are of version"):
        open_database(url)


def test_energies_and_prices_of_a_span(url):
    """From 0 s to 3600 s, by bids and prices: a takes 1000 W from -100 s to 1800 s and then 200 W, so 600 Wh; it measured 400 W from 900 s
    on, so 300 Wh. b gives 60 W from 3000 s on, so 10 Wh. What is behind the end does not count, nor what a writes as its setpoint."""
    database = open_database(url)

    def price(child, at, clearing, step):
        key = {**KEY, "parent": "root", "child": child, "clearing": clearing}
        return Row("prices", {**key, "number": 2, "step": step, "price": 4 * step + 4, "at": at})

    def node(name, sort, parent, child):
        place = {"sort": sort, "parent": parent, "child": child}
        return Row("states", {"node": name, "run": "0", "at": 0.0, "state": "up", "alarm": "", "why": "", "session": "", **place})

    bids = {1: [1000, 200, 9], 2: [0, 0, -60]}
    database.put([Row("bids", {**KEY, "parent": "root", "child": child, "number": 2, "at": -200.0, "demands": str(told)}) for child, told in bids.items()])
    database.put([price(1, -100.0, 1, 0), price(1, 1800.0, 2, 1), price(1, 4000.0, 4, 2), price(2, 3000.0, 3, 2)])
    numbers = {"clearing": 2, "number": 2, "step": 1, "price": 8, "power": -67_380, "at": 1800.0}
    database.put([Row("setpoints", {**KEY, "device": "a", **numbers}), Row("measured", {"device": "a", "at": 900.0, "power": 400})])
    database.put([Row("sessions", {**KEY, "begun": -300.0, "least": 4, "greatest": 12, "steps": 3})])
    database.put([node("root", "auctioneer", None, None), node("a", "device", "root", 1), node("b", "device", "root", 2)])
    span = span_of(database, 0.0, 3600.0)
    assert span.by_market == {"a": 600.0, "b": -10.0}
    assert span.by_measure == {"a": 300.0}
    assert span.different == 1
    assert (span.clearings, span.least, span.mean, span.greatest) == (2, 8, 10.0, 12)
    assert span_of(database, 10**6, 10**6 + 1).clearings == 0


def test_what_the_command_says(tmp_path, capsys):
    url = f"sqlite:///{tmp_path}/market.db"
    assert main(["history", "--to", url]) == 2
    assert main(["history", "--to", "mysql://x", "--day", "2026-01-31"]) == 2
    assert main(["history", "--to", f"sqlite:///{tmp_path}/no/market.db", "--day", "2026-01-31"]) == 1
    told = capsys.readouterr().err
    assert "give --config FILE" in told
    assert "the database is 'mysql://x'" in told
    database = open_database(url)
    database.put(rows_of(TOPICS, message("b/measured", {"power": 240, "time": "2026-01-31T00:00:00Z"})))
    database.close()
    assert main(["history", "--to", url, "--day", "2026-01-31T00:00[UTC]"]) == 0
    out, err = capsys.readouterr()
    assert out == "name,set_watt_hours,measured_watt_hours\nb,,5760.0\n"
    assert err == "0 clearings, no price\n"


# A whole market.


class History:
    """A process of `cogmaula history`, which the test may kill."""

    def __init__(self, made, url):
        self._folder = made.out
        self._command = [sys.executable, "-B", "-m", "cogmaula", "history", "--config", str(made.out / "history" / "history.toml"), "--to", url]

    def start(self):
        environment = {**os.environ, "PYTHONPATH": str(TOP / "python")}
        with open(self._folder / "history.err", "ab") as said:
            self.process = subprocess.Popen(self._command, stderr=said, env=environment)

    def kill(self):
        self.process.kill()
        self.process.wait()


def test_a_kill_at_any_moment_loses_and_repeats_nothing(url, tmp_path):
    """An operator reads all bids and prices too. While offers flow the process is killed again and again, and is away for a while."""
    require_broker()
    live, chance = live_program(), random.Random(1)
    with MadeMarket(tmp_path) as made:
        history, operator = History(made, url), made.client("operator")
        history.start()
        wait_until(lambda: "Sending SUBACK to history" in made.log, "the history reads")
        for name in ("auctioneer", "street", "house", "store"):
            made.start(name, live)
        for turn in range(5):
            for _ in range(8):
                made.controls["house"].offers(falls_at(chance.randrange(1, STEPS), chance.randrange(200, 300), 100))
                made.controls["store"].offers(falls_at(chance.randrange(1, STEPS), 0, -chance.randrange(300, 400)))
                time.sleep(chance.random() / 10)
            history.kill()
            if turn < 4:
                history.start()
                time.sleep(chance.random())
        made.controls["house"].offers(falls_at(9, 222, 111))
        wait_until(lambda: made.controls["house"].has(power=111) or made.controls["house"].has(power=222), "the last setpoint")
        history.start()
        database = open_database(url)

        def seen():
            found = {"bids": set(), "prices": set()}
            for topic, payload in list(operator.read):
                parent, word = (*topic.split("/"), "")[1:3]
                if word == "bid" and payload:
                    frame = frame_of(payload, BIDS, STEPS)
                    found["bids"].add((parent, frame.child, frame.number, json.dumps(frame.demands) if isinstance(frame, Bid) else None))
                for _, price in prices_in(topic, payload):
                    found["prices"].add((parent, price.child, price.index, price.step))
            return found

        def kept():
            bids = database.read("SELECT parent, child, number, demands FROM bids")
            prices = database.read("SELECT parent, child, clearing, step FROM prices")
            return {"bids": set(bids), "prices": set(prices)}

        wait_until(lambda: kept() == seen(), f"all is kept: {[{name: seen()[name] ^ kept()[name] for name in seen()}]}")
        assert len(seen()["bids"]) > 40
        assert len(seen()["prices"]) > 20
        newest = made.controls["house"].setpoints[-1]
        due = (newest["clearing"], newest["bid"], newest["power"])
        query = "SELECT clearing, number, power FROM setpoints WHERE device = ? ORDER BY clearing DESC, number DESC LIMIT 1"
        wait_until(lambda: database.read(query, ["house"]) == [due], "the newest setpoint")
        history.process.send_signal(signal.SIGTERM)
        assert history.process.wait(SECONDS) == 0
        database.close()
        assert (made.out / "history.err").read_text() == ""
