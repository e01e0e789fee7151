"""Recordings as a cluster file and a trace: over kills, losses, lapses and levels `market check` takes it, and no changed one.

Each trace is judged by the plain judge of checks/oracle, which was written apart from the program, and by the proved program.
Without one the second half is skipped.
"""

from __future__ import annotations

import json
import tempfile
from collections import Counter
from dataclasses import replace
from pathlib import Path

import pytest
from brokers import live_program
from conftest import CONSTANT
from hypothesis import given, settings
from hypothesis import strategies as some
from markets import STEPS, falls_at
from modelled import BASIS as DRAWN_BASIS
from modelled import DrawnMarket, nodes_of
from recorded import Lines, Post, RecordedMarket

from checks.oracle import nodes
from checks.oracle.judge import answer, plan_of
from cogmaula import Cluster, Invalid, Program, check
from cogmaula.calls import envelope
from cogmaula.cli import main
from cogmaula.commands import judge as command
from cogmaula.judge import NoTrace, judge_and_trace
from cogmaula.judge.cluster_file import cluster_of
from cogmaula.judge.following import Following
from cogmaula.judge.merging import Merge
from cogmaula.judge.reading import recordings_in
from cogmaula.judge.session_tree import markets_of
from cogmaula.judge.tracing import trace_of
from cogmaula.program_limits import MOST_EVENTS
from cogmaula.live.messages.frames import MOST, Clear, Expire, Leave, Offer, Send
from cogmaula.live.node.node_settings import PriceSettings


class Plain:
    """Answers `run` and `check` as the program does, by the plain auction and the plain judge."""

    def answer(self, command, data, timeout=None):
        if command == "run":
            return b"".join(line + b"\n" for line in plan_of(data).report)
        status, line = answer(data)
        if status == 1:
            raise Invalid(int(line.split()[2]))
        return line.encode()


@pytest.fixture(params=["plain", "proved"])
def judges(request):
    """What judges a trace."""
    return Plain() if request.param == "plain" else request.getfixturevalue("program")


@pytest.fixture(scope="module")
def long(tmp_path_factory):
    """The recordings of a market whose relay has limits, is killed, and loses prices, and whose mill leaves and comes back."""
    post = Losing()
    market = RecordedMarket(tmp_path_factory.mktemp("long"), live_program(), post=post)
    limits = {"floor": -1_000, "ceiling": 1_000}
    try:
        market.start("auctioneer", prices=PriceSettings(together=False)).start("mill", "house", "store").start("street", **limits)
        market.offers(house=falls_at(4, 400, 100), store=falls_at(5, 0, -60), mill=CONSTANT)
        market.settles_at(9, mill=100, house=100)
        market.offers(mill=[-200] * STEPS)
        market.settles_at(4, mill=-200, house=100)
        market.leaves("mill")
        market.offers(mill=falls_at(2, 60, -60))
        market.settles_at(5, house=100, store=-60)
        post.loses = "market/auctioneer/price/1"
        for step in (6, 8, 7):
            market.offers(mill=falls_at(step, 60, -60))
            market.settles_at(step, mill=-60)
        market.kill("street")
        post.loses = None
        market.start("street", **limits)
        market.offers(store=falls_at(8, 0, -150))
        market.settles_at(8, house=100, store=-150)
        market.leaves("mill")
        told = len(market.controls["mill"].told)
        market.offers(mill=falls_at(7, 60, -60))
        market.until(lambda: len(market.controls["mill"].told) > told, "the mill is back")
    finally:
        market.stop()
    return market.recordings


class Losing(Post):
    """A post that loses all messages under one topic."""

    loses = None

    def deliver(self, link, publication, retained):
        if publication.topic != self.loses:
            super().deliver(link, publication, retained)


def lines_in(traced):
    return Path(traced.trace).read_text().splitlines()


def setpoints_in(lines):
    """Of each device the Setpoints whose clearing is newer than all before."""
    for name in ("house", "store", "mill"):
        newest = 0
        for setpoint in (lines.frame(*at) for at in lines.of(name, "out", "Setpoint")):
            if setpoint.index > newest:
                newest = setpoint.index
                yield name, setpoint


@pytest.mark.parametrize("market", ["recorded", "long"])
def test_recordings_over_kills_and_losses_are_a_trace(request, judges, live, tmp_path, market):
    folder = request.getfixturevalue(market)
    verdict, traced = judge_and_trace(folder, tmp_path / "street", live, judges)
    assert verdict.verdict == "valid"
    lines, told = lines_in(traced), Lines(folder)
    assert lines[-1] == f"moves {traced.moves}"
    passes = [line.split() for line in lines[: traced.settling - 1] if line.startswith("pass ") and "price" in line]
    due = Counter((name, str(setpoint.index), str(setpoint.step)) for name, setpoint in setpoints_in(told))
    assert sum(due.values()) > 10
    # Prices are 0 to 9 in ten steps. Each Setpoint is a pass with its price. A restarted device may have dropped one.
    assert not due - Counter((name, index, price) for _, name, index, _, price, *_ in passes)
    assert sum(line.startswith("clear ") for line in lines[: traced.settling - 1]) == verdict.clearings
    assert Cluster.load(traced.cluster).devices


def test_a_device_that_comes_back_with_another_offer_joins_and_changes(live, long, tmp_path):
    _, traced = judge_and_trace(long, tmp_path / "street", live, Plain())
    events = [event.members() for event in Cluster.load(traced.cluster).phases[0].events]
    mills = [event for event in events if "mill" in event.values()]
    assert [next(iter(mill)) for mill in mills[:5]] == ["join", "state", "leave", "join", "state"]
    assert list(mills[4]["demand"]) == falls_at(2, 60, -60)
    # It came back a second time with the offer that it had: this is one change.
    assert [next(iter(mill)) for mill in mills[-2:]] == ["leave", "join"]
    # It counts by two, and one number more for its first return.
    last = Lines(long).frame(*Lines(long).of("mill", "out", "Bid")[-1]).number // 2
    assert f"change mill {last + 1}" in lines_in(traced) and f"change mill {last + 2}" not in lines_in(traced)


def test_a_price_that_the_relay_missed_is_passed_in_its_place(live, long, tmp_path):
    _, traced = judge_and_trace(long, tmp_path / "street", live, Plain())
    assert Cluster.load(traced.cluster).node("street").kind == "concentrator"
    told = Lines(long)
    steps = {name: {price.index: price.step for at, price in
             ((at, told.frame(*at)) for at in told.of(name, "out", "Price"))} for name in ("auctioneer", "street")}
    assert all(steps["auctioneer"][index] == step for index, step in steps["street"].items()), "limits moved no price"
    missed = set(steps["auctioneer"]) - {told.frame(*at).index for at in told.of("street", "in", "Price")}
    passed = {int(line.split()[2]) for line in lines_in(traced)[: traced.settling - 1] if line.startswith("pass street ")}
    assert missed & passed, "a price that the relay missed is passed in its place"


PLACES = {
    "root": ("auctioneer", None, None),
    "area": ("relay", "root", 1),
    "street": ("relay", "area", 1),
    "mill": ("device", "root", 2),
    "house": ("device", "street", 1),
    "store": ("device", "area", 2),
}


def test_two_levels_of_relays_are_a_trace(judges, live, tmp_path):
    market = RecordedMarket(tmp_path, live, PLACES)
    try:
        market.start("root", "area", "street", "mill", "house", "store")
        for step, name in ((4, "area"), (6, "street"), (3, "house")):
            market.offers(house=CONSTANT, store=falls_at(step, 0, -150), mill=falls_at(2, 60, -60))
            market.settles_at(step, house=100, store=-150)
            market.kill_service(name)
    finally:
        market.stop()
    verdict, traced = judge_and_trace(market.recordings, tmp_path / "levels", live, judges)
    cluster = Cluster.load(traced.cluster)
    relays = [(node.name, node.kind, node.above) for node in cluster.nodes if not node.is_device]
    assert relays == [("area", "concentrator", "auctioneer"), ("street", "concentrator", "area")]
    assert verdict.verdict == "valid" and any(line.startswith("learn auctioneer area ") for line in lines_in(traced))


# Changes of one line.


def changes_of(lines, first):
    """Of each form of a move the last line of it, and what is put in its place."""
    for word in ("change", "learn", "publish", "clear", "pass", "close", "moves"):
        at = max(number for number in range(first, len(lines)) if lines[number].startswith(f"{word} "))
        yield at, " ".join([*lines[at].split()[:-1], str(int(lines[at].split()[-1]) + 1)])
    prices = [number for number in range(first, len(lines)) if " price " in lines[number]]
    words = lines[prices[0]].split()
    yield prices[0], " ".join([*words[:4], str(int(words[4]) + 1), *words[5:]])


def test_a_trace_of_which_a_line_is_changed_is_refused(judges, live, long, tmp_path):
    _, traced = judge_and_trace(long, tmp_path / "street", live, judges)
    lines, file = lines_in(traced), Path(traced.cluster).read_bytes()
    first = next(number for number in range(len(lines)) if lines[number].startswith("end ")) + 1
    assert check(file, Path(traced.trace).read_bytes(), program=judges) == traced.moves
    changes = list(changes_of(lines, first))
    assert len(changes) == 8
    for at, line in [*changes, *((number, None) for number in range(first, len(lines)))]:
        changed = [*lines[:at], *([] if line is None else [line]), *lines[at + 1 :]]
        with pytest.raises(Invalid) as error:
            check(file, "".join(f"{line}\n" for line in changed).encode(), program=judges)
        assert error.value.line >= at + 1


# Drawn markets.

# Limits that no sum of two devices passes, and some that it may pass.
WIDE, NARROW = (-5_000, 5_000), (-150, 100)
GIVER = 256
TREES = [
    [("a", "device", "auctioneer"), ("b", "device", "auctioneer")],
    [("r", "relay", "auctioneer"), ("a", "device", "r"), ("b", "device", "r"), ("c", "device", "auctioneer")],
    [("r", "relay", "auctioneer", WIDE), ("a", "device", "r"), ("b", "device", "r"), ("c", "device", "auctioneer")],
    [("r", "relay", "auctioneer"), ("q", "relay", "r"), ("a", "device", "q"), ("b", "device", "r"), ("c", "device", "q")],
    [("r", "relay", "auctioneer", WIDE, GIVER), ("q", "relay", "r", WIDE), ("a", "device", "q"), ("b", "device", "r")],
    [("r", "relay", "auctioneer", WIDE), ("q", "relay", "r", WIDE, GIVER), ("a", "device", "q"), ("b", "device", "r")],
]
BINDING = [
    [("r", "relay", "auctioneer", NARROW), ("a", "device", "r"), ("b", "device", "r"), ("c", "device", "auctioneer")],
    [("r", "relay", "auctioneer", WIDE), ("q", "relay", "r", NARROW, GIVER), ("a", "device", "q"), ("b", "device", "r")],
]
SEEN = Counter()


def followed(market, folder):
    """What the recordings of a drawn market come to."""
    [one] = markets_of(recordings_in(market.write(folder)))
    following = Following(one)
    Merge(one, {}, following.visit).run()
    assert not one.missing
    return following


def require_trace(following, judge):
    """Has the trace judged, and counts its moves."""
    cluster = cluster_of(following)
    text, moves, settling = trace_of(following, cluster, judge.answer("run", cluster.to_bytes()))
    assert judge.answer("check", envelope(cluster.to_bytes(), text)) == b"valid moves %d\n" % moves
    recorded = text.splitlines()[: settling - 1]
    SEEN.update(line.split()[0].decode() for line in recorded)
    SEEN["none"] += sum(line.endswith(b" none") for line in recorded)
    SEEN["window"] += any(line.startswith(b"publish ") and int(line.split()[2]) > 8 for line in recorded)
    SEEN["lapse"] += sum(len(device.lapses) for device in following.script.devices.values())
    SEEN["limits"] += sum(len(following.script.devices[name].numbers) - 1 for name in following.givers.values())


def drawn_into(places, seed, steps, judge):
    market = DrawnMarket(nodes_of(*places), seed)
    for _ in range(steps):
        market.step()
    with tempfile.TemporaryDirectory() as folder:
        require_trace(followed(market, Path(folder) / "recordings"), judge)


@settings(max_examples=80, deadline=None)
@given(places=some.sampled_from(TREES), seed=some.integers(0, 2**32), steps=some.sampled_from([10, 40, 150, 300]))
def test_any_drawn_market_is_a_trace(places, seed, steps):
    drawn_into(places, seed, steps, Plain())


@settings(max_examples=40, deadline=None)
@given(places=some.sampled_from(BINDING), seed=some.integers(0, 2**32), steps=some.sampled_from([10, 40, 150]))
def test_a_drawn_market_whose_limits_bind_has_no_trace(places, seed, steps):
    """Each record of a relay is noted as it is made, and its sum compared with its limits."""
    bound = []
    record = nodes.Relay.record

    def noting(self):
        record(self)
        made = self.records[self.last]
        bound.append(any(not made.limits[0] <= power <= made.limits[1] for power in made.total))

    nodes.Relay.record = noting
    try:
        market = DrawnMarket(nodes_of(*places), seed)
        for _ in range(steps):
            market.step()
        for name in market.nodes:
            market.handle_all(name)
    finally:
        nodes.Relay.record = record
    with tempfile.TemporaryDirectory() as folder:
        following = followed(market, Path(folder) / "recordings")
    SEEN["bound" if any(bound) else "free"] += 1
    if following.bound is None:
        assert not any(bound)
        return
    assert any(bound)
    with pytest.raises(NoTrace, match="over a sum that its limits bind"):
        cluster_of(following)


def test_drawn_markets_made_all_moves():
    """The markets of these seeds, by themselves, so that the count is the same each time."""
    SEEN.clear()
    for seed, places in enumerate(TREES * 6):
        drawn_into(places, seed, 300, Plain())
    assert all(SEEN[word] > 20 for word in ("change", "learn", "publish", "clear", "pass", "none", "lapse", "limits")), SEEN
    assert SEEN["window"] > 1, SEEN


def test_the_proved_program_takes_drawn_markets(program):
    for seed, places in enumerate(TREES * 5):
        drawn_into(places, seed, 150, program)


@pytest.mark.parametrize("is_stored", [False, True])
def test_an_offer_whose_service_stops_before_it_is_sent(tmp_path, is_stored):
    """If its Resume was stored, though no line says so, it is a change. Else the next offer has its number."""
    market = DrawnMarket(nodes_of(("a", "device", "auctioneer")), 0)
    first, second = (300, 100, 0, -200), (200, 0, 0, 0)
    market.feed("a", Offer(first).to_bytes())
    market.handle("a")
    resume = market.nodes["a"].waits
    market.start("a", resume if is_stored else b"")
    market.feed("a", Offer(second).to_bytes())
    market.handle_all("a")
    following = followed(market, tmp_path / "recordings")
    demands = [following.script.devices["a"].start, *(event.demand for event in following.script.events[1:])]
    assert demands == ([first, second] if is_stored else [second])
    require_trace(following, Plain())


def test_a_bid_whose_relay_stops_before_it_is_sent(tmp_path):
    """It is published, and nobody takes it: its number is stored, and the next bid has the next one."""
    market = DrawnMarket(nodes_of(("r", "relay", "auctioneer"), ("a", "device", "r")), 0)
    for demands in ((300, 100, 0, -200), (200, 0, 0, 0)):
        market.feed("a", Offer(demands).to_bytes())
        market.handle_all("a")
        market.feed("r", market.nodes["a"].sent[-1])
        market.feed("r", Send().to_bytes())
        market.handle("r")
        market.start("r", market.nodes["r"].waits)
    following = followed(market, tmp_path / "recordings")
    assert [line for line in following.journal.lines if line.startswith("publish ")] == ["publish r 1", "publish r 2"]
    require_trace(following, Plain())


def test_a_device_that_was_let_go_and_offers_anew_left_before(tmp_path):
    """Its parent came back before it told anybody, so no number of its parent's is in the market. It left under one of its own."""
    market = DrawnMarket(nodes_of(("a", "device", "auctioneer")), 0)
    offer = Offer((300, 100, 0, -200))
    market.feed("a", offer.to_bytes())
    market.handle_all("a")
    bid = market.nodes["a"].sent[-1]
    for data in (bid, Clear().to_bytes()):
        market.feed("auctioneer", data)
        market.handle_all("auctioneer")
    price = market.nodes["auctioneer"].sent[-1]
    market.feed("auctioneer", Expire(1).to_bytes())
    market.feed("auctioneer", bid)
    market.handle_all("auctioneer")
    market.feed("a", market.nodes["auctioneer"].sent[-1])
    market.feed("a", price)
    market.handle_all("a")
    market.start("auctioneer", market.nodes["auctioneer"].stored)
    following = followed(market, tmp_path / "recordings")
    assert [next(iter(event.members())) for event in following.script.events] == ["join", "leave", "join"]
    assert following.journal.lines[-1] == "pass a 1 none"
    require_trace(following, Plain())


# What has no cluster file.


def refusal(*places, feeds=()):
    """Why no cluster file is made of a market in which these nodes are fed these frames."""
    market = DrawnMarket(nodes_of(*places), 0)
    for name, frame in feeds:
        market.feed(name, frame.to_bytes())
        for node in market.nodes:
            market.handle_all(node)
    with tempfile.TemporaryDirectory() as folder, pytest.raises(NoTrace) as error:
        cluster_of(followed(market, Path(folder) / "recordings"))
    return str(error.value)


@pytest.mark.parametrize(
    ("places", "found", "rule"),
    [
        ([(f"d{number}", "device", "r" if number % 2 else "auctioneer") for number in range(256)], "256 nodes", None),
        ([("9a", "device", "auctioneer")], "9a is the name", "a letter first"),
        ([("a" * 33, "device", "auctioneer")], "a is the name", "1 to 32 bytes"),
    ],
)
def test_a_tree_that_is_none_of_a_cluster_file(places, found, rule):
    if rule is None:
        places, found, rule = [("r", "relay", "auctioneer"), *places], "257 nodes are below", "at most 256"
    told = refusal(*places)
    assert found in told and rule in told


def test_more_changes_than_a_phase_has_events():
    """A device that says again that it is gone joins and leaves."""
    told = refusal(("a", "device", "auctioneer"), feeds=[("a", Leave())] * (MOST_EVENTS // 2 + 1))
    assert f"more than {MOST_EVENTS} changes" in told


def test_as_many_changes_as_a_phase_has_events(tmp_path):
    market = DrawnMarket(nodes_of(("a", "device", "auctioneer")), 0)
    for _ in range(MOST_EVENTS // 2):
        market.feed("a", Leave().to_bytes())
        market.handle_all("a")
    require_trace(followed(market, tmp_path / "recordings"), Plain())


def test_a_relay_whose_greatest_power_was_passed_has_no_trace():
    """It announces at most 1,000,000,000 W, and a concentrator would announce the whole sum."""
    places = [("r", "relay", "auctioneer"), ("a", "device", "r"), ("b", "device", "r")]
    market = DrawnMarket(nodes_of(*places), 0)
    for name in ("a", "b"):
        market.feed(name, Offer((MOST,) * DRAWN_BASIS.steps).to_bytes())
        market.handle_all(name)
        market.feed("r", market.nodes[name].sent[-1])
    market.feed("r", Send().to_bytes())
    market.handle_all("r")
    with tempfile.TemporaryDirectory() as folder, pytest.raises(NoTrace, match="bid 1 of r is over a sum that its limits bind"):
        cluster_of(followed(market, Path(folder) / "recordings"))


def test_recordings_of_two_sessions_are_no_trace(live, tmp_path):
    market = DrawnMarket(nodes_of(("a", "device", "auctioneer")), 0)
    folder = market.write(tmp_path / "recordings")
    for path in list(folder.iterdir()):
        name, session, _, end = path.name.split(".")
        text = path.read_bytes().replace(session.encode(), b"f" * 16).replace(b"T06:00", b"T07:00")
        (folder / f"{name}.{'f' * 16}.000002.{end}").write_bytes(text)
    with pytest.raises(NoTrace, match="of one session, and the recordings are of 2"):
        judge_and_trace(folder, tmp_path / "two", live, Plain())


# The command.


@pytest.fixture
def plain(monkeypatch):
    """The command finds the plain judge."""
    monkeypatch.setattr(command.cli, "program_of", lambda arguments: Plain())


def test_the_command_writes_both_files_and_says_where_the_recording_ends(live, recorded, tmp_path, capsys, plain):
    words = ["judge", str(recorded), "--live", live, "--trace", str(tmp_path / "street")]
    assert main(words) == 0
    valid, trace, *rest = capsys.readouterr().out.splitlines()
    assert valid.startswith("valid sessions 1 ") and not rest
    lines = (tmp_path / "street.trace").read_text().splitlines()
    moves, line = int(lines[-1].split()[1]), int(trace.split()[-1])
    assert trace == f"trace {tmp_path}/street.trace of {tmp_path}/street.json moves {moves} settling from line {line}"
    assert main([*words, "--json"]) == 0
    told = json.loads(capsys.readouterr().out)["trace"]
    assert told == {"cluster": f"{tmp_path}/street.json", "trace": f"{tmp_path}/street.trace", "moves": moves, "settling": line}


def test_recordings_that_are_not_valid_have_no_trace(lines, live, tmp_path, capsys, plain):
    words = ["judge", str(lines.folder), "--live", live, "--trace", str(tmp_path / "street")]
    for path in lines.folder.glob("mill.*"):
        path.unlink()
    assert main(words) == 1
    assert capsys.readouterr().out.startswith("incomplete ")
    at = lines.of("street", "out", "Price")[0]
    lines.change_frame(*at, replace(lines.frame(*at), step=9)).write()
    assert main([*words, "--json"]) == 5
    assert json.loads(capsys.readouterr().out)["trace"] is None
    assert not list(tmp_path.glob("street.*"))


def test_a_trace_that_check_refuses_is_said(live, recorded, tmp_path, capsys, monkeypatch):
    class Refusing(Plain):
        def answer(self, command, data, timeout=None):
            if command == "check":
                raise Invalid(17)
            return super().answer(command, data)

    monkeypatch.setattr(command.cli, "program_of", lambda arguments: Refusing())
    assert main(["judge", str(recorded), "--live", live, "--trace", str(tmp_path / "street")]) == 1
    said = capsys.readouterr()
    assert "street.trace: line 17 is wrong or missing" in said.err and "report this" in said.err and not said.out


def test_without_a_program_the_command_says_what_to_do(live, recorded, tmp_path, capsys):
    words = ["judge", str(recorded), "--live", live, "--trace", str(tmp_path / "street"), "--program", "/no/such"]
    assert main(words) == 1
    assert "/no/such does not exist" in capsys.readouterr().err
    assert main(words[:4]) == 0
