"""Reading, building and writing clusters: what is written is what was read, and the program says the same of both."""

from __future__ import annotations

import json

import pytest
from clusters import clusters
from conftest import CASES, EXAMPLES
from hypothesis import given, settings

from checks.make import members
from cogmaula import (
    Basis,
    Battery,
    Cluster,
    Events,
    Join,
    Leave,
    Limited,
    Load,
    Manual,
    MarketError,
    Objective,
    Refused,
    State,
    Tick,
    Unreadable,
)

FILES = sorted([*EXAMPLES.glob("*.json"), *CASES.glob("*/*.json")])


@pytest.mark.parametrize("file", sorted(EXAMPLES.glob("*.json")), ids=lambda node: node.name)
def test_an_example_is_written_as_it_was_read(file):
    cluster = Cluster.load(file)
    assert json.loads(cluster.to_json()) == json.loads(file.read_text())
    assert Cluster.from_json(cluster.to_json()) == cluster


@settings(max_examples=100)
@given(cluster=clusters())
def test_a_cluster_is_read_as_it_was_written(cluster):
    assert Cluster.from_json(cluster.to_json()) == cluster
    assert Cluster.from_json(cluster.to_bytes()) == cluster


@settings(max_examples=50)
@given(cluster=clusters())
def test_the_program_takes_what_is_drawn(program, cluster):
    cluster.check()


def answer(program, data):
    """The text of a run, or the words of its refusal."""
    try:
        return program.answer("run", data)
    except MarketError as error:
        return str(error)


def texts():
    """Each small cluster file of the repository, right or wrong, with its name."""
    for file in FILES:
        yield f"{file.parent.name}/{file.name}", file.read_bytes()
    for name, data, _ in members.files():
        yield name, data


def test_the_program_says_the_same_of_a_file_and_of_its_cluster(program):
    read, unreadable = 0, 0
    for name, data in texts():
        due = answer(program, data)
        try:
            cluster = Cluster.from_json(data)
        except Unreadable:
            unreadable += 1
            assert isinstance(due, str) and due.startswith("refused "), name
            continue
        read += 1
        assert answer(program, cluster.to_bytes()) == due, name
    # Both happen, so that the loop shows something.
    assert read > 300 and unreadable > 100


@pytest.mark.parametrize(
    ("text", "why"),
    [
        ("[]", "an object is due"),
        ('{"version": 1}', "the member basis is missing"),
        ('{"version": 1, "basis": {}, "nodes": [], "phases": []}', "basis: the member min is missing"),
        ("{", "no JSON"),
        (b"\xff", "the bytes are not UTF-8 at byte 0"),
        ("[" * 100_000, "the nesting is too deep"),
        ("\ufeff{}", "no JSON"),
    ],
)
def test_what_no_cluster_can_hold(text, why):
    with pytest.raises(Unreadable, match=why):
        Cluster.from_json(text)


def with_parts(nodes="[]", phases="[]"):
    """The text of a cluster with these nodes and phases."""
    return f'{{"version": 2, "basis": {{"min": 0, "max": 9, "steps": 10}}, "nodes": {nodes}, "phases": {phases}}}'


@pytest.mark.parametrize(
    ("text", "path"),
    [
        (with_parts(nodes="[1]"), "nodes[0]"),
        (with_parts(nodes="{}"), "nodes"),
        (with_parts(nodes="[{}]"), "nodes[0]"),
        (with_parts(nodes='[{"kind": "toaster"}]'), "nodes[0]"),
        (with_parts(nodes='[{"name": "a", "kind": "load", "parent": "auctioneer"}]'), "nodes[0]"),
        (with_parts(nodes='[{"name": "a", "kind": "load", "parent": "auctioneer", "start": 1, "pwoer": 2}]'), "nodes[0]"),
        (with_parts(nodes='[{"name": "a", "kind": "manual", "parent": "auctioneer", "points": [1]}]'), "nodes[0]"),
        (with_parts(nodes='[{"name": "a", "kind": "manual", "parent": "auctioneer", "demand": null}]'), "nodes[0]"),
        (with_parts(phases='[{"events": {}}]'), "phases[0].events"),
        (with_parts(phases="[1]"), "phases[0]"),
        (with_parts(phases='[{"tick": 1}, {"events": [1]}]'), "phases[1].events[0]"),
        (with_parts(phases='[{"events": [{"join": "a", "leave": "a"}]}]'), "phases[0].events[0]"),
        (with_parts(phases='[{"events": [{"state": "a"}]}]'), "phases[0].events[0]"),
        (with_parts(phases='[{"events": [{"state": "a", "value": null}]}]'), "phases[0].events[0]"),
    ],
)
def test_where_a_file_has_another_shape(program, text, path):
    with pytest.raises(Unreadable) as told:
        Cluster.from_json(text)
    assert told.value.path == path
    with pytest.raises(Refused):
        program.answer("run", text.encode())


def test_minus_zero_is_not_zero(program):
    text = with_parts(nodes='[{"name": "a", "kind": "load", "parent": "auctioneer", "start": -0}]')
    with pytest.raises(Refused) as refused:
        Cluster.from_json(text).check(program)
    assert refused.value.code == 2


def test_building_by_code(program, tmp_path):
    street = Cluster(Basis(0, 9, 10), [Limited("feeder", floor=-100, ceiling=150)])
    street = street.with_nodes(
        Load("house", parent="feeder", start=100),
        Manual("flex", parent="feeder", points=[[0, 300], [9, -150]]),
        Objective("goal", start=-50),
    )
    street = street.with_phases(street.join_all(), Tick(15), Events([State("house", 120)]))
    street.save(tmp_path / "street.json")
    assert Cluster.load(tmp_path / "street.json") == street
    street.check(program)
    assert [device.name for device in street.devices] == ["house", "flex", "goal"]
    assert street.groups() == {"feeder": "feeder", "house": "feeder", "flex": "feeder", "goal": None}
    assert street.minutes == 15
    assert street.node("house").above == "feeder"
    assert street.node("goal").above == "auctioneer"
    assert street.basis.prices == list(range(10))
    assert street.with_script([]).phases == ()
    with pytest.raises(KeyError):
        street.node("nobody")


def test_lists_and_tuples_are_the_same():
    assert Manual("a", demand=[1, 0]) == Manual("a", demand=(1, 0))
    assert State("a", points=[[0, 1]]) == State("a", points=((0, 1),))
    assert Events([Join("a")]) == Events((Join("a"),))


@pytest.mark.parametrize(
    "event", [State("a", 5), State("a", -7), State('a"\u00e9\\', 0), State("a", points=[[0, 1]]), State("a", demand=[1, 0]), Join("b"), Leave("b")]
)
def test_an_event_is_written_as_json_is(event):
    """The short way for a new number writes what the library for JSON writes."""
    assert Events([event, event]).line == json.dumps({"events": [event.members(), event.members()]})


@pytest.mark.parametrize("value", ["true", "1.5", "-0", '"5"', "10000000000000000000000"])
def test_a_state_that_is_no_small_number_is_written_as_it_was(value):
    text = f'{{"version": 2, "basis": {{"min": 0, "max": 9, "steps": 10}}, "nodes": [], "phases": [{{"events": [{{"state": "a", "value": {value}}}]}}]}}'
    written = Cluster.from_json(text).to_json()
    assert f'"value": {"-0.0" if value == "-0" else value}}}' in written


def test_prices_by_hand():
    assert Basis(-100, 100, 5).prices == [-100, -50, 0, 50, 100]


def test_a_refusal_by_the_program(program):
    cluster = Cluster(Basis(0, 10, 10))
    with pytest.raises(Refused) as refused:
        cluster.check(program)
    assert (refused.value.code, str(refused.value.place), refused.value.item) == (6, "basis", None)
    with pytest.raises(Refused, match="refused 19 node 1"):
        Cluster(
            Basis(0, 9, 10), [Battery("store", capacity=1, charge=1, discharge=1, spread=0, start=2)]
        ).check(program)
