"""`explain`: each refusal of the repository's cases has its place and its words, and so have the faults that users make."""

from __future__ import annotations

import json
import re
import subprocess

import pytest
from conftest import CASES, EXAMPLES, TOP
from hypothesis import given, settings
from hypothesis import strategies as st
from places_due import PLACES

from checks.make import members
from checks.make.cases import large_files
from cogmaula import Refused, explain
from cogmaula.calls import envelope
from cogmaula.explaining import EXPLAINERS, RULES
from cogmaula.explaining.located import NoJson, read

pytestmark = pytest.mark.usefixtures("program")


def line_and_column(text, at):
    """The line and the column of a character, counted from 1."""
    return text[:at].count("\n") + 1, at - (text.rfind("\n", 0, at) + 1) + 1


def marked(text, mark):
    """The line and the column of the place that a mark shows by ^. The mark is in the text once."""
    before, behind = mark.split("^")
    assert text.count(before + behind) == 1, mark
    return line_and_column(text, text.index(before + behind) + len(before))


@pytest.mark.parametrize("name", PLACES)
def test_where_a_case_is_at_fault(name):
    data = (CASES / f"{name}.json").read_bytes()
    path, mark = PLACES[name]
    told = explain(data)
    assert told.answer == (CASES / f"{name}.stdout").read_text().strip()
    assert told.path == path
    assert (told.line, told.column) == marked(data.decode(errors="replace"), mark)
    assert told.rule == RULES[told.code]
    assert told.fault and told.written and told.allowed


def test_every_case_is_in_the_table():
    refused = {
        f"{path.parent.name}/{path.stem}"
        for folder in ("refusals", "shape", "order", "limits")
        for path in (CASES / folder).glob("*.json")
        if path.with_suffix(".stdout").read_text().startswith("refused ")
    }
    assert refused == PLACES.keys()


def test_every_code_has_a_rule():
    # The help of the command lists all codes, and says of 21 that no refusal has it.
    table = subprocess.run(["bash", "-c", ". script/words.sh; refusals"], cwd=TOP, capture_output=True, text=True, check=True)
    codes = {int(line.split("|")[0]) for line in table.stdout.splitlines()}
    assert codes - {21} == RULES.keys()
    assert codes - {1, 21, 23, 24, 25} == EXPLAINERS.keys()


def test_each_edited_member_has_its_place():
    told_of = set()
    for name, data, text in members.files():
        if not text.startswith("refused"):
            assert explain(data) is None, name
            continue
        told = explain(data)
        assert told.answer == text.strip(), name
        # The edits of members/ are in one line.
        assert told.line == 1, name
        edit = re.match(r"\w+: (no|a further|)\s*(\w+)", name)
        if edit and edit[1] == "no":
            # An event without its device is no event with a state.
            assert edit[2] in told.fault, name
        elif edit and edit[1] == "a further":
            assert (told.path.split(".")[-1], told.written) == ("note", '"note": 1'), name
        elif edit:
            assert edit[2] in re.split(r"\W+", told.path), name
        told_of.add(told.code)
    assert told_of == {2, 3, 4, 5, 6, 13, 17, 18, 19}


def test_large_files():
    codes = {}
    for case in large_files():
        if case.stdout.startswith(b"refused"):
            told = explain(case.stdin)
            codes[told.answer] = told.path
    assert codes == {
        "refused 11 document": "nodes[256]",
        "refused 20 phase 1": "phases[0].events[4096]",
        "refused 20 phase 6": "phases[5]",
        "refused 20 document": "phases[1000]",
        "refused 19 node 1": "nodes[0].start",
    } or codes.keys() == {"refused 11 document", "refused 20 phase 1", "refused 20 phase 6", "refused 20 document"}


def test_an_input_that_is_too_long():
    told = explain(b" " * 4_194_305)
    assert told.code is None
    assert told.answer == "too long, more than 4194304 bytes"
    assert "4,194,305 bytes" in told.fault


FILE = """{
  "version": 2,
  "basis": {"min": 0, "max": 99, "steps": 100},
  "nodes": [
    {"name": "feeder", "kind": "limited", "parent": "auctioneer", "floor": -5000, "ceiling": 5000},
    {"name": "store", "kind": "battery", "parent": "feeder", "capacity": 5000, "charge": 1000, "discharge": 1000, "spread": 5, "start": 2500},
    {"name": "house", "kind": "load", "parent": "feeder", "start": 400},
    {"name": "flex", "kind": "manual", "parent": "auctioneer", "points": [[20, 600], [80, 0]]}
  ],
  "phases": [
    {"events": [{"join": "store"}, {"join": "house"}, {"join": "flex"}]},
    {"tick": 15},
    {"events": [{"state": "house", "value": 500}, {"leave": "flex"}]}
  ]
}
"""

# Faults as users make them: what is written in place of what, with ^ before the place, the code, and what has to be said.
FAULTS = [
    ("a comma is missing", '"version": 2,\n  "basis"', '"version": 2\n  ^"basis"', 1, "a comma or the }"),
    ("a comma too many", '"start": 400},', '"start": 400,^},', 1, "does not belong here"),
    ("single quotes", '"name": "house"', "\"name\": ^'house'", 1, "does not belong here"),
    ("a remark", '{"tick": 15},', '{"tick": 15}, ^// a quarter', 1, "does not belong here"),
    ("a number with a zero in front", '"spread": 5', '"spread": 0^5', 1, "a zero in front"),
    ("a number with blanks", '"start": 2500', '"start": 2 ^500', 1, "a comma or the }"),
    ("a plus", '"start": 400', '"start": ^+400', 1, "a value"),
    ("a quote is missing", '"join": "store"}, {"join": "house"}', '"join": "store}, {"^join": "house"}', 1, "a comma or the }"),
    ("no quotes about a name", '"tick": 15', "^tick: 15", 1, "the name of a member, in quotes"),
    ("a word of Python", '"value": 500', '"value": ^None', 1, "a value"),
    ("a number with a point", '"start": 2500', '"start": ^2500.0', 2, "likely:  2500"),
    ("a number in quotes", '"tick": 15', '"tick": ^"15"', 2, "likely:  15, without quotes"),
    ("a slip in a member", '"charge": 1000', '^"chrage": 1000', 3, 'likely:  "charge" for "chrage"'),
    ("a member is missing", '"spread": 5, ', "", 3, "lacks the member spread"),
    ("a capital letter", '"parent": "feeder", "capacity"', '^"Parent": "feeder", "capacity"', 3, '"parent" for "Parent"'),
    ("a member of another kind", '"parent": "feeder", "start": 400', '"parent": "feeder", ^"power": 3, "start": 400', 4, "another kind: power is a member of"),
    ("the schema in the file", '"version": 2,', '^"$schema": "cluster.schema.json", "version": 2,', 4, "settings of the editor"),
    ("steps and prices that do not fit", '"max": 99', '"max": ^100', 6, "likely:  max 99, or steps 101"),
    ("a blank in a name", '"name": "house"', '"name": ^"my house"', 7, "likely:  my_house"),
    ("a name twice", '"name": "house"', '"name": ^"store"', 8, "has the name of node 2"),
    ("a slip in a parent", '"parent": "feeder", "start": 400', '"parent": ^"feedr", "start": 400', 9, "likely:  feeder"),
    ("a slip in a kind", '"kind": "battery"', '"kind": ^"batery"', 12, "likely:  battery"),
    ("a version that is too low", '"version": 2', '"version": 1', 12, 'likely:  "version": 2'),
    ("a negative power", '"discharge": 1000', '"discharge": ^-1000', 13, "from 0 to 1,000,000,000"),
    ("a slip in an event", '"state": "house"', '"state": ^"huose"', 14, "likely:  house"),
    ("a state before the join", '{"join": "store"}, ', '{"state": ^"house", "value": 1}, {"join": "store"}, ', 16, "it never joined"),
    ("a second join", '{"state": "house", "value": 500}', '{"join": ^"house"}', 15, "is joined already, by event 2 of phase 1"),
    ("a second leave", '{"leave": "flex"}]', '{"leave": "flex"}, {"leave": ^"flex"}]', 16, "it left by event 2 of phase 3"),
    ("a concentrator in an event", '{"leave": "flex"}', '{"leave": ^"feeder"}', 14, "a limited concentrator, and no device"),
    ("a bid that rises", "[80, 0]", "[80, ^700]", 18, "a power of at most 600"),
    ("more than the battery holds", '"start": 2500', '"start": ^5001', 19, "from 0 to 5,000, in watt-hours"),
]


def test_the_file_without_a_fault():
    assert explain(FILE.encode()) is None


@pytest.mark.parametrize(("name", "old", "new", "code", "words"), FAULTS, ids=[fault[0] for fault in FAULTS])
def test_faults_as_users_make_them(name, old, new, code, words):
    assert FILE.count(old) == 1
    text = FILE.replace(old, new.replace("^", ""))
    told = explain(text.encode())
    assert told.code == code
    assert words in told.text("FILE")
    if "^" in new:
        at = FILE.index(old) + new.index("^")
        assert (told.line, told.column) == line_and_column(text, at)


def test_a_device_is_not_offered_for_a_parent():
    text = FILE.replace('"parent": "auctioneer", "points"', '"parent": "hous", "points"')
    told = explain(text.encode())
    assert (told.code, told.likely) == (9, None)


def test_the_text_of_an_explanation():
    text = FILE.replace('"charge": 1000', '"chrage": 1000')
    assert explain(text.encode()).text("day.json") == (
        'day.json:6:80: refused 3 node 2: node 2 "store" has no member charge, and chrage is not known\n'
        "  member:  nodes[1].chrage\n"
        "  rule:    each object has exactly the members of its row\n"
        '  written: "chrage": 1000\n'
        "  allowed: a node of the kind battery has the members name, kind, parent, capacity, charge, discharge, spread and start\n"
        '  likely:  "charge" for "chrage"\n'
    )


# Other inputs than a cluster file.


ENVELOPES = {
    b"": "no number of bytes",
    FILE.encode(): "no number of bytes",
    b"03\n{}": "no number of bytes",
    b"100\n{}": "only 2 come behind it",
    b"4194305\n": "more bytes than a cluster file may have",
}


@pytest.mark.parametrize("data", ENVELOPES)
def test_envelopes(data):
    told = explain(data, command="ask")
    assert (told.code, told.line, told.column) == (23, 1, 1)
    assert ENVELOPES[data] in told.fault


TARGETS = {
    b"5\n05\n": (2, "a zero in front"),
    b"-0\n": (1, "a zero in front"),
    b"1\n5": (2, "no end of its line"),
    b"5\n\n": (2, "is empty"),
    b"+5\n": (1, "no whole number"),
    b"0\n-1000000001\n": (2, "too large"),
    b"7\n" * 100_001: (100_001, "one too many"),
}


@pytest.mark.parametrize("rest", TARGETS, ids=range(len(TARGETS)))
def test_targets(rest):
    number, why = TARGETS[rest]
    told = explain(envelope(FILE.encode(), rest), command="ask")
    assert told.answer == f"refused 25 line {number}"
    # The first line of the envelope and the lines of the file come before.
    assert told.line == 1 + FILE.count("\n") + number
    assert told.column == 1
    assert why in told.fault


def test_a_file_in_an_envelope():
    text = FILE.replace('"charge": 1000', '"chrage": 1000')
    told = explain(envelope(text.encode(), b"0\n"), command="ask")
    # The place is that in the file itself.
    assert (told.code, told.line, told.column) == (3, 6, 80)


def test_a_trace_that_is_invalid():
    stdin = (CASES / "check" / "bid_2.stdin").read_bytes()
    told = explain(stdin, command="check")
    assert told.code is None
    assert told.answer == (CASES / "check" / "bid_2.stdout").read_text().strip() == "invalid line 7"
    assert "bid 2" in told.written
    assert stdin.decode().split("\n")[told.line - 1] == told.written


def test_a_trace_that_lacks_its_end():
    stdin = (CASES / "check" / "no_trace.stdin").read_bytes()
    assert explain(stdin, command="check").written == "nothing"


def test_a_bad_frame():
    hello = bytes.fromhex("01 00000000 00000009 0002")
    told = explain(hello + b"\x02\x00", command="serve")
    assert (told.code, told.line, told.column) == (24, 1, len(hello) + 1)
    assert told.written == "02 00"
    assert told.answer == "refused 24 frame 11"


def test_inputs_that_are_right():
    assert explain(envelope(FILE.encode(), b"0\n"), command="ask") is None
    assert explain(EXAMPLES / "village.json") is None


# JSON with places.


def values(value):
    """A JSON value with its places, as Python reads it."""
    if value.what == "object":
        return {name: values(member.value) for name, member in value.members.items()}
    if value.what == "list":
        return [values(item) for item in value.items]
    return value.value


def as_read(value):
    """A JSON value with floats for the numbers that no 64 bits hold."""
    if isinstance(value, dict):
        return {name: as_read(member) for name, member in value.items()}
    if isinstance(value, list):
        return [as_read(item) for item in value]
    is_large = isinstance(value, int) and not isinstance(value, bool) and not -(2**63) <= value < 2**63
    return float(value) if is_large else value


JSON = st.recursive(
    st.none() | st.booleans() | st.integers() | st.floats(allow_nan=False, allow_infinity=False) | st.text(),
    lambda inner: st.lists(inner) | st.dictionaries(st.text(), inner),
    max_leaves=10,
)


@settings(max_examples=50)
@given(value=JSON, indent=st.sampled_from([None, 1]), plain=st.booleans())
def test_json_is_read_as_python_reads_it(value, indent, plain):
    try:
        data = json.dumps(value, indent=indent, ensure_ascii=plain).encode()
    except UnicodeEncodeError:
        return
    text, found = read(data)
    assert values(found) == as_read(value)
    assert json.loads(text[found.at : found.end]) == value


@settings(max_examples=150)
@given(st.data())
def test_a_cut_or_changed_text_has_a_place_where_the_program_has_none(data):
    text = FILE.encode()
    at = data.draw(st.integers(0, len(text) - 1))
    piece = data.draw(st.binary(max_size=3))
    changed = text[:at] + piece + text[at + data.draw(st.integers(0, 3)) :]
    told = explain(changed)
    try:
        read(changed)
        is_json = True
    except NoJson:
        is_json = False
    # The program and the reader with places agree on what is JSON.
    assert is_json == (told is None or told.code != 1)
    if told is not None and told.code != 1:
        assert told.line >= 1


def test_an_unknown_refusal_of_code_1_is_not_hidden():
    from cogmaula.errors import Place
    from cogmaula.explaining import of_refusal

    told = of_refusal(b"{}", Refused(1, Place("document")))
    assert told.fault == "the program reads no JSON here"
