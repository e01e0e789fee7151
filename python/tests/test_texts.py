"""The program's texts as values, and values as text: nothing of a line is lost."""

from __future__ import annotations

import re

import pytest
from clusters import clusters
from conftest import CASES, EXAMPLES
from hypothesis import given, settings

from cogmaula import Account, Invalid, Move, ProgramFault, Range, Refused, ask, bill, check, run, trace
from cogmaula.texts import answers_of, bill_of, moves_of, report_of, report_text

REPORTS = [*EXAMPLES.glob("*.txt"), *(CASES / "run").glob("*.stdout")]


@pytest.mark.parametrize("file", REPORTS, ids=lambda text: text.name)
def test_a_report_is_written_as_it_was_read(file):
    text = file.read_bytes()
    assert report_text(report_of(text)) == text


@settings(max_examples=40)
@given(cluster=clusters())
def test_a_report_of_the_program_is_written_as_it_was_read(program, cluster):
    text = run(cluster).text
    assert report_text(report_of(text)) == text


def test_a_report_by_hand():
    text = b"phase 1 price 4 step 3 total -50 members 2\nmember a power 100 bid 1\nmember limited power -150 bid 2\n"
    text += b"limited c1 price 5 step 4 total 20\nend phases 1 changes 3\n"
    report = report_of(text)
    (end,) = report.ends
    assert (end.phase, end.price, end.step, end.total) == (1, 4, 3, -50)
    assert (end.powers, end.bids) == ({"a": 100, "limited": -150}, {"a": 1, "limited": 2})
    assert [(group.name, group.price, group.step, group.total) for group in end.groups] == [("c1", 5, 4, 20)]
    assert report.changes == 3


@pytest.mark.parametrize(
    ("read", "text"),
    [
        (report_of, b""),
        (report_of, b"phase 1\n"),
        (report_of, b"member a power 1 bid 1\nend phases 0 changes 0\n"),
        (report_of, b"phase 1 price 4 step 3 total -50 members 0\n"),
        (bill_of, b""),
        (bill_of, b"account a\n"),
        (bill_of, b"ticks 1 minutes 1\n"),
        (answers_of, b"curve\n"),
        (moves_of, b"end phases 0 changes 0\n"),
        (moves_of, b"end phases 0 changes 0\nclear 1\nmoves 2\n"),
        (moves_of, b"end phases 0 changes 0\nclear\nmoves 1\n"),
    ],
)
def test_a_text_of_another_form(read, text):
    with pytest.raises(ProgramFault):
        read(text)


def test_a_bill_by_hand(program):
    # Worked in docs/CLUSTER_FILE.md: the two bids over an hour.
    case = CASES / "bill" / "two_bids_over_an_hour"
    told = bill(case.with_suffix(".json"), program=program)
    assert told.devices == {"load1": Account(24000, 6000, 0), "gen1": Account(-36000, 0, 9000)}
    assert (told.grid, told.ticks, told.minutes) == (Account(12000, 3000, 0), 1, 60)


def test_a_device_called_grid_is_not_the_grid(program):
    text = (CASES / "bill" / "two_bids_over_an_hour.json").read_text().replace("gen1", "grid")
    told = bill(text.encode(), program=program)
    assert told.devices["grid"] == Account(-36000, 0, 9000)
    assert told.grid == Account(12000, 3000, 0)


def test_answers_by_hand(program):
    told = ask(EXAMPLES / "balance.json", [0, 100, -250], program=program)
    # As docs/COMMANDS.md has them.
    assert told.curve[0] == Range(0, 0, 200, None)
    assert told.curve[-1] == Range(5, 5, None, -201)
    assert [(answer.target, answer.price, answer.step, answer.total) for answer in told.answers] == [(0, 2, 2, 0), (100, 1, 1, 0), (-250, 5, 5, -50)]


def test_a_target_that_is_too_large(program):
    with pytest.raises(Refused, match="refused 25 line 2"):
        ask(EXAMPLES / "balance.json", [0, 1_000_000_001], program=program)


def test_the_only_trace(program):
    done = trace(CASES / "trace" / "only_trace.json", program=program)
    assert done.text == (CASES / "trace" / "only_trace.stdout").read_bytes()
    assert [move.what for move in done.moves] == ["change", "learn", "clear", "pass", "close"]
    assert done.moves[1] == Move("learn", "auctioneer", "load1", 1)
    assert done.moves[3].price is not None and done.moves[3].bid == 1
    assert done.run.changes == 1
    assert check(done.file, done.text, program=program) == 5


def test_traces_of_the_examples(program):
    for file in sorted(EXAMPLES.glob("*.json")):
        done = trace(file, program=program)
        assert done.run.text == file.with_suffix(".txt").read_bytes()
        assert check(file, done.text, program=program) == len(done.moves)
        whats = {move.what for move in done.moves}
        assert whats <= {"change", "learn", "publish", "clear", "pass", "close"}


def test_a_trace_of_another_file(program):
    done = trace(EXAMPLES / "balance.json", program=program)
    text = done.text.replace(b"power 300", b"power 290")
    with pytest.raises(Invalid) as invalid:
        check(EXAMPLES / "balance.json", text, program=program)
    assert invalid.value.line == 3


def test_a_pass_without_a_price():
    text = b"end phases 0 changes 0\npass a 3 none\npass c1 3\nmoves 2\n"
    assert moves_of(text)[1] == (Move("pass", "a", None, 3), Move("pass", "c1", None, 3))


def test_names_of_a_report_are_those_of_the_file():
    names = re.findall(rb"^member (\S+)", (EXAMPLES / "village.txt").read_bytes(), re.M)
    ends = report_of((EXAMPLES / "village.txt").read_bytes()).ends
    assert [name.encode() for end in ends for name in end.powers] == names
