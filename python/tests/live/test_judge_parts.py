"""The parts of the judge by themselves: what a node may come back with, a service that is run again, and words for frames."""

from __future__ import annotations

import os
from dataclasses import replace

import pytest
from pretended import BASIS, SESSION, auctioneer_resume, bid, device_resume, gone, numbers, price, relay_resume, resume_gone
from recorded import Lines, descriptors

from cogmaula.judge import judge, replay
from cogmaula.judge.frame_words import words_of, words_of_bytes
from cogmaula.judge.reading import Start
from cogmaula.judge.restarts import Giving, Keeping
from cogmaula.judge.service_life import Late, Running
from cogmaula.live.node.node_errors import LiveError
from cogmaula.live.messages.frames import (
    Bound,
    Clear,
    Dropped,
    Expire,
    Limits,
    NotChanged,
    Old,
    OtherBasis,
    OutOfLimits,
    RelayResume,
    Setpoint,
    TooMuch,
)

RELAY = relay_resume(5, 3, 7, numbers((1, 4), (9, 2)), (-1000, 1000, 9), (-5, 5))
DEVICE = device_resume(6, 7, (9, -9))
GONE = resume_gone(8, 7)
AUCTIONEER = auctioneer_resume(5, numbers((1, 4)))


def stored(*resumes):
    """What is kept once these Resumes were stored, one after the other."""
    keeping = Keeping()
    for resume in resumes:
        assert keeping.starts(None) == "" if resume is resumes[0] else True
        assert keeping.writes(resume) == keeping.stores() == ""
    return keeping


# What a node may come back with.


@pytest.mark.parametrize("resume", [RELAY, DEVICE, GONE, AUCTIONEER])
def test_a_node_comes_back_with_what_it_stored(resume):
    assert stored(resume).starts(resume) == ""


OLDER = [
    (RELAY, replace(RELAY, last=4)),
    (RELAY, replace(RELAY, numbers=numbers((1, 3)))),
    (DEVICE, replace(DEVICE, last=4)),
    (DEVICE, replace(DEVICE, demands=(9, -8))),
    (DEVICE, resume_gone(6, 7)),
    (GONE, resume_gone(6, 7)),
    (GONE, device_resume(8, 7, (9, -9))),
    (RELAY, replace(RELAY, floor=-6)),
    (RELAY, replace(RELAY, ceiling=6)),
    (RELAY, replace(RELAY, giver=8)),
    (RELAY, replace(RELAY, greatest=18)),
    (DEVICE, replace(DEVICE, greatest=18)),
    (AUCTIONEER, replace(AUCTIONEER, least=-9)),
    (AUCTIONEER, replace(AUCTIONEER, index=4)),
    (AUCTIONEER, replace(AUCTIONEER, numbers=numbers((1, 3)))),
    (RELAY, None),
]


@pytest.mark.parametrize(("kept", "back"), OLDER)
def test_a_node_does_not_come_back_with_another(kept, back):
    keeping = stored(kept)
    if back is not None:
        keeping._prices.add((back.answered, back.index) if isinstance(back, RelayResume) else (0, back.index))
    assert "its newest has to come back" in keeping.starts(back)


@pytest.mark.parametrize(
    ("first", "last", "none"),
    [
        (RELAY, replace(RELAY, answered=5, index=9), replace(RELAY, answered=0, index=0)),
        (DEVICE, replace(DEVICE, index=9), replace(DEVICE, index=0)),
        (GONE, replace(GONE, index=9), replace(GONE, index=0)),
    ],
)
def test_the_price_may_be_of_any_age_or_none_but_one_that_it_had(first, last, none):
    for back in (first, last, none):
        assert stored(first, last).starts(back) == ""
    later = replace(last, index=10)
    assert "no Resume before had this price" in stored(first, last).starts(later)


def test_the_index_and_the_number_that_it_answers_are_of_one_price():
    last = replace(RELAY, answered=5, index=9)
    assert "no Resume before had this price" in stored(RELAY, last).starts(replace(RELAY, answered=3, index=9))


def test_a_resume_that_was_written_and_not_noted_as_stored_may_come_back_or_not():
    newer = replace(RELAY, last=6, numbers=numbers((1, 5)))
    for back in (RELAY, newer):
        keeping = stored(RELAY)
        assert keeping.writes(newer) == keeping.starts(back) == ""
        assert keeping.starts(back) == ""
        other = RELAY if back is newer else newer
        assert "its newest has to come back" in keeping.starts(other)
    keeping = Keeping()
    assert keeping.starts(None) == keeping.writes(RELAY) == keeping.starts(None) == ""


def test_nothing_is_written_before_a_resume_is_stored():
    keeping = stored(RELAY)
    assert keeping.writes(replace(RELAY, last=6)) == ""
    assert "it is handled before the Resume with number 6" in keeping.writes(None)
    assert keeping.stores() == keeping.writes(None) == ""
    assert "none was handled" in keeping.stores()


def test_what_was_before_a_late_start_is_not_known():
    keeping = Keeping()
    assert keeping.starts(RELAY, is_late=True) == ""
    assert keeping.starts(RELAY) == ""
    assert "its newest has to come back" in keeping.starts(replace(RELAY, last=4))


def test_a_number_of_limits_is_of_one_floor_and_one_ceiling():
    giving = Giving()
    assert giving.takes(Limits(4, -5, 5)) == giving.takes(Limits(2, 0, 9)) == giving.takes(Limits(4, -5, 5)) == ""
    assert "before in this session they were -5 to 5 W" in giving.takes(Limits(4, -5, 6))
    # A Resume has the newest limits under the number of their place.
    assert "limits 2 are -5 to 5 W" in giving.resumes(RELAY)
    assert giving.resumes(replace(RELAY, floor=0, ceiling=9)) == giving.resumes(replace(RELAY, giver=0)) == giving.resumes(None) == ""
    fresh = Giving()
    assert fresh.resumes(RELAY) == "" and fresh.takes(Limits(2, 0, 5)) != ""


# A service that is run again.


def start_of(sort, *arguments, resume=b""):
    parent, child = (None, None) if sort == "auctioneer" else ("above", int(arguments[0]))
    return Start("node", sort, (sort, *arguments), parent, child, BASIS, SESSION, resume)


@pytest.fixture
def run(live):
    made = []

    def make(*told, patience=10.0, program=live, **more):
        made.append(Running(program, start_of(*told, **more), patience))
        return made[-1]

    yield make
    for judge in made:
        judge.close()


def test_frames_come_one_by_one(run):
    one = run("auctioneer")
    one.feed(bid(3, 1, 21, -3).to_bytes() + Clear().to_bytes())
    assert one.frame() == auctioneer_resume(1, numbers((3, 1))).to_bytes()
    assert one.frame() == price(3, 1, 1, 1).to_bytes()
    one.feed(Clear().to_bytes())
    assert one.frame() == NotChanged().to_bytes()
    assert list(one.finish()) == []
    assert one.status() == 0


def test_no_further_answer_is_known_by_the_end_of_the_input(run):
    one = run("auctioneer", patience=0.1)
    one.feed(bid(3, 1, 21, -3).to_bytes())
    assert one.frame() is None
    assert one.status() == 0
    assert one.frame() is None


def test_a_life_of_any_length_is_fed_while_it_is_read(run):
    """More than the pipes of both sides hold: a service that is only written to would stop, and the judge with it."""
    one = run("device", "2")
    count = 100_000
    one.feed(price(2, 1, 0, 1).to_bytes() * count)
    for _ in range(count):
        assert one.frame() == Dropped(1, 0).to_bytes()
    assert list(one.finish()) == []


def test_all_frames_behind_the_last_that_was_asked_for_come_at_the_end(run):
    one = run("device", "2")
    one.feed(price(2, 1, 0, 1).to_bytes() * 100_000)
    assert list(one.finish()) == [Dropped(1, 0).to_bytes()] * 100_000
    assert one.status() == 0


def slow(tmp_path, live, before, behind="cat"):
    """A program that passes its input on to `live`, or the answers back, by these commands of a shell."""
    path = tmp_path / "slow"
    path.write_text(f'#!/bin/sh\n{before} | "{live}" "$@" | {behind}\n')
    path.chmod(0o755)
    return str(path)


def test_a_service_that_answers_only_at_its_end_is_asked_again_with_patience(run, live, tmp_path, recorded, monkeypatch):
    program = slow(tmp_path, live, "cat", '{ all="$(mktemp)"; cat > "$all"; cat "$all"; rm "$all"; }')
    one = run("auctioneer", patience=0.2, program=program)
    one.feed(bid(3, 1, 21, -3).to_bytes() + Clear().to_bytes())
    with pytest.raises(Late):
        one.frame()
    monkeypatch.setattr(replay, "PATIENCE", (0.1, 0.2))
    with pytest.raises(LiveError, match="does not answer within 0.2 s"):
        judge(recorded, program)


def test_a_slow_service_is_waited_for(live, tmp_path, lines, monkeypatch):
    monkeypatch.setattr(replay, "PATIENCE", (0.02, 60.0))
    lines.files = {file: them for file, them in lines.files.items() if file.startswith("mill.")}
    verdict = judge(lines.write(), slow(tmp_path, live, "{ sleep 0.2; cat; }"))
    assert (verdict.verdict, verdict.lives) == ("incomplete", 1), verdict


def test_a_service_that_was_ended_is_not_judged_by(recorded, tmp_path):
    path = tmp_path / "killed"
    path.write_text("#!/bin/sh\nkill -9 $$\n")
    path.chmod(0o755)
    with pytest.raises(LiveError, match="ended with status -9 in a life of"):
        judge(recorded, str(path))


def test_no_process_and_no_file_is_left(recorded, live, lines):
    before = descriptors()
    assert judge(recorded, live).verdict == "valid"
    file, at = lines.of("street", "out", "Bid")[0]
    lines.change_frame(file, at, replace(lines.frame(file, at), number=9))
    assert judge(lines.write(), live).verdict == "invalid"
    assert descriptors() == before
    with pytest.raises(ChildProcessError):
        os.waitpid(-1, os.WNOHANG)


def test_a_frame_that_the_service_refuses_is_named_at_the_start_of_its_life(lines, live):
    """A relay's Resume of other limits than its arguments: nothing before it is known, and the program refuses it."""
    wrong = relay_resume(1, 1, 1, numbers((1, 1)), (-5, 5, 0))
    first = lines.of("street", "start")[0]
    lines.files = {file: them for file, them in lines.files.items() if file == first[0]}
    lines.change(*first, resume=wrong.to_bytes().hex())
    fault = judge(lines.write(), live).fault
    assert (fault.node, fault.file) == ("street", first[0])
    assert "is recorded, and Fault is due" in fault.why or "the service refuses its Resume" in fault.why


# Words.


def test_frames_have_words():
    told = [
        (bid(2, 4, 10, -3), "Bid 4 of child 2"),
        (gone(2, 5), "Gone 5 of child 2"),
        (price(2, 4, 7, 1), "Price for child 2: bid 4, clearing 7, step 1"),
        (Old(2, 4), "Old for child 2: number 4 is kept"),
        (Setpoint(4, 7, 1, -3), "Setpoint: offer 4, clearing 7, step 1, -3 W"),
        (Dropped(4, 7), "Dropped: number 4, clearing 7"),
        (RELAY, "Resume with number 5, answered 3 by clearing 7"),
        (AUCTIONEER, "Resume of clearing 5"),
        (DEVICE, "Resume with number 6 and clearing 7"),
        (GONE, "ResumeGone with number 8 and clearing 7"),
        (Expire(2), "Expire of child 2"),
        (Limits(4, -5, 9), "Limits 4: -5 to 9 W"),
        (Bound(2, -5, 9), "Bound of child 2: -5 to 9 W"),
        (TooMuch(2, 4), "TooMuch for child 2: bid 4"),
        (OtherBasis(4, 7), "OtherBasis: number 4, clearing 7"),
        (OutOfLimits(4), "OutOfLimits: bid 4"),
        (Clear(), "Clear"),
    ]
    for frame, words in told:
        assert words_of(frame) == words
    assert words_of_bytes(price(2, 4, 7, 1).to_bytes(), "relay", 2) == "Price for child 2: bid 4, clearing 7, step 1"
    assert words_of_bytes(b"\x63\x01", "relay", 2) == "6301, which is no frame"
    assert words_of_bytes(bytes(20), "device", 2) == f"{'00' * 16}.., which is no frame"
