"""The recordings of a real market are valid. Each change that makes them no run of the network is found, and named where it is."""

from __future__ import annotations

import json
import shutil
from collections import Counter
from dataclasses import replace

import pytest
from markets import BASIS, falls_at
from pretended import price
from recorded import Lines, RecordedMarket, files_of

from cogmaula.cli import main
from cogmaula.judge import NoRecording, judge
from cogmaula.live.messages.frames import Bid, Offer, Send
from cogmaula.live.node.node_errors import LiveError


def found(lines, live):
    """The fault of changed recordings: its node, its file, its line counted from 0, and why."""
    verdict = judge(lines.write(), live)
    assert verdict.verdict == "invalid", verdict
    fault = verdict.fault
    return fault.node, (fault.file, fault.line - 1), fault.why


def test_a_market_over_kills_is_valid_and_counted(recorded, live):
    lines = Lines(recorded)
    verdict = judge(recorded, live)
    assert verdict.verdict == "valid", verdict
    told = Counter(lines.told(file, at)["what"] for file, them in lines.files.items() for at in range(len(them)))
    names = ("auctioneer", "street", "mill", "house", "store")
    setpoints = sum(len(lines.of(name, "out", "Setpoint")) for name in ("mill", "house", "store"))
    taken = sum(len(lines.of(node, "in", name)) for node in names for name in ("Bid", "Gone", "Price"))
    clearings = max(lines.frame(*place).index for place in lines.of("auctioneer", "out", "AuctioneerResume"))
    assert (verdict.sessions, verdict.nodes, verdict.lives) == (1, 5, told["start"]) == (1, 5, 10)
    assert (verdict.frames_in, verdict.frames_out) == (told["in"], told["out"])
    assert (verdict.taken, verdict.unmatched, verdict.missing) == (taken, 0, ())
    assert (verdict.clearings, verdict.setpoints) == (clearings, setpoints)
    assert told["end"] < told["start"], "some were killed"


# A frame out that is another, is not there, or is elsewhere.

CHANGED = [
    ("auctioneer", "Price", lambda frame: replace(frame, step=frame.step + 1)),
    ("auctioneer", "Price", lambda frame: replace(frame, number=frame.number + 1)),
    ("street", "Price", lambda frame: replace(frame, index=frame.index + 1)),
    ("street", "Bid", lambda frame: replace(frame, demands=(frame.demands[0] + 1, *frame.demands[1:]))),
    ("house", "Bid", lambda frame: replace(frame, number=frame.number + 2)),
    ("store", "Setpoint", lambda frame: replace(frame, power=frame.power - 1)),
    ("mill", "DeviceResume", lambda frame: replace(frame, last=frame.last + 2)),
    ("auctioneer", "AuctioneerResume", lambda frame: replace(frame, numbers=(frame.numbers[0] + 1, *frame.numbers[1:]))),
]


@pytest.mark.parametrize(("node", "name", "change"), CHANGED)
@pytest.mark.parametrize("at", [0, -1])
def test_a_frame_out_that_was_changed_is_named(lines, live, node, name, change, at):
    place = lines.of(node, "out", name)[at]
    before = lines.frame(*place)
    node_found, place_found, why = found(lines.change_frame(*place, change(before)), live)
    assert (node_found, place_found) == (node, place)
    assert why.startswith(name.replace("AuctioneerResume", "Resume").replace("DeviceResume", "Resume"))
    assert "is due" in why


def test_a_frame_out_that_is_not_there_is_named_at_the_next(lines, live):
    file, at = lines.of("street", "out", "Price", child=1)[-1]
    node, place, why = found(lines.drop(file, at), live)
    assert (node, place) == ("street", (file, at))
    assert "Price for child 2" in why
    assert "Price for child 1" in why.partition("recorded, and ")[2]


def test_two_frames_out_that_changed_places_are_named(lines, live):
    file, at = lines.of("street", "out", "Price", child=1)[-1]
    them = lines.files[file]
    them[at], them[at + 1] = them[at + 1], them[at]
    node, place, why = found(lines, live)
    assert (node, place) == ("street", (file, at))
    assert why.startswith("Price for child 2") and why.endswith("is due")


def test_a_frame_out_before_what_it_answers_is_named(lines, live):
    (file, out), take = lines.of("house", "out", "Setpoint")[0], lines.of("house", "in", "Price")[0]
    assert take[0] == file and take[1] == out - 1
    them = lines.files[file]
    them[out - 1], them[out] = them[out], them[out - 1]
    node, place, why = found(lines, live)
    assert (node, place) == ("house", take)
    assert why.startswith("Setpoint: offer 2") and why.endswith("the frames in before it have no further answer")


def test_a_frame_in_that_is_not_there_is_named_at_its_answer(lines, live):
    file, at = lines.of("house", "in", "Price")[0]
    node, place, _ = found(lines.drop(file, at), live)
    assert (node, place) == ("house", (file, at))


def test_a_frame_out_that_no_frame_in_asked_for_is_named(lines, live):
    file, at = lines.of("store", "out", "Bid")[-1]
    told = lines.told(file, at)
    node, place, why = found(lines.insert(file, at + 1, what="out", frame=told["frame"]), live)
    assert (node, place) == ("store", (file, at + 1))
    assert why.startswith("Bid")


# What a node took.


def test_a_bid_that_was_never_sent_is_named(lines, live):
    place = lines.of("street", "in", "Bid", child=1)[1]
    bid = lines.frame(*place)
    node, place_found, why = found(lines.change_frame(*place, Bid(1, bid.number, (999, *bid.demands[1:]))), live)
    assert (node, place_found) == ("street", place)
    assert why == f"Bid {bid.number} of child 1 is taken, and house never sent just this"


def test_a_price_that_was_never_sent_is_named(lines, live):
    """It stands last in its life: what it would have led to is lost."""
    file, at = lines.of("house", "in", "Price")[-1]
    price = lines.frame(file, at)
    end = next(number for number in range(at, len(lines.files[file])) if lines.told(file, number)["what"] == "end")
    lines.insert(file, end, what="in", frame=replace(price, index=price.index + 1).to_bytes().hex())
    node, place, why = found(lines, live)
    assert (node, place) == ("house", (file, end))
    assert why.startswith("Price for child 1") and why.endswith("street never sent just this")


def test_a_frame_that_answers_nothing_still_has_to_have_been_sent(lines, live):
    """A price of an index below the last makes the service write Dropped, whoever sent it."""
    file, at = lines.of("store", "in", "Price")[-1]
    lines.insert(file, at + 1, what="in", frame=price(2, 2, 1, 9, BASIS).to_bytes().hex())
    node, place, why = found(lines, live)
    assert (node, place) == ("store", (file, at + 1))
    assert why.endswith("street never sent just this")


def test_a_bid_that_is_taken_before_it_could_be_sent_is_named(lines, live):
    """The auctioneer takes the mill's Gone between its Clear and the price, and the mill leaves after it took that price.

    Each service alone answers just so. There is no order of both.
    """
    file, gone = lines.of("auctioneer", "in", "Gone", child=2)[0]
    price = max(at for other, at in lines.of("auctioneer", "out", "Price", child=2) if other == file and at < gone)
    clear = max(at for other, at in lines.of("auctioneer", "in", "Clear") if other == file and at < price)
    taken = lines.frame(file, price)
    assert lines.of("mill", "in", "Price", index=taken.index)[0][1] < lines.of("mill", "out", "Gone")[0][1]
    them = lines.files[file]
    them.insert(clear + 1, them.pop(gone))
    node, place, why = found(lines, live)
    assert (node, place) == ("auctioneer", (file, clear + 1))
    out = lines.of("mill", "out", "Gone")[0]
    where = f"{out[0]}:{out[1] + 1}"
    assert why == f"Gone 4 of child 2 is taken, and mill sends it only at {where}, for which this has to be taken first"


def test_what_is_taken_again_late_and_out_of_order_is_valid(lines, live):
    """A device that takes an old price again, and what it then writes."""
    first, last = lines.of("store", "in", "Price")[0], lines.of("store", "in", "Price")[-1]
    price = lines.frame(*first)
    file, at = last
    ends = next(number for number in range(at, len(lines.files[file])) if lines.told(file, number)["what"] == "end")
    lines.insert(file, ends, what="out", frame=b"\x0b".hex() + price.to_bytes()[3:11].hex())
    lines.insert(file, ends, what="in", frame=price.to_bytes().hex())
    assert judge(lines.write(), live).verdict == "valid"


def test_a_frame_of_a_stranger_is_named(lines, live):
    """A Price for another child, and one that no device reads."""
    file, at = lines.of("house", "in", "Price")[0]
    for frame in (Send(), Offer((1,) * 3)):
        changed = Lines(shutil.copytree(lines.folder, lines.folder.parent / type(frame).__name__))
        node, place, why = found(changed.change_frame(file, at, frame), live)
        assert (node, place) == ("house", (file, at))
        assert "is no frame that a node feeds to its service" in why
    node, place, why = found(lines.change_frame(file, at, price(2, 2, 1, 1, BASIS)), live)
    assert (node, place[0]) == ("house", file)


# Restarts.


OLDER = [
    ("street", "RelayResume", lambda frame: frame),
    ("auctioneer", "AuctioneerResume", lambda frame: frame),
    ("store", "DeviceResume", lambda frame: frame),
    # The house had one offer up to there: a number that it never had, and an offer that is not of its number.
    ("house", "DeviceResume", lambda frame: replace(frame, last=frame.last + 2)),
    ("house", "DeviceResume", lambda frame: replace(frame, demands=(101, *frame.demands[1:]))),
]


@pytest.mark.parametrize(("node", "name", "change"), OLDER)
def test_a_resume_that_is_not_the_stored_is_named(lines, live, node, name, change):
    place = lines.of(node, "start")[-1]
    older = change(lines.frame(*lines.of(node, "out", name)[0]))
    node_found, place_found, why = found(lines.change(*place, resume=older.to_bytes().hex()), live)
    assert (node_found, place_found) == (node, place)
    assert "its newest has to come back" in why


@pytest.mark.parametrize("node", ["street", "house", "store", "auctioneer"])
def test_a_start_without_the_stored_resume_is_named(lines, live, node):
    place = lines.of(node, "start")[1]
    node_found, place_found, why = found(lines.change(*place, resume=None), live)
    assert (node_found, place_found) == (node, place)
    assert why.startswith("it starts with no Resume, and stored was Resume")


def test_a_frame_behind_a_resume_that_is_not_stored_is_named(lines, live):
    file, at = lines.of("auctioneer", "stored")[0]
    node, place, why = found(lines.drop(file, at), live)
    assert (node, place) == ("auctioneer", (file, at))
    assert why.startswith("it is handled before the Resume of clearing 1") and why.endswith("is stored")


def test_a_bid_whose_resume_is_not_stored_was_not_sent(lines, live):
    """The two are of one write."""
    file, at = lines.of("street", "stored")[0]
    node, place, why = found(lines.drop(file, at), live)
    assert (node, place) == ("auctioneer", lines.of("auctioneer", "in", "Bid", child=1)[0])
    assert why.startswith("Bid 1 of child 1 is taken, and street sends it only at ")


def test_a_resume_that_is_stored_twice_is_named(lines, live):
    file, at = lines.of("street", "stored")[0]
    node, place, why = found(lines.insert(file, at, what="stored"), live)
    assert (node, place) == ("street", (file, at + 1))
    assert "none was handled" in why


def test_other_limits_in_a_session_are_named(lines, live):
    place = lines.of("street", "start")[1]
    node, place_found, why = found(lines.change(*place, arguments=["relay", "1", "-500", "500"]), live)
    assert (node, place_found) == ("street", place)
    before = "as relay 1 -1000000000 1000000000 below auctioneer"
    assert why == f"it starts as relay 1 -500 500 below auctioneer, and before in this session {before}"


def test_what_follows_an_end_has_to_be_a_start(lines, live):
    file, at = lines.of("street", "end")[0]
    lines.insert(file, at + 1, what="in", frame=Send().to_bytes().hex())
    node, place, why = found(lines, live)
    assert (node, place) == ("street", (file, at + 1))
    assert "did not start anew" in why


# Lines and files.


@pytest.mark.parametrize(
    "line", [b"", b"{", b"[]", b"{}", b'{"what": "in", "at": "t", "frame": "09"}', b'{"at": "t", "what": "in", "frame": "9"}',
             b'{"at": "t", "what": "in", "frame": "0Z"}', b'{"at": "t", "what": "in", "frames": ["09"]}', b'{"at": "t", "what": "out", "frames": []}',
             b'{"at": "t", "what": "out", "frames": ["06", "6"]}', b'{"at": "t", "what": "out", "frames": "06"}', b'{"at": "t", "what": "out", "frame": "06", "frames": ["06"]}', b'{"at": "t", "what": "went"}', b'{"at": 1, "what": "stored"}',
             b'{"at": "t", "what": "stored", "more": 1}', b'{"at": "t", "what": ["stored"]}', b"\xff"],
)  # fmt: skip
def test_a_line_that_is_none_is_named(lines, live, line):
    file = files_of(lines.folder, "street")[0]
    lines.files[file][3] = line
    assert found(lines, live) == ("street", (file, 3), "it is no line of a recording")


def test_a_line_torn_in_the_middle_is_named(lines, live):
    file = files_of(lines.folder, "street")[0]
    lines.files[file][3] = lines.files[file][3][:40]
    assert found(lines, live) == ("street", (file, 3), "it is no line of a recording")


def test_a_torn_last_line_is_of_a_crash(lines, live):
    first, second = files_of(lines.folder, "street")
    lines.write()
    path = lines.folder / first
    data = path.read_bytes()
    whole, last = data.rstrip(b"\n").rsplit(b"\n", 1)
    assert b'"start"' not in last
    path.write_bytes(whole + b"\n" + last[: len(last) // 2])
    assert judge(lines.folder, live).verdict == "valid"
    begins = (lines.folder / second).read_bytes().split(b"\n", 1)
    assert b'"start"' in begins[0]
    (lines.folder / second).write_bytes(begins[1])
    verdict = judge(lines.folder, live)
    assert verdict.verdict == "invalid"
    assert (verdict.fault.file, verdict.fault.line) == (first, whole.count(b"\n") + 2)
    assert verdict.fault.why == "the line has no end, and the life of the service goes on behind it"


@pytest.mark.parametrize("node", ["auctioneer", "street", "mill", "house", "store"])
def test_a_node_without_a_recording_is_told(lines, live, node):
    for file in files_of(lines.folder, node):
        del lines.files[file]
    verdict = judge(lines.write(), live)
    assert verdict.verdict == "incomplete", verdict
    assert verdict.unmatched > 0
    due = {
        "auctioneer": ["auctioneer, the parent of mill, has no recording", "auctioneer, the parent of street, has no recording",
                       "no auctioneer has a recording"],
        "street": ["street, the parent of house, has no recording", "street, the parent of store, has no recording",
                   "child 1 of auctioneer has no recording"],
        "mill": ["child 2 of auctioneer has no recording"],
        "house": ["child 1 of street has no recording"],
        "store": ["child 2 of street has no recording"],
    }  # fmt: skip
    assert list(verdict.missing) == due[node]


def test_what_is_wrong_is_told_though_a_recording_is_missing(lines, live):
    for file in files_of(lines.folder, "mill"):
        del lines.files[file]
    place = lines.of("street", "out", "Price")[0]
    price = lines.frame(*place)
    assert found(lines.change_frame(*place, replace(price, step=price.step + 1)), live)[:2] == ("street", place)


def test_a_file_that_is_missing_is_told(lines, live):
    first, second = files_of(lines.folder, "street")
    del lines.files[first]
    verdict = judge(lines.write(), live)
    assert (verdict.verdict, verdict.missing) == ("incomplete", ("street: its file 000001 is not there",))


def test_a_recording_that_begins_with_a_resume_is_told(lines, live):
    first, second = files_of(lines.folder, "street")
    lines.files[first] = lines.files.pop(second)
    verdict = judge(lines.write(), live)
    assert verdict.verdict == "incomplete"
    assert verdict.missing == ("street: it begins with a Resume, so the begin of the session is not there",)


def test_a_recording_that_begins_in_a_life_is_named(lines, live):
    file = files_of(lines.folder, "street")[0]
    assert found(lines.drop(file, 0), live) == ("street", (file, 0), "a recording begins with a start, and this is none")


# One market.


def other_node(lines, node, name, **members):
    """A second node in the place of one, with its recording."""
    for file in files_of(lines.folder, node):
        fresh = file.replace(node, name)
        lines.files[fresh] = list(lines.files[file])
        for at in range(len(lines.files[fresh])):
            if lines.told(fresh, at)["what"] == "start":
                lines.change(fresh, at, node=name, **members)
    return lines


def test_two_nodes_as_one_child_are_named(lines, live):
    node, place, why = found(other_node(lines, "store", "shop"), live)
    assert (node, place[1]) == ("store", 0)
    assert why == "it is child 2 of street, and shop is it too: a number is of one child in a session"


def test_two_auctioneers_are_named(lines, live):
    node, _, why = found(other_node(lines, "auctioneer", "broker"), live)
    assert (node, why) == ("broker", "it is an auctioneer, and auctioneer is one too: a market has one")


def test_another_basis_is_named(lines, live):
    place = lines.of("house", "start")[0]
    node, place_found, why = found(lines.change(*place, max=18), live)
    assert (node, place_found) == ("house", place)
    assert why.startswith("its basis is Basis(min=0, max=18, steps=10), and that of auctioneer is")
    last = Lines(lines.folder)
    place = last.of("house", "start")[-1]
    node, place_found, why = found(Lines(lines.folder).change(*place, min=-9), live)
    assert node == "house"


def test_a_start_elsewhere_is_named(lines, live):
    place = lines.of("store", "start")[0]
    node, place_found, why = found(lines.change(*place, arguments=["device", "3"]), live)
    assert (node, place_found) == ("store", place)
    assert "are not of its place" in why


def test_a_device_that_is_a_parent_is_named(lines, live):
    for place in lines.of("store", "start"):
        lines.change(*place, parent="house")
    assert found(lines, live)[0::2] == ("store", "its parent is house, which is a device")


def test_a_node_above_itself_is_named(lines, live):
    for place in lines.of("street", "start"):
        lines.change(*place, parent="street", child=9, arguments=["relay", "9", "-5", "5"])
    assert found(lines, live)[2] == "it is above itself by the parents of the nodes"


def test_a_start_of_another_node_is_named(lines, live):
    place = lines.of("store", "start")[1]
    node, place_found, why = found(lines.change(*place, node="house"), live)
    assert (node, place_found, why) == ("store", place, "it is of another node or session than its file's name says")


def test_sessions_are_judged_one_by_one(tmp_path, live):
    market = RecordedMarket(tmp_path, live)
    try:
        market.start("auctioneer", "street", "house", "store").offers(house=[100] * 10, store=falls_at(4, 0, -150))
        market.settles_at(4, house=100, store=-150)
        before = market.nodes["auctioneer"].session
        market.stop("auctioneer")
        market.start("auctioneer", new_session=True)
        market.until(lambda: all(node.session != before for node in market.nodes.values()), "all follow")
        market.offers(house=[100] * 10, store=falls_at(6, 0, -150))
        market.settles_at(6, house=100, store=-150)
    finally:
        market.stop()
    verdict = judge(market.recordings, live)
    assert (verdict.verdict, verdict.sessions, verdict.nodes) == ("valid", 2, 8)
    lines = Lines(market.recordings)
    file = files_of(market.recordings, "house")[0]
    lines.files[file.replace("000001", "000003")] = lines.files.pop(file)
    assert "a node is in one after the other" in found(lines, live)[2]


# The command.


def test_the_command_prints_the_verdict(recorded, lines, live, capsys):
    assert main(["judge", str(recorded), "--live", live]) == 0
    assert capsys.readouterr().out.startswith("valid sessions 1 nodes 5 lives 10 in ")
    assert main(["judge", str(recorded), "--live", live, "--json"]) == 0
    told = json.loads(capsys.readouterr().out)
    assert (told["verdict"], told["nodes"], told["missing"], told["fault"]) == ("valid", 5, [], None)
    for file in files_of(lines.folder, "mill"):
        del lines.files[file]
    assert main(["judge", str(lines.write()), "--live", live]) == 1
    told = capsys.readouterr().out.splitlines()
    assert told[0].startswith("incomplete sessions 1 nodes 4") and told[1:] == ["missing child 2 of auctioneer has no recording"]
    file, at = lines.of("street", "out", "Price")[0]
    price = lines.frame(file, at)
    lines.change_frame(file, at, replace(price, step=(price.step + 1) % 10)).write()
    assert main(["judge", str(lines.folder), "--live", live]) == 5
    assert capsys.readouterr().out.startswith(f"invalid {file}:{at + 1}: street: Price for child ")
    assert main(["judge", str(lines.folder), "--live", live, "--json"]) == 5
    assert json.loads(capsys.readouterr().out)["fault"]["line"] == at + 1


def test_nothing_to_judge_is_told(tmp_path, capsys):
    for folder, why in ((tmp_path / "none", "is no folder"), (tmp_path, "has no recording")):
        with pytest.raises(NoRecording, match=why):
            judge(folder)
        assert main(["judge", str(folder)]) == 1
    assert "has no recording" in capsys.readouterr().err


def test_a_program_that_is_not_live_is_told(recorded):
    with pytest.raises(LiveError, match="cannot be started"):
        judge(recorded, "/nowhere/live")
    with pytest.raises(LiveError, match="ended with status 1"):
        judge(recorded, "/bin/false")
    with pytest.raises(LiveError, match="begins no frame"):
        judge(recorded, "/bin/echo")
