"""Limits that change, bounds, and devices that are let go, in recordings that were worked by hand over the model of the services.

The street may take from -1000 to 1000 W, and 0 to 150 W from its second bid on. The house is let go, and comes back by itself. A
recording of it is valid, and each that could not be of such a market is named where it is.
"""

from __future__ import annotations

import json
import shutil
from dataclasses import replace

import pytest
from modelled import BASIS, DrawnMarket, nodes_of
from recorded import Lines

from cogmaula.judge import judge
from cogmaula.live.messages.frames import Bid, Clear, Expire, Gone, Limits, Offer, Old, Send

GIVER = 9
TREE = [("street", "relay", "auctioneer", (-1_000, 1_000), GIVER), ("mill", "device", "auctioneer"), ("house", "device", "street"),
        ("store", "device", "street")]  # fmt: skip
PLACES = {"auctioneer": ("auctioneer", None, None), **{name: (sort, parent, None) for name, sort, parent, *_ in TREE}}


class ByHand(DrawnMarket):
    """A market of which each step is named: a frame of a control or a carrier, or the newest of a node that comes to another."""

    def given(self, name, *frames):
        for frame in frames:
            self.feed(name, frame.to_bytes())
            self.handle_all(name)

    def comes(self, name, to, kinds):
        """The newest frame of these kinds that a node sent to its parent, or that a parent sent to a child."""
        child = self.nodes[to].child if self.nodes[to].parent == name else self.nodes[name].child
        found = [frame for frame in self.nodes[name].sent if frame[0] in kinds and int.from_bytes(frame[1:3], "big") == child]
        self.feed(to, found[-1])
        self.handle_all(to)

    def goes_up(self, *names):
        for name in names:
            self.comes(name, self.nodes[name].parent, (2, 3))
            if self.nodes[name].parent == "street":
                self.given("street", Send())

    def comes_down(self):
        self.comes("street", "auctioneer", (2,))
        self.given("auctioneer", Clear())
        self.comes("auctioneer", "street", (23,))
        self.comes("street", "store", (23,))


def worked():
    market = ByHand(nodes_of(*TREE), 0, bound=300)
    for name, powers in (("house", (100, 100, 100, 100)), ("store", (200, 50, -150, -150)), ("mill", (0, 0, -50, -50))):
        market.given(name, Offer(powers))
    market.comes("mill", "auctioneer", (2,))
    # The sum is 300, 150, -50, -50, and it clears at step 2. The bid of 301 W is refused.
    market.goes_up("house", "store")
    market.comes_down()
    market.comes("street", "house", (23,))
    for powers in ((301, 50, -150, -150), (200, 50, -150, -150)):
        market.given("store", Offer(powers))
        market.goes_up("store")
    # From 0 to 150 W: the nearest of a sum of 300, 150, -50, -50 that is within is 150.
    market.given("street", Limits(2, 0, 150), Send())
    market.comes_down()
    # The house is silent and let go. The sum is 200, 50, -150, -150, of which 50 W is within.
    market.given("street", Expire(1), Send())
    market.comes_down()
    # Its parent comes back, and lets it go again. It still says what it offered, hears that it was let go, and offers anew.
    market.start("street", market.nodes["street"].stored)
    market.given("street", Limits(2, 0, 150), Expire(1))
    market.comes("store", "street", (2,))
    market.comes("house", "street", (2,))
    market.comes("street", "house", (7,))
    market.goes_up("house")
    market.comes_down()
    market.comes("street", "house", (23,))
    return market


@pytest.fixture
def lines(tmp_path):
    return Lines(worked().write(tmp_path / "recordings"), PLACES, BASIS.steps)


def found(lines, live):
    """The node, the file and the line from 0 of the fault of changed recordings, and why."""
    verdict = judge(lines.write(), live)
    assert verdict.verdict == "invalid", verdict
    return verdict.fault.node, (verdict.fault.file, verdict.fault.line - 1), verdict.fault.why


def test_the_market_is_valid_and_as_it_was_worked(lines, live):
    verdict = judge(lines.folder, live)
    assert verdict.verdict == "valid", verdict
    bids = [lines.frame(*place) for place in lines.of("street", "out", "Bid")]
    assert [(bid.number, bid.demands) for bid in bids if bid.number > 1] == [
        (2, (300, 150, -50, -50)), (3, (300, 150, -50, -50)), (4, (150,) * 4), (5, (50,) * 4), (5, (50,) * 4), (6, (150,) * 4)
    ]  # fmt: skip
    assert [lines.frame(*place).number for place in lines.of("house", "out", "Bid")] == [2, 6]
    setpoints = [lines.frame(*place) for place in lines.of("house", "out", "Setpoint")]
    assert [(setpoint.number, setpoint.power) for setpoint in setpoints] == [(2, 100), (6, 100)]
    assert [lines.frame(*place).number for place in lines.of("street", "out", "TooMuch")] == [4]


# A frame that was changed: of which node and name, the one to change, how, and how it is named.
def with_number(resume, child, number):
    return replace(resume, numbers=tuple(number if at == child else before for at, before in enumerate(resume.numbers, 1)))


CHANGED = {
    "an even expiry": ("street", "RelayResume", {"last": 5}, lambda resume: with_number(resume, 1, 4)),
    "an expiry of the number before": ("street", "RelayResume", {"last": 5}, lambda resume: with_number(resume, 1, 2)),
    "a lapse that goes back to the bid before": ("street", "Bid", {"number": 5}, lambda frame: replace(frame, demands=(150,) * 4)),
    "a price settled by the newest limits": ("street", "Price", {"index": 1}, lambda frame: replace(frame, step=1)),
    "a price settled by the limits before": ("street", "Price", {"index": 2}, lambda frame: replace(frame, step=3)),
    "a sum that is announced as it is": ("street", "Bid", {"number": 4}, lambda frame: replace(frame, demands=(300, 150, -50, -50))),
    "a sum that is moved into the limits": ("street", "Bid", {"number": 4}, lambda frame: replace(frame, demands=(150, 150, 0, 0))),
    "limits of the bid before in a resume": ("street", "RelayResume", {"last": 4}, lambda frame: replace(frame, floor=-1_000, ceiling=1_000)),
    "a setpoint of another offer": ("house", "Setpoint", {"number": 6}, lambda frame: replace(frame, number=2)),
    "an offer anew under its own number": ("house", "Bid", {"number": 6}, lambda frame: replace(frame, number=4)),
    "an offer anew under its parent's number": ("house", "Bid", {"number": 6}, lambda frame: replace(frame, number=3)),
    "a bid beyond its bound that counts": ("street", "TooMuch", {}, lambda frame: Old(frame.child, frame.number)),
    "a price of another basis": ("street", "Price", {"index": 1}, lambda frame: replace(frame, greatest=12)),
}


@pytest.mark.parametrize("name", CHANGED)
def test_a_frame_of_another_market_is_named(lines, live, name):
    node, kind, fields, change = CHANGED[name]
    place = lines.of(node, "out", kind, **fields)[0]
    node_found, place_found, why = found(lines.change_frame(*place, change(lines.frame(*place))), live)
    assert (node_found, place_found) == (node, place)
    assert "due" in why or "is no Resume" in why


def test_an_expiry_that_is_not_told_again_is_named(lines, live):
    """Then the relay is not caught up, and has not its record again."""
    again = lines.of("street", "in", "Expire")[1]
    node, _, why = found(lines.drop(*again), live)
    assert node == "street" and "Bid 5 of child 1 is recorded" in why


def test_a_device_gives_no_number_of_its_parent(lines, live):
    place = lines.of("street", "in", "Bid", child=1)[0]
    node, place_found, why = found(lines.change_frame(*place, replace(lines.frame(*place), number=3)), live)
    assert (node, place_found) == ("street", place) or "is due" in why


def test_a_leave_under_a_number_of_the_parent_was_never_sent(lines, live):
    """The parent has an Expire for it: no other node may say so in its place."""
    file, at = lines.of("street", "in", "Expire")[0]
    node, place, why = found(lines.change_frame(file, at, Gone(1, 3)), live)
    assert (node, place) == ("street", (file, at)) and why == "Gone 3 of child 1 is taken, and house never sent just this"


def test_an_old_that_the_parent_never_wrote_is_named(lines, live):
    file, at = lines.of("house", "in", "Old")[0]
    node, place, why = found(lines.change_frame(file, at, Old(1, 5)), live)
    assert (node, place) == ("house", (file, at)) and why.endswith("street never sent just this")


def test_a_relay_is_never_let_go(lines, live):
    file, at = lines.of("auctioneer", "in", "Clear")[0]
    node, place, why = found(lines.insert(file, at, what="in", frame=Expire(1).to_bytes().hex()), live)
    assert (node, place) == ("auctioneer", (file, at))
    assert why == "child 1 is let go, and it is a relay: only a device may be"


def test_a_child_that_is_let_go_and_has_no_recording_is_told(lines, live):
    file, at = lines.of("auctioneer", "in", "Clear")[-1]
    verdict = judge(lines.insert(file, at + 20, what="in", frame=Expire(7).to_bytes().hex()).write(), live)
    assert (verdict.verdict, verdict.missing) == ("incomplete", ("child 7 of auctioneer has no recording",))


def test_limits_of_one_number_are_the_same_over_a_restart(lines, live):
    place = lines.of("street", "in", "Limits")[1]
    node, place_found, why = found(lines.change_frame(*place, Limits(2, -5, 150)), live)
    assert (node, place_found) == ("street", place)
    assert why == "limits 2 are -5 to 150 W, and before in this session they were 0 to 150 W"


@pytest.mark.parametrize("limits", [Limits(3, 0, 150), Limits(0, 0, 150), Limits(4, 1, 150), Bid(GIVER, 2, (0,) * 4), Expire(GIVER)])
def test_limits_that_no_relay_takes_are_named(lines, live, limits):
    place = lines.of("street", "in", "Limits")[0]
    assert found(lines.change_frame(*place, limits), live)[0] == "street"


@pytest.mark.parametrize(
    ("node", "change"),
    [
        ("street", {"arguments": ["relay", "1", "-1000", "1000"]}),
        ("street", {"arguments": ["relay", "1", "-1000", "1000", "8"]}),
        ("street", {"arguments": ["relay", "1", "-1000", "999", "9"]}),
    ],
)
def test_other_terms_in_a_session_are_named(lines, live, node, change):
    place = lines.of(node, "start")[1]
    assert found(lines.change(*place, **change), live)[:2] == (node, place)


def test_a_node_in_the_place_of_limits_is_named(lines, live):
    for place in lines.of("store", "start"):
        lines.change(*place, child=GIVER, arguments=["device", str(GIVER)])
    node, _, why = found(lines, live)
    assert (node, why) == ("store", f"it is child {GIVER} of street, and that place is of the limits of street")


def test_arguments_that_are_no_command_are_named(lines, live):
    place = lines.of("street", "start")[0]
    for start in lines.of("street", "start"):
        lines.change(*start, arguments=["relay", "1", "-1000", "1000", "0"])
    assert found(lines, live) == ("street", place, "its arguments are no command of the program live")


def test_a_seventh_relay_on_a_path_is_named(tmp_path, live):
    chain = [(f"r{depth}", "relay", f"r{depth - 1}" if depth else "auctioneer") for depth in range(7)]
    six = DrawnMarket(nodes_of(*chain[:6], ("house", "device", "r5")), 0).write(tmp_path / "six")
    assert judge(six, live).verdict == "valid"
    seven = DrawnMarket(nodes_of(*chain), 0).write(tmp_path / "seven")
    fault = judge(seven, live).fault
    assert (fault.node, fault.why) == ("r6", "7 relays are on its path, and the law of the network is of at most 6")


def test_drawn_markets_are_valid(tmp_path, live):
    """Lapses, limits, bounds and kills at any line."""
    for seed in range(4):
        market = DrawnMarket(nodes_of(*TREE), seed, bound=200)
        for _ in range(120):
            market.step()
        folder = market.write(tmp_path / str(seed))
        assert judge(folder, live).verdict == "valid"
        told = [json.loads(line)["what"] for name in PLACES for line in market.nodes[name].lines]
        assert told.count("start") > len(PLACES)
        shutil.rmtree(folder)
