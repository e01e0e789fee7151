"""The parts of a node by themselves: when it asks, what it makes of offers, its sessions, its messages, and its control."""

from __future__ import annotations

import json
import os
import queue
import time
from datetime import datetime, timedelta, timezone

import pytest
from brokers import SECONDS
from logged import log_to
from pretended import BASIS, LATER, MOMENT, SESSION, device_resume, resume_gone

from cogmaula.live.device import offers as offers_module
from cogmaula.live.node.ask_schedule import AskSchedule
from cogmaula.live.device.control import StandardControl
from cogmaula.live.node.node_errors import BadMessage
from cogmaula.live.messages.frames import Leave, Offer, Points, Setpoint, Stated, frames_of
from cogmaula.live.device.device_kinds import DeviceKind
from cogmaula.live.messages.messages import BackMessage, BasisMessage, OfferMessage, SetpointMessage, StateMessage
from cogmaula.live.device.offers import Offers
from cogmaula.live.node.sessions import Session, new_session, time_of, time_text

# When to ask.


def test_after_news_not_faster_than_the_pause():
    asking = AskSchedule(None, 2.0)
    assert not asking.is_due(0)
    asking.has_news()
    assert asking.is_due(0)
    asking.asked(0)
    asking.has_news()
    assert not asking.is_due(5), "what was asked is not answered"
    asking.answered()
    assert not asking.is_due(1.9)
    assert asking.is_due(2)


def test_by_the_clock_whether_there_is_news_or_not():
    asking = AskSchedule(60, 1.0)
    assert asking.is_due(0)
    asking.asked(0)
    asking.answered()
    asking.has_news()
    assert not asking.is_due(59)
    assert asking.is_due(60)


@pytest.mark.parametrize("period", [None, 3])
def test_when_to_ask_next_is_when_it_is_due(period):
    """At each moment of a life by hand: nothing is due before, and just then it is."""
    asking = AskSchedule(period, 2.0)

    def is_right(now):
        at = asking.due_at()
        assert asking.is_due(now) == (at is not None and now >= at)
        if at is not None and at > now:
            assert not asking.is_due(at - 0.01)
            assert asking.is_due(at)
        return at

    assert is_right(0.0) == (None if period is None else 0.0)
    asking.has_news()
    assert is_right(0.0) == 0.0
    asking.asked(10.0)
    assert is_right(10.0) is None
    asking.has_news()
    assert is_right(11.0) is None, "what was asked is not answered"
    asking.answered()
    assert is_right(11.0) == (12.0 if period is None else 13.0)
    asking.asked(13.0)
    asking.answered()
    assert is_right(14.0) == (None if period is None else 16.0)
    asking.answered(again=True)
    assert is_right(14.0) == 15.0


@pytest.mark.parametrize("period", [None, 60])
def test_what_was_refused_is_asked_again_after_the_pause(period):
    asking = AskSchedule(period, 1.0)
    asking.has_news()
    asking.asked(10)
    asking.answered(again=True)
    assert not asking.is_due(10.9)
    assert asking.is_due(11)
    asking.asked(11)
    asking.answered()
    assert not asking.is_due(12)


def test_without_a_pause_news_is_asked_at_once_and_what_was_refused_soon():
    """A relay that is not caught up would else be asked as fast as it answers."""
    asking = AskSchedule(None, 0.0)
    for now in (1.0, 1.011, 1.5):
        asking.has_news()
        assert asking.is_due(now)
        asking.asked(now)
        assert not asking.is_due(now), "what was asked is not answered"
        asking.answered()
        assert not asking.is_due(now), "there is no news"
    asking.answered(again=True)
    asking.has_news()
    assert (asking.is_due(1.505), asking.is_due(1.515)) == (False, True)


def test_a_service_that_starts_anew_is_asked_again():
    asking = AskSchedule(60, 1.0)
    asking.asked(0)
    asking.forget()
    assert asking.since is None
    assert asking.is_due(1)
    asking.asked(1)
    asking.answered()
    asking.forget()
    assert not asking.is_due(30), "by the clock, with nothing unanswered"


# Offers.


def offers(validity=None, kind=None):
    said = []
    one = Offers(BASIS, validity, log_to(said.append), kind)
    one.begin(None, 0)
    return one, said


def power(*watts, **more):
    return json.dumps({"power": watts, **more}).encode()


def test_an_offer_is_fed_once_and_the_newest_alone_waits():
    one, _ = offers()
    assert one.due(0) is None
    one.take(power(5, -3), 0)
    assert one.due(0) == Offer((5, -3))
    one.take(power(4, -3), 1)
    one.take(power(3, -3), 2)
    assert one.due(2) is None, "the first is not answered"
    one.resumed(device_resume(1, 0, (5, -3)))
    assert one.due(3) == Offer((3, -3))
    one.resumed(device_resume(2, 0, (3, -3)))
    assert one.due(4) is None
    assert one.current == (3, -3)


def test_a_resume_after_a_price_answers_no_offer():
    one, _ = offers()
    one.take(power(5, -3), 0)
    one.due(0)
    one.resumed(device_resume(1, 0, (5, -3)))
    one.take(power(4, -3), 1)
    assert one.due(1) == Offer((4, -3))
    one.resumed(device_resume(1, 9, (5, -3)))
    assert one.since == 1
    one.resumed(device_resume(2, 9, (4, -3)))
    assert one.since is None
    assert one.due(2) is None


def test_the_same_offer_again_is_no_new_bid():
    one, _ = offers()
    one.take(power(5, -3), 0)
    one.due(0)
    one.take(power(5, -3), 0)
    one.resumed(device_resume(1, 0, (5, -3)))
    one.take(power(5, -3), 0)
    assert one.due(1) is None


def test_an_offer_that_the_full_window_refused_is_made_again_later():
    one, _ = offers()
    one.take(power(5, -3), 0)
    one.due(0)
    one.refused(0)
    assert one.due(0.9) is None
    assert one.due(1) == Offer((5, -3))


def test_a_service_that_ended_is_asked_again():
    one, _ = offers()
    one.take(power(5, -3), 0)
    one.due(0)
    one.forget()
    assert one.due(0) == Offer((5, -3))


def test_a_silent_control_lets_its_device_leave_once():
    one, said = offers(validity=10)
    one.take(power(5, -3), 0)
    one.due(0)
    one.resumed(device_resume(1, 0, (5, -3)))
    one.take(power(5, -3), 8)
    assert one.due(18) is None
    assert one.due(18.1) == Leave()
    one.resumed(resume_gone(2, 0))
    assert one.due(30) is None
    assert len(said) == 1
    assert "silent" in said[0]
    assert one.is_out
    one.take(power(5, -3), 40)
    assert one.due(40) == Offer((5, -3))


def test_the_end_that_is_stored_is_read_once_and_not_at_each_look(monkeypatch):
    """A node looks some twenty times a second, and what it stored changes every quarter of the validity at most."""
    read = []
    monkeypatch.setattr(offers_module, "time_of", lambda text: read.append(text) or time_of(text))
    one, _ = offers(validity=100)
    one.take(b'{"power": [500, -300]}', 0.0)
    one.due(0.0)
    one.resumed(device_resume(2, 0, (500, -300)))
    first = one.ends_at(0.0)
    one.take(b'{"power": [500, -300]}', 24.0)
    assert [one.has_later_end(first, 0.0) for _ in range(5)] == [False] * 5
    one.take(b'{"power": [500, -300]}', 26.0)
    # The clock of the day stands, and that which only rises went on by 26 s: the newest offer ends 26 s later than the one that is stored.
    later = one.ends_at(0.0)
    assert [one.has_later_end(first, 0.0) for _ in range(5)] == [True] * 5
    assert [one.has_later_end(later, 0.0), one.has_later_end(first, 0.0)] == [False, True]
    assert read == [first, later, first]


def test_an_agent_that_comes_back_has_the_validity_anew():
    one, _ = offers(validity=10)
    one.begin(device_resume(4, 2, (5, -3)), 100)
    assert one.due(110) is None
    assert one.due(110.1) == Leave()


def test_a_message_may_say_for_how_long_it_holds():
    one, _ = offers()
    one.take(power(5, -3), 0, expiry=7)
    one.due(0)
    one.resumed(device_resume(1, 0, (5, -3)))
    assert one.due(7) is None
    assert one.due(7.1) == Leave()


def test_an_offer_is_as_old_as_it_says():
    now = datetime.now(timezone.utc)
    one, said = offers(validity=60)
    one.take(power(5, -3, time=time_text(now - timedelta(seconds=61))), 0)
    assert one.due(0) is None
    assert "older than its validity" in said[0]
    one.take(power(5, -3, time=time_text(now - timedelta(seconds=50))), 0)
    assert one.due(0) == Offer((5, -3))
    one.resumed(device_resume(1, 0, (5, -3)))
    assert one.due(5) is None
    assert one.due(11) == Leave()


def test_leaving_twice_is_leaving_once():
    one, _ = offers()
    one.take(b'{"leave": true}', 0)
    assert one.due(0) is None, "it never offered"
    one.take(power(5, -3), 0)
    one.due(0)
    one.take(b'{"leave": true}', 0)
    one.resumed(device_resume(1, 0, (5, -3)))
    assert one.due(0) == Leave()
    one.resumed(resume_gone(2, 0))
    one.take(b'{"leave": true}', 0)
    assert one.due(0) is None
    assert one.is_out


def test_a_wanted_leave_without_an_offer_is_done():
    one, _ = offers()
    one._wanted = Leave()
    assert one.due(0) is None
    assert one.is_out


def test_without_numbers_an_offer_is_let_go():
    one, _ = offers()
    one.take(power(5, -3), 0)
    one.due(0)
    one.ended()
    assert one.due(5) is None


LOAD = DeviceKind("load")
BATTERY = DeviceKind("battery", (1000, 300, 300, 0))


def test_points_and_states_are_asked_once():
    """The agent makes the powers: an offer that it made of what was asked has the next number."""
    one, said = offers()
    one.take(b'{"points": [[0, 500], [9, -300]], "reference": 7}', 0)
    assert one.due(0) == Points.of([(0, 500), (9, -300)])
    one.resumed(device_resume(2, 0, (500, -300)))
    assert one.references == {2: 7}
    one.take(b'{"points": [[0, 500], [9, -300]]}', 1)
    assert one.due(1) is None, "it stands"
    one.take(b'{"state": 400}', 2)
    assert (one.due(2), len(said)) == (None, 1), "no kind was named"
    one.take(json.dumps(BATTERY.members()).encode(), 3)
    assert one.due(3) is None, "a kind is no offer"
    one.take(b'{"state": 400}', 4)
    assert one.due(4) == Stated(BATTERY, 400)
    one.resumed(device_resume(6, 0, (500, -300)))
    assert one.due(5) is None, "the offer before was made anew: what was asked is not answered"
    one.resumed(device_resume(8, 0, (0, -300)))
    assert one.due(6) is None
    one.take(b'{"power": [0, -300]}', 7)
    assert one.due(7) == Offer((0, -300))


def test_a_state_is_two_frames():
    assert b"".join(frame.to_bytes() for frame in frames_of(Stated(BATTERY, 400))).hex() == "1d03000003e80000012c0000012c00000000000000001e00000190"
    one, _ = offers(kind=LOAD)
    one.take(b'{"state": 9}', 0)
    assert one.due(0) == Stated(LOAD, 9)
    assert OfferMessage.of(b'{"kind": "solar", "state": 9}', BASIS, LOAD).frame == Stated(DeviceKind("solar"), 9)


# Messages.

WRONG_OFFERS = [
    (b"", "no JSON"),
    (b"[" * 100_000, "no JSON"),
    (b"[1, 2]", "no JSON object"),
    (b"{}", "an offer is"),
    (b'{"power": [1, 0], "leave": true}', "an offer is"),
    (b'{"leave": false}', "an offer is"),
    (b'{"power": 7}', "an offer is"),
    (b'{"power": [1.5, 0]}', "no whole number"),
    (b'{"power": [true, false]}', "no whole number"),
    (b'{"power": [1, 0, 0]}', "3 demands are there, and 2 are due"),
    (b'{"power": [0, 1]}', "above the one of the step before"),
    (b'{"power": [1000000001, 0]}', "outside"),
    (b'{"power": [1, 0], "time": 7}', "the offer has no text time"),
    (b'{"points": []}', "0 points are there: give 1 to 64"),
    (b'{"points": [[0, 1, 2]]}', "a point is no"),
    (b'{"points": [[0, 1.5]]}', "a point is no"),
    (b'{"points": [[4, 0], [3, 0]]}', "the price 3 of point 1 is below 4, the one before"),
    (b'{"points": [[3, 0], [4, 1]]}', "the power 1 of point 1 is above 0, the one before"),
    (b'{"points": [[10, 0]]}', "the price 10 of point 0 is outside the basis, 0 to 9"),
    (b'{"points": [[0, 1000000001]]}', "1000000001 of point 0 is outside"),
    (b'{"state": 1.5}', "the state is 1.5: give a whole number"),
    (b'{"state": -1}', "the state of a load is -1: give 0 to 1000000000 watts"),
    (b'{"kind": "oven"}', "kind is 'oven': give one of freezer, heat_pump, cogeneration, battery, solar, load"),
    (b'{"kind": "solar", "power": 5}', "power is no parameter of a solar: none may be given"),
    (b'{"kind": "battery", "capacity": 0}', "capacity of a battery is 0: give a whole number from 1 to 1000000000"),
    (b'{"kind": "freezer", "low": 5, "high": 5, "power": 1, "warm": 1, "cool": 1}', "give a low below the high"),
    (b'{"kind": "solar", "state": 5, "leave": true}', "leave is no parameter of a solar"),
    (b'{"power": [1, 0], "time": "today"}', "is no time"),
    (b'{"power": [1, 0], "time": "2026-01-31T06:30:00"}', "has no zone"),
]


@pytest.mark.parametrize(("data", "why"), WRONG_OFFERS)
def test_a_message_that_is_no_offer(data, why):
    with pytest.raises(BadMessage, match=why):
        OfferMessage.of(data, BASIS, LOAD)
    one, said = offers()
    one.take(data, 0)
    assert one.due(0) is None
    assert len(said) == 1


def test_messages_come_back():
    basis = BasisMessage(BASIS, SESSION)
    assert BasisMessage.of(basis.to_bytes()) == basis
    state = StateMessage("down", "0" * 16, MOMENT, SESSION.id, MOMENT, "stopped")
    assert StateMessage.of(state.to_bytes()) == state
    placed = StateMessage("up", "0" * 16, MOMENT, SESSION.id, MOMENT, "", "relay", "auctioneer", 3, -1000, None)
    assert StateMessage.of(placed.to_bytes()) == placed
    assert OfferMessage.of(b'{"leave": true, "time": "2026-01-31T06:30:00Z"}', BASIS) == OfferMessage(Leave(), "2026-01-31T06:30:00Z")


@pytest.mark.parametrize(
    ("kind", "change", "why"),
    [
        (BasisMessage, {"min": "0"}, "no whole number min"),
        (BasisMessage, {"session": 3}, "no text session"),
        (BasisMessage, {"session": "../../x"}, "is no session"),
        (BasisMessage, {"begun": "yesterday"}, "is no time"),
        (StateMessage, {"state": "asleep"}, "neither up nor down"),
        (StateMessage, {"started": "then"}, "is no time"),
        (StateMessage, {"why": None}, "no text why"),
        (StateMessage, {"sort": "hub"}, "no auctioneer, relay or device"),
        (StateMessage, {"parent": 3}, "no text parent"),
        (StateMessage, {"child": "3"}, "no whole number child"),
        (StateMessage, {"child": 257}, "the child 257, and not 1 to 256"),
        (StateMessage, {"ceiling": 2.5}, "no whole number ceiling"),
    ],
)
def test_a_message_of_another_form(kind, change, why):
    made = BasisMessage(BASIS, SESSION) if kind is BasisMessage else StateMessage("up", "0" * 16, MOMENT, "", MOMENT)
    with pytest.raises(BadMessage, match=why):
        kind.of(json.dumps(json.loads(made.to_bytes()) | change).encode())


def test_a_state_of_the_version_before_has_no_place():
    told = {"state": "up", "run": "0" * 16, "started": MOMENT, "session": SESSION.id, "time": MOMENT, "why": ""}
    assert StateMessage.of(json.dumps(told).encode()) == StateMessage("up", "0" * 16, MOMENT, SESSION.id, MOMENT, version=1)


def test_a_setpoint_comes_back():
    assert SetpointMessage.of(SetpointMessage.made_of(Setpoint(3, 7, 1, -300), BASIS, MOMENT).to_bytes()) == SetpointMessage(-300, 1, 9, 3, 7, MOMENT)
    with pytest.raises(BadMessage, match="no whole number price"):
        SetpointMessage.of(b'{"power": 1, "step": 1, "price": null, "bid": 3, "clearing": 7, "time": ""}')


def test_a_setpoint_has_its_price():
    assert json.loads(SetpointMessage.made_of(Setpoint(3, 7, 1, -300), BASIS, MOMENT).to_bytes()) == {
        "power": -300,
        "step": 1,
        "price": 9,
        "bid": 3,
        "clearing": 7,
        "time": MOMENT,
    }


# Sessions.


def test_sessions_rise_whatever_the_clock_says():
    ahead = Session("0" * 16, time_text(datetime.now(timezone.utc) + timedelta(days=1)))
    assert new_session(ahead).order > ahead.order
    assert new_session(None).order < ahead.order
    assert new_session(None) != new_session(None)
    assert SESSION.order < LATER.order


def test_times_are_of_a_zone():
    assert time_of("2026-01-31T07:30:00+01:00") == time_of(MOMENT)
    assert time_text(time_of("2026-01-31T07:30:00+01:00")) == MOMENT


# The control at standard input and output.


class Ends:
    """Both ends of a control's input and output, and what it said."""

    def __init__(self):
        self.reads, self.into = os.pipe()
        self.out_of, self.writes = os.pipe()
        self.offered, self.said = queue.Queue(), queue.Queue()
        self.control = StandardControl(self.reads, self.writes)
        self.control.start(self.offered.put, log_to(self.said.put))


def test_lines_come_in_and_go_out():
    ends = Ends()
    for piece in (b'{"power"', b': [1]}\n\n{"leave"', b": true}\nlast"):
        os.write(ends.into, piece)
        time.sleep(0.02)
    os.close(ends.into)
    assert [ends.offered.get(timeout=SECONDS) for _ in range(3)] == [b'{"power": [1]}', b'{"leave": true}', b"last"]
    ends.control.write(BackMessage("one"))
    ends.control.write(BackMessage("two"))
    found, due = b"", b'{"market": "live", "since": "one"}\n{"market": "live", "since": "two"}\n'
    while len(found) < len(due):
        found += os.read(ends.out_of, 100)
    assert found == due


def test_a_line_without_end_takes_no_memory():
    ends = Ends()
    os.write(ends.into, b"x" * 40_000)
    assert "is above 32768 bytes" in ends.said.get(timeout=SECONDS)
    os.write(ends.into, b"\n{}\n")
    assert ends.offered.get(timeout=SECONDS) == b"{}"


def test_a_reader_that_has_gone_is_told():
    ends = Ends()
    os.close(ends.out_of)
    ends.control.write(BackMessage("one"))
    assert "setpoints go to the topic alone" in ends.said.get(timeout=SECONDS)


def test_a_reader_that_does_not_read_holds_nobody_up():
    ends = Ends()
    for _ in range(3_000):
        ends.control.write(BackMessage("x" * 1_000))
    assert "nobody reads standard output" in ends.said.get(timeout=SECONDS)


def test_an_input_that_cannot_be_read_is_told():
    reads = os.open(os.curdir, os.O_RDONLY)
    said = queue.Queue()
    StandardControl(reads, 1).start(lambda _: None, log_to(said.put))
    assert "standard input cannot be read" in said.get(timeout=SECONDS)
