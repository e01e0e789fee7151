"""Numbers and indices that no honest node gives are not taken, and no honest market is stopped by that."""

from __future__ import annotations

from datetime import datetime, timedelta, timezone

import pytest
from pretended import (
    BASIS_TOPIC,
    MARKED,
    SESSION,
    basis_payload,
    bid,
    device_resume,
    numbers,
    price,
    relay_resume,
    saved,
)

from cogmaula.live.node.ask_schedule import AskSchedule
from cogmaula.live.children.jumps import JUMP, most_by_time, most_of_child
from cogmaula.live.messages.messages import StateMessage
from cogmaula.live.node.sessions import Session, time_text

BEGUN = datetime(2026, 1, 31, 6, tzinfo=timezone.utc)
LAST = 2**32 - 2


def session_of(seconds):
    """A session that began so many seconds ago, by this machine's clock."""
    return Session(SESSION.id, time_text(datetime.now(timezone.utc) - timedelta(seconds=seconds)))


def begun(joined, sort, session, **more):
    """A node in a session, and its disk if that has something."""
    one = joined(sort, **more)
    one.link.comes(BASIS_TOPIC, basis_payload(session))
    one.link.settles()
    return one.turned()


def alarm_of(one):
    return StateMessage.of(one.link.of(one.node.settings.own_topic("state"))[-1]).alarm


# By hand: 65,536, and 100 for each second that the session is old. A clock before its begin says nothing.
@pytest.mark.parametrize(
    ("seconds", "most"), [(-1, None), (0, 65_536), (10, 66_536), (86_400, 8_705_536)]
)
def test_time_bounds_how_many_clearings_there_can_be(seconds, most):
    assert most_by_time(SESSION, BEGUN + timedelta(seconds=seconds)) == most


@pytest.mark.parametrize(
    ("known", "seconds", "most"),
    [(12, 0, 65_548), (12, 10**6, 65_548), (0, 10, 66_536), (0, -1, None)],
)
def test_the_newest_number_bounds_the_next_and_without_one_time_does(known, seconds, most):
    assert most_of_child(known, SESSION, BEGUN + timedelta(seconds=seconds)) == most


def test_no_auctioneer_clears_faster_than_its_children_believe():
    """Though its pause and its period are 0, two questions are 10 ms apart: 100 a second."""
    for one in (AskSchedule(None, 0.0), AskSchedule(0.0, 5.0)):
        one.has_news()
        assert one.is_due(1.0)
        one.asked(1.0)
        one.answered()
        one.has_news()
        assert (one.is_due(1.009), one.is_due(1.0101)) == (False, True)
        assert one.due_at() == pytest.approx(1.01)


def test_a_number_far_beyond_the_last_of_a_child_is_not_taken(joined):
    """It is told by a line and an alarm, also if it comes again and again, and the child's own next bid ends the alarm."""
    one = begun(joined, "relay", session_of(3600), child_pause=0.0)

    def comes(number, power):
        one.link.comes("market/street/bid/2", bid(2, number, power, power).to_bytes())
        one.turned()

    comes(12, 5)
    for number in (12 + JUMP + 1, LAST, LAST):
        comes(number, 900)
    assert (
        alarm_of(one) == f"child 2 gave number {LAST}, far beyond its last: its login may be stolen"
    )
    assert len([line for line in one.said if "Its login may be stolen" in line]) == 1
    comes(14, 6)
    assert alarm_of(one) == ""
    comes(14 + JUMP, 7)
    fed = [data for data in one.service.read if data[:1] == b"\x02"]
    assert fed == [
        bid(2, number, power, power).to_bytes()
        for number, power in ((12, 5), (14, 6), (14 + JUMP, 7))
    ]


@pytest.mark.parametrize(
    ("age", "number", "is_taken"),
    [
        (3600, 300_000, True),
        (3600, LAST, False),
        (0, 60_000, True),
        (0, 300_000, False),
        (-3600, LAST, True),
    ],
)
def test_the_first_number_of_a_child_is_bounded_by_time(joined, age, number, is_taken):
    """A relay that lost its store, at the broker too, hears children that have come far. A clock that is behind bounds nothing."""
    one = begun(joined, "relay", session_of(age))
    one.link.comes("market/street/bid/2", bid(2, number, 5, 5).to_bytes())
    one.turned()
    assert (bid(2, number, 5, 5).to_bytes() in one.service.read) == is_taken


@pytest.mark.parametrize(("number", "is_taken"), [(900_012, True), (900_000 + JUMP + 2, False)])
def test_a_parent_without_its_disk_goes_by_the_numbers_of_its_resume(
    joined, tmp_path, number, is_taken
):
    """The session is young, and its child has come far in it: the Resume says so."""
    session = session_of(60)
    saved(tmp_path, "relay", "street", relay_resume(5, 4, 9, numbers((2, 900_000))), session)
    one = begun(joined, "relay", session)
    one.link.comes("market/street/bid/2", bid(2, number, 5, 5).to_bytes(), MARKED)
    one.turned()
    assert (bid(2, number, 5, 5).to_bytes() in one.service.read) == is_taken


def test_an_index_that_time_does_not_allow_is_not_taken(joined, tmp_path):
    """By the table of prices and by a topic of its own. The next right price is taken, and ends the alarm."""
    session = session_of(60)
    saved(tmp_path, "device", "house", device_resume(2, 0, (5, -3)), session)
    one = begun(joined, "device", session)

    def comes(index):
        one.link.comes("market/street/price/2", price(2, 2, index, 1).to_bytes())
        one.turned()
        return price(2, 2, index, 1).to_bytes() in one.service.read

    assert not comes(2**32 - 1)
    assert "street gave clearing 4294967295, and at most" in alarm_of(one)
    assert comes(JUMP + 5_900), "60 s let 6,000 be"
    assert alarm_of(one) == ""


def test_a_clock_before_the_sessions_begin_refuses_no_price(joined, tmp_path):
    session = session_of(-86_400)
    saved(tmp_path, "device", "house", device_resume(2, 0, (5, -3)), session)
    one = begun(joined, "device", session)
    one.link.comes("market/street/price/2", price(2, 2, 500_000, 1).to_bytes())
    one.turned()
    assert price(2, 2, 500_000, 1).to_bytes() in one.service.read
