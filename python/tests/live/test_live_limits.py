"""Limits that a relay is given while the market lives: their numbers, what is told of them, and the alarm."""

from __future__ import annotations

import json
from datetime import datetime, timedelta, timezone

import pytest
from pretended import bid, numbers, price, relay_resume, saved

from cogmaula.live.messages.frames import Bid, Limits, OutOfLimits, Send
from cogmaula.live.node.sessions import time_text
from cogmaula.live.node.store import Given

TERMS = (-1000, 1000, 256)


def later(seconds):
    return time_text(datetime.now(timezone.utc) + timedelta(seconds=seconds))


def given(floor, ceiling, **more):
    return json.dumps({"floor": floor, "ceiling": ceiling, **more}).encode()


def begun(joined, *retained):
    return joined("relay", limits_from=True).begun(("market/street/bid/1", bid(1, 2, 5, -3).to_bytes()), *retained)


def takes(one, payload):
    one.link.comes("market/street/limits", payload)
    return one.turned()


def state(one):
    return json.loads(one.link.newest["market/street/limits/state"].payload)


def fed(one):
    return [frame for frame in one.service.read if frame[:1] == bytes([Limits.KIND])]


def test_the_service_has_the_place_of_limits_and_nobody_else(joined):
    one = begun(joined, ("market/street/bid/256", bid(256, 2, 5, -3).to_bytes()))
    assert one.service.command == ["live", "relay", "3", "-1000", "1000", "256"]
    assert bid(256, 2, 5, -3).to_bytes() not in one.service.read
    assert any("child 256 is the place in which limits are given" in line for line in one.said)
    assert {"market/street/limits", "market/street/limits/state"} <= set(one.link.topics)
    assert not any("limits" in topic for topic in joined("device").link.topics)


def test_limits_are_stored_under_a_number_of_their_own_and_then_fed(joined, monkeypatch):
    one = begun(joined)
    done = []
    save = one.node._store.save
    monkeypatch.setattr(one.node._store, "save", lambda stored: (done.append((stored.given, len(fed(one)))), save(stored)))
    until = later(3600)
    takes(one, given(-2, 600, until=until, reference="order 7"))
    assert fed(one) == [Limits(2, -2, 600).to_bytes()]
    assert done == [(Given(2, -2, 600, until, "order 7"), 0)]
    takes(one, given(-2, 600, until=until, reference="order 7"))
    takes(one, given(-2, 500))
    takes(one, b"")
    due = [Limits(2, -2, 600), Limits(4, -2, 500), Limits(6, -1000, 1000)]
    assert fed(one) == [frame.to_bytes() for frame in due], "the same ones again are no news, and a cleared topic gives the settings' own"
    told = json.loads(one.link.of("market/street/state")[-1])
    assert (told["floor"], told["ceiling"]) == (-1000, 1000)


def test_they_are_confirmed_with_the_clearing_from_which_on_setpoints_keep_them(joined):
    """Bid 2 is the first under them. The price of clearing 8 answers bid 1, and that of clearing 9 answers bid 2."""
    one = begun(joined)
    one.link.confirms = True
    one.writes(relay_resume(1, 0, 0, numbers((1, 2)), TERMS), bid(3, 1, 5, -3))
    assert state(one)["state"] == "settings"
    takes(one, given(0, 3, reference="order 7"))
    assert (state(one)["state"], state(one)["clearing"], state(one)["ceiling"]) == ("waits", None, 3)
    made = numbers((1, 2), (256, 2))
    one.writes(relay_resume(2, 0, 0, made, TERMS, (0, 3)), bid(3, 2, 3, 0))
    one.link.confirm()
    one.writes(price(1, 2, 8, 0), relay_resume(2, 1, 8, made, TERMS, (0, 3)))
    one.link.confirm()
    one.turned()
    assert state(one)["clearing"] is None
    one.writes(price(1, 2, 9, 0), relay_resume(2, 2, 9, made, TERMS, (0, 3)))
    one.link.confirm()
    one.turned()
    assert (state(one)["state"], state(one)["clearing"], state(one)["reference"]) == ("kept", 9, "order 7")


WRONG = [
    (b"nonsense", "the message is no JSON"),
    (b'{"floor": 0}', 'write {"floor": WATTS, "ceiling": WATTS}'),
    (given(0, 600, color="red"), "no color"),
    (given(0.5, 600), "floor is no whole number of watts"),
    (given(1, 600), "1 to 600 watts are not within the relay's own -1000 to 1000"),
    (given(-1001, 600), "are not within"),
    (given(0, 1001), "are not within"),
    (given(0, 600, until="noon"), "is no time"),
    (given(0, 600, until="2026-01-31T06:30:00Z"), "they come too late: 2026-01-31T06:30:00Z has passed"),
    (given(0, 600, reference=7), "reference is no text"),
]


@pytest.mark.parametrize(("payload", "why"), WRONG)
def test_wrong_or_late_ones_are_told_with_their_cause_and_the_others_count(joined, payload, why):
    one = begun(joined)
    takes(one, given(-5, 5))
    takes(one, payload)
    assert fed(one) == [Limits(2, -5, 5).to_bytes()]
    told = state(one)
    assert (told["state"], told["floor"], told["ceiling"]) == ("refused", -5, 5)
    assert why in told["why"]
    takes(one, given(-6, 6))
    assert state(one)["state"] == "waits"


def test_none_of_one_side_leaves_that_of_the_settings(joined):
    one = takes(begun(joined), given(None, 600))
    assert fed(one) == [Limits(2, -1000, 600).to_bytes()]


def test_the_settings_limits_are_back_once_they_end(joined, monkeypatch):
    one = takes(begun(joined), given(0, 600, until=later(3600)))
    monkeypatch.setattr("cogmaula.live.children.given_limits.is_over", lambda until: until is not None)
    one.turned()
    assert fed(one)[1:] == [Limits(4, -1000, 1000).to_bytes()]
    assert one.link.newest["market/street/limits"].payload == b"", "a restart does not find them"
    one.turned()
    assert len(fed(one)) == 2


def test_a_relay_that_was_down_at_their_end_takes_its_own(joined, tmp_path):
    made = numbers((1, 2), (256, 2))
    until = "2026-01-31T06:30:00Z"
    saved(tmp_path, "relay", "street", relay_resume(2, 0, 0, made, TERMS, (0, 3)), given=Given(2, 0, 3, until))
    one = begun(joined, ("market/street/limits", given(0, 3, until=until)))
    assert fed(one) == [Limits(2, 0, 3).to_bytes(), Limits(4, -1000, 1000).to_bytes()]
    assert state(one)["state"] == "waits"


def test_a_restart_gives_them_again_under_their_number(joined, tmp_path):
    saved(tmp_path, "relay", "street", relay_resume(2, 0, 0, numbers((1, 2)), TERMS), given=Given(4, 0, 3))
    one = begun(joined, ("market/street/limits", given(0, 3)))
    assert one.service.read[:2] == [relay_resume(2, 0, 0, numbers((1, 2)), TERMS).to_bytes(), Limits(4, 0, 3).to_bytes()]
    takes(one, given(0, 2))
    assert fed(one)[-1] == Limits(6, 0, 2).to_bytes()


def test_a_relay_that_goes_on_from_the_broker_counts_on_from_its_resume(joined):
    resume = relay_resume(2, 0, 0, numbers((1, 2), (256, 8)), TERMS, (0, 3))
    one = begun(joined, ("market/street/resume", resume.to_bytes()))
    takes(one, given(0, 2))
    assert fed(one)[-1] == Limits(10, 0, 2).to_bytes()


def test_limits_that_cannot_be_kept_raise_an_alarm_until_a_later_bid_keeps_them(joined, caplog):
    one = takes(begun(joined), given(0, 3))
    one.writes(relay_resume(1, 0, 0, numbers((1, 2), (256, 2)), TERMS, (0, 3)), Bid(3, 1, (9, 8)), OutOfLimits(1))
    told = json.loads(one.link.of("market/street/state")[-1])
    assert told["alarm"] == "no price brings the power within 0 to 3 W"
    assert state(one)["state"] == "not kept"
    assert [record.levelname for record in caplog.records if record.message.startswith("ALARM: no price brings")] == ["ERROR"]
    one.writes(relay_resume(2, 0, 0, numbers((1, 4), (256, 2)), TERMS, (0, 3)), Bid(3, 2, (9, 8)), OutOfLimits(2))
    assert len([line for line in one.said if line.startswith("ALARM")]) == 1
    one.writes(relay_resume(3, 0, 0, numbers((1, 6), (256, 2)), TERMS, (0, 3)), Bid(3, 3, (3, 2)))
    one.node.serving.session.limiting._within_at = 0.0
    one.turned()
    assert json.loads(one.link.of("market/street/state")[-1])["alarm"] == ""
    assert [record.levelname for record in caplog.records if record.message == "the limits are kept again"] == ["INFO"]
    assert state(one)["state"] == "waits"
    assert Send().to_bytes() in one.service.read
