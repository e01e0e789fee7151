"""The references of a device's control: which setpoint has which, over offers that are made again, a window and restarts."""

from __future__ import annotations

import hashlib
import json
import shutil

import pytest
from logged import QUIET
from pretended import BASIS, Joined, device_resume, resume_gone

from cogmaula.live import BadMessage
from cogmaula.live.messages.frames import Leave, Offer, Setpoint
from cogmaula.live.messages.messages import LAST_REFERENCE, OfferMessage, SetpointMessage
from cogmaula.live.device.offers import Offers

HIGH, LOW = (500, -300), (100, -700)
SETPOINT = b'{"power": -300, "step": 1, "price": 9, "bid": 4, "clearing": 7, "time": "2026-01-31T06:30:00.000Z"}'


def offer(demands, reference=None):
    told = {"power": list(demands)}
    return json.dumps(told if reference is None else {**told, "reference": reference}).encode()


@pytest.mark.parametrize("reference", [0, 17, LAST_REFERENCE])
def test_an_offer_may_have_a_reference(reference):
    assert OfferMessage.of(offer(HIGH, reference), BASIS) == OfferMessage(Offer(HIGH), None, reference)


@pytest.mark.parametrize("reference", [-1, LAST_REFERENCE + 1, 1.0, True, "17", [17]])
def test_a_reference_that_is_none(reference):
    with pytest.raises(BadMessage, match="the reference is no whole number from 0 to 9007199254740991"):
        OfferMessage.of(offer(HIGH, reference), BASIS)


def test_a_leave_has_none():
    with pytest.raises(BadMessage, match="an offer is"):
        OfferMessage.of(b'{"leave": true, "reference": 1}', BASIS)


def test_a_setpoint_gets_the_reference_of_its_own_offer_alone():
    setpoint = SetpointMessage.of(SETPOINT)
    assert json.loads(setpoint.with_reference(4, 9).to_bytes()) == {**json.loads(SETPOINT), "reference": 9}
    assert setpoint.with_reference(4, 9).with_reference(4, None).to_bytes() == SETPOINT
    assert setpoint.with_reference(5, 9).to_bytes() == SETPOINT


@pytest.mark.parametrize(
    ("change", "due"),
    [
        ({"clearing": 8}, True), ({"time": "2026-02-01T00:00:00.000Z"}, True), ({"until": "2026-02-01T00:00:00.000Z"}, True),
        ({"power": -299}, False), ({"step": 0}, False), ({"price": 0}, False), ({"bid": 5}, False), ({"reference": 1}, False),
    ],
)
def test_setpoints_are_the_same_if_a_control_takes_the_same(change, due):
    """One of a later clearing is; one of another offer, step or reference is not."""
    told = SetpointMessage.of(SETPOINT)
    other = SetpointMessage.of(json.dumps({**json.loads(SETPOINT), **change}).encode())
    assert (told.is_same(other), other.is_same(told), told.is_same(None)) == (due, due, False)


class Made:
    """Offers of a market of two steps, which the test asks and answers."""

    def __init__(self):
        self.offers = Offers(BASIS, None, QUIET)
        self.offers.begin(None, 0.0)

    def takes(self, demands, reference=None):
        self.offers.take(offer(demands, reference), 0.0)
        return self

    def asks(self):
        assert self.offers.due(1.0) is not None
        return self

    def has(self, number, demands):
        self.offers.resumed(device_resume(number, 0, demands))
        return self.offers.references


def test_the_reference_goes_with_what_was_asked():
    made = Made().takes(HIGH, 1).asks().takes(LOW, 2)
    assert made.has(1, HIGH) == {1: 1}
    assert made.asks().has(2, LOW) == {1: 1, 2: 2}


def test_the_newest_reference_of_the_same_powers_counts():
    assert Made().takes(HIGH, 1).asks().takes(HIGH, 2).has(1, HIGH) == {1: 2}
    made = Made().takes(HIGH, 1).asks().takes(LOW, 2).takes(HIGH, 3)
    assert made.has(1, HIGH) == {1: 3}
    assert made.offers.due(2.0) is None
    made.takes(HIGH, 4)
    assert made.offers.references == {1: 4}
    made.takes(HIGH)
    assert made.offers.references == {}


def test_a_full_window_keeps_the_newest():
    made = Made().takes(HIGH, 1).asks()
    made.offers.refused(1.0)
    made.takes(LOW, 2)
    assert isinstance(made.offers.due(5.0), Offer)
    assert made.has(1, LOW) == {1: 2}


def test_a_resume_without_a_new_number_changes_none():
    made = Made().takes(HIGH, 1).asks()
    made.has(1, HIGH)
    made.takes(LOW, 2).asks()
    assert made.has(1, HIGH) == {1: 1}


def test_what_is_before_the_answered_one_is_let_go():
    made = Made().takes(HIGH, 1).asks()
    made.has(1, HIGH)
    made.takes(LOW, 2).asks()
    made.has(2, LOW)
    made.offers.forget_before(2)
    assert made.offers.references == {2: 2}
    made.offers.resumed(resume_gone(3, 0))
    assert made.offers.references == {}


def setpoints(one: Joined):
    return [json.loads(message) for message in one.control.told]


def test_a_device_tells_and_stores_the_reference(joined):
    one = joined("device").begun()
    one.link.confirms = True
    one.control.offer(offer(HIGH, 17))
    one.turned().writes(device_resume(1, 0, HIGH))
    assert one.node._store.newest().references == {1: 17}
    one.writes(Setpoint(1, 7, 1, -300), device_resume(1, 7, HIGH))
    assert [setpoint["reference"] for setpoint in setpoints(one)] == [17]
    # The same offer under another number: the setpoint comes again with that, and both are on disk.
    one.control.offer(offer(HIGH, 18))
    one.turned()
    assert [setpoint["reference"] for setpoint in setpoints(one)] == [17, 18]
    assert one.service.read[1:] == [Offer(HIGH).to_bytes()]
    stored = one.node._store.newest()
    assert (stored.references, stored.setpoint.reference) == ({1: 18}, 18)
    # An offer that is not answered yet does not change the setpoint of the one before.
    one.control.offer(offer(LOW, 19))
    one.turned().writes(device_resume(2, 7, LOW))
    assert len(one.control.told) == 2
    one.writes(Setpoint(1, 8, 0, 500), device_resume(2, 8, LOW), Setpoint(2, 9, 1, -700), device_resume(2, 9, LOW))
    assert [setpoint["reference"] for setpoint in setpoints(one)] == [17, 18, 18, 19]
    assert one.node._store.newest().references == {2: 19}


def test_the_reference_holds_over_a_restart(joined, tmp_path):
    first = joined("device").begun()
    first.control.offer(offer(HIGH, 17))
    first.turned().writes(device_resume(2, 0, HIGH))
    shutil.copytree(tmp_path / "device", tmp_path / "again")
    second = Joined("device", tmp_path / "again").begun()
    assert second.service.read == [device_resume(2, 0, HIGH).to_bytes()]
    second.writes(Setpoint(2, 7, 1, -300))
    assert [setpoint["reference"] for setpoint in setpoints(second)] == [17]
    second.node._store.close()


def test_a_device_that_leaves_has_none(joined):
    one = joined("device").begun()
    one.control.offer(offer(HIGH, 17))
    one.turned().writes(device_resume(1, 0, HIGH))
    one.control.offer(b'{"leave": true}')
    one.turned()
    assert one.service.read[-1] == Leave().to_bytes()
    one.writes(resume_gone(2, 0))
    assert one.node._store.newest().references == {}


def test_a_file_of_before_has_none(joined):
    one = joined("device").begun()
    one.control.offer(offer(HIGH, 17))
    one.turned().writes(device_resume(1, 0, HIGH))
    path = one.node._store.path(one.node.session)
    first, _, line, frame = path.read_bytes().split(b"\n", 3)
    told = json.loads(line)
    assert told.pop("references") == {"1": 17}
    behind = json.dumps(told).encode() + b"\n" + frame
    path.write_bytes(first + b"\n" + hashlib.sha256(first + b"\n" + behind).hexdigest().encode() + b"\n" + behind)
    found = one.node._store.newest()
    assert (found.references, found.basis, found.frame) == ({}, BASIS, frame)


def test_the_resume_and_the_reference_are_stored_in_one_piece(joined, monkeypatch):
    """A crash between the two would leave a number of which nobody knows the reference."""
    one = joined("device").begun()
    one.link.confirms = True
    saved = []
    monkeypatch.setattr(one.node._store, "save", saved.append)
    one.control.offer(offer(HIGH, 17))
    one.turned().writes(device_resume(1, 0, HIGH), Setpoint(1, 7, 1, -300), device_resume(1, 7, HIGH))
    assert [stored.references for stored in saved] == [{1: 17}] * 2
    assert saved[0].frame == device_resume(1, 0, HIGH).to_bytes()
