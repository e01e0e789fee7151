"""The words between agents and the hub: bids of each form, what is refused and how, and what is told."""

from __future__ import annotations

import json

import pytest

from cogmaula.cluster import Basis
from cogmaula.hub.agent_connection import code_of
from cogmaula.hub.login_refusals import LineTooLong, NoLogin, NodeDown, WrongLogin
from cogmaula.hub.agent_messages import Cluster, LeaveWord, Login, error_line, update_of, quoted, welcome, word_of
from cogmaula.live import BadMessage
from cogmaula.live.messages.frames import Points, Stated
from cogmaula.live.device.device_kinds import DeviceKind
from cogmaula.live.messages.messages import OfferMessage, SetpointMessage, SilentMessage

BASIS = Basis(0, 9, 10)
FALLING = [200, 200, 0, 0, 0, 0, 0, 0, 0, -50]


def bid(**members):
    return json.dumps({"bidUpdate": members}).encode()


def test_a_login():
    assert Login.of(b'{"agentId": "house", "token": "word"}') == Login("house", "word")


NO_LOGINS = [b"", b"{", b"[]", b'"house"', b"{}", b'{"agentId": "house"}', b'{"agentId": 1, "token": "x"}', b"\xff"]


@pytest.mark.parametrize("line", NO_LOGINS)
def test_no_login(line):
    with pytest.raises(BadMessage, match="login"):
        Login.of(line)


def test_a_bid_of_demands():
    found = word_of(bid(bidNumber=5, demandArray=FALLING), BASIS)
    assert (found.number, found.told) == (5, {"power": tuple(FALLING)})
    assert OfferMessage.of(found.to_offer(), BASIS) == OfferMessage(OfferMessage.of(bid_offer(FALLING), BASIS).frame, None, 5)


def bid_offer(demands):
    return json.dumps({"power": demands}).encode()


def test_a_bid_without_a_number():
    found = word_of(bid(demandArray=FALLING), BASIS)
    assert found.number is None
    assert json.loads(found.to_offer()) == {"power": FALLING}


def test_whole_numbers_may_be_written_with_a_point():
    found = word_of(b'{"bidUpdate": {"demandArray": [2.0, 2e0, 1, 1, 1, 1, 1, 1, 1, -1.0]}}', BASIS)
    assert found.told == {"power": (2, 2, *[1] * 7, -1)}


def test_a_bid_of_points():
    found = word_of(bid(bidNumber=5, pricePoints=[{"price": 0, "demand": 300}, {"price": 9.0, "demand": -150}]), BASIS)
    assert json.loads(found.to_offer()) == {"points": [[0, 300], [9, -150]], "reference": 5}
    assert OfferMessage.of(found.to_offer(), BASIS).frame == Points.of([(0, 300), (9, -150)])


def test_a_bid_of_a_state():
    kind = word_of(b'{"device": {"kind": "battery", "capacity": 1000, "charge": 300, "discharge": 300, "spread": 0}}', BASIS)
    assert kind == DeviceKind("battery", (1000, 300, 300, 0))
    found = word_of(bid(state=400), BASIS, kind)
    assert OfferMessage.of(found.to_offer(), BASIS).frame == Stated(kind, 400)


POINT = {"price": 0, "demand": 0}


@pytest.mark.parametrize(
    ("line", "why"),
    [
        (b"garbage", "no JSON"),
        (b'{"bidUpdate": 5}', "no bid and no leave"),
        (b'{"leave": false}', "no bid and no leave"),
        (b'{"leave": true, "bidUpdate": {}}', "no bid and no leave"),
        (bid(), "has a demandArray, pricePoints or a state"),
        (bid(demandArray=FALLING, pricePoints=[]), "has a demandArray, pricePoints or a state"),
        (bid(demandArray=FALLING, more=1), "has a demandArray, pricePoints or a state"),
        (bid(state=5), "a state is told, and no kind"),
        (bid(state="warm"), "a state is 'warm': give whole units of the kind"),
        (b'{"device": {"kind": "oven"}}', "the device is not taken: kind is 'oven': give one of freezer"),
        (bid(bidNumber=1.5, demandArray=FALLING), "bidNumber is no whole number from 0"),
        (bid(bidNumber=-1, demandArray=FALLING), "bidNumber is no whole number from 0"),
        (bid(demandArray=5), "demandArray is no list"),
        (bid(demandArray=[1, 0]), "2 demands are there, and 10 are due"),
        (bid(demandArray=[0] * 9 + [1]), "above the one of the step before"),
        (bid(demandArray=[1_000_000_001] + [0] * 9), "outside ±1000000000"),
        (bid(demandArray=[1.5] + [0] * 9), "a demand is 1.5: give whole watts"),
        (bid(demandArray=[True] + [0] * 9), "a demand is True: give whole watts"),
        (bid(demandArray=["x" * 100] + [0] * 9), r"x\.\.: give whole watts"),
        (b'{"bidUpdate": {"demandArray": [1e999, 0, 0, 0, 0, 0, 0, 0, 0, 0]}}', "a demand is inf"),
        (b'{"bidUpdate": {"demandArray": [1e300, 0, 0, 0, 0, 0, 0, 0, 0, 0]}}', "outside ±1000000000"),
        (bid(pricePoints=[]), "0 points are there: give 1 to 64"),
        (bid(pricePoints=[POINT] * 65), "65 points are there"),
        (bid(pricePoints=[[0, 0]]), "a point is"),
        (bid(pricePoints=[{"price": 0}]), "a point is"),
        (bid(pricePoints=[{"price": 10, "demand": 0}]), "outside the basis, 0 to 9"),
        (bid(pricePoints=[{"price": 0.5, "demand": 0}]), "a price is 0.5"),
        (bid(pricePoints=[POINT, {"price": 1, "demand": 1}]), "the power 1 of point 1 is above 0"),
        (bid(pricePoints=[{"price": 1, "demand": 0}, POINT]), "the price 0 of point 1 is below 1"),
        (bid(pricePoints=[{"price": 0, "demand": 1_000_000_001}]), "outside ±1000000000"),
    ],
)
def test_what_is_no_word(line, why):
    with pytest.raises(BadMessage, match=why):
        word_of(line, BASIS)


def test_a_leave():
    assert word_of(b'{"leave": true}', BASIS) == LeaveWord()


def test_what_the_hub_says():
    told = {"power": 200, "step": 4, "price": 4, "bid": 12, "clearing": 33, "time": "2026-01-31T06:30:00.000Z", "reference": 5}
    told["until"] = "2026-01-31T06:32:00.000Z"
    due = {"price": 4, "bidNumber": 5, "step": 4, "power": 200, "offer": 12, "clearing": 33, "time": told["time"], "until": told["until"]}
    assert json.loads(update_of(SetpointMessage.of(json.dumps(told).encode()))) == {"priceUpdate": due}
    del told["reference"], due["bidNumber"]
    assert json.loads(update_of(SetpointMessage.of(json.dumps(told).encode()))) == {"priceUpdate": due}
    silent = {"market": "silent", "since": "2026-01-31T06:30:00.000Z", "power": 0, "why": "no heartbeat"}
    assert json.loads(update_of(SilentMessage.of(json.dumps(silent).encode()))) == {"marketUpdate": silent}
    assert json.loads(error_line("wrong\nthing", "line")) == {"error": "wrong\nthing", "code": "line"}
    assert json.loads(error_line("wrong", "bid", 7)) == {"error": "wrong", "code": "bid", "bidNumber": 7}
    assert b"\n" not in error_line("wrong\nthing", "line")
    assert json.loads(welcome("house", Cluster("street", "heat", "GBP"), Basis(-5, 5, 3), "0123456789abcdef", "now", 300.0)) == {
        "agentId": "house",
        "clusterId": "street",
        "marketBasis": {"commodity": "heat", "currency": "GBP", "minimumPrice": -5, "maximumPrice": 5, "priceSteps": 3},
        "session": "0123456789abcdef",
        "time": "now",
        "offerValidity": 300.0,
    }


def test_what_came_is_quoted_in_one_short_line():
    assert quoted("a\nb") == r"'a\nb'"
    assert len(quoted("x" * 10_000)) < 100


@pytest.mark.parametrize(
    ("line", "code", "number"),
    [
        ({"bidUpdate": {"bidNumber": 7, "demandArray": [1]}}, "bid", 7),
        ({"bidUpdate": {"bidNumber": 7, "pricePoints": 3}}, "bid", 7),
        ({"bidUpdate": {"demandArray": [1]}}, "bid", None),
        ({"bidUpdate": {"bidNumber": -1, "demandArray": [1]}}, "line", None),
        ({"device": {"kind": "reactor"}}, "line", None),
    ],
)
def test_an_error_says_by_a_code_what_it_is_about_and_names_the_bid(line, code, number):
    with pytest.raises(BadMessage) as found:
        word_of(json.dumps(line).encode(), Basis(0, 9, 10))
    assert (code_of(found.value), getattr(found.value, "number", None)) == (code, number)


def test_codes_of_other_errors():
    assert [code_of(error) for error in (WrongLogin(), NoLogin(), LineTooLong(), NodeDown())] == ["login", "login", "line", "node"]
