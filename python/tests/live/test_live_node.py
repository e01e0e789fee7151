"""A node over a pretended connection and a pretended service: what it stores, publishes and feeds, and in which order."""

from __future__ import annotations

import json
import time
from datetime import datetime, timezone

import pytest
from pretended import (
    BASIS,
    BASIS_TOPIC,
    LATER,
    MARKED,
    MOMENT,
    OF_RELAY,
    SESSION,
    VERSION,
    auctioneer_resume,
    basis_payload,
    bid,
    device_resume,
    gone,
    numbers,
    price,
    relay_resume,
    resume_gone,
    saved,
    state_payload,
)

from cogmaula.cluster import Basis
from cogmaula.live import NodeRefused
from cogmaula.live.node import service_runner
from cogmaula.live.messages.frames import (
    Clear,
    Dropped,
    Fault,
    Leave,
    NotCaughtUp,
    NotChanged,
    Offer,
    Old,
    OutOfNumbers,
    Send,
    Setpoint,
    WindowFull,
)
from cogmaula.live.messages.messages import SetpointMessage
from cogmaula.live.page.page_settings import PageSettings
from cogmaula.live.messages.price_table import PriceTable
from cogmaula.live.node.node_settings import PriceSettings

RELAY_RESUME = relay_resume(1, 0, 0, numbers((1, 1), (2, 4)))
# Prices for all children together, and each by a topic of its own.
FORMS = [PriceSettings(True), PriceSettings(False)]


# The order of storing and publishing.


def test_a_resume_is_on_disk_and_at_the_broker_before_the_bid_behind_it(joined):
    one = joined("relay").begun()
    one.service.writes(RELAY_RESUME)
    one.service.writes(bid(3, 1, 21, -3))
    topics = len(one.link.sent)
    assert one.stored() is None
    one.turned()
    assert one.stored() == RELAY_RESUME.to_bytes()
    behind = one.link.sent[topics:]
    assert [message.topic for message in behind] == ["market/street/resume", "market/auctioneer/bid/3"]
    assert behind[1].payload == bid(3, 1, 21, -3).to_bytes()
    assert dict(behind[1].properties)["session"] == SESSION.id


def test_nothing_behind_a_resume_that_cannot_be_stored_is_published(joined, monkeypatch):
    one = joined("relay").begun()

    def full(_):
        raise OSError(28, "No space left on device")

    monkeypatch.setattr(one.node._store, "save", full)
    with pytest.raises(OSError, match="No space left"):
        one.writes(RELAY_RESUME, bid(3, 1, 21, -3))
    assert one.link.of("market/auctioneer/bid/3") == []
    assert one.link.of("market/street/resume") == []


@pytest.mark.parametrize("prices", FORMS)
def test_a_relays_resume_waits_until_the_broker_has_the_prices_before_it(joined, prices):
    one = joined("relay", prices=prices).begun(("market/street/bid/1", bid(1, 1, 5, -3).to_bytes(), OF_RELAY), ("market/street/bid/2", bid(2, 4, 16, 0).to_bytes()))
    one.writes(RELAY_RESUME, bid(3, 1, 21, -3))
    one.link.confirm()
    one.turned()
    passed = relay_resume(1, 1, 7, RELAY_RESUME.numbers)
    one.writes(price(1, 1, 7, 1), price(2, 4, 7, 1), passed)
    assert one.prices_told("street", 2) == [price(2, 4, 7, 1).to_bytes()]
    assert one.stored() == RELAY_RESUME.to_bytes(), "the prices are not at the broker"
    one.link.confirm()
    one.turned()
    assert one.stored() == passed.to_bytes()


def test_a_devices_resume_waits_until_the_broker_has_the_setpoint_before_it(joined):
    one = joined("device").begun()
    one.writes(device_resume(1, 0, (500, -300)), bid(2, 1, 500, -300), Setpoint(1, 7, 1, -300), device_resume(1, 7, (500, -300)))
    assert one.node.serving.session.stored.frame == device_resume(1, 0, (500, -300)).to_bytes()
    one.link.confirm()
    one.turned()
    assert one.node.serving.session.stored.frame == device_resume(1, 7, (500, -300)).to_bytes()


def test_prices_that_come_meanwhile_are_passed_over_for_the_newest(joined):
    """A service is fed a price, and asked to send, only once the broker has all that answers the price before."""
    one = joined("relay").begun(("market/street/bid/1", bid(1, 1, 5, -3).to_bytes(), OF_RELAY))
    passed = relay_resume(0, 0, 7, numbers())
    one.writes(NotChanged(), price(1, 1, 7, 1), passed)
    fed = len(one.service.read)
    time.sleep(0.02)
    for index in (8, 9):
        one.link.comes("market/auctioneer/price/3", price(3, 1, index, 1).to_bytes())
        one.turned()
    one.link.comes("market/street/bid/1", bid(1, 2, 6, -3).to_bytes())
    one.turned()
    assert one.service.read[fed:] == [bid(1, 2, 6, -3).to_bytes()]
    one.link.confirm()
    one.turned()
    assert one.stored() == passed.to_bytes()
    assert one.service.read[fed + 1 :] == [price(3, 1, 9, 1).to_bytes(), Send().to_bytes()]
    one.turned()
    assert len(one.service.read) == fed + 3, "each once"


def test_the_price_that_was_passed_over_is_fed_to_a_service_that_starts_anew(joined, monkeypatch):
    one = joined("relay").begun(("market/street/bid/1", bid(1, 1, 5, -3).to_bytes(), OF_RELAY))
    one.writes(price(1, 1, 7, 1), RELAY_RESUME)
    one.link.comes("market/auctioneer/price/3", price(3, 1, 8, 1).to_bytes())
    one.turned()
    assert price(3, 1, 8, 1).to_bytes() not in one.service.read
    one.service.ends()
    monkeypatch.setattr(one.node.serving, "_born", -60)
    one.turned()
    monkeypatch.setattr(one.node.serving, "_restart_at", 0)
    one.turned()
    assert one.service.read.count(price(3, 1, 8, 1).to_bytes()) == 1


def test_a_price_is_no_answer_to_a_relay_that_was_asked_to_send(joined):
    one = joined("relay").begun(("market/street/bid/1", bid(1, 1, 5, -3).to_bytes(), OF_RELAY))
    assert one.service.read[-1] == Send().to_bytes()
    one.link.confirms = True
    one.writes(price(1, 1, 7, 1), relay_resume(0, 0, 7, numbers()))
    one.link.comes("market/street/bid/1", bid(1, 2, 6, -3).to_bytes())
    time.sleep(0.02)
    one.turned()
    assert one.service.read.count(Send().to_bytes()) == 1
    one.writes(RELAY_RESUME, bid(3, 1, 21, -3))
    time.sleep(0.02)
    one.turned()
    assert one.service.read.count(Send().to_bytes()) == 2


def test_what_a_service_wrote_and_was_not_handled_is_lost_with_it(joined):
    one = joined("relay").begun(("market/street/bid/1", bid(1, 2, 5, -3).to_bytes()))
    one.writes(price(1, 2, 7, 1), RELAY_RESUME, bid(3, 1, 21, -3))
    before = one.service
    before.ends()
    one.turned()
    one.link.confirm()
    before.writes(bid(3, 9, 0, 0))
    one.turned()
    assert one.stored() is None
    assert one.link.of("market/auctioneer/bid/3") == []


# A service that ends.


@pytest.mark.parametrize(
    ("sort", "more", "due"),
    [
        ("auctioneer", {}, ("auctioneer", None, None, None, None)),
        ("relay", {}, ("relay", "auctioneer", 3, -1000, 1000)),
        ("relay", {"floor": -1_000_000_000}, ("relay", "auctioneer", 3, None, 1000)),
        ("device", {}, ("device", "street", 2, None, None)),
    ],
)
def test_the_state_tells_the_place_and_the_limits(joined, sort, more, due):
    one = joined(sort, **more).begun()
    told = json.loads(one.link.of(one.node.settings.own_topic("state"))[-1])
    assert tuple(told[word] for word in ("sort", "parent", "child", "floor", "ceiling")) == due


def test_a_service_that_ends_starts_anew_from_its_newest_resume_with_all_that_it_hears(joined):
    one = joined("relay").begun(("market/street/bid/1", bid(1, 1, 5, -3).to_bytes(), OF_RELAY))
    one.link.comes("market/auctioneer/price/3", price(3, 1, 7, 1).to_bytes())
    one.turned()
    assert one.service.read == [b"", bid(1, 1, 5, -3).to_bytes(), Send().to_bytes(), price(3, 1, 7, 1).to_bytes()]
    one.writes(RELAY_RESUME, bid(3, 1, 21, -3))
    before = one.service
    before.ends("a signal ended it: SIGKILL")
    one.turned()
    assert one.service is None
    assert "a signal ended it: SIGKILL; it starts anew from its newest Resume in 0.5 s" in one.said[-1]
    assert json.loads(one.link.of("market/street/state")[-1])["state"] == "down"
    time.sleep(0.6)
    one.turned()
    assert one.service is not before
    assert one.service.read[:3] == [RELAY_RESUME.to_bytes(), bid(1, 1, 5, -3).to_bytes(), price(3, 1, 7, 1).to_bytes()]
    assert json.loads(one.link.of("market/street/state")[-1])["state"] == "up"


def test_a_service_that_lived_starts_anew_at_once(joined, monkeypatch):
    one = joined("auctioneer").begun()
    one.node.serving._born -= 60
    one.service.ends()
    one.turned()
    assert one.service is not None
    one.service.ends()
    one.turned()
    assert one.node.serving._pause == 0.5
    monkeypatch.setattr(one.node.serving, "_restart_at", 0)
    one.turned()
    one.service.ends()
    one.turned()
    assert one.node.serving._pause == 1.0


def test_a_service_that_cannot_be_started_is_told(joined, monkeypatch):
    from cogmaula.live import LiveError

    def missing(*_):
        raise LiveError("live cannot be started: No such file or directory")

    monkeypatch.setattr(service_runner, "Service", missing)
    one = joined("auctioneer").begun()
    assert "live cannot be started" in one.said[-1]
    assert json.loads(one.link.of("market/auctioneer/state")[-1])["state"] == "down"


@pytest.mark.parametrize("sort", ["auctioneer", "device"])
def test_a_service_that_does_not_answer_is_ended(joined, monkeypatch, sort):
    one = joined(sort).begun()
    if sort == "auctioneer":
        one.link.comes("market/auctioneer/bid/1", bid(1, 1, 5, -3).to_bytes(), [("session", one.node.session.id), ("version", VERSION), ("sort", "relay")])
    else:
        one.control.offer(b'{"power": [5, -3]}')
    one.turned()
    assert one.service.read[-1] in (Clear().to_bytes(), Offer((5, -3)).to_bytes())
    one.turned()
    assert not one.service.is_killed
    monkeypatch.setattr(service_runner, "PATIENCE", 0.05)
    time.sleep(0.1)
    one.turned()
    assert one.service.is_killed
    assert "has not answered" in one.said[-1]


def test_a_fault_of_the_service_is_told(joined):
    one = joined("auctioneer").begun()
    one.writes(Fault(11))
    assert one.said[-1] == "the service refused the frame at byte 11"


# What a relay and an auctioneer hear, ask and tell.


WHERE = "127.0.0.1:0"
PRICES_FOR_CHILDREN = [
    ("auctioneer", ["market/auctioneer/price/+", "market/auctioneer/prices"]),
    ("relay", ["market/street/price/+", "market/street/prices"]),
    ("device", []),
]


@pytest.mark.parametrize(("sort", "due"), PRICES_FOR_CHILDREN)
@pytest.mark.parametrize(("page", "are_all_read"), [(None, False), (PageSettings(WHERE, whole=True), False), (PageSettings(WHERE), True)])
def test_which_topics_need_not_all_be_read_back(joined, sort, due, page, are_all_read):
    """They are the prices for the node's children, unless its page shows what it hears."""
    one = joined(sort, page=page)
    assert one.node._written() == ([] if are_all_read else due)
    assert [topic for topic in one.link.topics if topic.endswith("/price/+")] == due[:1]


@pytest.mark.parametrize("prices", FORMS)
def test_an_auctioneer_clears_after_news_and_tells_prices_with_time_and_session(joined, prices):
    one = joined("auctioneer", prices=prices).begun()
    session = one.node.session
    own = [("session", session.id), ("version", VERSION)]
    one.link.comes("market/auctioneer/bid/3", bid(3, 1, 21, -3).to_bytes(), [*own, ("sort", "relay")])
    one.turned()
    assert one.service.read == [b"", bid(3, 1, 21, -3).to_bytes(), Clear().to_bytes()]
    resume = auctioneer_resume(1, numbers((3, 1)))
    one.writes(resume, price(3, 1, 1, 1))
    told = one.link.sent[-1]
    assert told.topic == ("market/auctioneer/prices" if prices.together else "market/auctioneer/price/3")
    assert one.prices_told("auctioneer", 3) == [price(3, 1, 1, 1).to_bytes()]
    assert dict(told.properties) == {"time": one.node._store.load(session).time, "session": session.id, "version": VERSION}
    assert one.stored(session) == resume.to_bytes()


def test_answers_that_ask_for_patience(joined):
    one = joined("relay").begun(("market/street/bid/1", bid(1, 1, 5, -3).to_bytes(), OF_RELAY))
    sends = [frame for frame in one.service.read if frame == Send().to_bytes()]
    assert len(sends) == 1
    for frame, is_again in ((NotChanged(), False), (WindowFull(), True), (NotCaughtUp(), True), (Old(1, 1), False)):
        one.node.serving._asking.asked(time.monotonic())
        count = len(one.service.read)
        one.writes(frame)
        time.sleep(0.02)
        one.turned()
        assert (len(one.service.read) > count) == is_again, frame
        one.node.serving._asking.answered()
    one.writes(Dropped(1, 1))


def test_who_is_awaited_is_told_once_in_a_while(joined, tmp_path):
    saved(tmp_path, "relay", "street", RELAY_RESUME)
    one = joined("relay").begun(("market/street/bid/1", bid(1, 1, 5, -3).to_bytes(), OF_RELAY))
    one.writes(NotCaughtUp(), NotCaughtUp())
    told = [line for line in one.said if "waits for the bids of children 2," in line]
    assert len(told) == 1


def test_no_number_is_left(joined):
    one = joined("auctioneer").begun()
    one.writes(OutOfNumbers())
    assert "begin a new session" in one.said[-1]


@pytest.mark.parametrize("prices", FORMS)
def test_a_child_that_left_is_told_no_price_and_its_retained_price_is_cleared(joined, prices):
    one = joined("relay", prices=prices).begun(("market/street/bid/1", bid(1, 1, 5, -3).to_bytes(), OF_RELAY))
    one.writes(price(1, 1, 7, 1))
    one.link.comes("market/street/bid/1", gone(1, 2).to_bytes())
    one.turned()
    one.writes(price(1, 1, 8, 1))
    assert one.prices_told("street", 1) == [price(1, 1, 7, 1).to_bytes(), b""]
    one.link.comes("market/street/bid/1", bid(1, 3, 5, -3).to_bytes(), OF_RELAY)
    one.turned()
    one.writes(price(1, 3, 9, 0))
    assert one.prices_told("street", 1)[-1] == price(1, 3, 9, 0).to_bytes()


@pytest.mark.parametrize("prices", FORMS)
def test_an_older_price_does_not_take_the_place_of_a_newer_one(joined, prices):
    one = joined("relay", prices=prices).begun(("market/street/bid/1", bid(1, 1, 5, -3).to_bytes(), OF_RELAY))
    for told in (price(1, 1, 7, 1), price(1, 1, 6, 0)):
        one.writes(told)
    assert one.prices_told("street", 1) == [price(1, 1, 7, 1).to_bytes()]


def test_prices_that_the_broker_retains_are_kept_if_the_child_is_there(joined):
    one = joined("relay").begun(
        ("market/street/price/1", price(1, 1, 7, 1).to_bytes()),
        ("market/street/price/2", price(2, 4, 7, 1).to_bytes()),
        ("market/street/bid/2", gone(2, 5).to_bytes(), OF_RELAY),
    )
    assert one.link.newest["market/street/price/1"].payload == price(1, 1, 7, 1).to_bytes()
    assert dict(one.link.newest["market/street/price/1"].properties) == dict(MARKED)
    assert one.link.newest["market/street/price/2"].payload == b""
    one.link.comes("market/street/price/1", b"")
    one.link.comes("market/street/price/9", price(9, 1, 7, 1).to_bytes(), [("session", LATER.id)])
    one.turned()
    assert one.link.newest["market/street/price/1"].payload == price(1, 1, 7, 1).to_bytes()
    assert one.link.newest["market/street/price/9"].payload == b""


WRONG_BIDS = [
    (b"", MARKED, None),
    (b"hello", MARKED, "is no bid, and is not taken"),
    (bid(1, 1, 5, 6).to_bytes(), MARKED, "a demand is above the one of the step before"),
    (bid(2, 1, 5, -3).to_bytes(), MARKED, "names child 2"),
    (bid(1, 1, 5, -3).to_bytes(), (), "is of session (none)"),
    (bid(1, 1, 5, -3).to_bytes(), (("session", LATER.id),), f"is of session {LATER.id}"),
]


@pytest.mark.parametrize(("payload", "properties", "why"), WRONG_BIDS)
def test_a_bid_that_would_end_the_service_never_reaches_it(joined, payload, properties, why):
    one = joined("relay").begun()
    for _ in range(2):
        one.link.comes("market/street/bid/1", payload, properties)
        one.turned()
    assert one.service.read == [b""]
    assert [line for line in one.said if "market/street/bid/1" in line] == ([] if why is None else [line for line in one.said[-1:] if why in line])


def test_a_child_behind_its_number_is_told_and_not_fed(joined):
    one = joined("relay").begun(("market/street/bid/1", bid(1, 9, 5, -3).to_bytes(), OF_RELAY))
    count = len(one.service.read)
    one.link.comes("market/street/bid/1", bid(1, 4, 5, -3).to_bytes())
    one.turned()
    assert len(one.service.read) == count
    assert "number 4, below its last, 9: the child came back with an older Resume" in one.said[-1]


def test_topics_of_nobody_are_dropped(joined):
    one = joined("relay").begun()
    for topic in ("market/street/bid/x", "market/street/bid/257"):
        one.link.comes(topic, bid(1, 1, 5, -3).to_bytes())
    one.turned()
    assert one.service.read == [b""]


OWN, ALL = "price/3", "prices"
WRONG_PRICES = [
    (OWN, b"", MARKED, False),
    (OWN, price(3, 1, 7, 1).to_bytes(), (), False),
    (OWN, price(3, 1, 7, 2).to_bytes(), MARKED, True),
    (OWN, price(4, 1, 7, 1).to_bytes(), MARKED, True),
    (ALL, b"", MARKED, False),
    (ALL, PriceTable(7, 1, BASIS, {3: 1}).to_bytes(), (), False),
    (ALL, PriceTable(7, 2, BASIS, {3: 1}).to_bytes(), MARKED, True),
    (ALL, PriceTable(7, 1, BASIS, {2: 1, 4: 1}).to_bytes(), MARKED, False),
    (ALL, price(3, 1, 7, 1).to_bytes(), MARKED, True),
]


@pytest.mark.parametrize(("topic", "payload", "properties", "is_told"), WRONG_PRICES)
def test_a_price_that_would_end_the_service_never_reaches_it(joined, topic, payload, properties, is_told):
    one = joined("relay").begun()
    one.link.comes(f"market/auctioneer/{topic}", payload, properties)
    one.turned()
    assert one.service.read == [b""]
    assert any(f"market/auctioneer/{topic} is not taken" in line for line in one.said) == is_told


@pytest.mark.parametrize("prices", FORMS)
def test_a_relay_passes_the_time_of_the_clearing_on(joined, prices):
    one = joined("relay", prices=prices).begun(("market/street/bid/1", bid(1, 1, 5, -3).to_bytes(), OF_RELAY))
    for index in (7, 8, 6):
        one.link.comes("market/auctioneer/price/3", price(3, 1, index, 1).to_bytes(), [("time", f"time {index}"), ("session", SESSION.id)])
        one.turned()
    assert price(3, 1, 6, 1).to_bytes() not in one.service.read, "a newer one came"
    one.writes(price(1, 1, 7, 1))
    assert dict(one.link.sent[-1].properties)["time"] == "time 7"
    one.writes(price(1, 1, 9, 0))
    assert dict(one.link.sent[-1].properties)["time"] == ""
    for index in range(10, 90):
        one.link.comes("market/auctioneer/price/3", price(3, 1, index, 1).to_bytes(), [("time", "t"), ("session", SESSION.id)])
        one.turned()
    assert len(one.node.serving.session.prices.times) == 64


# A device and its control.


def test_offers_become_bids_and_prices_become_setpoints(joined):
    one = joined("device").begun()
    one.control.offer(b'{"power": [500, -300]}')
    one.turned()
    assert one.service.read == [b"", Offer((500, -300)).to_bytes()]
    one.writes(device_resume(1, 0, (500, -300)), bid(2, 1, 500, -300))
    one.link.comes("market/street/price/2", price(2, 1, 7, 1).to_bytes())
    one.turned()
    assert one.service.read[-1] == price(2, 1, 7, 1).to_bytes()
    one.writes(Setpoint(1, 7, 1, -300))
    due = {"power": -300, "step": 1, "price": 9, "bid": 1, "clearing": 7, "time": MOMENT}
    (told,) = [json.loads(message) for message in one.control.told]
    assert datetime.fromisoformat(told.pop("until")) > datetime.now(timezone.utc)
    assert 119 < told.pop("holds") <= 120
    assert told == due
    assert one.link.newest["market/house/setpoint"].payload == one.control.told[0]


def test_offers_come_by_the_topic_too(joined):
    one = joined("device").begun(("market/house/offer", b'{"power": [500, -300]}'))
    assert one.service.read == [b"", Offer((500, -300)).to_bytes()]
    one.writes(device_resume(1, 0, (500, -300)), bid(2, 1, 500, -300))
    one.link.comes("market/house/offer", b"")
    one.link.comes("market/house/offer", b'{"leave": true}')
    one.turned()
    assert one.service.read[-1] == Leave().to_bytes()
    one.writes(resume_gone(2, 0), gone(2, 2))
    assert one.link.of("market/street/bid/2")[-1] == gone(2, 2).to_bytes()
    assert one.link.newest["market/house/setpoint"].payload == b""


def test_an_offer_that_the_broker_sends_again_does_not_say_that_the_control_lives(joined):
    one = joined("device", offer_validity=100).begun(("market/house/offer", b'{"power": [500, -300]}'))
    until = one.node.serving.offers._until
    one.link.comes("market/house/offer", b'{"power": [500, -300]}', retained=True)
    one.turned()
    assert one.node.serving.offers._until == until
    one.link.comes("market/house/offer", b'{"power": [500, -300]}')
    one.turned()
    assert one.node.serving.offers._until > until


def without_until(told):
    """A setpoint that the control was told, as it is stored."""
    return json.dumps({name: value for name, value in json.loads(told).items() if name not in ("until", "holds")}).encode()


SETPOINT = b'{"power": -300, "step": 1, "price": 9, "bid": 2, "clearing": 7, "time": "2026-01-31T06:30:00.000Z"}'


def test_a_device_that_comes_back_tells_the_control_its_stored_setpoint_and_not_the_brokers(joined, tmp_path):
    saved(tmp_path, "device", "house", device_resume(2, 6, (500, -300)), setpoint=SETPOINT)
    one = joined("device").begun(("market/house/setpoint", b'{"power": 500, "step": 0, "price": 0, "bid": 2, "clearing": 9, "time": "t"}'))
    assert [without_until(message) for message in one.control.told] == [SETPOINT]
    assert set(one.link.of("market/house/setpoint")) == set(one.control.told)
    assert one.service.read == [device_resume(2, 6, (500, -300)).to_bytes()]


def test_a_setpoint_is_stored_before_it_is_told(joined, monkeypatch):
    one = joined("device").begun()
    one.writes(device_resume(1, 0, (500, -300)), bid(2, 1, 500, -300))
    done = []
    save, write = one.node._store.save, one.control.write
    monkeypatch.setattr(one.node._store, "save", lambda stored: (done.append(stored.setpoint), save(stored)))
    monkeypatch.setattr(one.control, "write", lambda setpoint: (done.append("told"), write(setpoint)))
    one.writes(Setpoint(1, 7, 1, -300))
    assert done == [SetpointMessage.of(without_until(one.control.told[0])), "told"]
    assert one.stored() == device_resume(1, 0, (500, -300)).to_bytes()
    one.link.confirm()
    one.writes(device_resume(1, 7, (500, -300)))
    assert one.node._store.newest().setpoint.to_bytes() == without_until(one.control.told[0])
    one.writes(resume_gone(2, 7), gone(2, 2))
    assert one.node._store.newest().setpoint is None


@pytest.mark.parametrize(
    ("payload", "session", "told"),
    [(SETPOINT, SESSION, [SETPOINT]), (SETPOINT, LATER, []), (b"nonsense", SESSION, []), (b'{"power": 3}', SESSION, []), (b"", SESSION, [])],
)
def test_a_device_without_a_disk_takes_the_brokers_setpoint_of_its_session(joined, payload, session, told):
    one = joined("device")
    one.link.comes("market/house/setpoint", payload, [("session", session.id)])
    one.begun(("market/house/resume", device_resume(2, 7, (500, -300)).to_bytes()))
    assert [without_until(message) for message in one.control.told] == told


def test_the_full_window_lets_an_offer_wait(joined):
    one = joined("device").begun()
    one.control.offer(b'{"power": [500, -300]}')
    one.turned()
    one.writes(WindowFull())
    assert one.service.read == [b"", Offer((500, -300)).to_bytes()]
    one.node.serving.offers._not_before = 0
    one.turned()
    assert one.service.read == [b"", Offer((500, -300)).to_bytes(), Offer((500, -300)).to_bytes()]


def test_a_device_told_to_leave_ends_once_the_broker_knows(joined, tmp_path):
    saved(tmp_path, "device", "house", device_resume(4, 2, (5, -3)))
    one = joined("device", leave=True).begun(("market/house/offer", b'{"power": [500, -300]}'))
    assert one.service.read == [device_resume(4, 2, (5, -3)).to_bytes(), Leave().to_bytes()]
    one.writes(bid(2, 4, 5, -3), resume_gone(5, 2))
    one.link.confirm()
    assert not one.node.serving.has_left, "its Gone is not there yet"
    one.writes(gone(2, 5))
    assert not one.node.serving.has_left
    one.link.confirm()
    assert one.node.serving.has_left


def test_the_parents_state_is_told_when_it_changes(joined):
    one = joined("device").begun()
    topic = "market/street/state"
    for payload in (
        state_payload("a" * 16, MOMENT),
        state_payload("a" * 16, MOMENT, "down", "the connection was lost"),
        state_payload("a" * 16, MOMENT, "down", "the connection was lost"),
        b"nonsense",
        b"",
        state_payload("a" * 16, MOMENT, "down", "stopped"),
        state_payload("b" * 16, MOMENT),
    ):
        one.link.comes(topic, payload)
        one.turned()
    told = [line for line in one.said if line.startswith("street")]
    assert told == ["street is down: the connection was lost", "street is down: stopped", "street is up again"]
    assert any(line.startswith(topic) for line in one.said)


def test_another_basis_is_refused(joined):
    one = joined("device")
    one.link.comes(BASIS_TOPIC, basis_payload(basis=Basis(0, 99, 100)))
    one.link.settles()
    with pytest.raises(NodeRefused, match="the market's basis is .*steps=100.*, and this node has .*steps=2"):
        one.turned()
