"""What a parent tells its children, and what a child hands to its service: each price once, as long as it says nothing new."""

from __future__ import annotations


import pytest
from pretended import BASIS, LATER, MARKED, OF_RELAY, bid, device_resume, gone, numbers, price, relay_resume

from cogmaula import clock
from cogmaula.live.messages.frames import Dropped, Old, OtherBasis, Setpoint
from cogmaula.live.messages.price_table import PriceTable
from cogmaula.live.node.node_settings import PriceSettings

TOGETHER, SINGLE = PriceSettings(True), PriceSettings(False)
TABLE = "market/street/prices"


def table(index, step, **pairs):
    return PriceTable(index, step, BASIS, {int(child[1:]): number for child, number in pairs.items()})


def parent(joined, prices, *retained):
    """The relay `street` with bids of two children."""
    bids = [(f"market/street/bid/{child}", bid(child, 1, 5, -3).to_bytes()) for child in (1, 2)]
    return joined("relay", prices=prices).begun(*bids, *retained)


def a_heartbeat_later(one, monkeypatch):
    """Lets the node look at the clock when one heartbeat is over."""
    late = clock.now() + one.node.serving.beating.silence.times.heartbeat + 1
    monkeypatch.setattr(clock, "now", lambda: late)
    return one.turned()


# A parent.


def test_one_table_has_the_prices_of_a_clearing_for_all_children(joined):
    one = parent(joined, TOGETHER)
    one.writes(price(1, 1, 7, 1), price(2, 1, 7, 1), relay_resume(0, 0, 7, numbers()))
    assert one.link.of(TABLE) == [table(7, 1, c1=1, c2=1).to_bytes()]
    one.link.confirm()
    one.writes(price(1, 1, 8, 1), price(2, 1, 8, 1))
    assert one.link.of(TABLE)[-1] == table(8, 1, c1=1, c2=1).to_bytes(), "each clearing is told"
    assert [publication.topic for publication in one.link.sent if "/price/" in publication.topic] == []


def test_a_table_that_came_in_two_pieces_has_all_in_the_end(joined):
    """The service's answer is cut: what came first is told, and the rest joins it."""
    one = parent(joined, TOGETHER)
    one.writes(price(1, 1, 7, 1))
    one.writes(price(2, 1, 7, 1))
    assert one.link.of(TABLE) == [table(7, 1, c1=1).to_bytes(), table(7, 1, c1=1, c2=1).to_bytes()]


@pytest.mark.parametrize("prices", [TOGETHER, SINGLE])
@pytest.mark.parametrize("is_together", [True, False])
def test_prices_of_several_clearings_are_told_as_if_each_came_alone(joined, prices, is_together):
    """An older one changes nothing behind a newer one, and a child that has left is told none, wherever it is in the piece."""
    one = parent(joined, prices, ("market/street/bid/3", bid(3, 1, 5, -3).to_bytes(), OF_RELAY))
    one.link.comes("market/street/bid/3", gone(3, 2).to_bytes())
    frames = [price(3, 1, 7, 1), price(1, 1, 7, 1), price(2, 1, 7, 1), price(3, 1, 7, 1), price(2, 1, 8, 0), price(1, 1, 7, 1), price(1, 1, 8, 0)]
    for piece in [frames] if is_together else [[frame] for frame in frames]:
        one.writes(*piece)
    if prices is TOGETHER:
        assert one.link.of(TABLE)[-1] == table(8, 0, c1=1, c2=1).to_bytes()
    else:
        assert [one.link.of(f"market/street/price/{child}")[-1:] for child in (1, 2)] == [[price(child, 1, 8, 0).to_bytes()] for child in (1, 2)]
    assert not any(one.link.of("market/street/price/3"))


def test_a_price_that_is_not_new_waits_for_a_heartbeat_in_a_topic_of_its_own(joined, monkeypatch):
    one = parent(joined, SINGLE)
    for index in (7, 8, 9):
        one.writes(price(1, 1, index, 1), price(2, 1, index, 0 if index == 9 else 1))
    assert one.link.of("market/street/price/1") == [price(1, 1, 7, 1).to_bytes()]
    assert one.link.of("market/street/price/2") == [price(2, 1, 7, 1).to_bytes(), price(2, 1, 9, 0).to_bytes()], "another step is new"
    a_heartbeat_later(one, monkeypatch)
    assert one.link.of("market/street/price/1")[1:] == [price(1, 1, 9, 1).to_bytes()]
    one.turned()
    assert len(one.link.of("market/street/price/1")) == 2, "once"


def test_a_price_that_waits_goes_with_its_child(joined, monkeypatch):
    one = parent(joined, SINGLE)
    one.writes(price(1, 1, 7, 1))
    one.writes(price(1, 1, 8, 1))
    one.link.comes("market/street/bid/1", gone(1, 2).to_bytes())
    one.turned()
    a_heartbeat_later(one, monkeypatch)
    assert one.link.of("market/street/price/1") == [price(1, 1, 7, 1).to_bytes(), b""]


def test_a_table_that_the_broker_retains_is_told_again_without_children_that_left(joined):
    kept = table(7, 1, c1=1, c2=4, c3=9).to_bytes()
    one = parent(joined, TOGETHER, ("market/street/bid/3", gone(3, 10).to_bytes()), (TABLE, kept))
    one.turned()
    assert one.link.newest[TABLE].payload == table(7, 1, c1=1, c2=4).to_bytes()
    assert dict(one.link.newest[TABLE].properties) == dict(MARKED)
    one.writes(price(1, 1, 6, 0))
    assert one.link.newest[TABLE].payload == table(7, 1, c1=1, c2=4).to_bytes(), "an older clearing does not take its place"
    one.link.comes("market/street/bid/2", gone(2, 5).to_bytes(), OF_RELAY)
    one.turned()
    assert one.link.newest[TABLE].payload == table(7, 1, c1=1).to_bytes()
    one.link.comes("market/street/bid/1", gone(1, 5).to_bytes(), OF_RELAY)
    one.turned()
    assert one.link.newest[TABLE].payload == b"", "without a child the topic is cleared"


@pytest.mark.parametrize(("payload", "session"), [(table(7, 1, c1=1).to_bytes(), LATER.id), (b"no table", MARKED[1][1])])
def test_a_table_of_another_session_or_of_no_prices_is_cleared(joined, payload, session):
    one = joined("relay", prices=TOGETHER)
    one.link.comes(TABLE, payload, [("session", session)], retained=True)
    one.begun()
    assert set(one.link.of(TABLE)) == {b""}


def test_a_market_may_change_to_the_table(joined):
    """Who is told by the one form loses what the other one has: no child finds two."""
    one = parent(joined, TOGETHER, ("market/street/price/1", price(1, 1, 7, 1).to_bytes()))
    assert one.link.newest["market/street/price/1"].payload == price(1, 1, 7, 1).to_bytes(), "until the table has it"
    one.writes(price(1, 1, 8, 1), price(2, 1, 8, 1))
    assert one.link.newest["market/street/price/1"].payload == b""
    assert one.link.newest[TABLE].payload == table(8, 1, c1=1, c2=1).to_bytes()


def test_a_market_may_change_to_topics(joined):
    back = parent(joined, SINGLE, (TABLE, table(8, 1, c1=1, c2=1).to_bytes()))
    back.writes(price(1, 1, 9, 1))
    assert back.link.newest[TABLE].payload == table(8, 1, c2=1).to_bytes()
    back.writes(price(2, 1, 9, 1))
    assert back.link.newest[TABLE].payload == b""
    assert [back.prices_told("street", child)[-1] for child in (1, 2)] == [b"", b""]
    assert [back.link.of(f"market/street/price/{child}")[-1] for child in (1, 2)] == [price(1, 1, 9, 1).to_bytes(), price(2, 1, 9, 1).to_bytes()]


# A child.


def child(joined, sort, **more):
    """A relay or a device in a session, the topic of its parent's table, its own number there and the number of its bid."""
    one = joined(sort, **more).begun()
    one.link.confirms = True
    return one, *(("market/auctioneer/prices", 3) if sort == "relay" else ("market/street/prices", 2))


def fed_prices(one):
    """The index of each Price that the service was fed."""
    return [int.from_bytes(data[7:11], "big") for data in one.service.read if data[:1] == b"\x17"]


@pytest.mark.parametrize("sort", ["relay", "device"])
def test_a_child_takes_its_own_price_of_the_table_and_only_what_is_new(joined, monkeypatch, sort):
    one, topic, own = child(joined, sort)
    for index, step, number in ((7, 1, 1), (8, 1, 1), (9, 0, 1), (10, 0, 2), (11, 0, 2)):
        one.link.comes(topic, PriceTable(index, step, BASIS, {own - 1: 5, own: number, own + 1: 6}).to_bytes())
        one.turned()
    assert fed_prices(one) == [7, 9, 10]
    assert one.service.read[-1] == price(own, 2, 10, 0).to_bytes(), "byte by byte what the parent's service wrote"
    a_heartbeat_later(one, monkeypatch)
    assert fed_prices(one) == [7, 9, 10, 11], "so a market in which nothing changes is settled"
    one.turned()
    assert fed_prices(one) == [7, 9, 10, 11], "once"


@pytest.mark.parametrize("refusal", [Dropped(1, 7), OtherBasis(1, 7)])
def test_a_price_behind_one_that_was_not_taken_is_new(joined, refusal):
    """The service may have taken another one before, so the same number and step may be news to it."""
    one, topic, own = child(joined, "relay")
    one.link.comes(topic, PriceTable(7, 1, BASIS, {own: 1}).to_bytes())
    one.turned()
    one.writes(refusal)
    one.turned()
    assert fed_prices(one) == [7], "it is not tried again"
    one.link.comes(topic, PriceTable(8, 1, BASIS, {own: 1}).to_bytes())
    one.turned()
    assert fed_prices(one) == [7, 8]


def test_a_service_that_starts_anew_is_fed_the_newest_price(joined, monkeypatch):
    one, topic, own = child(joined, "device")
    for index in (7, 8):
        one.link.comes(topic, PriceTable(index, 1, BASIS, {own: 1}).to_bytes())
        one.turned()
    monkeypatch.setattr(one.node.serving, "_born", -60)
    one.service.ends()
    one.turned()
    monkeypatch.setattr(one.node.serving, "_restart_at", 0)
    one.turned()
    assert fed_prices(one) == [8]


def test_both_forms_are_read_and_the_newer_clearing_counts(joined):
    one, topic, own = child(joined, "device")
    one.link.comes(topic, PriceTable(8, 1, BASIS, {own: 1}).to_bytes())
    one.link.comes("market/street/price/2", price(2, 1, 7, 0).to_bytes())
    one.turned()
    one.link.comes("market/street/price/2", price(2, 1, 9, 0).to_bytes())
    one.turned()
    assert fed_prices(one) == [8, 9]


def test_a_setpoint_that_gives_the_same_power_is_told_with_the_next_heartbeat_alone(joined):
    """Nothing is stored and nothing published meanwhile."""
    one, _, _ = child(joined, "device")
    one.control.offer(b'{"power": [500, -300]}')
    one.turned()
    one.writes(device_resume(2, 0, (500, -300)), bid(2, 2, 500, -300), Setpoint(2, 7, 1, -300), device_resume(2, 7, (500, -300)))
    saves, sent, told = one.node._store.saves, len(one.link.sent), len(one.control.told)
    one.writes(Setpoint(2, 8, 1, -300), device_resume(2, 8, (500, -300)))
    assert (one.node._store.saves, len(one.link.sent), len(one.control.told)) == (saves, sent, told)
    one.writes(Setpoint(2, 9, 0, 500), device_resume(2, 9, (500, -300)))
    assert (one.node._store.saves, len(one.control.told)) == (saves + 1, told + 1)


def test_an_old_comes_by_the_childs_own_topic_in_both_forms(joined):
    one = parent(joined, TOGETHER)
    one.writes(price(1, 1, 7, 1))
    one.link.comes("market/street/bid/1", bid(1, 2, 5, -3).to_bytes(), [*MARKED, ("sort", "device"), ("node", "house"), ("valid", "150")])
    one.turned()
    one.node.serving.session.letting.drop(1)
    one.turned()
    assert one.link.newest[TABLE].payload == b"", "a child that was let go has no price"
    one.writes(Old(1, 3))
    assert one.link.newest["market/street/price/1"].payload == Old(1, 3).to_bytes()
