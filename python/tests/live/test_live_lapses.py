"""When a parent lets a device go, what it tells and feeds then, and how the device comes back. Times are by hand."""

from __future__ import annotations

import json

import pytest
from brokers import live_program, wait_until
from pretended import BASIS_TOPIC, LATER, MARKED, SESSION, basis_payload, bid, device_resume, gone, numbers, price, relay_resume, saved, state_payload

from cogmaula import clock
from cogmaula.live import BadSettings
from cogmaula.live.node import service_runner
from cogmaula.live.messages.frames import RESUMES, Expire, Old, Send, TooMuch, frame_of
from cogmaula.live.children.lapses import Lapses
from cogmaula.live.messages.messages import SiteMessage
from cogmaula.live.node.node_settings import ChildSettings
from cogmaula.live.node.service import Service
from cogmaula.live.node.market_times import Times
from cogmaula.live.node.silence import Heartbeat, Silence

TIMES = Times(validity=100, heartbeat=25, grace=125)


def lapses_of(*children):
    """A parent of devices that were heard at second 0: child 1 has node n1, and so on."""
    found = Lapses()
    found.begin(TIMES)
    for child in children:
        found.heard(child, f"n{child}", 0.0)
    return found


@pytest.mark.parametrize(
    ("validity", "heartbeat", "grace", "why"),
    [
        (100, 34, 125, "give a validity of 3 heartbeats or more"),
        # 100 * 1.01 + 1 and 103 * 0.99.
        (100, 25, 103, r"wrong by 1% a device falls back by 102 s and may be let go after 102 s. Give a grace of 125 or more"),
        (100, 25, 124.9, "falls back by 102 s and may be let go after 123.7 s. Give a grace of 125 or more"),
        (0, 1, 1, "are seconds"),
    ],
)
def test_times_that_do_not_go_together(validity, heartbeat, grace, why):
    with pytest.raises(BadSettings, match=why):
        Times(validity, heartbeat, grace)
    Times(100, 33, 125)


def test_a_device_has_fallen_back_before_it_is_let_go_if_clocks_are_within_one_percent():
    """Its node counts validity by a clock that is slow by 1 %, and looks each second; its parent counts grace by one that is fast by 1 %."""
    times = Times.of(None, None, None)
    assert (times.validity, times.heartbeat, times.grace) == (120, 30, 150)
    assert (times.latest_fallback, times.earliest_lapse) == (pytest.approx(122.2), pytest.approx(148.5))


# A parent hears the bid of second 0 and hangs at 30: the next renewal is confirmed by the broker, and the parent does not hear it.
# Of each its times, when that renewal was sent, and when the last heartbeat came.
HANGS = {"by default": (Times.of(None, None, None), 30.5, 31.0), "few heartbeats": (Times.of(120, 40, 150), 40.5, 41.0), "back late": (Times.of(None, None, None), 149.8, 149.8)}


@pytest.mark.parametrize(("times", "renewal", "beat"), HANGS.values(), ids=HANGS)
@pytest.mark.parametrize("is_confirmed_first", [True, False])
def test_a_renewal_that_the_broker_alone_has_keeps_no_device_in_the_market(times, renewal, beat, is_confirmed_first):
    node, parent = Silence(), Lapses()
    node.begin(times, 0.0)
    parent.begin(times)
    parent.heard(1, "n1", 0.0)
    node.bids(0.0)
    node.hear(Heartbeat(1, 1, "2026-01-31T06:30:00Z"), 0.0, retained=False)
    if is_confirmed_first:
        node.renewed(renewal)
    node.hear(Heartbeat(1, 2, "2026-01-31T06:30:00Z"), beat, retained=False)
    if not is_confirmed_first:
        node.renewed(renewal)
    let_go = next(second for second in range(1_000) if parent.due(float(second)))
    assert node.is_silent(let_go / 1.01 / 1.01 - times.tick, renews=True)


def test_a_last_will_lets_go_after_grace_and_a_node_that_is_back_in_time_stays():
    one = lapses_of(1, 2)
    one.state("n1", 1, False, 10.0)
    one.state("n2", 2, False, 10.0)
    one.state("n2", 2, True, 100.0)
    for child in (1, 2):
        one.heard(child, f"n{child}", 50.0)
    assert one.due(134.9) == {}
    assert one.due(135.0) == {1: "its node n1 has been down for 125 s"}


def test_the_state_of_another_node_says_nothing_of_a_child():
    one = lapses_of(1)
    one.state("n2", 1, False, 0.0)
    one.heard(1, "n1", 60.0)
    assert one.due(129.0) == {}


def test_a_bid_that_is_not_renewed_lapses():
    one = lapses_of(1, 2)
    one.heard(2, "n2", 60.0)
    assert one.due(124.9) == {}
    assert one.due(125.0) == {1: "its bid was not renewed for 125 s"}
    assert set(one.due(185.0)) == {1, 2}


@pytest.mark.parametrize("valid", ["900000000", "5", "0", "nan", "x"])
def test_a_bid_holds_for_grace_whatever_it_says_of_itself(joined, valid):
    """Its node is dead and told no state: what the bid says does not keep it in the sum, nor let it go before its control fell back."""
    one = joined("relay").begun()
    properties = dict(MARKED) | {"sort": "device", "node": "house", "valid": valid}
    one.link.comes("market/street/bid/2", bid(2, 2, 500, 500).to_bytes(), properties)
    one.turned()
    lapses, grace = one.node.serving.session.letting.lapses, one.node.serving.beating.silence.times.grace
    heard = lapses._children[2].heard
    assert (lapses.due(heard + grace - 1), set(lapses.due(heard + grace))) == ({}, {2})


def test_nobody_is_let_go_while_the_broker_is_away_and_all_counts_anew_behind_it():
    one = lapses_of(1, 2)
    one.missed([3], 0.0)
    one.state("n2", 2, False, 0.0)
    one.connected(False, 10.0)
    assert one.due(1000.0) == {}
    one.connected(True, 1000.0)
    assert one.due(1124.9) == {}
    assert set(one.due(1125.0)) == {1, 2, 3}


def test_a_device_that_a_restarted_parent_misses():
    one = lapses_of()
    one.missed([3, 4], 10.0)
    one.missed([3], 20.0)
    assert one.due(134.9) == {}
    assert one.due(135.0) == {3: "it was in the newest sum, and was not heard for 125 s since the restart"}
    one.heard(3, "n3", 135.0)
    assert one.due(136.0) == {}


# A relay with its parts pretended.


def of(sort, node):
    return (*MARKED, ("sort", sort), ("node", node), ("valid", "150"))


def with_children(joined, **more):
    """The street with a device as child 1, and a relay as child 2. What was fed before is forgotten."""
    one = joined("relay", **more).begun()
    one.link.comes("market/street/bid/1", bid(1, 4, 5, -3).to_bytes(), of("device", "house"))
    one.link.comes("market/street/bid/2", bid(2, 7, 9, 9).to_bytes(), of("relay", "lane"))
    one.turned()
    one.service.read.clear()
    return one


def passes(one, seconds):
    """Lets so many seconds pass for what the node knows of its children."""
    for child in one.node.serving.session.letting.lapses._children.values():
        child.heard -= seconds
    down = one.node.serving.session.letting.lapses._down
    for name in down:
        down[name] -= seconds
    one.turned()


def lapsed(one, child):
    payload = one.link.newest[f"market/street/lapsed/{child}"].payload
    return json.loads(payload) if payload else None


def test_a_device_that_is_silent_is_let_go_and_a_relay_never(joined):
    one = with_children(joined)
    one.link.comes("market/street/price/1", price(1, 4, 7, 1).to_bytes(), retained=True)
    one.turned()
    passes(one, 149)
    assert "market/street/lapsed/1" not in one.link.newest
    passes(one, 2)
    assert one.service.read[0] == Expire(1).to_bytes()
    assert Expire(2).to_bytes() not in one.service.read
    assert lapsed(one, 1)["number"] == 5
    assert one.link.newest["market/street/price/1"].payload == b"", "nobody is told a price for it"
    assert one.node._store.newest().lapsed == {1: 5}
    assert one.node._store.newest().relays == (2,)
    assert any("child 1 is let go, its bid was not renewed for 150 s" in line for line in one.said)


def test_a_bid_that_is_renewed_is_not_fed_again_and_holds_on(joined):
    one = with_children(joined)
    passes(one, 140)
    one.link.comes("market/street/bid/1", bid(1, 4, 5, -3).to_bytes(), of("device", "house"))
    one.turned()
    passes(one, 140)
    assert [frame for frame in one.service.read if frame != Send().to_bytes()] == []
    assert "market/street/lapsed/1" not in one.link.newest


def test_the_last_will_of_a_childs_node_counts(joined):
    one = with_children(joined)
    assert "market/house/state" in one.link.topics
    assert "market/lane/state" not in one.link.topics
    one.link.comes("market/house/state", state_payload("a" * 16, "2026-01-31T06:30:00.000Z", "down", parent="street", child=1))
    one.turned()
    for _ in range(2):
        one.link.comes("market/street/bid/1", bid(1, 4, 5, -3).to_bytes(), of("device", "house"))
        one.turned()
        passes(one, 76)
    assert "its node house has been down for 150 s" in lapsed(one, 1)["why"]


def site_payload(state, run="a" * 16, **more):
    return SiteMessage(state, run, "2026-01-31T06:30:00.000Z", "2026-01-31T06:30:00.000Z", **more).to_bytes()


@pytest.mark.parametrize("down", [site_payload("down", lost=True, why="the connection was lost"), site_payload("up", "b" * 16)])
def test_the_last_will_of_the_site_of_a_childs_node_counts_as_the_nodes_own(joined, down):
    """So does another life of the site, in which the node did not yet tell its state."""
    one = with_children(joined)
    up = state_payload("a" * 16, "2026-01-31T06:30:00.000Z", parent="street", child=1, site="block")
    one.link.comes("market/house/state", up)
    one.turned()
    assert "market/block/site" in one.link.topics
    one.link.comes("market/block/site", down)
    one.turned()
    assert list(one.node.serving.session.letting.lapses._down) == [("house", 1)]
    for _ in range(2):
        one.link.comes("market/street/bid/1", bid(1, 4, 5, -3).to_bytes(), of("device", "house"))
        one.turned()
        passes(one, 76)
    assert "its node house has been down for 150 s" in lapsed(one, 1)["why"]


def test_a_site_that_is_up_again_in_time_keeps_its_devices(joined):
    one = with_children(joined)
    up = {"parent": "street", "child": 1, "site": "block"}
    one.link.comes("market/house/state", state_payload("a" * 16, "2026-01-31T06:30:00.000Z", **up))
    one.link.comes("market/block/site", site_payload("down", lost=True))
    one.turned()
    one.link.comes("market/block/site", site_payload("up", "b" * 16))
    one.turned()
    assert list(one.node.serving.session.letting.lapses._down) == [("house", 1)]
    one.link.comes("market/house/state", state_payload("b" * 16, "2026-01-31T06:31:00.000Z", **up))
    one.turned()
    assert one.node.serving.session.letting.lapses._down == {}


def test_a_child_that_names_site_after_site_is_read_four(joined):
    one = with_children(joined)
    before = len(one.link.topics)
    for number in [*range(10), "a/b"]:
        one.link.comes("market/house/state", state_payload("a" * 16, "2026-01-31T06:30:00.000Z", parent="street", child=1, site=f"s{number}"))
        one.turned()
    assert one.link.topics[before:] == [f"market/s{number}/site" for number in range(4)]


def test_a_child_hears_that_the_site_of_its_parent_is_down(joined):
    one = joined("device").begun()
    one.link.comes("market/street/state", state_payload("a" * 16, "2026-01-31T06:30:00.000Z", site="block"))
    one.turned()
    for message, line in ((site_payload("down", why="stopped"), "street is down: the site block is down: stopped"), (site_payload("up"), "street is up again")):
        one.link.comes("market/block/site", message)
        one.turned()
        assert one.said[-1] == line
    one.link.comes("market/block/site", b"x")
    one.turned()
    assert one.said[-1] == "market/block/site is not taken: the state of the site is no JSON"


def test_the_state_of_a_node_elsewhere_does_not_count(joined):
    one = with_children(joined)
    one.link.comes("market/house/state", state_payload("a" * 16, "2026-01-31T06:30:00.000Z", "down", parent="lane", child=1))
    one.turned()
    assert one.node.serving.session.letting.lapses._down == {}


@pytest.mark.parametrize(
    ("child", "retained", "is_dropped", "why"),
    [
        (1, False, True, "child 1 is let go, by the word of an operator"),
        (1, True, False, ""),
        (2, False, False, "child 2 is not let go: it is a relay"),
        (3, False, False, "child 3 is not let go: it has not bid in this session"),
        (256, False, False, "child 256 is not let go: it is a relay, or the place in which limits are given"),
    ],
)
def test_the_word_of_an_operator(joined, child, retained, is_dropped, why):
    one = with_children(joined, limits_from=True)
    one.link.comes(f"market/street/drop/{child}", b"{}", retained=retained)
    one.turned()
    assert (Expire(child).to_bytes() in one.service.read) == is_dropped
    assert why in " ".join(one.said)


def let_go(joined):
    one = with_children(joined)
    one.link.comes("market/street/drop/1", b"{}")
    one.turned()
    one.service.read.clear()
    return one


def test_a_device_that_lives_hears_old_and_is_back_by_its_next_bid(joined):
    one = let_go(joined)
    one.link.comes("market/street/bid/1", bid(1, 4, 5, -3).to_bytes(), of("device", "house"))
    one.turned()
    assert one.service.read[0] == bid(1, 4, 5, -3).to_bytes(), "it is fed again, so that an Old comes"
    one.writes(Old(1, 5))
    assert one.link.newest["market/street/price/1"].payload == Old(1, 5).to_bytes()
    one.link.comes("market/street/bid/1", bid(1, 8, 5, -3).to_bytes(), of("device", "house"))
    one.turned()
    assert bid(1, 8, 5, -3).to_bytes() in one.service.read
    assert lapsed(one, 1) is None
    assert one.node._store.newest().lapsed == {}
    one.writes(price(1, 8, 9, 1))
    assert one.prices_told("street", 1)[-2:] == [b"", price(1, 8, 9, 1).to_bytes()], "the Old is cleared, and the table has the price"


def test_an_old_that_says_nothing_new_is_not_handed_on(joined):
    one = with_children(joined)
    one.writes(Old(1, 4), Old(2, 9))
    assert "market/street/price/1" not in one.link.newest
    assert "market/street/price/2" not in one.link.newest


def test_a_lapse_is_given_again_after_a_restart_that_forgot_it(joined, tmp_path):
    """The Resume has the device's own number: the lapse was in no bid yet."""
    saved(tmp_path, "relay", "street", relay_resume(3, 0, 0, numbers((1, 4))), lapsed={1: 5}, relays=(2,))
    one = joined("relay").begun()
    assert one.service.read[:2] == [relay_resume(3, 0, 0, numbers((1, 4))).to_bytes(), Expire(1).to_bytes()]
    one.link.comes("market/street/bid/1", bid(1, 4, 5, -3).to_bytes(), of("device", "house"))
    one.turned()
    one.service.ends()
    one.turned()
    one.node.serving._restart_at = 0
    one.turned()
    assert one.service.read[1:3] == [bid(1, 4, 5, -3).to_bytes(), Expire(1).to_bytes()]


def test_a_restarted_parent_lets_a_device_go_that_it_misses_and_waits_for_a_relay(joined, tmp_path):
    saved(tmp_path, "relay", "street", relay_resume(3, 0, 0, numbers((1, 4), (2, 7))), relays=(2,))
    one = joined("relay").begun()
    missed = one.node.serving.session.letting.lapses._missed
    assert set(missed) == {1}
    missed[1] -= 151
    one.turned()
    assert Expire(1).to_bytes() in one.service.read
    assert Expire(2).to_bytes() not in one.service.read
    assert lapsed(one, 1)["number"] == 5


def test_a_later_session_forgets_who_was_let_go(joined):
    one = let_go(joined)
    one.link.comes(BASIS_TOPIC, basis_payload(LATER))
    one.turned()
    assert Expire(1).to_bytes() not in one.service.read
    assert one.node._store.load(LATER) is None or one.node._store.load(LATER).lapsed == {}


def test_a_child_that_left_by_itself_is_not_let_go(joined):
    one = with_children(joined)
    one.link.comes("market/street/bid/1", gone(1, 6).to_bytes(), of("device", "house"))
    one.turned()
    passes(one, 500)
    assert "market/street/lapsed/1" not in one.link.newest


def test_a_bid_of_another_version_is_not_taken(joined):
    one = with_children(joined)
    properties = [property_ for property_ in of("device", "house") if property_[0] != "version"]
    one.link.comes("market/street/bid/3", bid(3, 1, 5, -3).to_bytes(), properties)
    one.turned()
    assert bid(3, 1, 5, -3).to_bytes() not in one.service.read
    assert any("market/street/bid/3 comes from a node of another version" in line for line in one.said)


# Bounds.


def test_bounds_come_directly_behind_the_resume(joined, tmp_path):
    saved(tmp_path, "relay", "street", relay_resume(3, 0, 0, numbers((1, 4))))
    one = joined("relay", children=(ChildSettings(1, -300, 500), ChildSettings(9))).begun()
    due = ["15 0001 FFFFFED4 000001F4", "15 0009 C4653600 3B9ACA00"]
    assert one.service.read[1:3] == [bytes.fromhex(frame) for frame in due]


def test_a_bid_that_is_too_much_is_told_and_the_one_before_counts(joined):
    one = with_children(joined, children=(ChildSettings(1, -300, 500),))
    one.link.comes("market/street/bid/1", bid(1, 6, 501, 0).to_bytes(), of("device", "house"))
    one.turned()
    one.writes(TooMuch(1, 6))
    told = json.loads(one.link.newest["market/street/refused/1"].payload)
    assert (told["number"], told["least"], told["greatest"]) == (6, -300, 500)
    assert any("bid 6 of child 1 is outside -300 to 500 watts" in line for line in one.said)
    one.service.ends()
    one.turned()
    one.node.serving._restart_at = 0
    one.turned()
    assert bid(1, 4, 5, -3).to_bytes() in one.service.read
    assert bid(1, 6, 501, 0).to_bytes() not in one.service.read
    one.link.comes("market/street/bid/1", bid(1, 8, 500, 0).to_bytes(), of("device", "house"))
    one.turned()
    assert one.link.newest["market/street/refused/1"].payload == b""


def test_a_child_is_told_that_its_bid_is_too_much(joined):
    one = joined("device").begun(("market/street/refused/2", b'{"number": 6, "why": "outside -300 to 500 watts", "time": "t"}'))
    assert "street does not take bid 6: it is outside -300 to 500 watts. The one before counts" in one.said


BEFORE = device_resume(2, 1, (500, -300))
TOO_MUCH = b'{"number": 4, "why": "outside -300 to 500 watts", "time": "t"}'


@pytest.mark.parametrize("before", [BEFORE.to_bytes(), b"", device_resume(2, 1, (900, 900)).to_bytes()], ids=["kept", "lost", "refused"])
def test_a_device_that_comes_back_with_a_refused_bid_offers_anew_what_counts(joined, tmp_path, monkeypatch, before):
    """The parent counts bid 2, and prices answer it. The agent knows the offer of bid 4 alone. Without the other one the device leaves."""
    monkeypatch.setattr(service_runner, "Service", Service)
    saved(tmp_path, "device", "house", device_resume(4, 1, (900, 900)), before=before)
    one = joined("device", live=live_program()).begun(("market/street/refused/2", TOO_MUCH))
    assert json.loads(one.link.newest["market/house/answer"].payload)["why"] == "bid 4 is outside -300 to 500 watts: the one before counts"
    one.link.comes("market/street/price/2", price(2, 2, 7, 1).to_bytes())
    due = bid(2, 6, 500, -300) if before == BEFORE.to_bytes() else gone(2, 6)
    served(one, lambda: due.to_bytes() in one.link.of("market/street/bid/2"), "the device bids again")
    if before == BEFORE.to_bytes():
        one.link.comes("market/street/price/2", price(2, 6, 8, 1).to_bytes())
        served(one, lambda: one.control.told, "a setpoint")
        assert json.loads(one.control.told[-1])["power"] == -300
    one.node.serving.end("stopped")


def test_a_device_keeps_the_offer_before_its_newest_unless_that_was_refused(joined):
    one = joined("device").begun()
    one.control.offer(b'{"power": [500, -300]}')
    one.turned()
    one.writes(device_resume(2, 0, (500, -300)), bid(2, 2, 500, -300))
    for number, power, kept in ((4, 900, 2), (6, 800, 2), (8, 400, 6)):
        one.control.offer(json.dumps({"power": [power, power]}).encode())
        one.turned()
        one.writes(device_resume(number, 0, (power, power)), bid(2, number, power, power))
        stored = frame_of(one.node._store.load(SESSION).before, RESUMES["device"], 2)
        assert stored.last == kept
        if number == 4:
            one.link.comes("market/street/refused/2", TOO_MUCH)
            one.turned()


# A device that was let go.


def test_a_device_that_was_let_go_feeds_the_old_once(joined, tmp_path):
    saved(tmp_path, "device", "house", device_resume(4, 2, (5, -3)))
    one = joined("device").begun()
    for _ in range(2):
        one.link.comes("market/street/price/2", Old(2, 5).to_bytes())
        one.turned()
        one.writes(device_resume(8, 2, (5, -3)), bid(2, 8, 5, -3))
        one.link.confirm()
        one.turned()
    assert one.service.read[1:] == [Old(2, 5).to_bytes()]
    assert dict(one.link.newest["market/street/bid/2"].properties)["valid"] == "150"


def test_a_device_that_hears_that_it_was_let_go_renews_its_bid_and_tells_its_control(joined, tmp_path):
    saved(tmp_path, "device", "house", device_resume(4, 2, (5, -3)), setpoint=b'{"power": 5, "step": 1, "price": 9, "bid": 4, "clearing": 2, "time": "t"}')
    one = joined("device", fallback=-1).begun()
    one.writes(bid(2, 4, 5, -3))
    assert len(one.link.of("market/street/bid/2")) == 1
    lapse = b'{"number": 5, "why": "by the word of an operator", "time": "2026-01-31T06:30:00.000Z"}'
    one.link.comes("market/street/lapsed/2", lapse)
    one.turned()
    assert one.link.of("market/street/bid/2") == [bid(2, 4, 5, -3).to_bytes()] * 2
    told = json.loads(one.control.told[-1])
    assert (told["market"], told["power"], told["why"]) == ("silent", -1, "street has let it go, by the word of an operator")


def test_a_device_that_was_let_go_is_told_so_before_its_stored_setpoint(joined, tmp_path):
    saved(tmp_path, "device", "house", device_resume(4, 2, (5, -3)), setpoint=b'{"power": 5, "step": 1, "price": 9, "bid": 4, "clearing": 2, "time": "t"}')
    lapse = b'{"number": 5, "why": "w", "time": "2026-01-31T06:30:00.000Z"}'
    one = joined("device").begun(("market/street/lapsed/2", lapse))
    assert [json.loads(message).get("market") for message in one.control.told] == ["silent"]


# Bids of a device that a restarted parent had heard and not counted, and bids under numbers of the parent.


def served(joined_node, holds, what):
    """Lets a node with a real service work until something holds."""
    wait_until(lambda: (joined_node.turned(), joined_node.link.confirm(), holds())[-1], what)


def test_a_dead_device_counts_nowhere_after_a_restart_of_its_parent(joined, tmp_path, monkeypatch):
    """The record has bid 2 of it, bid 4 was heard and was in no sum yet, and the device was let go under 5. The broker still has bid 4."""
    monkeypatch.setattr(service_runner, "Service", Service)
    saved(tmp_path, "relay", "street", relay_resume(3, 0, 0, numbers((1, 2))), lapsed={1: 5})
    one = joined("relay", live=live_program()).begun(("market/street/bid/1", bid(1, 4, 500, 500).to_bytes(), of("device", "house")))
    own = "market/auctioneer/bid/3"
    served(one, lambda: bid(3, 4, 0, 0).to_bytes() in one.link.of(own), "the sum has nothing of it")
    assert one.node.serving.session.resume.numbers[0] == 5
    assert Old(1, 5).to_bytes() in one.link.of("market/street/price/1"), "a device that lives hears it, and bids anew"
    one.node.serving.end("stopped")


def test_an_operator_lets_a_device_go_that_was_let_go_before(joined):
    one = let_go(joined)
    one.link.comes("market/street/drop/1", b"{}")
    one.turned()
    assert one.service.read[0] == Expire(1).to_bytes()
    assert lapsed(one, 1)["why"] == "it was let go before"


@pytest.mark.parametrize("frame", [bid(1, 5, 9, 9), gone(1, 7)], ids=["bid", "gone"])
@pytest.mark.parametrize("sort", ["device", ""])
def test_a_device_bids_under_no_number_of_its_parent(joined, frame, sort):
    """Such a bid could never be let go."""
    one = with_children(joined)
    for _ in range(3):
        one.link.comes("market/street/bid/1", frame.to_bytes(), of(sort, "house"))
        one.turned()
    assert frame.to_bytes() not in one.service.read
    told = f"market/street/bid/1 has the odd number {frame.number}, and those of a device are even: it is not taken"
    assert [line for line in one.said if "odd number" in line] == [told]


def test_a_child_that_the_file_calls_a_device_is_one_whatever_it_says(joined):
    one = with_children(joined, children=(ChildSettings(1, sort="device"), ChildSettings(2, sort="relay")))
    one.link.comes("market/street/bid/1", bid(1, 5, 9, 9).to_bytes(), of("relay", "house"))
    one.link.comes("market/street/bid/2", bid(2, 9, 9, 9).to_bytes(), of("device", "lane"))
    one.turned()
    assert bid(1, 5, 9, 9).to_bytes() not in one.service.read
    assert bid(2, 9, 9, 9).to_bytes() in one.service.read
def test_the_times_of_each_device_of_a_market_are_told(tmp_path, capsys):
    """By hand: 60 * 1.01 + 1 = 61.6, and 90 * 0.99 = 89.1."""
    from cogmaula.cli import main

    tree = tmp_path / "TREE.toml"
    tree.write_text('[basis]\nmin = 0\nmax = 9\nsteps = 10\n[auctioneer]\nvalidity = 60\ngrace = 90\n[relays.street]\n[devices.house]\nparent = "street"\n')
    assert main(["market", "times", str(tree)]) == 0
    assert capsys.readouterr().out.splitlines() == [
        "validity 60 s, heartbeat 15 s, grace 90 s; each clock may be wrong by 1%",
        "device  parent  told its fallback by  let go from  left for",
        "house   street  61.6 s                89.1 s       27.5 s",
    ]


# A session that follows another one.


def sends(one):
    return one.service.read.count(Send().to_bytes())


@pytest.mark.parametrize("is_restarted", [False, True])
def test_a_relay_sends_no_sum_of_a_new_session_before_it_knows_who_may_hold_setpoints(joined, tmp_path, monkeypatch, is_restarted):
    """In the session before it counted children 1 and 2. Child 1 bids first; child 2 may take by its setpoint of before until that has ended."""
    if is_restarted:
        saved(tmp_path, "relay", "street", relay_resume(2, 0, 0, numbers((1, 2), (2, 2), (3, 5))), lapsed={3: 5})
        one = joined("relay")
        one.link.comes(BASIS_TOPIC, basis_payload(LATER))
        one.link.settles()
        one.turned()
    else:
        bids = [(f"market/street/bid/{child}", bid(child, 2, 5, -3).to_bytes()) for child in (1, 2)]
        one = joined("relay").begun(*bids)
        one.link.comes(BASIS_TOPIC, basis_payload(LATER))
        one.turned()
    of_later = [("session", LATER.id), *[pair for pair in MARKED if pair[0] != "session"]]
    one.link.comes("market/street/bid/1", bid(1, 2, 5, -3).to_bytes(), of_later)
    one.turned()
    assert sends(one) == 0
    begun = clock.now()
    monkeypatch.setattr(clock, "now", lambda: begun + 140)
    one.turned()
    assert sends(one) == 0
    if is_restarted:
        monkeypatch.setattr(clock, "now", lambda: begun + 151)
    else:
        one.link.comes("market/street/bid/2", bid(2, 2, 5, -3).to_bytes(), of_later)
    one.turned()
    assert sends(one) == 1
