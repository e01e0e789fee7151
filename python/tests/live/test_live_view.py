"""What a page shows of a market, made of messages by hand: each row is worked out by hand too."""

from __future__ import annotations

import json

import pytest
from pretended import LATER, MOMENT, SESSION
from told import Told, falls_at, village

from cogmaula.cluster import Basis
from cogmaula.live.page.heard import NotTaken
from cogmaula.live.messages.topics import Topics
from cogmaula.live.page.view import BidView, PowerView, PriceView


def row(node):
    """A node in short: its name, its depth, the prices that it has and passes, its demand there, and its power with its clearings."""
    prices = [None if price is None else price.price for price in (node.price, node.passed)]
    power = None if node.power is None else (node.power.power, node.power.by, node.power.first, node.power.last)
    return (node.name, node.depth, *prices, None if node.bid is None else node.bid.demand, power)


def test_a_tree_of_three_levels():
    view = village().view()
    assert [row(node) for node in view.nodes] == [
        ("auctioneer", 0, 2, 2, None, (-110, "sum", 7, 7)),
        ("street", 1, 2, 4, -50, (-50, "sum", 7, 7)),
        ("house", 2, 4, None, 100, (100, "setpoint", 7, 7)),
        ("store", 2, 4, None, -150, (-150, "setpoint", 7, 7)),
        ("mill", 1, 2, None, -60, (-60, "setpoint", 7, 7)),
    ]
    assert (view.prefix, view.basis, view.session, view.begun) == ("market", Basis(0, 9, 10), SESSION.id, SESSION.begun)
    assert view.price == PriceView(clearing=7, step=2, price=2, bid=None, time=MOMENT)
    assert (view.clearing, view.not_taken) == (7, ())


def by_tables():
    """The same market, of which each parent tells its prices together."""
    told = village().without("auctioneer/price/1", "auctioneer/price/2", "street/price/1", "street/price/2")
    return told.prices("auctioneer", 7, 2, {1: 5, 2: 6}).prices("street", 7, 4, {1: 3, 2: 4})


def test_tables_of_prices_show_what_single_prices_do():
    assert by_tables().view() == village().view()
    mixed = by_tables().price("street", 1, 3, 6, 5).price("street", 2, 4, 8, 4)
    assert [mixed.node(name).price.clearing for name in ("house", "store")] == [7, 8], "of two the newer one"
    bad = by_tables().put("street/prices", b"no table")
    assert [(told.topic, "no table of prices" in told.why) for told in bad.view().not_taken] == [("market/street/prices", True)]


def test_a_setpoint_is_of_the_newest_clearing_that_gives_the_same():
    """The table names the bid and the step of the setpoint at a later clearing, and then another step."""
    told = by_tables().prices("street", 9, 4, {1: 3, 2: 4})
    assert told.node("house").power == PowerView(100, "setpoint", 9, 9)
    assert (told.node("street").power, told.node("street").is_within) == (PowerView(-50, "sum", 9, 9), True)
    told.prices("street", 10, 5, {1: 3, 2: 4})
    assert told.node("house").power == PowerView(100, "setpoint", 7, 7)


def test_a_page_of_a_relay_leaves_its_siblings_out():
    """It hears nothing of the mill but the number of its bid in the table."""
    told = by_tables().without("mill/state", "mill/setpoint", "auctioneer/bid/2")
    assert ("auctioneer", 2) not in [(node.parent, node.child) for node in told.view("street").nodes]
    assert ("auctioneer", 2) in [(node.parent, node.child) for node in told.view().nodes]


def test_the_members_of_a_relay():
    street = village().state("street", "relay", "auctioneer", 1, None, 50, "down", "stopped").node("street")
    assert (street.sort, street.parent, street.child, street.state, street.why) == ("relay", "auctioneer", 1, "down", "stopped")
    assert (street.since, street.session, street.floor, street.ceiling) == (MOMENT, SESSION.id, None, 50)
    assert street.bid == BidView(5, MOMENT, is_gone=False, least=-50, greatest=-50, demand=-50, is_answered=True)
    assert street.price == PriceView(7, 2, 2, 5, MOMENT)
    assert street.passed == PriceView(7, 4, 4, None, MOMENT)
    assert (street.is_within, street.notes) == (True, ())


def of_block():
    """The village with the street and the house in the site `block`."""
    return village().state("street", "relay", "auctioneer", 1, None, 50, site="block").state("house", "device", "street", 1, site="block")


def states(told):
    return {node.name: (node.state, node.why) for node in told.view().nodes}


def test_the_nodes_of_a_site_are_down_as_their_site_is():
    alive = dict.fromkeys(("auctioneer", "street", "house", "store", "mill"), ("up", ""))
    assert states(of_block()) == alive, "a site of which nothing is told says nothing of its nodes"
    assert states(of_block().site("block")) == alive
    told = of_block().site("block", "down", why="the connection was lost", lost=True)
    lost = ("down", "the site block is down: the connection was lost")
    assert states(told) == {**alive, "street": lost, "house": lost}
    assert told.node("house").since == "2026-01-31T06:45:00.000Z"
    anew = ("down", "the site block has started anew, and the node not yet")
    assert states(of_block().site("block", run="1" * 16)) == {**alive, "street": anew, "house": anew}
    ended = of_block().state("house", "device", "street", 1, state="down", why="it is refused", site="block").site("block")
    assert states(ended) == {**alive, "house": ("down", "it is refused")}
    assert states(of_block().site("other", "down")) == alive


def test_a_state_of_a_site_that_is_none_is_listed_and_says_nothing():
    view = of_block().put("block/site", b'{"state": "away"}').view()
    assert [(told.topic, told.why) for told in view.not_taken] == [("market/block/site", "the state of the site is neither up nor down")]
    assert {node.state for node in view.nodes} == {"up"}


def test_a_price_is_that_of_its_step():
    told = village()
    told.messages |= Told(basis=Basis(-20, 70, 10)).messages
    assert told.node("street").price.price == 0
    assert told.node("street").passed.price == 20


@pytest.mark.parametrize(
    ("number", "demand", "is_answered"),
    [(3, 100, True), (4, 70, False), (9, 70, False)],
)
def test_a_bid_that_is_newer_than_the_price_is_not_answered(number, demand, is_answered):
    """The demand is then what the new bid says at the newest price. The power stays that of the setpoint."""
    told = village().bid("street", 1, number, *[demand] * 10)
    house = told.node("house")
    assert (house.bid.number, house.bid.demand, house.bid.is_answered) == (number, demand, is_answered)
    assert house.power == PowerView(100, "setpoint", 7, 7)


def test_a_bid_without_a_price_has_no_demand():
    told = village().without("street/price/1", "house/setpoint")
    house = told.node("house")
    assert house.bid == BidView(3, MOMENT, False, 100, 100, None, False)
    assert (house.price, house.power) == (None, None)
    assert told.node("street").power == PowerView(None, "sum", 7, 7, lacking=1)
    assert told.node("auctioneer").power == PowerView(None, "sum", 7, 7, lacking=1)
    assert told.node("street").is_within is None


def test_without_a_setpoint_the_answered_bid_tells_the_power():
    told = village().without("house/setpoint")
    assert told.node("house").power == PowerView(100, "bid", 7, 7)
    assert told.bid("street", 1, 4, *[70] * 10).node("house").power is None


def test_a_device_that_left_takes_no_part():
    told = village().gone("street", 1, 4).without("street/price/1", "house/setpoint")
    house = told.node("house")
    assert house.bid == BidView(4, MOMENT, True, None, None, None, False)
    assert house.power is None
    assert told.node("street").power == PowerView(-150, "sum", 7, 7)


def test_a_setpoint_that_stays_behind_a_gone_does_not_count():
    assert village().gone("street", 1, 4).node("house").power is None


def test_a_relay_of_which_all_devices_left_takes_no_power():
    """Then the sums above it are known too. A relay below which nobody has bid yet tells nothing."""
    told = village().gone("street", 1, 4).without("street/price/1", "house/setpoint")
    told.put("street/lapsed/2", b'{"number": 5, "why": "it is down", "time": "2026-01-31T06:30:00.000Z"}').without("store/setpoint")
    assert told.node("street").power == PowerView(0, "sum", None, None)
    assert told.node("auctioneer").power == PowerView(-60, "sum", 7, 7)
    assert told.without("street/bid/1", "street/bid/2", "street/price/2", "street/lapsed/2").node("street").power is None


def test_a_device_that_bids_nothing_takes_no_part():
    told = village().state("new", "device", "street", 9)
    assert told.node("new").power is None
    assert told.node("street").power == PowerView(-50, "sum", 7, 7)


def test_powers_of_two_clearings_are_told_as_such():
    """The store has not heard of clearing 7. Its sum with the house is of two clearings, and says nothing of the limits."""
    told = village().price("street", 2, 4, 6, 5).setpoint("store", -150, 4, 6, 5)
    assert told.node("street").power == PowerView(-50, "sum", 6, 7)
    assert told.node("street").is_within is None
    assert told.node("store").price.clearing == 6
    assert told.node("street").passed.clearing == 7


@pytest.mark.parametrize(
    ("floor", "ceiling", "is_within"),
    [(None, None, None), (-50, 0, True), (-49, 0, False), (None, 0, True), (-50, None, True), (-49, None, False)],
)
def test_limits(floor, ceiling, is_within):
    assert village().state("street", "relay", "auctioneer", 1, floor, ceiling).node("street").is_within is is_within


def test_above_the_ceiling():
    told = village().setpoint("house", 201, 3, 7, 4)
    assert told.node("street").power.power == 51
    assert told.node("street").is_within is False


def test_each_relay_has_the_sum_of_its_own():
    told = village().state("lane", "relay", "auctioneer", 3).bid("auctioneer", 3, 1, *[5] * 10).price("auctioneer", 3, 1, 7, 2)
    told.state("shop", "device", "lane", 1).bid("lane", 1, 1, *[5] * 10).price("lane", 1, 1, 7, 2).setpoint("shop", 5, 1, 7, 2)
    powers = {node.name: node.power.power for node in told.view().nodes}
    assert powers == {"auctioneer": -105, "street": -50, "house": 100, "store": -150, "mill": -60, "lane": 5, "shop": 5}


def test_a_page_of_a_relay_shows_its_children_by_their_numbers():
    told = village().without("house/state", "store/state", "mill/state", "auctioneer/bid/2", "auctioneer/price/2")
    told.without("house/setpoint", "store/setpoint", "mill/setpoint")
    view = told.view("street")
    assert [row(node) for node in view.nodes] == [
        ("auctioneer", 0, 2, 2, None, None),
        ("street", 1, 2, 4, -50, (-50, "sum", 7, 7)),
        (None, 2, 4, None, 100, (100, "bid", 7, 7)),
        (None, 2, 4, None, -150, (-150, "bid", 7, 7)),
    ]
    assert [(node.parent, node.child, node.sort, node.state) for node in view.nodes[2:]] == [("street", 1, None, None), ("street", 2, None, None)]


def test_a_page_of_a_device_adds_up_nothing_of_its_parent():
    told = village().without("store/state", "street/bid/2", "street/price/2", "store/setpoint")
    told.without("auctioneer/state", "auctioneer/bid/1", "auctioneer/price/1", "mill/state", "auctioneer/bid/2", "auctioneer/price/2")
    told.without("mill/setpoint")
    assert [row(node) for node in told.view("house").nodes] == [
        ("auctioneer", 0, None, None, None, None),
        ("street", 1, None, 4, None, None),
        ("house", 2, 4, None, 100, (100, "setpoint", 7, 7)),
    ]
    assert (told.view("house").price, told.view("house").clearing) == (None, 7)


BAD = [
    ("street/bid/1", b"", None),
    ("street/bid/1", b"\x02", "a Bid has 47 bytes in a market of 10 steps, and not 1"),
    ("street/bid/1", b"\x04", "it begins with the byte 4"),
    ("street/bid/1", Told().bid("x", 1, 9, *range(10)).messages["market/x/bid/1"].payload, "a demand is above the one of the step before"),
    ("street/bid/1", Told().bid("x", 2, 9, *[0] * 10).messages["market/x/bid/2"].payload, "it names child 2"),
    ("street/price/1", Told().price("x", 1, 3, 7, 10).messages["market/x/price/1"].payload, "the step is 10, and there are 10"),
    ("house/state", b"up", "the state is no JSON"),
    ("house/state", b"[]", "the state is no JSON object"),
    ("house/setpoint", b'{"power": "much"}', "the setpoint has no whole number power"),
    ("basis", b"{}", "the basis has no whole number min"),
]


@pytest.mark.parametrize(("below", "payload", "why"), BAD)
def test_a_bad_message_is_shown_as_such(below, payload, why):
    """An empty payload clears the topic, and is not bad. All other messages are shown as they were."""
    view = village().put(below, payload).view()
    assert [(topic.topic, topic.why[: len(why or "")]) for topic in view.not_taken] == ([] if why is None else [(f"market/{below}", why)])
    assert "mill" in [node.name for node in view.nodes]


def test_a_basis_without_prices_is_refused():
    basis = json.dumps({"min": 0, "max": 9, "steps": 1, "session": SESSION.id, "begun": SESSION.begun}).encode()
    view = village().put("basis", basis).view()
    assert [topic.topic for topic in view.not_taken] == ["market/basis"]
    assert (view.basis, view.session, view.price, view.clearing) == (None, None, None, None)


def test_before_the_basis_is_told_only_states_are_known():
    told = village().without("basis")
    assert {node.state for node in told.view().nodes} == {"up"}
    assert [node.bid or node.price or node.power for node in told.view().nodes] == [None] * 5
    assert told.view().not_taken == ()


def test_messages_of_another_session_are_not_taken():
    told = village().price("street", 1, 9, 90, 5, session=LATER.id).setpoint("store", 5, 4, 90, 5, session=LATER.id)
    view = told.view()
    why = f"it is of session {LATER.id} and not {SESSION.id}"
    assert view.not_taken == (NotTaken("market/store/setpoint", why), NotTaken("market/street/price/1", why))
    assert view.clearing == 7
    assert told.node("house").price is None
    assert told.node("store").power == PowerView(-150, "bid", 7, 7)


def test_a_node_whose_connection_was_lost_keeps_its_place():
    """The last will of a node was made before it knew its session."""
    house = village().state("house", "device", "street", 1, state="down", why="the connection was lost", session="").node("house")
    assert (house.state, house.bid.number, house.power.power) == ("down", 3, 100)


def test_a_node_of_an_earlier_session_loses_its_place():
    told = village().state("old", "device", "street", 1, state="down", session=LATER.id)
    assert told.node("old").notes == (f"it is in session {LATER.id}, and not in that of the market",)
    assert (told.node("old").bid, told.node("house").bid.number) == (None, 3)
    told.state("older", "device", "street", 1, state="down", session="")
    assert told.node("older").notes == ("its child number is also that of house",)
    assert told.node("house").bid.number == 3


def test_of_two_nodes_with_one_child_number_neither_has_the_bid():
    told = village().state("twin", "device", "street", 1)
    assert [told.node(name).bid for name in ("house", "twin")] == [None, None]
    assert told.node("house").notes == ("its child number is also that of twin",)
    assert len(told.view().nodes) == 6
    told.state("third", "device", "street", 1)
    assert told.node("third").notes == ("its child number is also that of house and 1 more",)


def test_a_node_of_the_version_before_has_no_place():
    told = village().state("house")
    assert told.node("house").notes == ("its version does not tell its place",)
    assert [row(node)[:2] for node in told.view().nodes if node.parent == "street"] == [(None, 2), ("store", 2)]


def test_a_ring_of_parents_ends():
    told = village().state("a", "relay", "b", 1).state("b", "relay", "a", 1).state("self", "relay", "self", 1)
    told.bid("a", 1, 1, *[1] * 10)
    names = [node.name for node in told.view().nodes]
    assert names == ["auctioneer", "street", "house", "store", "mill", "a", "b", "self"]
    assert [told.node(name).notes for name in ("a", "b", "self")] == [("it is below itself",), (), ("it is below itself",)]


def test_a_deep_tree():
    told = Told()
    for depth in range(3_000):
        told.state(f"r{depth}", "relay", f"r{depth - 1}" if depth else "root", 1)
    assert told.view().nodes[-1].depth == 3_000


def test_a_market_has_its_prefix_alone():
    told = Told("towns/delft").state("auctioneer", "auctioneer")
    told.messages |= village().messages | Told("towns/delft/old").state("other", "auctioneer").messages
    assert [node.name for node in told.view().nodes] == ["auctioneer"]


def test_the_topics_of_a_market():
    of = Topics("towns/delft").parts_of
    assert of("towns/delft/street/bid/256") == ("street", "bid", 256)
    assert of("towns/delft/street/state") == ("street", "state", None)
    for wrong in ("", "/basis", "/street/bid/257", "/street/state/", "//state", "/street/offer/1", "/basis/state"):
        assert of(f"towns/delft{wrong}") is None, wrong
    assert of("towns/other/street/state") is None


def test_the_json_has_the_members_of_the_page():
    told = village().bid("street", 1, 4, *falls_at(5, 300, -20)).view().to_json()
    again = json.loads(json.dumps(told))
    assert again["price"] == {"clearing": 7, "step": 2, "price": 2, "bid": None, "time": MOMENT}
    assert again["nodes"][2]["bid"] == {
        "number": 4,
        "time": MOMENT,
        "is_gone": False,
        "least": -20,
        "greatest": 300,
        "demand": 300,
        "is_answered": False,
    }


# Silence, lapses and alarms.


def test_a_device_that_is_let_go_counts_nowhere_until_it_bids_again():
    lapse = b'{"number": 5, "why": "by the word of an operator", "time": "2026-01-31T06:30:00.000Z"}'
    told = village().without("store/setpoint").put("street/lapsed/2", lapse)
    store, street = told.node("store"), told.node("street")
    assert (store.lapsed, store.why_lapsed, store.power) == (MOMENT, "by the word of an operator", None)
    assert (street.power.power, street.power.lacking) == (100, 0)
    told.bid("street", 2, 8, *falls_at(4, 0, -150))
    assert told.node("store").lapsed is None


def test_a_control_that_was_told_silence_takes_its_fallback():
    told = village().put("store/setpoint", b'{"market": "silent", "since": "2026-01-31T06:30:00.000Z", "power": -7, "why": "w"}')
    told.state("store", "device", "street", 2, silent=MOMENT)
    store, street = told.node("store"), told.node("street")
    assert (store.power.power, store.power.by, store.silent) == (-7, "fallback", MOMENT)
    assert street.power.power == 93


def test_an_alarm_is_shown():
    told = village().state("street", "relay", "auctioneer", 1, None, 50, alarm="no price brings the power within -5 to 50 W")
    assert told.node("street").alarm == "no price brings the power within -5 to 50 W"


@pytest.mark.parametrize("below", ["street/lapsed/2", "store/setpoint"])
def test_a_lapse_or_a_silence_that_is_none_is_told(below):
    told = village().put(below, b'{"market": "silent", "number": "5"}')
    assert [topic.topic for topic in told.view().not_taken] == [f"market/{below}"]
