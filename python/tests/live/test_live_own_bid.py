"""A relay's last Bid: it is stored with its Resume in one write, and sent again after each start."""

from __future__ import annotations

import pytest
from pretended import BASIS_TOPIC, MARKED, basis_payload, bid, numbers, price, relay_resume, saved

from cogmaula.live import LiveError

RESUME, OWN = relay_resume(1, 0, 0, numbers((1, 2))), bid(3, 1, 21, -3)
TOPIC = "market/auctioneer/bid/3"


def settled(joined, *retained):
    """The street on a broker that retains these messages, and has confirmed nothing but its state and its Resume."""
    one = joined("relay")
    one.link.comes(BASIS_TOPIC, basis_payload())
    for topic, payload, properties in retained:
        one.link.comes(topic, payload, properties, retained=True)
    one.link.settles()
    return one.turned()


def copy_with(own):
    """The broker's copy of the Resume, with this Bid beside it."""
    return "market/street/resume", RESUME.to_bytes(), (*MARKED, ("bid", own))


@pytest.mark.parametrize("where", ["disk", "broker"])
def test_the_stored_bid_is_sent_again_and_confirmed_before_the_relay_is_asked(joined, tmp_path, where):
    if where == "disk":
        saved(tmp_path, "relay", "street", RESUME, bid=OWN.to_bytes())
    one = settled(joined, *([] if where == "disk" else [copy_with(OWN.to_bytes().hex())]))
    assert set(one.link.of(TOPIC)) == {OWN.to_bytes()}
    assert dict(one.link.newest["market/street/resume"].properties)["bid"] == OWN.to_bytes().hex()
    assert one.service is None
    one.link.confirm()
    one.turned()
    assert one.service.read[0] == RESUME.to_bytes()


WRONG = ["", "zz", bid(3, 2, 21, -3).to_bytes().hex(), bid(4, 1, 21, -3).to_bytes().hex(), OWN.to_bytes().hex()[:-2]]


@pytest.mark.parametrize("own", WRONG, ids=["none", "no hex", "other number", "other child", "cut"])
def test_a_resume_alone_or_beside_another_bid_is_read_alone(joined, own):
    """A version before told none."""
    one = settled(joined, copy_with(own))
    assert one.link.of(TOPIC) == []
    assert one.service.read[0] == RESUME.to_bytes()


def test_a_new_number_and_its_bid_are_of_one_write_before_the_bid_is_sent(joined, monkeypatch):
    one = joined("relay").begun(("market/street/bid/1", bid(1, 2, 21, -3).to_bytes()))
    done, save = [], one.node._store.save
    monkeypatch.setattr(one.node._store, "save", lambda stored: (done.append((stored.frame, stored.bid, one.link.of(TOPIC))), save(stored)))
    one.writes(RESUME)
    assert done == [], "the service has not written all of its answer"
    one.writes(OWN)
    assert done == [(RESUME.to_bytes(), OWN.to_bytes(), [])]
    assert one.link.of(TOPIC) == [OWN.to_bytes()]
    after = relay_resume(1, 1, 7, numbers((1, 2)))
    one.writes(price(1, 2, 7, 1), after)
    one.link.confirm()
    one.turned()
    assert done[1][:2] == (after.to_bytes(), OWN.to_bytes()), "a price changes the Resume alone"


def test_a_service_that_ends_behind_a_new_number_has_given_none(joined):
    one = joined("relay").begun()
    one.writes(RESUME)
    one.service.ends()
    one.turned()
    assert one.stored() is None


@pytest.mark.parametrize("behind", [bid(3, 2, 21, -3), RESUME], ids=["other number", "other frame"])
def test_a_new_number_without_its_bid_ends_the_node(joined, behind):
    one = joined("relay").begun()
    with pytest.raises(LiveError, match="a Resume of number 1 without the Bid behind it: is it the program live of this version"):
        one.writes(RESUME, behind)
