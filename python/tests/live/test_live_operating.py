"""What an operator's word brings about, over a real broker and a pretended parent."""

from __future__ import annotations

import pytest
from brokers import SECONDS, Mosquitto, Onlooker, require_broker
from pretended import numbers, relay_resume

from cogmaula.live import LiveError
from cogmaula.live.messages.messages import LapseMessage, SiteMessage, StateMessage
from cogmaula.live.broker.operating import drop
from cogmaula.live.node.sessions import now_text
from cogmaula.live.node.node_settings import BrokerSettings


class Street:
    """A parent that answers a drop of child 1: it tells the lapse under 3 and clears it, and makes a sum with a number of the child."""

    def __init__(self, looking, number):
        state = StateMessage("up", "run", now_text(), "session", now_text(), "", "relay", "auctioneer", 1, None, None, "", "", starts=1)
        looking.publish("market/street/state", state.to_bytes())
        looking.publish("market/street/resume", relay_resume(4, 0, 0, numbers((1, 2))).to_bytes())
        lapse = LapseMessage(3, "by the word of an operator", now_text()).to_bytes()
        told = [("lapsed/1", lapse), ("lapsed/1", b""), ("resume", relay_resume(5, 0, 0, numbers((1, number))).to_bytes())]
        looking.client.on_message = lambda client, *_: [client.publish(f"market/street/{what}", payload, 1, True) for what, payload in told]


@pytest.mark.parametrize("number", [3, 6], ids=["gone", "back"])
def test_a_device_that_is_back_at_once_was_let_go(tmp_path, number):
    """The parent tells the lapse and clears it in one breath, since the device lives and bids anew."""
    require_broker()
    with Mosquitto(tmp_path) as broker, Onlooker(broker.port, "market/street/drop/1") as looking:
        Street(looking, number)
        told = drop(BrokerSettings(port=broker.port), "street", 1, SECONDS)
    assert told == "child 1 of street is let go as of number 3: by the word of an operator"


def test_a_drop_fails_if_the_parent_counts_the_child_still(tmp_path):
    """It says so, and its sum has bid 2 as before."""
    require_broker()
    with Mosquitto(tmp_path) as broker, Onlooker(broker.port, "market/street/drop/1") as looking:
        Street(looking, 2)
        with pytest.raises(LiveError, match=r"street has let child 1 go as of number 3, and in 2 s it made no sum without it"):
            drop(BrokerSettings(port=broker.port), "street", 1, 2.0)


def test_a_parent_whose_site_is_down_is_down(tmp_path):
    """Its own state, which it told before its process died, says that it is up."""
    require_broker()
    state = StateMessage("up", "run", now_text(), "session", now_text(), "", "relay", "auctioneer", 1, starts=1, site="block")
    down = SiteMessage("down", "run", now_text(), now_text(), "the connection was lost", lost=True)
    with Mosquitto(tmp_path) as broker, Onlooker(broker.port, "market/street/drop/1") as street:
        street.publish("market/street/state", state.to_bytes())
        street.publish("market/block/site", down.to_bytes())
        with pytest.raises(LiveError, match=r"street is down \(the site block is down: the connection was lost\): start it first"):
            drop(BrokerSettings(port=broker.port), "street", 1, SECONDS)
        assert street.all == [], "nothing was said to it"
