"""Heartbeats, and what a control is told while no heartbeat comes. Seconds are by hand."""

from __future__ import annotations

import fcntl
import json
from datetime import datetime, timedelta, timezone

import pytest
from pretended import BASIS_TOPIC, MARKED, basis_payload, bid, device_resume, price, resume_gone, saved

from cogmaula.live.messages.frames import Setpoint
from cogmaula.live.messages.messages import BasisMessage
from cogmaula.live.node.sessions import time_of, time_text
from cogmaula.live.node.silence import Heartbeat, Silence
from cogmaula.live.node.market_times import Times

TIMES = Times(validity=100, heartbeat=25, grace=125)
NOW = datetime(2026, 1, 31, 6, 30, tzinfo=timezone.utc)


def at(seconds):
    return time_text(NOW + timedelta(seconds=seconds))


def ago(seconds):
    """The time so many seconds ago, by the clock of this machine."""
    return time_text(datetime.now(timezone.utc) - timedelta(seconds=seconds))


def seconds_to(text):
    """How many seconds from now a time of this machine is."""
    return (time_of(text) - datetime.now(timezone.utc)).total_seconds()


def heartbeat(count, time=None, start=1):
    """The message of a heartbeat. The time is that of the auctioneer's clock."""
    return json.dumps({"time": time or at(count), "start": start, "count": count}).encode()


def begun():
    one = Silence()
    one.begin(TIMES, 1000.0)
    return one


def test_silence_begins_validity_after_the_newest_heartbeat():
    one = begun()
    assert one.hear(Heartbeat(1, 1, at(0)), 1010.0, retained=False)
    assert not one.is_silent(1109.9, renews=False)
    assert one.is_silent(1110.0, renews=False)
    assert -1 < seconds_to(one.since) <= 0
    assert 29 < seconds_to(one.until(1080.0, renews=False)) <= 30


# When a bid was sent that the broker had confirmed before a heartbeat came at 1050, and the seconds that a setpoint told at 1080 holds. Messages
# may take half a heartbeat, 12.5 s: a later bid may not have reached the parent when it sent that heartbeat.
RENEWED = {"well before the heartbeat": (1037.5, 57.5), "just before the heartbeat": (1037.6, 20)}


@pytest.mark.parametrize(("renewed", "holds"), RENEWED.values(), ids=RENEWED)
def test_a_setpoint_holds_no_longer_than_the_bid_was_renewed(renewed, holds):
    one = begun()
    one.renewed(renewed)
    one.hear(Heartbeat(1, 1, at(0)), 1050.0, retained=False)
    assert one.holds(1080.0, renews=True) == pytest.approx(holds)
    assert holds - 1 < seconds_to(one.until(1080.0, renews=True)) <= holds
    assert not one.is_silent(1080.0 + holds - 0.1, renews=True)
    assert one.is_silent(1080.0 + holds, renews=True)
    one.hear(Heartbeat(1, 2, at(0)), 1075.0, retained=False)
    assert one.holds(1080.0, renews=True) == pytest.approx(min(renewed, 1075.0) + 100 - 1080)


# Of each heartbeat that comes after start 3, count 7: its start, its count and what the auctioneer's clock adds to the first one's time.
NEWER = {"the next one": (3, 8, 25), "the clock was set back": (3, 8, -86_400), "a start with a clock that is behind": (4, 1, -86_400)}
OLDER = {"the same one": (3, 7, 0), "an older one with a later time": (3, 6, 86_400), "one of an earlier start": (2, 900, 86_400)}


@pytest.mark.parametrize(
    ("start", "count", "later", "is_newer"),
    [*((*row, True) for row in NEWER.values()), *((*row, False) for row in OLDER.values())],
    ids=[*NEWER, *OLDER],
)
def test_counts_and_no_clock_say_which_heartbeat_is_new(start, count, later, is_newer):
    one = begun()
    one.hear(Heartbeat(3, 7, at(0)), 1010.0, retained=False)
    assert one.hear(Heartbeat(start, count, at(later)), 1050.0, retained=False) == is_newer
    assert one.is_silent(1110.0, renews=False) != is_newer
    assert one.is_silent(1150.0, renews=False)


# How old a first heartbeat of the broker is that says so many seconds ago, and one that comes 40 s after another one was heard.
KEPT = {"in time": (30, 30, 30), "from a clock that is ahead": (-500, 0, 0), "from a clock that is behind": (500, 500, 40)}


@pytest.mark.parametrize(("said", "first", "later"), KEPT.values(), ids=KEPT)
def test_a_heartbeat_that_the_broker_had_kept_is_no_older_than_the_one_before_it(said, first, later):
    one = begun()
    one.hear(Heartbeat(1, 8, ago(said)), 1050.0, retained=True)
    assert 1050 - one.heard == pytest.approx(first, abs=1)
    one = begun()
    one.hear(Heartbeat(1, 7, at(0)), 1010.0, retained=False)
    one.hear(Heartbeat(1, 8, ago(said)), 1050.0, retained=True)
    assert 1050 - one.heard == pytest.approx(later, abs=1)


def test_a_bid_whose_renewal_the_broker_does_not_confirm_counts_as_silence():
    one = begun()
    one.renewed(1010.0)
    one.hear(Heartbeat(1, 1, at(25)), 1050.0, retained=False)
    assert not one.is_silent(1109.9, renews=True)
    assert one.is_silent(1110.0, renews=True)
    assert not one.is_silent(1110.0, renews=False)


def test_a_device_that_was_let_go_is_silent_until_a_clearing_counts_it():
    one = begun()
    one.let_go(5, "let go")
    assert one.is_silent(1001.0, renews=True)
    one.counts(4)
    assert one.is_silent(1001.0, renews=True), "that price is of the bid before"
    one.counts(8)
    assert not one.is_silent(1001.0, renews=True)


# Nodes with their parts pretended.


def beat(node):
    return [json.loads(message)["count"] for message in node.link.of(f"market/{node.node.settings.name}/heartbeat")]


def passes(one, seconds):
    """Lets so many seconds pass for what the node knows of heartbeats and of its renewals."""
    beating = one.node.serving.beating
    beating.silence.heard -= seconds
    beating.silence._renewed -= seconds
    beating.silence._confirmed = [sent - seconds for sent in beating.silence._confirmed]
    beating._sent -= seconds
    beating._next -= seconds
    one.turned()


def test_the_auctioneer_makes_heartbeats_and_tells_the_times_with_the_basis(joined):
    one = joined("auctioneer", validity=100.0).begun()
    assert BasisMessage.of(one.link.newest[BASIS_TOPIC].payload).times == TIMES
    assert len(beat(one)) == 1
    passes(one, 24)
    assert len(beat(one)) == 1
    passes(one, 2)
    assert len(beat(one)) == 2


def test_heartbeats_of_an_auctioneer_whose_clock_was_set_back_are_new_to_all(joined, monkeypatch):
    """Its clock goes back by a day while it runs, and by another one at its next start. A relay and a device below it hear each one."""
    first = joined("auctioneer", validity=100.0).begun()
    monkeypatch.setattr("cogmaula.live.node.heartbeat_sender.now_text", lambda: ago(86_400))
    passes(first, 26)
    # The folder is free for the next start, as if the process had ended.
    fcntl.flock(first.node._store._lock, fcntl.LOCK_UN)
    second = joined("auctioneer", validity=100.0)
    # What the broker retains of the session.
    for topic in ("market/basis", "market/auctioneer/resume", "market/auctioneer/state"):
        if topic in first.link.newest:
            second.link.comes(topic, first.link.newest[topic].payload, first.link.newest[topic].properties, retained=True)
    monkeypatch.setattr("cogmaula.live.node.heartbeat_sender.now_text", lambda: ago(2 * 86_400))
    second.link.settles()
    second.turned()
    # After a connection was made, the newest of all is published again.
    beats = list(dict.fromkeys([*first.link.of("market/auctioneer/heartbeat"), *second.link.of("market/auctioneer/heartbeat")]))
    relay = joined("relay").begun()
    for payload in beats:
        relay.link.comes("market/auctioneer/heartbeat", payload)
        relay.turned()
    assert relay.link.of("market/street/heartbeat") == beats
    device = begun()
    heard = [device.hear(Heartbeat.of(payload), 1000.0 + 90 * at, retained=False) for at, payload in enumerate(beats)]
    assert heard == [True, True, True]
    assert not device.is_silent(1279.0, renews=False)


def test_an_auctioneer_without_a_service_makes_none(joined):
    one = joined("auctioneer").begun()
    one.service.ends()
    one.turned()
    passes(one, 60)
    assert len(beat(one)) == 1


def test_a_relay_passes_a_heartbeat_on_as_it_came_while_its_service_works(joined):
    one = joined("relay").begun()
    one.link.comes("market/auctioneer/heartbeat", heartbeat(1))
    one.turned()
    assert beat(one) == [1]
    one.service.ends()
    one.turned()
    one.link.comes("market/auctioneer/heartbeat", heartbeat(30))
    one.turned()
    assert beat(one) == [1]
    passes(one, 31)
    one.node.serving._restart_at = 0
    one.turned()
    assert one.service is not None
    assert beat(one) == [1], "one that waited for longer than a heartbeat says nothing of the path"


NONE = [b"nonsense", b"{}", heartbeat(1, "noon"), heartbeat(-1, at(0)), heartbeat(True, at(0)), json.dumps({"time": at(0)}).encode()]


@pytest.mark.parametrize("payload", NONE)
def test_a_heartbeat_that_is_none_is_told(joined, payload):
    one = joined("relay").begun()
    one.link.comes("market/auctioneer/heartbeat", payload)
    one.turned()
    assert any("market/auctioneer/heartbeat is not taken" in line for line in one.said)
    assert beat(one) == []


def with_setpoint(joined, **more):
    """A device with a bid and a setpoint, whose broker has confirmed all."""
    one = joined("device", **more)
    one.link.comes(BASIS_TOPIC, basis_payload(times=TIMES))
    one.link.confirms = True
    one.link.settles()
    one.turned()
    one.control.offer(b'{"power": [500, -300]}')
    one.turned()
    one.writes(device_resume(2, 0, (500, -300)), bid(2, 2, 500, -300))
    one.link.comes("market/street/heartbeat", heartbeat(1))
    one.link.comes("market/street/price/2", price(2, 2, 7, 1).to_bytes())
    one.turned()
    one.writes(Setpoint(2, 7, 1, -300), device_resume(2, 7, (500, -300)))
    return one


def told(one):
    return [json.loads(message) for message in one.control.told]


def test_each_heartbeat_says_anew_until_when_the_setpoint_holds(joined):
    """The clock of this machine says it, whatever that of the auctioneer says."""
    one = with_setpoint(joined)
    passes(one, 40)
    one.link.comes("market/street/price/2", price(2, 2, 8, 0).to_bytes())
    one.turned()
    one.writes(Setpoint(2, 8, 0, 500), device_resume(2, 8, (500, -300)))
    # The renewal of just now may not have reached the parent when it sent this heartbeat. With the one after it, it counts.
    one.link.comes("market/street/heartbeat", heartbeat(2, at(-86_400)))
    one.turned()
    passes(one, 15)
    one.link.comes("market/street/heartbeat", heartbeat(3, at(-86_400)))
    one.turned()
    assert [(message["power"], message["clearing"]) for message in told(one)] == [(-300, 7), (500, 8), (500, 8), (500, 8)]
    assert [message["holds"] for message in told(one)] == pytest.approx([100, 60, 60, 85], abs=5)
    assert [seconds_to(message["until"]) for message in told(one)] == pytest.approx([100, 60, 60, 85], abs=5)
    assert one.link.newest["market/house/setpoint"].payload == one.control.told[-1]


def test_a_control_is_told_silence_with_its_fallback_once_and_then_that_the_market_is_back(joined):
    one = with_setpoint(joined, fallback=-100)
    passes(one, 99)
    assert len(told(one)) == 1
    passes(one, 2)
    passes(one, 50)
    (silent,) = told(one)[1:]
    since = silent.pop("since")
    assert silent == {"market": "silent", "power": -100, "why": "no heartbeat of the auctioneer came for 100 s"}
    assert seconds_to(since) == pytest.approx(0, abs=5), "when it was heard, by the clock of this machine"
    assert one.link.newest["market/house/setpoint"].payload == one.control.told[-1]
    one.link.confirm()
    one.link.comes("market/street/heartbeat", heartbeat(200))
    one.turned()
    one.link.confirm()
    one.turned()
    back, setpoint = told(one)[2:]
    assert (back["market"], setpoint["power"], setpoint["clearing"]) == ("live", -300, 7)
    # By the renewal of 52 s before, which the parent had heard when it sent the heartbeat.
    assert [seconds_to(back["since"]), seconds_to(setpoint["until"])] == pytest.approx([0, 48], abs=5)
    states = [json.loads(message)["silent"] for message in one.link.of("market/house/state")]
    assert since in states
    assert states[-1] is None


def test_a_price_that_comes_during_silence_is_kept_and_not_told(joined):
    one = with_setpoint(joined)
    passes(one, 101)
    one.link.comes("market/street/price/2", price(2, 2, 8, 0).to_bytes())
    one.turned()
    one.writes(Setpoint(2, 8, 0, 500), device_resume(2, 8, (500, -300)))
    assert [message.get("market") for message in told(one)] == [None, "silent"]
    assert one.node._store.newest().setpoint.clearing == 8


def test_a_control_that_has_not_offered_is_told_nothing(joined):
    one = joined("device").begun()
    passes(one, 500)
    assert one.control.told == []


def test_a_device_renews_its_bid_as_it_is_and_a_gone_one_not(joined):
    one = with_setpoint(joined)
    assert len(one.link.of("market/street/bid/2")) == 1
    passes(one, 26)
    passes(one, 10)
    assert one.link.of("market/street/bid/2") == [bid(2, 2, 500, -300).to_bytes()] * 2
    properties = [publication.properties for publication in one.link.sent if publication.topic == "market/street/bid/2"]
    assert properties[0] == properties[1]
    one.writes(resume_gone(4, 7))
    assert dict(properties[0])["valid"] == "125"
    assert dict(MARKED)["version"] == dict(properties[0])["version"]


def test_a_first_bid_long_after_the_start_is_no_silence(joined):
    one = joined("device").begun()
    one.node.serving.beating.silence._renewed -= 500
    one.control.offer(b'{"power": [500, -300]}')
    one.turned()
    one.writes(device_resume(2, 0, (500, -300)), bid(2, 2, 500, -300))
    assert told(one) == []
    passes(one, 119)
    assert told(one) == []
    passes(one, 2)
    assert [message["market"] for message in told(one)] == ["silent"]


def test_a_node_that_waits_for_its_market_is_silent_after_a_while_and_not_before(joined):
    one = joined("device", fallback=3)
    one.control.offer(b'{"power": [500, -300]}')
    one.turned()
    assert told(one) == []
    passes(one, 121)
    assert [(message["market"], message["power"]) for message in told(one)] == [("silent", 3)]


def test_a_relay_says_that_it_is_silent(joined):
    one = joined("relay").begun()
    passes(one, 500)
    assert json.loads(one.link.of("market/street/state")[-1])["silent"] is not None


def test_an_auctioneer_is_never_silent(joined):
    one = joined("auctioneer").begun()
    passes(one, 500)
    assert json.loads(one.link.of("market/auctioneer/state")[-1])["silent"] is None


def test_a_device_that_starts_in_a_dead_market_is_told_silence_and_not_its_setpoint(joined, tmp_path):
    saved(tmp_path, "device", "house", device_resume(2, 7, (500, -300)), setpoint=b'{"power": -300, "step": 1, "price": 9, "bid": 2, "clearing": 2, "time": "t"}')
    one = joined("device").begun(("market/street/heartbeat", heartbeat(1, at(-900))))
    assert [message.get("market") for message in told(one)] == ["silent"]
    assert told(one)[0]["since"] == at(-900)
