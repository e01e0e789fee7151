"""A node over a pretended connection and service: what it keeps of its children, and what clocks, sessions and disks do to it."""

from __future__ import annotations

import hashlib
import json
import os
import sys
import time
from datetime import datetime, timedelta, timezone

import pytest
from logged import QUIET
from pretended import (
    BASIS_TOPIC,
    LATER,
    MARKED,
    MOMENT,
    SESSION,
    basis_payload,
    bid,
    device_resume,
    numbers,
    relay_resume,
    resume_gone,
    saved,
    state_payload,
)

from cogmaula import clock
from cogmaula.live import BadSettings, NodeRefused
from cogmaula.live.children import kept_bids
from cogmaula.live.page.board import Board
from cogmaula.live.broker.broker_link import Message
from cogmaula.live.children.children import Heard
from cogmaula.live.messages.frames import Leave, NotCaughtUp, NotChanged, Offer, Send, Setpoint
from cogmaula.live.messages.messages import LOST
from cogmaula.live.page.page_settings import PageSettings
from cogmaula.live.node.safely import Folder
from cogmaula.live.broker.market_reader import Reader
from cogmaula.live.node.sessions import now_text, time_text
from cogmaula.live.node.node_settings import BrokerSettings, ChildSettings
from cogmaula.live.node.silence import Heartbeat
from cogmaula.live.messages.topics import Topics

OF_HOUSE = (*MARKED, ("sort", "device"), ("node", "house"), ("valid", "150"))
FIRST = bid(1, 4, 100, -3)
RELAY_RESUME = relay_resume(1, 0, 0, numbers((1, 4), (2, 2)))


def retained_bids(one):
    one.link.comes("market/street/bid/1", FIRST.to_bytes(), OF_HOUSE, retained=True)
    one.link.comes("market/street/bid/2", bid(2, 2, 16, 0).to_bytes(), OF_HOUSE, retained=True)
    return one.turned()


def ends(one):
    """Ends a node, and lets go of its disk."""
    one.node.serving.end("stopped")
    one.node._store.close()
    one.node._store._lock = os.open(os.devnull, os.O_RDONLY)


def with_sum(joined, **more):
    """A street that has bid the sum of two children, and ended."""
    one = retained_bids(joined("relay", **more).begun())
    one.writes(NotChanged())
    time.sleep(0.02)
    one.link.comes("market/street/bid/2", bid(2, 4, 17, 0).to_bytes(), OF_HOUSE)
    one.turned()
    assert one.service.read[-1] == Send().to_bytes()
    one.writes(relay_resume(1, 0, 0, numbers((1, 4), (2, 4))), bid(3, 1, 117, -3))
    return one


# Bids of children on the disk of their parent.


def test_the_bids_of_a_sum_are_on_disk_before_its_resume_and_are_fed_after_a_restart(joined, monkeypatch):
    done = []
    make_safe = kept_bids.BidLog.make_safe
    monkeypatch.setattr(kept_bids.BidLog, "make_safe", lambda frames, told: (done.append(sorted(told)), make_safe(frames, told)))
    one = joined("relay")
    save = one.node._store.save
    monkeypatch.setattr(one.node._store, "save", lambda stored: (done.append("resume") if stored.frame else None, save(stored)))
    retained_bids(one.begun())
    one.writes(RELAY_RESUME, bid(3, 1, 116, -3))
    assert done == [[1, 2], "resume"]
    ends(one)
    again = joined("relay").begun()
    assert again.service.read[:3] == [RELAY_RESUME.to_bytes(), FIRST.to_bytes(), bid(2, 2, 16, 0).to_bytes()]
    assert again.node.serving.session.letting.lapses._children.keys() == {1, 2}, "a child that stays away is let go after grace"


def test_a_bid_of_after_the_question_is_not_in_its_sum(joined):
    one = retained_bids(joined("relay").begun())
    one.link.comes("market/street/bid/1", bid(1, 6, 900, -3).to_bytes(), OF_HOUSE)
    one.turned()
    one.writes(RELAY_RESUME, bid(3, 1, 116, -3))
    ends(one)
    assert joined("relay").begun().service.read[1] == FIRST.to_bytes()


HEARD = [Heard(bid(1, number, number, 0), "device", "house", 150.0) for number in (2, 4, 6)]


@pytest.mark.parametrize("change", [lambda data: data[:-1], lambda data: data[:-9] + b"x" + data[-8:], lambda data: data + b"half a li"])
def test_a_cut_or_damaged_line_ends_the_file_and_it_goes_on_behind_the_whole_ones(tmp_path, change):
    log = kept_bids.BidLog(Folder(tmp_path), 2)
    assert log.begin(SESSION) == []
    for heard in HEARD:
        log.make_safe({1: heard})
    log.close()
    (path,) = tmp_path.glob("*.bids")
    path.write_bytes(change(path.read_bytes()))
    found = log.begin(SESSION)
    assert found in ([HEARD[1]], [HEARD[2]])
    log.make_safe({1: HEARD[2]})
    log.close()
    assert log.begin(SESSION) == [HEARD[2]]
    assert log.begin(LATER) == []
    log.close()


def test_the_file_of_bids_does_not_grow_without_end(tmp_path, monkeypatch):
    monkeypatch.setattr(kept_bids, "SPARE", 8)
    log = kept_bids.BidLog(Folder(tmp_path), 2)
    log.begin(SESSION)
    for number in range(2, 80, 2):
        log.make_safe({1: Heard(bid(1, number, 5, 0), "device", "house", 150.0)})
    (path,) = tmp_path.glob("*.bids")
    assert path.read_bytes().count(b"\n") <= 2 + kept_bids.SPARE
    log.close()
    assert log.begin(SESSION)[0].frame.number == 78
    log.close()


def test_a_bid_that_the_file_has_is_not_added_again(tmp_path):
    """Neither the same one, nor an equal one that was heard again."""
    log = kept_bids.BidLog(Folder(tmp_path), 2)
    log.begin(SESSION)
    same = Heard(bid(1, 2, 5, 0), "device", "house", 150.0)
    for heard, lines in ((same, 1), (same, 1), (Heard(bid(1, 2, 5, 0), "device", "house", 150.0), 1), (Heard(bid(1, 4, 5, 0), "device", "house", 150.0), 2)):
        log.make_safe({1: heard})
        (path,) = tmp_path.glob("*.bids")
        assert path.read_bytes().count(b"\n") == lines
    log.close()


@pytest.mark.parametrize("where", ["", "restarts", "moves"])
def test_a_number_is_of_one_bid_alone(joined, where, tmp_path):
    """A child repeats its number with other demands. In a relay that restarts they would stand for what it has sent."""
    one = with_sum(joined)
    if where:
        ends(one)
        if where == "moves":
            (tmp_path / "relay").rename(tmp_path / "other machine")
        copy = one.link.newest["market/street/resume"]
        one = joined("relay")
        one.link.comes(BASIS_TOPIC, basis_payload())
        one.link.comes("market/street/resume", copy.payload, copy.properties, retained=True)
        one.link.settles()
        one.turned()
        one.link.confirm()
        one.turned()
    assert "1:4:" in dict(one.link.newest["market/street/resume"].properties)["bids"]
    other = bid(1, 4, 3_000, -3).to_bytes()
    for _ in range(2):
        one.link.comes("market/street/bid/1", other, OF_HOUSE)
        one.turned()
    assert other not in one.service.read
    told = [line for line in one.said if "market/street/bid/1 has number 4 once more with another bid: it is not taken" in line]
    assert len(told) == 1
    one.link.comes("market/street/bid/1", FIRST.to_bytes(), OF_HOUSE)
    one.turned()
    assert FIRST.to_bytes() in one.service.read, "its own bid of this number counts"


def test_a_relay_that_waits_says_so_in_its_state_with_whom_it_waits_for(joined, tmp_path):
    saved(tmp_path, "relay", "street", RELAY_RESUME)
    one = joined("relay").begun(("market/street/bid/1", FIRST.to_bytes()))
    one.writes(NotCaughtUp())
    told = json.loads(one.link.of("market/street/state")[-1])
    assert told["alarm"] == "waits for the bids of children 2, which were in the newest sum"
    one.writes(NotChanged())
    assert json.loads(one.link.of("market/street/state")[-1])["alarm"] == ""


def test_the_newest_bid_of_a_child_waits_until_its_pause_is_over(joined):
    one = joined("relay", children=(ChildSettings(1, pause=60.0), ChildSettings(2))).begun()
    one.service.read.clear()
    for number in (2, 4, 6):
        for child in (1, 2):
            one.link.comes(f"market/street/bid/{child}", bid(child, number, number, 0).to_bytes(), OF_HOUSE)
        one.turned()
    fed = [frame for frame in one.service.read if frame != Send().to_bytes()]
    assert fed == [bid(1, 2, 2, 0).to_bytes(), *[bid(2, number, number, 0).to_bytes() for number in (2, 4, 6)]]
    one.node.serving.session.letting._not_before[1] -= 61
    one.turned()
    assert bid(1, 6, 6, 0).to_bytes() in one.service.read
    assert bid(1, 4, 4, 0).to_bytes() not in one.service.read


def test_a_child_is_what_the_file_of_its_parent_says(joined):
    one = joined("relay", children=(ChildSettings(1, sort="device"),)).begun()
    one.link.comes("market/street/bid/1", FIRST.to_bytes(), (*MARKED, ("sort", "relay"), ("node", "house")))
    one.turned()
    assert one.node.serving.session.letting._is_device(1)
    assert one.node._store.newest() is None or one.node._store.newest().relays == ()


def test_a_child_that_names_many_nodes_lets_few_topics_be_read(joined):
    one = joined("relay").begun()
    for number in range(20):
        one.link.comes("market/street/bid/1", bid(1, 2 + 2 * number, 5, 0).to_bytes(), (*MARKED, ("sort", "device"), ("node", f"n{number}")))
        one.turned()
    assert len([topic for topic in one.link.topics if topic.startswith("market/n")]) == 4


# What the broker retains, again.


def test_after_a_pause_all_is_read_again_and_it_is_no_news(joined):
    one = retained_bids(joined("relay").begun())
    node, now = one.node, clock.now()
    node._read_again(now)
    assert one.link.readings == 0
    node._read_again(now + 5)
    node._read_again(now + 6.1)
    assert one.link.readings == 1
    node._read_again(now + 7)
    one.link.has_lost = True
    node._read_again(now + 8)
    one.link.has_lost = False
    node._read_again(now + 9.1)
    assert one.link.readings == 2
    heard, count = node.serving.session.letting.lapses._children[1].heard, len(one.service.read)
    node.serving.session.letting.lapses._children[1].heard -= 60
    retained_bids(one)
    assert node.serving.session.letting.lapses._children[1].heard == heard - 60, "the child may be dead"
    assert len(one.service.read) == count


# Clocks.


@pytest.mark.parametrize(("why", "lost"), [(LOST, True), ("stopped", False)])
@pytest.mark.parametrize("has_disk", [True, False])
def test_a_clock_that_is_behind_at_boot_stops_no_node(joined, tmp_path, why, lost, has_disk):
    """The process before started tomorrow, by the clock of then. Its state is retained, and maybe its disk is there."""
    if has_disk:
        saved(tmp_path, "device", "house", device_resume(4, 2, (5, -3)))
        (tmp_path / "device" / "starts").write_text("7")
    before = state_payload("b" * 16, "2126-01-31T06:30:00.000Z", "down", why, starts=7, lost=lost)
    one = joined("device").begun(("market/house/state", before), ("market/house/resume", device_resume(4, 2, (5, -3)).to_bytes()))
    assert one.service is not None
    assert json.loads(one.link.of("market/house/state")[-1])["starts"] == 8
    assert (tmp_path / "device" / "starts").read_text() == "8"
    one.link.comes("market/house/state", state_payload("c" * 16, MOMENT, "down", "stopped", starts=9))
    one.turned()
    one.link.comes("market/house/state", state_payload("c" * 16, MOMENT, starts=9))
    with pytest.raises(NodeRefused, match="another process runs as house"):
        one.turned()


# Sessions and offers.

OFFER = b'{"power": [500, -300]}'


def ends_session(one):
    one.link.comes(BASIS_TOPIC, basis_payload(LATER))
    return one.turned()


@pytest.mark.parametrize("by", ["topic", "control"])
def test_a_later_session_takes_the_offer_along_and_tells_the_control(joined, by):
    one = joined("device", offer_validity=100).begun()
    if by == "topic":
        one.link.comes("market/house/offer", OFFER, retained=True)
    else:
        one.control.offer(OFFER)
    one.turned()
    one.writes(device_resume(2, 0, (500, -300)), bid(2, 2, 500, -300))
    until = one.node.serving.offers._until
    ends_session(one)
    assert one.service.read == [b"", Offer((500, -300)).to_bytes()]
    assert one.node.serving.offers._until == until, "the control said nothing meanwhile"
    due = {"market": "new session", "session": LATER.id, "begun": LATER.begun}
    assert json.loads(one.control.told[-1]) == due
    assert json.loads(one.link.newest["market/house/setpoint"].payload) == due


def test_a_later_session_takes_no_offer_along_that_has_ended(joined):
    one = joined("device", offer_validity=100).begun(("market/house/offer", OFFER))
    one.writes(device_resume(2, 0, (500, -300)), bid(2, 2, 500, -300))
    one.node.serving.offers._until = clock.now() - 1
    one.turned()
    one.writes(resume_gone(4, 0))
    ends_session(one)
    assert one.service.read == [b""]


def at(seconds):
    return time_text(datetime.now(timezone.utc) + timedelta(seconds=seconds))


@pytest.mark.parametrize(
    ("session", "until", "payload", "is_offered"),
    [
        (SESSION, -540, OFFER, False),
        (LATER, -540, OFFER, False),
        (LATER, 60, OFFER, True),
        (SESSION, -540, b'{"power": [400, -300]}', True),
        (SESSION, -540, json.dumps({"power": [400, -300], "time": at(-840)}).encode(), False),
    ],
)
def test_the_offer_of_a_dead_control_does_not_come_back_with_its_node(joined, tmp_path, session, until, payload, is_offered):
    """The device left when the offer ended, nine minutes ago, or its session is over. The broker has the offer still."""
    digest = hashlib.sha256(OFFER).hexdigest()
    saved(tmp_path, "device", "house", resume_gone(4, 0), offer=digest, until=at(until))
    one = joined("device", offer_validity=300)
    one.link.comes(BASIS_TOPIC, basis_payload(session))
    one.link.comes("market/house/offer", payload, retained=True)
    one.link.settles()
    one.turned()
    assert any(frame[:1] == Offer((0, 0)).to_bytes()[:1] for frame in one.service.read[1:]) == is_offered
    assert [json.loads(message)["market"] for message in one.control.told] == (["new session"] if session == LATER else [])


def test_an_offer_holds_as_long_as_it_did_before_a_restart(joined, tmp_path):
    saved(tmp_path, "device", "house", device_resume(4, 0, (5, -3)), until=at(-1))
    one = joined("device", offer_validity=300).begun()
    assert one.service.read[1:] == [Leave().to_bytes()]


def test_a_dropped_offer_is_answered_at_its_topic_until_one_is_taken(joined):
    one = joined("device").begun()
    one.link.comes("market/house/offer", b'{"power": [1]}')
    one.turned()
    assert "1 demands are there, and 2 are due" in json.loads(one.link.newest["market/house/answer"].payload)["why"]
    one.link.comes("market/house/offer", OFFER)
    one.turned()
    assert one.link.newest["market/house/answer"].payload == b""


def test_a_device_stores_a_price_once_and_not_if_number_and_step_are_the_same(joined, monkeypatch):
    one = joined("device").begun()
    one.link.confirms = True
    one.control.offer(OFFER)
    one.turned()
    one.writes(device_resume(2, 0, (500, -300)), bid(2, 2, 500, -300))
    saves, save = [], one.node._store.save
    monkeypatch.setattr(one.node._store, "save", lambda stored: (saves.append(stored), save(stored)))
    for index, step, due in ((7, 1, 1), (8, 1, 1), (9, 0, 2), (10, 0, 2)):
        one.writes(Setpoint(2, index, step, (500, -300)[step]), device_resume(2, index, (500, -300)))
        assert (len(saves), len(one.control.told)) == (due, due), f"clearing {index}"
    one.node.serving.beating.hear(Heartbeat(1, 1, now_text()).to_bytes(), clock.now(), retained=False)
    one.turned()
    assert [json.loads(told)["clearing"] for told in one.control.told] == [7, 9, 10], "a heartbeat tells that it is of a later clearing"
    one.node.serving.end("stopped")
    assert one.node._store.newest().frame == device_resume(2, 10, (500, -300)).to_bytes()
    assert one.node._store.newest().setpoint.clearing == 10


def test_a_device_that_comes_back_tells_the_later_of_two_equal_setpoints(joined, tmp_path):
    told = {"power": -300, "step": 1, "price": 9, "bid": 2, "clearing": 7, "time": MOMENT}
    saved(tmp_path, "device", "house", device_resume(2, 6, (500, -300)), setpoint=json.dumps(told).encode())
    later = json.dumps({**told, "clearing": 9, "until": MOMENT}).encode()
    one = joined("device").begun(("market/house/setpoint", later))
    assert json.loads(one.control.told[0])["clearing"] == 9


def test_a_device_that_has_nothing_to_leave_says_what_to_do(joined):
    one = joined("device", leave=True)
    one.link.comes(BASIS_TOPIC, basis_payload())
    one.link.settles()
    with pytest.raises(NodeRefused, match="house has nothing to leave: .* cogmaula market drop street 2"):
        one.turned()


# What is bounded, and what ends a node at once.


def test_a_topic_has_a_longest_message_and_what_is_no_topic_has_none():
    topics = Topics("market")
    assert topics.longest("market/basis") == 1_024
    assert topics.longest("market/street/bid/1") == 4_096
    assert topics.longest("market/street/limits/state") == 2_048
    for topic in ("market/street/bid/257", "market/street/x", "other/street/state", "market/a b/state", "market/x/y/z"):
        assert topics.longest(topic) == 0


def test_a_page_keeps_so_many_bytes(caplog):
    board = Board(QUIET, bytes_at_most=10_000)
    for number in range(100):
        board.take([Message(f"market/n{number}/state", b"x" * 900)])
    assert 8_000 < sum(len(message.payload) for message in board.copy()[0].values()) <= 10_000
    assert len(caplog.messages) == 1
    board.take([Message("market/n0/state", b""), Message("market/n99/state", b"y" * 900)])
    assert board.copy()[0]["market/n99/state"].payload == b"y" * 900


class Told:
    """A message as paho has it."""

    retain, payload, properties = False, b"x", None

    def __init__(self, topic):
        self.topic = topic


def test_a_page_reads_a_flood_no_more_for_a_while(caplog):
    let_go = []
    reader = Reader(BrokerSettings(), "page", Board(QUIET), QUIET)
    client = type("Client", (), {"unsubscribe": lambda _, topic: let_go.append(topic)})()
    for number in range(1_000):
        reader._on_message(client, Told("market/street/bid/1"))
        reader._on_message(client, Told(f"market/street/bid/{2 + number % 250}"))
    assert let_go == ["market/+/bid/+"]
    told = "market/street/bid/1: more than 200 messages a second come: market/+/bid/+ is not read for"
    assert len(caplog.messages) == 1 and caplog.messages[0].startswith(told)


@pytest.mark.parametrize("user", [None, "auctioneer"])
def test_a_page_that_reads_all_has_a_login_of_its_own(joined, user):
    page = PageSettings("127.0.0.1:0", whole=True, user=user, password_file=user)
    with pytest.raises(BadSettings, match="give page.user and page.password_file, a login of its own"):
        joined("auctioneer", page=page, broker=BrokerSettings(user="auctioneer"))


@pytest.mark.parametrize(
    ("words", "why"),
    [
        (["--live", "/nowhere/live"], "node.live is '/nowhere/live', and there is no such program"),
        (["--ca", "/nowhere/ca.crt"], "broker.ca is /nowhere/ca.crt, which cannot be read: No such file or directory"),
        (["--user", "root", "--password-file", "/nowhere/word"], "broker.password_file is /nowhere/word, which cannot be read"),
    ],
)
def test_a_missing_file_ends_the_command_with_status_2(tmp_path, capsys, words, why):
    from cogmaula.cli import main

    common = f"node auctioneer --name root --state {tmp_path} --min 0 --max 9 --steps 10 --live {sys.executable}".split()
    assert main([*common, *words]) == 2
    assert why in capsys.readouterr().err


def test_a_full_disk_is_told_with_node_and_path(joined, monkeypatch, tmp_path):
    one = joined("relay").begun()

    def full(_):
        raise OSError(28, "No space left on device")

    monkeypatch.setattr(os, "fsync", full)
    with pytest.raises(OSError, match=f"No space left on device: '{tmp_path}/relay/{SESSION.id}.bids'"):
        retained_bids(one).writes(RELAY_RESUME, bid(3, 1, 116, -3))


def test_without_paho_the_line_names_the_python(monkeypatch):
    from cogmaula import NoPackage
    from cogmaula.live.broker.connection import paho

    monkeypatch.setitem(sys.modules, "paho.mqtt.client", None)
    with pytest.raises(NoPackage, match=f"paho-mqtt, which {sys.executable} does not have"):
        paho()
