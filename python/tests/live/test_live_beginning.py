"""What a node begins with: by what is on its disk and what the broker retains. And when it refuses to go on."""

from __future__ import annotations

import hashlib
import json
import threading

import pytest
from brokers import SECONDS, wait_until
from pretended import (
    BASIS,
    BASIS_TOPIC,
    LATER,
    MOMENT,
    OF_RELAY,
    SESSION,
    VERSION,
    PretendedControl,
    PretendedLink,
    auctioneer_resume,
    basis_payload,
    bid,
    device_resume,
    gone,
    numbers,
    price,
    relay_resume,
    saved,
    settings,
    state_payload,
)

from cogmaula.cluster import Basis
from cogmaula.live import BadStore, NodeRefused, OtherTerms
from cogmaula.live.messages.frames import Fault
from cogmaula.live.messages.messages import BasisMessage
from cogmaula.live.node.node import Node
from cogmaula.live.node.store import Store

OFFER = (5, -3)
OF_SESSION = [("time", MOMENT), ("session", SESSION.id), ("version", VERSION)]
OF_LATER = [("time", MOMENT), ("session", LATER.id), ("version", VERSION)]


def told_basis(one):
    return BasisMessage.of(one.link.newest[BASIS_TOPIC].payload)


# The auctioneer.


def test_the_first_auctioneer_begins_a_session_and_publishes_the_basis(joined):
    one = joined("auctioneer").begun()
    session = one.node.session
    assert told_basis(one) == BasisMessage(BASIS, session)
    assert one.stored(session) == b""
    assert "begins: all nodes count from 1" in one.said[0]
    assert one.link.will is None
    assert json.loads(one.link.of("market/auctioneer/state")[-1])["session"] == session.id


def test_an_auctioneer_comes_back_with_its_session(joined, tmp_path):
    resume = auctioneer_resume(7, numbers((3, 1)))
    saved(tmp_path, "auctioneer", "auctioneer", resume)
    one = joined("auctioneer").begun()
    assert one.node.session == SESSION
    assert one.service.read == [resume.to_bytes()]
    assert one.said == []
    one.link.comes("market/auctioneer/bid/3", bid(3, 1, 21, -3).to_bytes(), OF_RELAY)
    one.turned()
    one.writes(price(3, 1, 7, 1))
    assert dict(one.link.newest["market/auctioneer/prices"].properties)["time"] == MOMENT


def test_an_auctioneer_without_a_disk_goes_on_from_the_broker(joined):
    resume = auctioneer_resume(7, numbers((3, 1)))
    one = joined("auctioneer")
    one.link.comes(BASIS_TOPIC, basis_payload())
    one.link.comes("market/auctioneer/resume", resume.to_bytes(), OF_SESSION)
    one.link.settles()
    one.turned()
    assert one.service.read == [resume.to_bytes()]
    assert one.stored() == resume.to_bytes()
    assert "goes on from the broker's Resume with number 7" in one.said[0]


def test_an_auctioneer_that_has_lost_all_begins_a_later_session(joined):
    one = joined("auctioneer")
    one.link.comes(BASIS_TOPIC, basis_payload())
    one.link.settles()
    one.turned()
    assert one.node.session.order > SESSION.order
    assert "no Resume of session 0123456789abcdef" in one.said[0]


def test_a_new_session_is_begun_if_that_is_asked(joined, tmp_path):
    saved(tmp_path, "auctioneer", "auctioneer", auctioneer_resume(7, numbers((3, 1))), basis=Basis(0, 99, 100))
    one = joined("auctioneer", new_session=True).begun()
    assert one.node.session.order > SESSION.order
    assert one.service.read == [b""]


def test_an_auctioneer_of_an_older_session_is_refused(joined, tmp_path):
    saved(tmp_path, "auctioneer", "auctioneer", auctioneer_resume(7, numbers((3, 1))))
    one = joined("auctioneer")
    one.link.comes(BASIS_TOPIC, basis_payload(LATER))
    one.link.settles()
    with pytest.raises(NodeRefused, match=f"session {LATER.id}, which another auctioneer began later"):
        one.turned()


def test_the_broker_may_have_an_older_session(joined, tmp_path):
    saved(tmp_path, "auctioneer", "auctioneer", auctioneer_resume(7, numbers((3, 1))), session=LATER)
    one = joined("auctioneer")
    one.link.comes(BASIS_TOPIC, basis_payload())
    one.link.settles()
    one.turned()
    assert told_basis(one).session == LATER


@pytest.mark.parametrize("where", ["disk", "broker"])
def test_an_auctioneer_with_another_basis_is_refused(joined, tmp_path, where):
    other = Basis(0, 99, 100)
    saved(tmp_path, "auctioneer", "auctioneer", auctioneer_resume(7, numbers((3, 1))), basis=other if where == "disk" else BASIS)
    one = joined("auctioneer")
    if where == "broker":
        one.link.comes(BASIS_TOPIC, basis_payload(basis=other))
    one.link.settles()
    with pytest.raises(NodeRefused, match="begin a new session by --new-session"):
        one.turned()


def test_a_basis_that_is_none_is_replaced(joined):
    one = joined("auctioneer")
    one.link.comes(BASIS_TOPIC, b"nonsense")
    one.link.settles()
    one.turned()
    assert told_basis(one).session == one.node.session


def test_another_auctioneer_at_work_is_refused(joined):
    one = joined("auctioneer").begun()
    one.link.comes(BASIS_TOPIC, BasisMessage(BASIS, type(SESSION)("f" * 16, "2126-01-31T06:00:00.000Z")).to_bytes())
    with pytest.raises(NodeRefused, match="another auctioneer has begun session"):
        one.turned()


def test_a_basis_that_the_broker_lost_or_an_older_one_is_told_again(joined):
    one = joined("auctioneer").begun()
    for payload in (basis_payload(), b""):
        before = len(one.link.of(BASIS_TOPIC))
        one.link.comes(BASIS_TOPIC, payload)
        one.turned()
        assert len(one.link.of(BASIS_TOPIC)) == before + 1


# A relay and a device.


def test_a_node_waits_for_the_basis_and_says_so_once(joined):
    one = joined("device")
    for _ in range(2):
        one.link.settles()
        one.turned()
    assert one.service is None
    assert len(one.said) == 1
    assert "waits for the basis at market/basis: is the auctioneer up" in one.said[0]
    one.link.comes(BASIS_TOPIC, basis_payload())
    one.turned()
    assert one.service.read == [b""]


def test_nothing_begins_before_all_that_the_broker_retains_has_come(joined):
    one = joined("device")
    one.link.comes(BASIS_TOPIC, basis_payload())
    one.turned()
    assert one.service is None
    one.link.comes("market/house/resume", device_resume(4, 2, OFFER).to_bytes())
    one.link.settles()
    one.turned()
    assert one.service.read == [device_resume(4, 2, OFFER).to_bytes()]


@pytest.mark.parametrize(("on_disk", "at_broker", "due"), [(4, 4, "disk"), (6, 4, "disk"), (4, 6, "broker"), (None, 2, "broker")])
def test_the_resume_with_the_greater_number_counts_and_the_disk_among_equals(joined, tmp_path, on_disk, at_broker, due):
    if on_disk is not None:
        saved(tmp_path, "device", "house", device_resume(on_disk, 7, OFFER))
    broker = device_resume(at_broker, 2, OFFER)
    one = joined("device").begun(("market/house/resume", broker.to_bytes()))
    used = broker if due == "broker" else device_resume(on_disk, 7, OFFER)
    assert one.service.read == [used.to_bytes()]
    assert one.stored() == used.to_bytes()
    assert one.link.newest["market/house/resume"].payload == used.to_bytes()


def test_a_resume_of_another_session_or_of_another_form_is_not_taken(joined):
    one = joined("device")
    one.link.comes("market/house/resume", device_resume(4, 2, OFFER).to_bytes(), OF_LATER)
    one.begun()
    assert one.service.read == [b""]
    other = joined("relay").begun(("market/street/resume", b"nonsense"))
    assert other.service.read == [b""]
    assert any("market/street/resume is not taken" in line for line in other.said)


def test_a_node_that_has_lost_its_resume_is_refused(joined):
    one = joined("device")
    one.link.comes("market/street/bid/2", bid(2, 4, *OFFER).to_bytes())
    one.link.comes(BASIS_TOPIC, basis_payload())
    one.link.settles()
    with pytest.raises(NodeRefused, match="has bid number 4 in session 0123456789abcdef, and its Resume is on no disk"):
        one.turned()


@pytest.mark.parametrize("payload", [b"", b"nonsense"])
def test_a_bid_that_is_none_says_nothing(joined, payload):
    assert joined("device").begun(("market/street/bid/2", payload)).service.read == [b""]


def test_an_old_copy_of_a_resume_is_refused(joined, tmp_path):
    saved(tmp_path, "device", "house", device_resume(2, 2, OFFER))
    one = joined("device")
    one.link.comes("market/street/bid/2", gone(2, 4).to_bytes())
    one.link.comes(BASIS_TOPIC, basis_payload())
    one.link.settles()
    with pytest.raises(NodeRefused, match="has given number 4, and the newest Resume here has 2: .* is an old copy"):
        one.turned()


def test_a_damaged_file_ends_the_node(joined, tmp_path):
    saved(tmp_path, "device", "house", device_resume(2, 2, OFFER))
    path = tmp_path / "device" / f"{SESSION.id}.resume"
    path.write_bytes(path.read_bytes()[:-1])
    one = joined("device")
    one.link.comes(BASIS_TOPIC, basis_payload())
    one.link.settles()
    with pytest.raises(BadStore, match="is damaged"):
        one.turned()


def test_a_stored_resume_of_another_basis_is_refused(joined, tmp_path):
    saved(tmp_path, "device", "house", device_resume(3, 2, (3, 2, 1)), basis=Basis(0, 9, 4))
    one = joined("device")
    one.link.comes(BASIS_TOPIC, basis_payload())
    one.link.settles()
    with pytest.raises(NodeRefused, match="is of another basis"):
        one.turned()


# A relay of -1000 to 1000 watts, with limits that do not change, whose Resume is of these terms.
OTHER_TERMS = [
    ((-1000, 999, 0), "the limits are -1000 to 1000 watts, and in session .* they were -1000 to 999 watts: bring them back"),
    ((-999, 1000, 0), "they were -999 to 1000 watts"),
    ((-1000, 1000, 256), "they were -1000 to 1000 watts, which may change by child 256"),
]


@pytest.mark.parametrize("where", ["disk", "broker"])
@pytest.mark.parametrize(("terms", "why"), OTHER_TERMS)
def test_a_relay_keeps_its_terms_in_a_session(joined, tmp_path, where, terms, why):
    """Within other limits it would send its last bid again with other demands."""
    resume = relay_resume(2, 1, 1, numbers((1, 2)), terms)
    one = None
    if where == "disk":
        saved(tmp_path, "relay", "street", resume)
    one = joined("relay")
    one.link.comes(BASIS_TOPIC, basis_payload())
    if where == "broker":
        one.link.comes("market/street/resume", resume.to_bytes())
    one.link.settles()
    with pytest.raises(OtherTerms, match=why):
        one.turned()


def test_a_relay_may_change_its_limits_in_a_later_session(joined, tmp_path):
    saved(tmp_path, "relay", "street", relay_resume(2, 1, 1, numbers((1, 2)), (-1000, 999, 0)))
    one = joined("relay")
    one.link.comes(BASIS_TOPIC, basis_payload(LATER))
    one.link.settles()
    one.turned()
    assert (one.node.session, one.node.serving.session.last) == (LATER, 0)


def test_a_resume_that_the_service_refuses_ends_the_node(joined, tmp_path):
    """Hello has 11 bytes: a fault there is one of the Resume."""
    saved(tmp_path, "relay", "street", relay_resume(2, 1, 1, numbers((1, 2))))
    one = joined("relay").begun()
    with pytest.raises(OtherTerms, match="the service refuses the Resume of session 0123456789abcdef"):
        one.writes(Fault(11))


# Another version.


def of_version_1(payload):
    """A message of JSON without what the first form lacks."""
    told = json.loads(payload)
    return json.dumps({name: value for name, value in told.items() if name not in ("version", "validity", "heartbeat", "grace")}).encode()


def first_form(path):
    """Makes a stored Resume one of the first form."""
    _, _, behind = path.read_bytes().split(b"\n", 2)
    path.write_bytes(b"cogmaula resume 1\n" + hashlib.sha256(behind).hexdigest().encode() + b"\n" + behind)


def test_an_auctioneer_with_a_resume_of_the_first_form_has_to_begin_a_new_session(joined, tmp_path):
    saved(tmp_path, "auctioneer", "auctioneer", auctioneer_resume(7, numbers((3, 1))))
    first_form(tmp_path / "auctioneer" / f"{SESSION.id}.resume")
    one = joined("auctioneer")
    one.link.settles()
    with pytest.raises(OtherTerms, match=f"session {SESSION.id} is of another version .* begin a new session by --new-session"):
        one.turned()


def test_an_auctioneer_with_a_resume_of_the_first_form_begins_a_new_session_if_that_is_asked(joined, tmp_path):
    saved(tmp_path, "auctioneer", "auctioneer", auctioneer_resume(7, numbers((3, 1))))
    first_form(tmp_path / "auctioneer" / f"{SESSION.id}.resume")
    assert joined("auctioneer", new_session=True).begun().node.session.order > SESSION.order


def test_an_auctioneer_at_a_broker_of_the_first_form_has_to_begin_a_new_session(joined):
    one = joined("auctioneer")
    one.link.comes(BASIS_TOPIC, of_version_1(basis_payload()))
    one.link.settles()
    with pytest.raises(OtherTerms, match="begin a new session by --new-session"):
        one.turned()


def test_a_node_waits_for_a_session_of_its_version(joined):
    one = joined("device")
    one.link.comes(BASIS_TOPIC, of_version_1(basis_payload()))
    one.link.settles()
    one.turned()
    assert one.service is None
    assert f"waits: session {SESSION.id} is of version 1, and this node of 3" in one.said[-1]
    one.link.comes(BASIS_TOPIC, basis_payload(LATER))
    one.turned()
    assert one.node.session == LATER


@pytest.mark.parametrize("where", ["disk", "broker"])
def test_a_resume_of_the_first_form_in_this_session_is_refused(joined, tmp_path, where):
    if where == "disk":
        saved(tmp_path, "device", "house", device_resume(2, 2, OFFER))
        first_form(tmp_path / "device" / f"{SESSION.id}.resume")
    one = joined("device")
    one.link.comes(BASIS_TOPIC, basis_payload())
    if where == "broker":
        one.link.comes("market/house/resume", bytes.fromhex("0C 00000001 00000007 000001F4 FFFFFED4"), OF_SESSION)
    one.link.settles()
    with pytest.raises(OtherTerms, match="has a Resume of another version, in session 0123456789abcdef: give the node another child number"):
        one.turned()


def test_a_parent_of_another_version_is_told(joined):
    one = joined("device").begun(("market/street/state", of_version_1(state_payload("a" * 16, MOMENT))))
    assert "street is of version 1, and this node of 3: install this version there" in one.said


def test_a_stored_frame_that_is_no_resume_is_refused(joined, tmp_path):
    saved(tmp_path, "device", "house", bid(2, 2, *OFFER))
    one = joined("device")
    one.link.comes(BASIS_TOPIC, basis_payload())
    one.link.comes("market/house/resume", device_resume(4, 2, OFFER).to_bytes())
    one.link.settles()
    with pytest.raises(NodeRefused, match="has no Resume of this node"):
        one.turned()


# Sessions that change.


def test_a_node_follows_a_later_session_and_counts_from_1_in_it(joined, tmp_path):
    saved(tmp_path, "relay", "street", relay_resume(6, 0, 0, numbers((1, 1))))
    one = joined("relay").begun(("market/street/bid/1", bid(1, 1, *OFFER).to_bytes()))
    before = one.service
    one.link.comes("market/street/bid/2", bid(2, 2, *OFFER).to_bytes(), OF_LATER)
    one.link.comes(BASIS_TOPIC, basis_payload(LATER))
    one.turned()
    assert before.is_closed
    assert one.node.session == LATER
    assert one.service.read[:2] == [b"", bid(2, 2, *OFFER).to_bytes()]
    assert f"session {SESSION.id} is over: session {LATER.id} has begun" in one.said
    one.writes(relay_resume(1, 0, 0, numbers((2, 2))), bid(3, 1, *OFFER))
    assert dict(one.link.newest["market/auctioneer/bid/3"].properties)["session"] == LATER.id
    assert one.stored(LATER) == relay_resume(1, 0, 0, numbers((2, 2))).to_bytes()
    assert one.stored(SESSION) == relay_resume(6, 0, 0, numbers((1, 1))).to_bytes()


def test_a_node_does_not_go_back_to_an_older_session(joined):
    one = joined("relay")
    one.link.comes(BASIS_TOPIC, basis_payload(LATER))
    one.link.settles()
    one.turned()
    before = one.service
    one.link.comes(BASIS_TOPIC, basis_payload(SESSION))
    one.turned()
    assert (one.service, one.node.session) == (before, LATER)


def test_a_node_that_starts_waits_if_the_broker_tells_of_an_older_session(joined, tmp_path):
    saved(tmp_path, "relay", "street", relay_resume(6, 0, 0, numbers((1, 1))), session=LATER)
    one = joined("relay").begun()
    assert one.service is None
    assert "older than fedcba9876543210 on disk" in one.said[-1]
    one.link.comes(BASIS_TOPIC, basis_payload(LATER))
    one.turned()
    assert one.service is not None


def test_the_same_session_with_another_basis_is_refused(joined):
    one = joined("relay").begun()
    one.link.comes(BASIS_TOPIC, basis_payload(basis=Basis(0, 99, 100)))
    with pytest.raises(NodeRefused, match="the market's basis is"):
        one.turned()


# A connection that was lost, and another process of the same name.


def test_after_a_lost_connection_the_newest_of_all_is_published_again(joined):
    one = joined("relay").begun(("market/street/bid/1", bid(1, 1, *OFFER).to_bytes()))
    one.writes(relay_resume(1, 0, 0, numbers((1, 1))), bid(3, 1, *OFFER))
    count = len(one.link.sent)
    one.link.comes(BASIS_TOPIC, basis_payload())
    one.link.settles()
    one.turned()
    again = {publication.topic for publication in one.link.sent[count:]}
    assert {"market/street/resume", "market/auctioneer/bid/3", "market/street/state"} <= again


TAKEN_OVER = [
    ("market/house/state", state_payload("b" * 16, MOMENT, starts=2), "another process runs as house since 2026"),
    ("market/house/state", state_payload("b" * 16, MOMENT, "down", "in any words", starts=2, lost=True), "another process runs as house"),
    ("market/house/resume", device_resume(6, 2, OFFER).to_bytes(), "house has given number 6, and the newest Resume here has 4"),
    ("market/street/bid/2", gone(2, 6).to_bytes(), "house has given number 6"),
]


@pytest.mark.parametrize(("topic", "payload", "why"), TAKEN_OVER)
def test_the_older_of_two_processes_of_one_name_ends(joined, tmp_path, topic, payload, why):
    saved(tmp_path, "device", "house", device_resume(4, 2, OFFER))
    one = joined("device").begun()
    one.link.comes(topic, payload)
    with pytest.raises(NodeRefused, match=why):
        one.turned()


def test_an_older_process_of_a_relay_ends_though_the_later_one_has_ended(joined):
    """It may have given its next number to a sum that was not sent, behind a cut."""
    one = joined("relay").begun(("market/street/bid/1", bid(1, 1, *OFFER).to_bytes()))
    one.link.comes("market/street/state", state_payload("b" * 16, MOMENT, "down", "stopped", starts=9))
    with pytest.raises(NodeRefused, match="another process has run as"):
        one.turned()


def test_of_two_sums_under_one_number_the_one_at_the_broker_was_sent(joined, tmp_path):
    """The disk has a sum that was made behind a cut, and the broker that of a later process."""
    saved(tmp_path, "relay", "street", relay_resume(2, 0, 0, numbers((1, 4))))
    sent = relay_resume(2, 0, 0, numbers((1, 3)))
    one = joined("relay")
    one.link.comes(BASIS_TOPIC, basis_payload())
    one.link.comes("market/street/resume", sent.to_bytes(), OF_SESSION)
    one.link.settles()
    one.turned()
    assert one.stored() == sent.to_bytes()
    assert "in which it is of another sum than on disk" in one.said[0]


HARMLESS = [
    ("market/house/state", state_payload("b" * 16, "2126-01-31T06:30:00.000Z")),
    ("market/house/state", state_payload("b" * 16, MOMENT, "down", "stopped", starts=9)),
    ("market/house/state", b"nonsense"),
    ("market/house/state", b""),
    ("market/house/resume", device_resume(4, 2, OFFER).to_bytes()),
    ("market/street/bid/2", bid(2, 4, *OFFER).to_bytes()),
    ("market/street/bid/2", bid(2, 2, *OFFER).to_bytes()),
]


@pytest.mark.parametrize(("topic", "payload"), HARMLESS)
def test_what_the_node_itself_or_an_earlier_process_published_does_no_harm(joined, tmp_path, topic, payload):
    saved(tmp_path, "device", "house", device_resume(4, 2, OFFER))
    one = joined("device").begun()
    one.link.comes(topic, payload)
    one.turned()
    assert one.service is not None


# The whole work, on a thread of its own.


def test_a_device_reads_what_is_for_it_and_its_own_topics(joined):
    of_house = {"market/house/state", "market/house/resume", "market/house/offer", "market/house/answer", "market/house/setpoint", "market/house/measured"}
    of_street = {f"market/street/{kind}" for kind in ("bid/2", "price/2", "lapsed/2", "refused/2", "state", "heartbeat", "prices")}
    assert set(joined("device").link.topics) == {"market/basis"} | of_house | of_street


@pytest.mark.parametrize("how", ["stopped", "refused"])
def test_run_ends_with_the_state_down_and_why(tmp_path, how):
    links = []

    def linked(notify, log):
        links.append(PretendedLink(notify, log))
        return links[0]

    node = Node(settings("device", tmp_path), PretendedControl(), None, linked)
    raised = []

    def work():
        try:
            node.run()
        except NodeRefused as error:
            raised.append(error)

    thread = threading.Thread(target=work)
    thread.start()
    wait_until(lambda: links[0].topics, "the start of the connection")
    if how == "stopped":
        node._events.put(None)
        node.stop()
    else:
        links[0].comes(BASIS_TOPIC, basis_payload(basis=Basis(0, 99, 100)))
        links[0].settles()
    thread.join(SECONDS)
    assert not thread.is_alive(), "it ends at once, and does not wait for the broker"
    told = json.loads(links[0].closed.payload)
    assert told["state"] == "down"
    assert told["why"] == ("stopped" if how == "stopped" else str(raised[0]))
    assert told["lost"] is False
    will = json.loads(links[0].will().payload)
    assert (will["why"], will["lost"]) == ("the connection was lost", True)
    Store(tmp_path, "house", "device").close()


def test_what_a_node_logs_has_its_name(tmp_path, caplog):
    node = Node(settings("auctioneer", tmp_path), make_link=PretendedLink)
    node._log.warning("hello")
    assert [(record.name, record.node, record.levelname, record.message) for record in caplog.records] == [
        ("cogmaula.live.node.node", "auctioneer", "WARNING", "hello")
    ]
    node._store.close()
