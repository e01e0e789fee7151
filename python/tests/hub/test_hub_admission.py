"""Who may connect to a hub: silent connections take no file, no memory and no line of it, and others have their turn."""

from __future__ import annotations

import logging

import pytest
from brokers import Certificates, wait_until
from hubs import CONSTANT, HubProcess, silent_connections
from logged import QUIET

from cogmaula.hub.admission import FILES_OF_AGENT, OWN_FILES, WAITING, WAITING_OF_ADDRESS, Admission, Guest, network_of
from cogmaula.hub.lines import KINDS, WHILE, Lines


def test_silent_connections_end_no_node_and_keep_nobody_out(live, tmp_path):
    """300 of them, at a hub that may open 160 files: each Resume is stored, and agents log in, also of the same address."""
    with HubProcess(tmp_path, live, files=160) as hub:
        house = hub.agent("house").bids(CONSTANT, 1).waits_for(power=100)
        with silent_connections(hub.port, 300):
            for number in range(2, 5):
                house.bids([100 * number] * 10, number).waits_for(power=100 * number)
            for name, address in (("store", "127.0.0.1"), ("mill", "127.0.0.2")):
                hub.agent(name, address=address).bids([7] * 10, 1).waits_for(power=7)
        assert hub.process.poll() is None
        assert any("too many connections wait for a login, many of 127.0.0.1" in line for line in hub.lines)
        assert len(hub.lines) < 10, hub.lines[-10:]


def test_connections_by_tls_take_memory_once_they_say_something_and_give_it_back(live, tmp_path):
    certificate, key = Certificates(tmp_path / "keys").make("server", "127.0.0.1")
    with HubProcess(tmp_path, live, certificate=certificate, key=key) as hub:
        ca = str(tmp_path / "keys" / "ca.crt")
        hub.agent("house", ca=ca).bids(CONSTANT, 1).waits_for(power=100)
        before = hub.megabytes
        # The second begins a handshake, and the rest of it never comes.
        for data, most in ((b"", 4), (b"\x16\x03\x01\x02\x00", 40)):
            with silent_connections(hub.port, 200, data):
                found = hub.agent("store", ca=ca)
                assert found.welcome["agentId"] == "store"
                assert hub.megabytes - before < most
            found.close()
        wait_until(lambda: hub.megabytes - before < 6, f"the memory is given back: {before}, {hub.megabytes}")


# The counts.


class Room:
    """An admission, and who was ended."""

    def __init__(self, files=100_000):
        self.admission, self.ended = Admission(files), []

    def named(self, host):
        guest = Guest(host, lambda: self.ended.append(guest))
        self.admission.enter(guest)
        return guest


def test_of_one_address_the_oldest_that_waits_ends():
    room = Room()
    first = room.named("192.0.2.1")
    admitted = room.named("192.0.2.1")
    room.admission.admit(admitted)
    second = room.named("192.0.2.1")
    for _ in range(WAITING_OF_ADDRESS - 2):
        room.named("192.0.2.1")
    assert room.ended == []
    other = room.named("192.0.2.2")
    room.named("192.0.2.1")
    assert room.ended == [first]
    room.named("192.0.2.1")
    assert room.ended == [first, second]
    assert admitted not in room.ended and other not in room.ended


def test_in_all_the_oldest_of_the_address_ends_of_which_most_wait():
    room = Room()
    other = room.named("198.51.100.1")
    many = [room.named("192.0.2.1") for _ in range(WAITING_OF_ADDRESS)]
    few = [room.named(f"192.0.2.{2 + host}") for host in range(WAITING - WAITING_OF_ADDRESS - 1)]
    assert room.ended == []
    room.named("203.0.113.1")
    assert room.ended == [many[0]]
    assert other not in room.ended and not set(few) & set(room.ended)


def test_the_files_of_nodes_are_kept_free():
    room = Room(files=OWN_FILES + 10)
    room.admission.agents = 1
    assert room.admission.room == 10 - FILES_OF_AGENT
    guests = [room.named("192.0.2.1") for _ in range(10 - FILES_OF_AGENT)]
    assert room.ended == []
    for guest in guests:
        room.admission.admit(guest)
    last = room.named("192.0.2.2")
    assert room.ended == [last], "those that have logged in stay"
    room.admission.leave(guests[0])
    assert room.named("192.0.2.2") not in room.ended
    assert room.admission.files_lacking(1) == 0 < room.admission.files_lacking(2)


@pytest.mark.parametrize(
    ("host", "network"),
    [
        ("192.0.2.1", "192.0.2.1"),
        ("2001:db8:1:2:3:4:5:6", "2001:db8:1:2::/64"),
        ("fe80::1%eth0", "fe80::/64"),
        ("::ffff:192.0.2.1", "192.0.2.1"),
        ("?", "?"),
    ],
)
def test_what_counts_as_one_address(host, network):
    assert network_of(host) == network


# The lines.


def test_of_lines_of_a_kind_the_first_is_written_and_the_rest_are_counted(caplog):
    lines = Lines(QUIET)
    for number in range(1_000):
        lines.log_seldom(logging.WARNING, "a", f"a {number}", 10.0 + number / 100)
    lines.log_seldom(logging.ERROR, "b", "b", 11.0)
    assert [(record.levelname, record.message) for record in caplog.records] == [("WARNING", "a 0"), ("ERROR", "b")]
    lines.tick(10.0 + WHILE - 1)
    assert len(caplog.messages) == 2
    lines.tick(10.0 + WHILE)
    assert caplog.messages[2:] == ["a 999 (the last of 999 such lines since the one before)"]
    lines.tick(10.0 + 3 * WHILE)
    lines.log_seldom(logging.WARNING, "a", "a again", 10.0 + 3 * WHILE)
    assert caplog.messages[3:] == ["a again"]
    for kind in range(10_000):
        lines.log_seldom(logging.WARNING, kind, "many", 500.0)
    assert len(caplog.messages) < KINDS + 5
