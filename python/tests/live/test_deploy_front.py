"""The front and the limits of a broker that `cogmaula market init` made: what exhausts a broker without them leaves it as it is."""

from __future__ import annotations

import socket
import ssl
import time

import pytest
from brokers import require_broker, wait_until
from fronted import FrontedMarket, has_ended, require_front
from made import MadeMarket

from cogmaula.deploy.front_files import PATIENCE, doors_of

# Six addresses of this machine, and more connections than the broker takes.
ADDRESSES, SILENT = [f"127.0.0.{number}" for number in range(2, 8)], 300


@pytest.fixture
def made():
    require_broker()
    require_front()
    with FrontedMarket() as one:
        yield one


def memory_of(process):
    """The memory of a process, in bytes."""
    with open(f"/proc/{process.pid}/status") as status:
        return next(int(line.split()[1]) * 1024 for line in status if line.startswith("VmRSS"))


def test_silent_connections_take_no_place_of_the_broker(made):
    """Three hundred from six addresses, half of them with TLS. A member comes in at once, and after `PATIENCE` all have ended; the member,
    which has logged in and is silent by its keepalive, stays."""
    silent = [made.silent(ADDRESSES[at % 6], tls=at % 12 >= 6) for at in range(SILENT)]
    held = [one for one in silent if one is not None]
    assert len(held) > 200
    begun = time.monotonic()
    house = made.client("house")
    assert time.monotonic() - begun < PATIENCE
    wait_until(lambda: all(has_ended(one) for one in held), "all have ended", 4 * PATIENCE)
    assert made.log.count("New connection from") == 1, "the broker saw the member alone"
    wait_until(lambda: time.monotonic() > begun + PATIENCE + 1, "the member's time")
    assert (house.is_connected(), house.ends) == (True, [])
    made.client("store")


def test_without_a_front_they_fill_it(tmp_path):
    """What the front is for: the same connections keep a member out."""
    require_broker()
    with MadeMarket(tmp_path, max_connections=100) as made:
        held = [socket.create_connection(("127.0.0.1", made.port)) for _ in range(SILENT)]
        wait_until(lambda: made.log.count("New connection from") >= 99, made.log)
        context = ssl.create_default_context(cafile=str(made.out / "broker" / "ca.crt"))
        with socket.create_connection(("127.0.0.1", made.port), 5) as late, pytest.raises(OSError):
            context.wrap_socket(late, server_hostname="127.0.0.1")
        for one in held:
            one.close()


def test_an_address_has_so_many_connections(made):
    most = doors_of(made.tree)[0].per_address
    held = [made.silent("127.0.0.9") for _ in range(most + 20)]
    wait_until(lambda: sum(one is None or has_ended(one) for one in held) >= 20, "those beyond are refused")
    made.client("house")


def test_a_control_comes_in_at_its_own_door_alone(made):
    made.client("house.control")
    for login, port in (("house.control", made.port), ("house", made.control_port), ("operator", made.control_port)):
        refused = client_at(made, login, port)
        assert not refused.is_connected(), login


def client_at(made, login, port):
    """A client that tried to connect by a login at a port."""
    import paho.mqtt.client as mqtt

    first = (mqtt.CallbackAPIVersion.VERSION1,) if hasattr(mqtt, "CallbackAPIVersion") else ()
    one = mqtt.Client(*first, protocol=mqtt.MQTTv5)
    one.username_pw_set(login, (made.out / login / f"{login}.password").read_text().strip())
    one.tls_set(str(made.out / "authority" / "ca.crt"))
    ended = []
    one.on_disconnect = lambda *_: ended.append(True)
    one.on_connect = lambda _client, _data, _flags, code, *_: ended.append(code != 0)
    one.connect("127.0.0.1", port)
    one.loop_start()
    wait_until(lambda: ended, "an end")
    one.loop_stop()
    return one


@pytest.mark.parametrize("login", ["house", "house.control"])
def test_subscriptions_do_not_fill_the_broker(tmp_path, login):
    """A member's subscriptions to topics of 30 kB are refused, so the broker's memory stays, and so does the auctioneer."""
    require_broker()
    with MadeMarket(tmp_path) as made:
        auctioneer, member = made.client("auctioneer"), made.client(login)
        before, answered = memory_of(made.process), []
        member.on_subscribe = lambda _client, _data, _mid, granted, *_: answered.append(granted[0])
        for number in range(600):
            member.subscribe(f"market/{number:06}{'x' * 30_000}", 1)
        wait_until(lambda: len(answered) == 600, f"answers: {len(answered)}")
        assert set(answered) == {128}
        assert memory_of(made.process) < 1.2 * before + 2**20
        assert (auctioneer.is_connected(), auctioneer.ends) == (True, [])
