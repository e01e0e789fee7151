"""A relay that is down is fenced: over a real broker, with the rights and the files of a market that was made, and three levels of nodes."""

from __future__ import annotations

import os
import signal
import subprocess
import sys

import pytest
from brokers import TOP, live_program, require_broker, wait_until
from made import MadeMarket
from markets import STEPS, falls_at
from pretended import BASIS, MOMENT, SESSION, bid, settings

from cogmaula.cli import main
from cogmaula.live.node import fencing
from cogmaula.live.node.node_errors import LiveError
from cogmaula.live.messages.frames import BIDS, Bid, frame_of
from cogmaula.live.messages.messages import BasisMessage, StateMessage
from cogmaula.live.node.node_settings import BrokerSettings
from cogmaula.live.node.silence import Heartbeat

TREE = """
[basis]
min = 0
max = 9
steps = 10
[auctioneer]
validity = 4.0
heartbeat = 1.0
grace = 8.0
pause = 0.05
[relays.street]
pause = 0.05
[devices.house]
parent = "street"
[devices.store]
parent = "street"
[devices.mill]
[logins.operator]
role = "operator"
[logins.watcher]
role = "reader"
"""


@pytest.fixture
def made(tmp_path):
    """The market, whose relay is a process that the test may kill. With all devices it clears at step 4, and with the mill alone at 6."""
    require_broker()
    live = live_program()
    (tmp_path / "TREE.toml").write_text(TREE)
    with MadeMarket(tmp_path, tmp_path / "TREE.toml") as one:
        one.watcher = one.client("watcher")
        one.start("auctioneer", live)
        one.street = Street(one, live)
        for name in ("house", "store", "mill"):
            one.start(name, live)
        one.controls["house"].offers([100] * STEPS)
        one.controls["store"].offers(falls_at(4, 0, -150))
        one.controls["mill"].offers(falls_at(6, 50, -50))
        all_take(one)
        yield one
        one.street.end()


class Street:
    """The relay in processes of its own, one after another."""

    def __init__(self, made, live):
        self.made, self.live = made, live
        self.start()

    def start(self):
        config = self.made.out / "street" / "street.toml"
        words = [sys.executable, "-m", "cogmaula", "node", "relay", "--config", str(config), "--live", self.live, "--keepalive", "2"]
        environment = {**os.environ, "PYTHONPATH": str(TOP / "python"), "PYTHONDONTWRITEBYTECODE": "1"}
        with open(self.made.out / "street.err", "ab") as log:
            self.process = subprocess.Popen(words, stderr=log, env=environment)

    @property
    def said(self):
        return (self.made.out / "street.err").read_text()

    def end(self):
        if self.process.poll() is None:
            self.process.kill()
        self.process.wait()


def all_take(made):
    for name, power in (("house", 100), ("store", -150), ("mill", 50)):
        wait_until(lambda: made.controls[name].has(step=4, power=power), f"{name} takes {power} W: {made.controls[name].told[-2:]} {made.said}")


def newest(made, topic):
    """The newest message that the watcher read of a topic."""
    return next(payload for name, payload in reversed(made.watcher.read) if name == f"market/{topic}")


def sum_of_street(made):
    frame = frame_of(newest(made, "auctioneer/bid/1"), BIDS, STEPS)
    assert isinstance(frame, Bid)
    return frame


def fence(made, name="street"):
    config = made.out / "operator" / "operator.toml"
    return main(["market", "fence", name, "--out", str(made.out), "--config", str(config), "--seconds", "20"])


def is_down(made):
    return StateMessage.of(newest(made, "street/state")).state == "down"


@pytest.mark.parametrize("cause", [signal.SIGKILL, signal.SIGSTOP], ids=["died", "cut"])
def test_a_relay_that_is_down_is_fenced_and_is_back_once_it_is_started(made, monkeypatch, capsys, cause):
    """The auctioneer's sum falls to that of the mill, and the devices below are told nothing of a price until their relay is back."""
    monkeypatch.setenv("COGMAULA_LIVE", made.street.live)
    assert fence(made) == 1
    assert "street is up since" in capsys.readouterr().err
    before = sum_of_street(made)
    assert before.demands == tuple(100 + power for power in falls_at(4, 0, -150))
    told = {name: len(made.controls[name].told) for name in ("house", "store")}
    made.street.process.send_signal(cause)
    wait_until(lambda: is_down(made), "its last will")
    if cause == signal.SIGKILL:
        # The broker sees a cut later than the devices fall back.
        assert fence(made) == 1
        assert "its devices may take by it" in capsys.readouterr().err
    wait_until(lambda: fence(made) == 0, "it is fenced", 30)
    fenced = sum_of_street(made)
    assert f"street is fenced: auctioneer counts nothing of it as of number {fenced.number}" in capsys.readouterr().out
    assert (fenced.demands, fenced.number) == ((0,) * STEPS, before.number + 1)
    wait_until(lambda: made.controls["mill"].has(step=6, power=-50), f"the mill alone: {made.controls['mill'].told[-2:]}")
    for name, count in told.items():
        wait_until(lambda: "step" not in made.controls[name].setpoints[-1], f"{name} is told silence: {made.controls[name].told[-3:]}")
        assert not any("step" in setpoint and setpoint["step"] != 4 for setpoint in made.controls[name].setpoints[count:]), name
    # Fenced again, it gives no other bid.
    assert fence(made) == 0 and sum_of_street(made) == fenced
    if cause == signal.SIGSTOP:
        made.street.process.send_signal(signal.SIGCONT)
        assert made.street.process.wait(30) == 5, "the older process ends, and gives no number that was given"
        assert "another process has run as street" in made.street.said
        assert sum_of_street(made) == fenced
    made.street.start()
    all_take(made)
    back = sum_of_street(made)
    assert back.demands == before.demands and back.number > fenced.number
    for name, offer in (("house", [100] * STEPS), ("store", falls_at(4, 0, -150))):
        assert all(setpoint["power"] == offer[setpoint["step"]] for setpoint in made.controls[name].setpoints if "step" in setpoint), name
    numbers = [frame_of(payload, BIDS, STEPS) for topic, payload in made.watcher.read if topic == "market/auctioneer/bid/1"]
    by_number = {}
    assert all(by_number.setdefault(bid.number, bid) == bid for bid in numbers), "a number is of one bid"
    assert "Denied" not in made.log


def test_only_a_relay_is_fenced(made, capsys):
    for name, why in (("house", "house is a device, and no relay"), ("nobody", "no node is called nobody")):
        assert fence(made, name) == 2
        assert why in capsys.readouterr().err


class Kept:
    """What a broker keeps, as an operator reads it."""

    def __init__(self, messages):
        self.messages = messages

    def __enter__(self):
        return self

    def __exit__(self, *_):
        pass

    def newest(self, topic):
        return self.messages.get(topic, (b"", {}, True))

    def wait(self, holds, why):
        assert holds(), why


def state_of(state):
    return StateMessage(state, "0" * 16, MOMENT, SESSION.id, MOMENT, sort="relay").to_bytes(), {}, True


def heartbeat_at(time):
    return Heartbeat(1, 1, time).to_bytes(), {}, True


@pytest.mark.parametrize(
    ("changed", "why"),
    [
        ({}, "street is fenced: auctioneer counts nothing of it as of number 8"),
        ({"street/bid/1": (bid(1, 4, 0, 0).to_bytes(), {"sort": "relay", "node": "lane"}, True)}, "street is fenced"),
        (
            {"street/bid/1": (bid(1, 4, 5, 0).to_bytes(), {"sort": "relay", "node": "lane"}, True)},
            "child 1 of street, lane, is a relay that counts something: stop it, and fence it first",
        ),
        ({"street/state": state_of("up")}, "street is up since"),
        ({"street/state": (b"", {}, True)}, "no node street is seen"),
        ({"street/heartbeat": heartbeat_at("2026-01-31T06:59:00.000Z")}, "street passed on a heartbeat 60 s ago"),
        ({"auctioneer/heartbeat": (b"", {}, True)}, "the market has no heartbeat above street"),
    ],
)
def test_a_fence_looks_at_what_the_broker_keeps_of_the_relay(tmp_path, monkeypatch, changed, why):
    """The relay is down, with a device that takes something, and the market's clock is an hour past its last heartbeat."""
    kept = {
        "basis": (BasisMessage(BASIS, SESSION).to_bytes(), {}, True),
        "street/state": state_of("down"),
        "street/bid/1": (bid(1, 4, 100, 0).to_bytes(), {"sort": "device", "node": "house"}, True),
        "auctioneer/heartbeat": heartbeat_at("2026-01-31T07:00:00.000Z"),
        "street/heartbeat": heartbeat_at("2026-01-31T06:00:00.000Z"),
        "auctioneer/bid/3": (bid(3, 8, 0, 0).to_bytes(), {"sort": "relay", "node": "street"}, True),
        **changed,
    }
    lives = []
    monkeypatch.setattr(fencing, "Words", lambda *_: Kept({f"market/{topic}": message for topic, message in kept.items()}))
    monkeypatch.setattr(fencing, "_live_once", lambda settings, _seconds: lives.append(settings))
    try:
        told = fencing.fence(BrokerSettings(), settings("relay", tmp_path))
    except LiveError as error:
        told = str(error)
    assert why in told
    assert [one.leave for one in lives] == ([True] if "is fenced" in why else []), "only then the relay lives once more"
