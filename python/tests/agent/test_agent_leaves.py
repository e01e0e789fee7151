"""An agent leaves its market only once its device has its fallback, and never lets the market count another power than the device takes."""

from __future__ import annotations

import time

import pytest
from brokers import wait_until
from pretended_device import PretendedAgent

from cogmaula.agent import running
from cogmaula.agent.links import Setpoint
from cogmaula.live.messages.frames import Offer, Points
from cogmaula.live.node.node_errors import BadSettings

LEFT = ("offer", None)
RISING = """
class Rising:
    def __init__(self):
        self.name, self.state = "rising", 0.0

    def bid(self, now):
        return 900 if self.state < 600 else [(0, 0), (9, 900)]

    def step(self, power, minutes):
        pass
"""


def test_a_device_whose_state_is_too_old_takes_its_fallback_and_then_leaves(monkeypatch):
    with PretendedAgent(monkeypatch, fallback=100) as one:
        one.offers().told(1500)
        one.device.state = None
        one.waits_for(*LEFT)
        assert one.events.index(("write", 100)) < one.events.index(LEFT)
        # A setpoint that was on its way when the device left does not count any more.
        one.market.take(Setpoint(1500, 4))
        one.device.state = 500.0
        wait_until(lambda: one.events[-1][0] == "offer" and one.events[-1][1] is not None, f"it is back: {one.events}")
        one.market.take(Setpoint(1400, 4, reference=1))
        one.told(1300, reference=one.market.number)
        assert one.events.count(("write", 1500)) == 1 and ("write", 1400) not in one.events
    assert one.events[-3:] == [("write", 100), LEFT, ("closed", None)], "at its end too"


def test_an_agent_that_starts_without_a_state_leaves_for_the_one_before_it(monkeypatch):
    with PretendedAgent(monkeypatch, state=None, fallback=100) as one:
        one.waits_for(*LEFT)
        assert one.events == [("write", 100), LEFT]


@pytest.mark.parametrize("is_told_before", [True, False])
def test_a_device_that_cannot_be_told_is_counted_for_what_it_takes(monkeypatch, is_told_before):
    """With 1500 W it offers 1500 W at every price. If it was never told anything, it leaves."""
    with PretendedAgent(monkeypatch) as one:
        one.offers()
        if is_told_before:
            one.told(1500)
        one.device.is_deaf = True
        one.market.take(Setpoint(-700, 4))
        if is_told_before:
            one.waits_for("offer", Offer((1500,) * 10))
        else:
            one.waits_for(*LEFT)
        one.device.is_deaf = False
        before = len(one.events)
        wait_until(lambda: any(kind == "offer" and told not in (None, Offer((1500,) * 10)) for kind, told in one.events[before:]), "its bid is back")


def test_a_device_that_cannot_be_told_its_fallback_does_not_leave(monkeypatch):
    with PretendedAgent(monkeypatch) as one:
        one.offers().told(1500)
        one.device.is_deaf, one.device.state = True, None
        one.waits_for("offer", Offer((1500,) * 10))
        assert LEFT not in one.events
        one.device.is_deaf = False
        one.waits_for(*LEFT)
        assert one.events.index(("write", 0)) < one.events.index(LEFT)


def test_a_device_whose_bid_cannot_be_made_takes_its_fallback_and_leaves(monkeypatch, tmp_path):
    (tmp_path / "rising.py").write_text(RISING)
    with PretendedAgent(monkeypatch, device={"strategy": "rising.py:Rising"}, folder=tmp_path) as one:
        one.offers().told(900)
        one.device.state = 700.0
        one.waits_for(*LEFT)
        assert one.events.index(("write", 0)) < one.events.index(LEFT)
        assert [line for line in one.said if "the bid is not offered" in line] != []


def test_a_setpoint_is_not_held_beyond_its_end(monkeypatch):
    with PretendedAgent(monkeypatch, fallback=100) as one:
        begun = time.monotonic()
        one.offers().told(1500, holds=0.4).waits_for("write", 100)
        assert 0.4 <= time.monotonic() - begun < 5
        assert "the setpoint has ended, and no newer one came: the device takes its fallback, 100 W" in one.said


def test_a_state_just_outside_those_of_the_model_is_the_nearest_one(monkeypatch):
    """A battery at 1000.4 of 1000 Wh bid more power at a higher price, and its bid of before stood."""
    with PretendedAgent(monkeypatch) as one:
        one.offers()
        one.device.state = 1000.4
        one.offers(lambda offer: isinstance(offer, Points) and [power for _, power in offer.points] == [0, 0, -2000])
        assert not any("not offered" in line for line in one.said)
        one.told(-700)
        assert one.said == ["all is well: the device's state is read, the market has its offer, and it got its first setpoint, -700 W"]


def test_an_offer_is_said_again_so_that_the_market_sees_that_the_agent_lives(monkeypatch):
    monkeypatch.setattr(running, "REPEATED", 0.1)
    with PretendedAgent(monkeypatch) as one:
        one.offers()
        wait_until(lambda: one.events.count(("repeat", None)) >= 2, f"it is said again: {one.events}")
        assert len([told for kind, told in one.events if kind == "offer"]) == 1


def test_a_device_s_own_time_out_is_written_before_each_power(monkeypatch):
    """In milliseconds. So the device falls back by itself if its agent, or the agent's machine, stands still."""
    more = {"time_out": {"by": "csv", "file": "none", "scale": 0.001, "seconds": 25}}
    with PretendedAgent(monkeypatch, tables=more, renew=10) as one:
        one.offers().told(1500)
    written = [number for kind, number in one.events if kind == "write"]
    assert written == [25_000, 1500, 25_000, 0]


@pytest.mark.parametrize("seconds", [19.9, 30.1, "soon"])
def test_a_time_out_is_longer_than_the_renewal_and_no_longer_than_silence(monkeypatch, seconds):
    more = {"time_out": {"by": "csv", "file": "none", "seconds": seconds}}
    with pytest.raises(BadSettings, match="time_out.seconds is"):
        PretendedAgent(monkeypatch, tables=more, renew=10)


def test_the_agent_tells_that_its_loop_turns(monkeypatch):
    turns = []
    with PretendedAgent(monkeypatch, turns=lambda: turns.append(True)) as one:
        one.offers()
        before = len(turns)
        wait_until(lambda: len(turns) > before + 3, "the loop turns")


def test_what_the_device_takes_is_told_to_the_market(monkeypatch):
    more = {"measured": {"by": "csv", "file": "none", "unit": "kW", "scale": -0.1}}
    with PretendedAgent(monkeypatch, state=15.0, tables=more) as one:
        one.waits_for("measured", -1500)
    with pytest.raises(BadSettings, match="measured.unit is Wh"):
        PretendedAgent(monkeypatch, tables={"measured": {"by": "csv", "file": "none", "unit": "Wh"}})
