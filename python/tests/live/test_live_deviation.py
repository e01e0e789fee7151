"""A device that does not follow its setpoints: an alarm, then it counts as what it measures, and after a while its own bid is tried. By hand."""

from __future__ import annotations

import json

import pytest
from pretended import bid, device_resume

from cogmaula import clock
from cogmaula.live import BadSettings
from cogmaula.live.device.deviation import Deviation, Measured
from cogmaula.live.messages.frames import Offer, Setpoint
from cogmaula.live.node.node_errors import BadMessage

# The device may deviate by 100 W for 10 s.
WATTS, SECONDS = 100, 10


def walked(events, seconds, bound=WATTS):
    """Of each second what the device counts as and whether there is an alarm, as (second, counts, alarm) where they change."""
    one, found = Deviation(bound, SECONDS), [(0, None, "")]
    for second in range(seconds):
        for kind, told in events.get(second, ()):
            if kind == "told":
                one.told(told)
            else:
                one.hear(Measured(told) if kind == "takes" else Measured(None, told), float(second))
        one.tick(float(second))
        if (one.counts, one.alarm) != found[-1][1:]:
            found.append((second, one.counts, one.alarm))
    return found[1:]


def takes(power, first, last):
    return {second: [("takes", power)] for second in range(first, last)}


TOLD = {0: [("told", 2000)]}
ALARM = "the device takes 0 W, and was told 2000 W"


def test_a_device_that_takes_nothing_counts_for_nothing_until_its_bid_is_tried_again():
    events = takes(0, 1, 130) | TOLD
    events[21] = [("takes", 0), ("told", 0)]
    # At 121 its own bid is tried again, and it is told 2000 W once more, which it takes.
    events[122] = [("told", 2000), ("takes", 2000)]
    events |= takes(2000, 123, 150)
    assert walked(events, 150) == [(11, None, ALARM), (21, 0, ALARM), (121, None, "")]


def test_what_it_counts_as_follows_what_it_measures():
    events = takes(500, 1, 25) | takes(550, 25, 30) | takes(700, 30, 40) | TOLD
    told = "the device takes 500 W, and was told 2000 W"
    assert walked(events, 40) == [(11, None, told), (21, 500, told), (30, 700, told)]


@pytest.mark.parametrize(
    "events",
    [takes(1901, 1, 60) | TOLD, takes(0, 1, 10) | takes(2000, 10, 60) | TOLD, TOLD, takes(0, 1, 60), takes(0, 1, 10) | {10: [("told", 0)]} | TOLD, takes(0, 1, 3) | TOLD],
    ids=["within its bound", "late", "without a measurement", "never told", "told something else", "a meter that is silent"],
)
def test_a_device_that_follows(events):
    told = walked(events, 60)
    assert all(counts is None for _, counts, _ in told)


def test_a_device_that_refuses_says_why():
    events = {0: [("told", 2000), ("takes", 300)], 1: [("refuses", "it refuses 2000 W: too hot")]}
    assert walked(events, 60)[:2] == [(1, None, "it refuses 2000 W: too hot"), (20, 300, "it refuses 2000 W: too hot")]


def test_without_a_bound_nothing_follows():
    assert walked(takes(0, 1, 60) | TOLD, 60, bound=None) == []


def test_what_a_control_says():
    assert Measured.of_line(b'{"measured": 12.6}') == Measured(13)
    assert Measured.of_line(b'{"refused": 5, "why": "hot"}') == Measured(None, "it refuses 5 W: hot")
    assert Measured.of_line(b'{"power": [1, 0]}') is Measured.of_line(b"nonsense") is None
    for wrong in (b'{"measured": "5"}', b'{"measured": true}', b'{"measured": 1e12}', b'{"refused": null}'):
        with pytest.raises(BadMessage, match="give watts"):
            Measured.of_line(wrong)


def test_a_node_offers_what_its_device_measures_and_its_own_offer_again(joined, monkeypatch):
    one = joined("device", deviation=100.0, deviation_seconds=10.0).begun()
    begun, passed = clock.now(), 0.0
    monkeypatch.setattr(clock, "now", lambda: begun + passed)
    one.link.confirms = True

    one.node._take_offered(b'{"power": [500, -300], "reference": 7}')
    one.turned()
    one.writes(device_resume(2, 0, (500, -300)), bid(2, 2, 500, -300), Setpoint(2, 7, 0, 500), device_resume(2, 7, (500, -300)))
    for passed in (1.0, 12.0):
        one.node._take_offered(b'{"measured": 20}')
        one.turned()
    assert json.loads(one.link.newest["market/house/state"].payload)["alarm"] == "the device takes 20 W, and was told 500 W"
    assert json.loads(one.link.newest["market/house/measured"].payload)["power"] == 20
    passed = 22.0
    one.link.comes("market/house/measured", b'{"power": 30, "time": "2026-01-31T06:30:00Z"}')
    one.turned()
    assert one.service.read[-1] == Offer((30, 30)).to_bytes()
    one.writes(device_resume(4, 7, (30, 30)), bid(2, 4, 30, 30))
    # What the control offers meanwhile waits.
    one.node._take_offered(b'{"power": [400, -300]}')
    one.turned()
    assert one.service.read[-1] == Offer((30, 30)).to_bytes()
    passed = 123.0
    one.turned()
    assert one.service.read[-1] == Offer((400, -300)).to_bytes()


@pytest.mark.parametrize("more", [{"deviation": -1.0}, {"deviation_seconds": 0.0}])
def test_bounds_of_deviation_that_are_none(joined, more):
    with pytest.raises(BadSettings, match="give watts of 0 or more, and seconds above 0"):
        joined("device", **more)
