"""The lines of prices and powers that a page keeps: one point a gap, three hours of them, of relays and the auctioneer alone."""

from __future__ import annotations

import json

from looking import Served, require_page
from told import village

from cogmaula.live.page import trend
from cogmaula.live.page.trend import GAP, KEPT, Trend


def lines_of(one):
    return one.to_json()["lines"]


def test_a_point_is_taken_once_in_a_gap():
    one, view = Trend(1000.0), village().view()
    assert not one.is_due(1000.0 + GAP - 1)
    one.take(1000.0 + GAP - 1, view)
    assert lines_of(one) == {}
    assert one.is_due(1000.0 + GAP)
    for now in (1015.0, 1016.0, 1029.0, 1030.0):
        one.take(now, view)
    assert lines_of(one) == {"auctioneer": [(1015.0, 2, -110), (1030.0, 2, -110)], "street": [(1015.0, 2, -50), (1030.0, 2, -50)]}


def test_what_is_not_known_is_none():
    one = Trend(0.0)
    one.take(GAP, village().without("mill/setpoint", "auctioneer/price/2").view())
    assert lines_of(one)["auctioneer"] == [(GAP, 2, None)]


def test_three_hours_are_kept():
    one, view = Trend(0.0), village().view()
    for index in range(1, 1000):
        one.take(index * GAP, view)
    line = lines_of(one)["street"]
    assert (len(line), line[-1][0] - line[0][0]) == (KEPT / GAP, KEPT - GAP)


def test_a_node_that_is_gone_leaves_in_the_end_and_not_all_have_a_line(monkeypatch):
    one = Trend(0.0)
    one.take(GAP, village().view())
    monkeypatch.setattr(trend, "MOST_NODES", 2)
    later = village().state("other", "relay", "auctioneer", 3).without("street/state").view()
    one.take(2 * GAP, later)
    assert lines_of(one).keys() == {"auctioneer", "street"}
    one.take(3 * GAP + KEPT, later)
    assert lines_of(one).keys() == {"auctioneer"}


def test_a_clock_that_is_set_back_begins_anew():
    one, view = Trend(1000.0), village().view()
    for now in (1015.0, 1030.0, 500.0):
        one.take(now, view)
    assert [point[0] for point in lines_of(one)["street"]] == [500.0]


def test_a_page_tells_its_lines(monkeypatch):
    require_page()
    monkeypatch.setattr(trend, "GAP", 0.001)
    with Served(village()) as served:
        served.view()
        status, headers, body = served.get("/trend")
    assert (status, headers["Content-Type"]) == (200, "application/json")
    assert json.loads(body)["lines"]["street"][-1][1:] == [2, -50]
