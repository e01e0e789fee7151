"""Why a device was told a power: a history of two clearings, whose sums were worked out by hand."""

from __future__ import annotations

from datetime import UTC, datetime

import pytest
from test_history_report import DAY, SESSION, bid, price, state

from cogmaula.cli import main
from cogmaula.history import Row, open_database
from cogmaula.history.why import Moved, why
from cogmaula.live.node.node_errors import BadSettings

# The street, child 1 of the root, has a ceiling of 700 W, and below it an oven, a store and a lamp. Clearing 1, at 0:10, has price 10
# everywhere: the oven takes 500 W, the store 100 W, and the mill, at the root, gives 600 W. Then the oven asks for more. Clearing 2, at
# 0:20, has price 10 again. There the street would take 1,100 W, so it settles for step 25, where it takes 600 W + 100 W. The lamp
# bid and left before.
ROWS = [
    Row("sessions", {"session": SESSION, "begun": DAY - 9000.0, "least": 0, "greatest": 99, "steps": 100}),
    state("root", "auctioneer"), state("street", "relay", "root", 1, floor=-700, ceiling=700),
    state("oven", "device", "street", 1), state("store", "device", "street", 2), state("mill", "device", "root", 2),
    state("lamp", "device", "street", 3),
    bid("street", 3, 2, -900, at10=60), price("street", 3, 0, 10, -800), bid("street", 3, 4, -700),
    bid("street", 1, 2, -600, at10=500), bid("street", 2, 2, -600, at10=100, at25=100), bid("root", 2, 2, -600, at10=-600),
    bid("root", 1, 5, -500, at10=600), price("root", 1, 1, 10, 600, 5), price("root", 2, 1, 10, 600),
    price("street", 1, 1, 10, 600), price("street", 2, 1, 10, 600),
    bid("street", 1, 4, 1190, at10=1000, at25=600), bid("root", 1, 6, 1195, at10=700), bid("root", 2, 4, 1196, at10=-700),
    price("root", 1, 2, 10, 1200, 6), price("root", 2, 2, 10, 1200, 4), price("street", 1, 2, 25, 1200, 4), price("street", 2, 2, 25, 1200),
    Row("fallbacks", {"session": SESSION, "device": "oven", "since": DAY + 3600.0, "power": 40, "why": "no heartbeat"}),
    Row("lapses", {"session": SESSION, "parent": "street", "child": 1, "number": 5, "at": DAY + 3700.0, "why": "its node is down"}),
]  # fmt: skip


@pytest.fixture
def history(tmp_path):
    database = open_database(f"sqlite:///{tmp_path / 'market.db'}")
    database.put(ROWS)
    yield database
    database.close()


def at(second):
    return datetime.fromtimestamp(DAY + second, UTC)


def test_the_levels_have_the_sums_the_steps_and_who_moved(history):
    found = why(history, "oven", at(1300))
    assert (found.told.clearing, found.told.price, found.told.power, found.told.number) == (2, 25, 600, 4)
    street, root = found.levels
    assert (street.step, street.total, street.children, street.floor, street.ceiling) == (25, 700, 2, -700, 700)
    assert (street.own.step, street.own.power, street.own.number) == (10, 700, 6)
    assert street.moved == (Moved("oven", 500, 600),)
    assert (root.step, root.total, root.own, root.children) == (10, 0, None, 2)
    assert {moved.name: (moved.before, moved.power) for moved in root.moved} == {"street": (600, 700), "mill": (-600, -700)}


def test_a_moment_has_the_clearing_before_it(history):
    first = why(history, "oven", at(700))
    assert (first.told.clearing, first.told.power, first.levels[0].total, first.lapse, first.fallback) == (1, 500, 600, None, None)
    last = why(history, "oven", at(3800))
    assert last.told.power == 600 and last.lapse == (DAY + 3700.0, "its node is down") and last.fallback == (DAY + 3600.0, 40, "no heartbeat")
    for device, second, words in (("oven", 500, "was told no price before"), ("oben", 1300, "no device oben")):
        with pytest.raises(BadSettings, match=words):
            why(history, device, at(second))


def test_the_command_says_it_in_lines(history, tmp_path, capsys):
    assert main(["market", "why", "oven", "2026-01-31T01:01:00[UTC]", "--history", str(tmp_path / "market.db")]) == 0
    assert capsys.readouterr().out.splitlines() == [
        "oven was told 600 W at 2026-01-31 00:20:00.000+00:00 by clearing 2: price 25, step 25",
        "  its own bid 4 of 2026-01-31 00:19:50.000+00:00 takes 600 W at step 25",
        "  since 2026-01-31 01:00:00.000+00:00 it is told silence, with its fallback of 40 W: no heartbeat",
        "relay street: its 2 children take 700 W at price 25, step 25, limits -700 to 700 W",
        "  it was given price 10, step 10, for its bid 6, which takes 700 W there",
        "  it settled for step 25 in place of 10, to keep its limits",
        "  moved: oven from 500 W to 600 W",
        "auctioneer root: its 2 children take 0 W at price 10, step 10",
        "  moved: street from 600 W to 700 W",
        "  moved: mill from -600 W to -700 W",
    ]
    assert main(["market", "why", "oben", "2026-01-31T01:01:00[UTC]", "--history", str(tmp_path / "market.db")]) == 2
    assert "no device oben" in capsys.readouterr().err
