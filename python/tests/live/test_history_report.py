"""The page of a day of a live market: its accounts against hand work and a model that goes second by second, and the command."""

from __future__ import annotations

import json
import re
from datetime import UTC, datetime

import pytest
from hypothesis import given, settings, strategies

from cogmaula.cli import main
from cogmaula.history import Row, open_database
from cogmaula.history.accounts import MEASURED_HOLDS, SLOT, Account, Accounts, Event
from cogmaula.history.span_course import course_of
from cogmaula.live.node.node_errors import BadSettings
from cogmaula.report.history_day import SlotPrices, day_of, history_page, prices_by_slot

# The midnight before 31 January 2026 in UTC, in seconds, and an hour.
DAY, HOUR = 1769817600, 3600
SESSION = "0123456789abcdef"
# A watt over a second, in watts times milliseconds.
WATT_SECOND = 1000


def state(node, sort, parent=None, child=None, **more):
    known = {"floor": None, "ceiling": None, "alarm": "", "why": "", "session": SESSION, **more}
    return Row("states", {"node": node, "run": "0", "at": DAY - 7200.0, "state": "up", "sort": sort, "parent": parent, "child": child, **known})


def setpoint(device, after, power, price):
    """A setpoint so many seconds after midnight. Its clearing rises with the time."""
    numbers = {"clearing": after + 90_000, "number": 2, "step": 0}
    return Row("setpoints", {"session": SESSION, "device": device, **numbers, "price": price, "power": power, "at": float(DAY + after)})


def price(parent, child, clearing, value, after, number=2):
    """A price at the step of its value, which answers the bid of a number."""
    key = {"session": SESSION, "parent": parent, "child": child, "clearing": clearing}
    return Row("prices", {**key, "number": number, "step": value, "price": value, "at": float(DAY + after)})


def bid(parent, child, number, after=-9000, demands=None, **powers):
    """A bid of 100 steps, of 0 W but for `at10=400`, 400 W at step 10; without any power it leaves."""
    told = [0] * 100
    for step, power in powers.items():
        told[int(step.removeprefix("at"))] = power
    key = {"session": SESSION, "parent": parent, "child": child, "number": number, "at": float(DAY + after)}
    return Row("bids", {**key, "demands": json.dumps(told) if powers else demands})


def measured(device, after, power):
    return Row("measured", {"device": device, "at": float(DAY + after), "power": power})


ROWS = [
    Row("sessions", {"session": SESSION, "begun": DAY - 9000.0, "least": 0, "greatest": 99, "steps": 100}),
    state("root", "auctioneer"),
    state("street", "relay", "root", 1, ceiling=700),
    state("oven", "device", "street", 1),
    state("store", "device", "street", 2),
    state("mill", "device", "root", 2),
    # The street passes 25 on where it had 20, from 1:00 to 2:00.
    price("root", 1, 1, 10, -600), price("root", 1, 2, 20, HOUR), price("root", 1, 3, 20, 2 * HOUR),
    # The oven: 1,000 W at 10 until 1:00, 600 W at 25 until it is let go at 2:00.
    bid("street", 1, 2, at10=1000, at25=600), price("street", 1, 1, 10, -600), price("street", 1, 2, 25, HOUR),
    setpoint("oven", -600, 1000, 10), setpoint("oven", HOUR, 600, 25),
    Row("lapses", {"session": SESSION, "parent": "street", "child": 1, "number": 3, "at": float(DAY + 2 * HOUR), "why": "w"}),
    # The store: measured 400 W for 10 minutes and 200 W for 15, then it gives 500 W as it was told. From 1:00 on the street hears no
    # heartbeat, and the store falls back to 40 W, by its own word. At 1:30 the street is back, and the store gives 500 W again until it
    # leaves at 3:00.
    bid("street", 2, 2, at10=-500, at20=-500), price("street", 2, 1, 10, -600), price("street", 2, 3, 20, 2 * HOUR),
    setpoint("store", -600, -500, 10), measured("store", 0, 400), measured("store", 600, 200),
    Row("fallbacks", {"session": SESSION, "device": "store", "since": float(DAY + HOUR), "power": 40, "why": "w"}),
    {**state("street", "relay", "root", 1, ceiling=700).values, "at": DAY + HOUR + 1.0, "silent": DAY + HOUR - 120.0},
    {**state("street", "relay", "root", 1, ceiling=700).values, "at": DAY + 5400.0},
    setpoint("store", 2 * HOUR, -500, 20), bid("street", 2, 4, 3 * HOUR),
    # The mill: measured 100 W all day, told a price of 30 from 6:00 on, at which it takes nothing.
    *(measured("mill", after, 100) for after in range(0, 86_400, 600)), bid("root", 2, 2, at31=0), price("root", 2, 9, 30, 6 * HOUR),
    setpoint("mill", 6 * HOUR, 0, 30),
    # What is behind the day.
    setpoint("oven", 86_400, 9_000, 90), measured("mill", 86_400, 9_000), price("root", 1, 4, 90, 86_400),
    Row("limits", {
        "session": SESSION, "relay": "street", "at": DAY + 60.0, "state": "kept", "floor": -50, "ceiling": 600, "until": None,
        "reference": "order <7>", "clearing": 2, "why": "",
    }),
    Row("states", {
        "node": "street", "run": "0", "at": DAY + 90.0, "state": "up", "sort": "relay", "parent": "root", "child": 1, "floor": None,
        "ceiling": 700, "alarm": "too much", "why": "", "session": SESSION,
    }),
]
ROWS = [row if isinstance(row, Row) else Row("states", row) for row in ROWS]
OVEN = Account(1600 * HOUR * WATT_SECOND, 0, (1000 * 10 + 600 * 25) * HOUR * WATT_SECOND, 0, 0, 2 * HOUR * 1000)
# By bids and prices: the store gives 500 W for an hour and a half at 10 and for an hour at 20; for half an hour 40 W are its word alone.
DUE = {
    "mill": Account(0, 0, 0, 0, 0, 18 * HOUR * 1000),
    "oven": OVEN,
    "store": Account(0, 500 * 9000 * WATT_SECOND, -17_500 * HOUR * WATT_SECOND, 0, 0, 9_000_000, 40 * 1800 * WATT_SECOND),
}
STORE = (400 * 600 + 200 * 900, 500 * (9000 - 1500))
MEASURED = {
    "mill": Account(100 * 86_400 * WATT_SECOND, 0, 100 * 18 * HOUR * 30 * WATT_SECOND, 100 * 6 * HOUR * WATT_SECOND, 86_400_000, 0),
    "oven": OVEN,
    "store": Account(
        STORE[0] * WATT_SECOND, STORE[1] * WATT_SECOND, ((STORE[0] - 500 * 3900) * 10 - 500 * 3600 * 20) * WATT_SECOND, 0, 1_500_000,
        7_500_000, 40 * 1800 * WATT_SECOND,
    ),
}


@pytest.fixture
def history(url):
    """A history with this day, opened by one who only reads."""
    keeper = open_database(url)
    keeper.put(ROWS)
    keeper.close()
    database = open_database(url, is_reader=True)
    yield database
    database.close()


def test_the_accounts_of_a_day_by_hand(history):
    for due, bases, by_measure in ((DUE, ["set", "set", "set"], False), (MEASURED, ["measured", "set", "measured 17 %, set 83 %"], True)):
        course = course_of(history, DAY * 1000, (DAY + 86_400) * 1000, by_measure=by_measure)
        assert course.accounts == due
        assert [course.accounts[name].basis for name in ("mill", "oven", "store")] == bases
        assert len(course.sums) == 96
        for member in ("taken", "given", "amount"):
            assert sum(getattr(slot, member) for slot in course.sums) == sum(getattr(account, member) for account in due.values())
        assert (course.differences, course.different) == ((), 0)
    street = course.relays["street"]
    assert (street.ceiling_for, street.floor_for) == (HOUR * 1000, 0)
    # In the first quarter the oven takes 1,000 W, and the store 400 W for 10 minutes and 200 W for 5.
    assert street.loads[0] == (1000 * 900 + 400 * 600 + 200 * 300) * WATT_SECOND
    assert [(answer.state, answer.ceiling, answer.reference) for answer in course.answers] == [("kept", 600, "order <7>")]
    assert course.alarms == (((DAY + 90) * 1000, "street", "too much"),)


# What a device may write of itself: the rows, and what the page names, by the device, the seconds after midnight and both powers.
NOON = 12 * HOUR
FORGED = {
    "a setpoint of another power": ([setpoint("oven", HOUR + 60, -67_380, 25)], [("oven", HOUR + 60, "setpoint", -67_380, 600)]),
    "a setpoint of another price": ([setpoint("oven", HOUR + 60, 600, 1)], [("oven", HOUR + 60, "setpoint", 600, 600)]),
    "a setpoint after it was let go": ([setpoint("oven", NOON, -67_380, 25)], [("oven", NOON, "setpoint", -67_380, 600)]),
    "a setpoint without a price": (
        [state("ghost", "device", "root", 7), setpoint("ghost", NOON, -67_380, 25)], [("ghost", NOON, "setpoint", -67_380, None)],
    ),
    "a fallback while all above are up": (
        [Row("fallbacks", {"session": SESSION, "device": "oven", "since": float(DAY + NOON), "power": -67_380, "why": "w"})],
        [("oven", NOON, "fallback while the nodes above were up", -67_380, None)],
    ),
    "a second bid of a number": (
        [bid("street", 1, 2, HOUR, at10=-67_380, at25=-67_380)], [("oven", HOUR, "two bids of number 2, the first one counts", None, None)],
    ),
}


@pytest.mark.parametrize("forged", FORGED)
def test_no_account_goes_by_what_a_device_writes(history, url, forged):
    """Each lie changes no account, and is named with the device, the time and both powers."""
    rows, named = FORGED[forged]
    keeper = open_database(url)
    keeper.put(rows)
    keeper.close()
    course = course_of(history, DAY * 1000, (DAY + 86_400) * 1000)
    assert course.accounts == DUE
    found = [(one.device, one.at // 1000 - DAY, one.what, one.told, one.due) for one in course.differences]
    assert (found, course.different) == (named, len(named))


def test_the_place_of_another_gives_no_account(history, url):
    """The oven says that it is a relay, and the mill that it is where the store is: the accounts are then of the places."""
    keeper = open_database(url)
    keeper.put([Row("states", {**state("oven", "relay", "street", 1).values, "at": DAY + 5.0})])
    keeper.put([Row("states", {**state("mill", "device", "street", 2).values, "at": DAY + 5.0})])
    keeper.close()
    course = course_of(history, DAY * 1000, (DAY + 86_400) * 1000)
    # The store's fallback is of no account, since nobody knows whose it is: 500 W for two hours at 10, and for one at 20.
    due = {"child 2 of root": 0, "child 2 of street": -500 * (7200 * 10 + 3600 * 20) * WATT_SECOND, "oven": OVEN.amount}
    assert {name: account.amount for name, account in course.accounts.items()} == due
    assert {one.device for one in course.differences} >= {"mill", "store"}


def test_the_page_names_what_a_device_forged(history, url):
    keeper = open_database(url)
    keeper.put([setpoint("oven", HOUR + 60, -67_380, 25)])
    keeper.close()
    words = re.sub(r"<[^>]*>", " ", history_page(history, datetime(2026, 1, 31, tzinfo=UTC)))
    assert "oven 01:01:00 setpoint \N{MINUS SIGN}67.38 kW 600 W" in " ".join(words.split())


def test_the_prices_of_a_day_by_hand(history):
    """10 from the day before, 20 from 1:00 on, and 30 from 6:00 on."""
    found = day_of(history, datetime(2026, 1, 31, 12, tzinfo=UTC))
    assert found.course.clearings == 3
    assert prices_by_slot(found.course)[3:5] == [SlotPrices(10, 10, 10), SlotPrices(20, 20, 20)]


def test_the_page_of_a_day(history):
    text = history_page(history, datetime(2026, 1, 31, tzinfo=UTC))
    words = re.sub(r"<[^>]*>", " ", text)
    for due in ("0.020 kWh were fallbacks", "street", "1 h", "too much", "order &lt;7&gt;", "25.00", "\N{MINUS SIGN}17.50"):
        assert due in words, due
    assert "<script" not in text
    assert text == history_page(history, datetime(2026, 1, 31, tzinfo=UTC))
    assert "The history has no clearing of this day." in history_page(history, datetime(2020, 1, 31, tzinfo=UTC))


def test_one_who_reads_makes_no_tables_and_writes_none(url, history):
    with pytest.raises(OSError, match="read.?only"):
        history.put([measured("mill", 1, 1)])
    missing = url.replace("market", "missing")
    with pytest.raises((OSError, BadSettings)):
        open_database(missing, is_reader=True)


def test_a_login_that_may_only_read_is_enough(url, history):
    if not url.startswith("postgresql"):
        pytest.skip("a file of SQLite has no logins")
    import psycopg

    with psycopg.connect(url, autocommit=True) as owner:
        owner.execute("DO $$ BEGIN CREATE ROLE looks LOGIN; EXCEPTION WHEN duplicate_object THEN NULL; END $$")
        owner.execute("GRANT SELECT ON ALL TABLES IN SCHEMA public TO looks")
    database = open_database(url.replace("postgres@", "looks@"), is_reader=True)
    assert course_of(database, DAY * 1000, (DAY + 86_400) * 1000).accounts == DUE
    database.close()


# Against a model.

SPAN = 2 * SLOT // 1000
EVENTS = strategies.lists(
    strategies.tuples(
        strategies.integers(-1000, SPAN - 1), strategies.sampled_from("ab"), strategies.sampled_from(["set", "unknown", "fallback", "back", "lapse", "measured"]),
        strategies.integers(-9, 9), strategies.integers(-5, 5),
    ),
    max_size=20,
)


def model(events, device):
    """The account of a device, second by second: by the newest measured power of the last 15 minutes, or else by what the market told last."""
    own = [event for event in events if event.device == device]
    taken = given = amount = unpriced = claimed = unknown = 0
    for second in range(SPAN):
        before = [event for event in own if event.at <= second * 1000]
        meters = [event for event in before if event.kind == "measured"][-1:]
        told = [event for event in before if event.kind in ("set", "lapse")][-1:]
        silence = [event for event in before if event.kind in ("set", "fallback", "back")][-1:]
        power = told[0].power if told else None
        if meters and meters[0].at + MEASURED_HOLDS > second * 1000:
            power = meters[0].power
        elif silence and silence[0].kind == "fallback":
            claimed, power = claimed + abs(silence[0].power), None
        elif told and told[0].kind == "set" and power is None:
            unknown += 1
        power = power or 0
        prices = [event.price for event in before if event.price is not None]
        taken, given = taken + max(power, 0), given + max(-power, 0)
        amount += power * prices[-1] if prices else 0
        unpriced += 0 if prices else abs(power)
    return (*(WATT_SECOND * value for value in (taken, given, amount, unpriced, claimed)), 1000 * unknown)


@settings(max_examples=30, deadline=None)
@given(EVENTS)
def test_accounts_are_those_of_a_model_of_each_second(drawn):
    events = [
        Event(
            at * 1000, device, "set" if kind == "unknown" else kind, None if kind in ("unknown", "back", "lapse") else power,
            price if kind in ("set", "unknown") else None,
        )
        for at, device, kind, power, price in sorted(drawn, key=lambda event: event[0])
    ]
    accounts = Accounts(0)
    accounts.begin_with(event for event in events if event.at < 0)
    for begin in (0, SLOT):
        accounts.slot([event for event in events if begin <= event.at < begin + SLOT], begin + SLOT)
    names = ("taken", "given", "amount", "unpriced", "claimed", "unknown_for")
    found = {name: tuple(getattr(account, one) for one in names) for name, account in accounts.by_device.items()}
    assert found == {name: model(events, name) for name in found}
    assert set(found) == {event.device for event in events}


# The command.


def test_the_command_writes_the_page(tmp_path, capsys):
    path, page = tmp_path / "market.db", tmp_path / "day.html"
    database = open_database(f"sqlite:///{path}")
    database.put(ROWS)
    database.close()
    words = ["report", "--history", str(path), "--day", "2026-01-31T00:00[UTC]", "--currency", "EUR", "--per-kwh", "0.04", "-o", str(page)]
    # The oven pays 25 price units times kilowatt-hours, and the store earns 17.5: 7.5, and 0.30 EUR.
    assert main(words) == 0
    assert "all devices pay</dt><dd>0.30 EUR" in page.read_text()
    # Measured, the mill pays 54. The store takes 420,000 Ws and gives 500 W for 3,900 s at 10, and for an hour at 20: it earns 14.25.
    assert main([*words, "--measured"]) == 0
    assert "all devices pay</dt><dd>2.59 EUR" in page.read_text()


@pytest.mark.parametrize(
    ("words", "status", "told"),
    [
        ([], 2, "give a cluster FILE, or --history DATABASE"),
        (["x.json", "--history", "y.db"], 2, "give a cluster FILE, or --history DATABASE"),
        (["x.json", "--day", "2026-01-31"], 2, "--day goes with --history"),
        (["x.json", "--measured"], 2, "--measured goes with --history"),
        (["--history", "y.db", "--start", "2026-01-31"], 2, "--start goes with a cluster FILE"),
        (["--history", "no.db"], 1, "no.db: unable to open"),
        (["--history", "mysql://x"], 2, "the database is 'mysql://x'"),
    ],
)
def test_what_the_command_refuses(words, status, told, capsys, tmp_path, monkeypatch):
    monkeypatch.chdir(tmp_path)
    try:
        found = main(["report", *words, "-o", "day.html"])
    except SystemExit as end:
        found = end.code
    assert found == status
    assert told in capsys.readouterr().err
    assert not list(tmp_path.iterdir())
