"""What a recipe says beside its tables: time zones, missing values, ticks of other minutes, prices and connections; all by hand."""

from __future__ import annotations

from datetime import UTC, date, datetime, timedelta
from pathlib import Path
from zoneinfo import ZoneInfo

import pytest

from cogmaula import Battery, Cluster, Events, Manual, Program, Solar, State, Tick, Unreadable, cli, run
from cogmaula.data import Made, RecipeFault, TableFault, from_csv, made_by
from cogmaula.data.looks import look_of
from cogmaula.data.suppliers import supplier_points

BERLIN = ZoneInfo("Europe/Berlin")
BASIS = "[basis]\nmin = -10\nmax = 40\nsteps = 51\n"
TABLE = '[[table]]\nfile = "loads.csv"\nkind = "load"\n'


def recipe(folder: Path, rows: list[str], words: str = "", more: str = "", head: str = "time,a", **sheets: str) -> Path:
    """A recipe with one table of these rows, and the sheets beside it."""
    (folder / "loads.csv").write_text("\n".join([head, *rows, ""]))
    for name, text in sheets.items():
        (folder / f"{name}.csv").write_text(text)
    path = folder / "recipe.toml"
    path.write_text(f"{words}\n{BASIS}{TABLE}{more}")
    return path


def powers(made: Made, name: str) -> list[int]:
    """The power of a load over each tick of a cluster."""
    found, now = [], getattr(made.cluster.node(name), "start")
    for phase in made.cluster.phases:
        if isinstance(phase, Tick):
            found.append(now)
        else:
            now = next((event.value for event in phase.events if isinstance(event, State) and event.device == name), now)
    return found


def local_rows(day: date, hours: list[int]) -> list[str]:
    """A row for each of these hours of a local clock, with its place as the power."""
    return [f"{day.isoformat()}T{hour:02}:00,{100 + at}" for at, hour in enumerate(hours)]


@pytest.mark.parametrize(
    ("day", "hours", "count"),
    [
        (date(2026, 3, 29), [*range(2), *range(3, 24)], 23),
        (date(2026, 10, 25), [0, 1, 2, *range(2, 24)], 25),
        (date(2026, 6, 21), list(range(24)), 24),
    ],
)
def test_a_day_of_a_zone_has_the_hours_of_its_clock(tmp_path: Path, day: date, hours: list[int], count: int) -> None:
    """23 rows in March, 25 in October with 02:00 twice; the day is taken alone, from midnight to midnight of the zone."""
    around = [f"{day - timedelta(days=1)}T23:00,7", *local_rows(day, hours), f"{day + timedelta(days=1)}T00:00,8"]
    path = recipe(tmp_path, around, 'minutes = 60\ntimezone = "Europe/Berlin"')
    made = made_by(path, day, day + timedelta(days=1))
    assert powers(made, "a") == [100 + at for at in range(count)]
    assert made.start == datetime(day.year, day.month, day.day, tzinfo=BERLIN)
    assert made.start.tzinfo == BERLIN
    assert made.cluster.minutes == 60 * count


def test_a_clock_that_was_changed_is_told(tmp_path: Path) -> None:
    """A row on no clock; and without a zone, an hour that is missing or comes twice, with what to write."""
    path = recipe(tmp_path, local_rows(date(2026, 3, 29), [1, 2]), 'minutes = 60\ntimezone = "Europe/Berlin"')
    with pytest.raises(TableFault, match=r"loads.csv:3: 2026-03-29T02:00:00 is on no clock of Europe/Berlin: summer time begins there"):
        from_csv(path)
    for day, hours in ((date(2026, 3, 29), [1, 3]), (date(2026, 10, 25), [2, 2])):
        path = recipe(tmp_path, local_rows(day, hours), "minutes = 60")
        with pytest.raises(TableFault, match=r'Was the clock changed there\? Then write timezone = "Europe/Berlin"'):
            from_csv(path)


def test_a_day_of_times_with_offsets(tmp_path: Path) -> None:
    """A day without an offset is that of the first row or of the recipe's zone; with an offset it needs times that have one."""
    rows = [f"{datetime(2026, 6, 20, 22, tzinfo=UTC) + timedelta(hours=at):%Y-%m-%dT%H:%M}+00:00,{at}" for at in range(30)]
    assert powers(made_by(recipe(tmp_path, rows, "minutes = 60"), date(2026, 6, 21)), "a") == list(range(2, 30))
    made = made_by(recipe(tmp_path, rows, 'minutes = 60\ntimezone = "Europe/Berlin"'), date(2026, 6, 21), date(2026, 6, 22))
    assert powers(made, "a") == list(range(24))
    plain = recipe(tmp_path, ["2026-06-21T00:00,1"], "minutes = 60")
    with pytest.raises(RecipeFault, match="has an offset, and the times of the tables have none"):
        from_csv(plain, datetime(2026, 6, 21, tzinfo=UTC))


@pytest.mark.parametrize(("word", "due", "how"), [("hold", [1, 1, 3, 3, 3, 6], "the value before"), ("zero", [1, 0, 3, 0, 0, 6], "0 W")])
def test_what_is_missing_is_filled_in_and_told(tmp_path: Path, word: str, due: list[int], how: str) -> None:
    """An empty cell and two rows that are not there."""
    rows = ["2026-06-21T00:00,1", "2026-06-21T00:15,nan", "2026-06-21T00:30,3", "2026-06-21T01:15,6"]
    made = made_by(recipe(tmp_path, rows, f'missing = "{word}"'))
    assert powers(made, "a") == due
    assert made.told == (f"loads.csv: 2 rows and 1 cell are missing and count as {how}",)
    begins_empty = recipe(tmp_path, ["2026-06-21T00:00,"], f'missing = "{word}"')
    if word == "hold":
        with pytest.raises(TableFault, match="column a begins with an empty cell"):
            from_csv(begins_empty)
    else:
        assert powers(made_by(begins_empty), "a") == [0]


def test_ticks_of_other_minutes(tmp_path: Path) -> None:
    """Four quarters of an hour become their mean, 1.5 W to the even 2; the rest is left out. An hour becomes two halves."""
    rows = [f"2026-06-21T{at // 4:02}:{at % 4 * 15:02},{watts}" for at, watts in enumerate([1, 2, 1, 2, 3, 4, 3, 4, 9])]
    made = made_by(recipe(tmp_path, rows, "resample = 60"))
    assert powers(made, "a") == [2, 4] and made.cluster.minutes == 120
    assert made.told == ("loads.csv: 4 rows make a tick of 60 minutes, by their mean", "loads.csv: the last 1 row fill no tick and are left out")
    halves = made_by(recipe(tmp_path, ["2026-06-21T00:00,5", "2026-06-21T01:00,6"], "minutes = 60\nresample = 30"))
    assert powers(halves, "a") == [5, 5, 6, 6] and halves.cluster.minutes == 120


PRICES = "time,price\n2026-06-21T00:00,95.4\n2026-06-21T01:00,-20\n2026-06-21T02:00,600\n"
SERIES = '[[price]]\nfile = "prices.csv"\ndevice = "exchange"\nunit = "EUR/MWh"\nminutes = 60\npower = 9000\n'


def test_a_series_of_prices_is_a_device(tmp_path: Path, program: Program) -> None:
    """95.4 EUR/MWh are 9.54 ct, to 10; -20 are -2 ct; 600 are 60 ct, above the basis. Between the hours nothing changes."""
    rows = [f"2026-06-21T{at // 2:02}:{at % 2 * 30:02},500" for at in range(6)]
    made = made_by(recipe(tmp_path, rows, "minutes = 30", SERIES, prices=PRICES))
    assert made.cluster.node("exchange") == Manual("exchange", points=[(9, 9000), (10, -9000)])
    assert made.cluster.phases[1:] == (
        Tick(30), Tick(30),
        Events([State("exchange", points=[(-3, 9000), (-2, -9000)])]), Tick(30), Tick(30),
        Events([State("exchange", points=[(39, 9000), (40, -9000)])]), Tick(30), Tick(30),
    )  # fmt: skip
    assert made.told == (
        "prices.csv: prices are rounded to the steps of the basis, 1 ct/kWh apart, by at most 0.46",
        "prices.csv: 1 price outside -10 to 40 ct/kWh count as the nearest of both: widen the basis",
    )
    assert made.connection == "exchange"
    assert [end.price for end in run(made.cluster, program=program).ends] == [10, 10, 10, -2, -2, -2, 40, 40, 40]


def test_a_markup_is_paid_by_the_buyer_alone(tmp_path: Path) -> None:
    """At 9.54 ct and 15 ct of levies one buys at 24.54, to 25, and sells at 10."""
    made = made_by(recipe(tmp_path, ["2026-06-21T00:00,1"], "minutes = 60", f"{SERIES}markup = 150\n", prices=PRICES))
    assert made.cluster.node("exchange") == Manual("exchange", points=[(9, 9000), (10, 0), (24, 0), (25, -9000)])


@pytest.mark.parametrize(
    ("more", "prices", "told"),
    [
        (SERIES.replace("EUR/MWh", "EUR/kWh"), PRICES, "price 1: unit is 'EUR/kWh': write one of EUR/MWh, ct/kWh"),
        (SERIES + "markup = -1\n", PRICES, "price 1: markup is -1"),
        (SERIES, PRICES.replace("T00", "T05", 1), "the row is of"),
        (SERIES, PRICES.split("2026-06-21T01")[0].replace("T00", "T05"), "it has no price for 2026-06-21T00:00:00"),
        (SERIES, PRICES.replace("95.4", ""), "column price: there is no price"),
        (SERIES, PRICES.replace("price", "a,b").replace("\n2", ",1\n2").replace("600\n", "600,1\n").replace("a,b,1", "a,b"), "a series has the time and one column"),
        (SERIES, PRICES.replace(":00,", ":00Z,"), "have an offset, and the others have none"),
        (SERIES.replace("minutes = 60", "minutes = 15"), PRICES.replace("T01:00", "T00:15").replace("T02:00", "T00:30"), "the price changes within the tick"),
    ],
)
def test_a_faulty_series_is_told(tmp_path: Path, more: str, prices: str, told: str) -> None:
    """Each fault says what is wrong with the series."""
    with pytest.raises((RecipeFault, TableFault), match=told):
        from_csv(recipe(tmp_path, ["2026-06-21T00:00,1"], "minutes = 60", more, prices=prices))


CONNECTION = '[connection]\nbuy = 30\nsell = 8\npower = 9000\n[[connection.time]]\nfrom = "22:00"\nuntil = "06:00"\nbuy = 22\n'


def test_a_connection_by_time_of_use(tmp_path: Path) -> None:
    """22 from ten at night to six, else 30; sold at 8 all day. The device is called connection."""
    rows = [f"{datetime(2026, 6, 21, 21) + timedelta(hours=at):%Y-%m-%dT%H:%M},500" for at in range(11)]
    made = made_by(recipe(tmp_path, rows, "minutes = 60", CONNECTION))
    day, night = ([(7, 9000), (8, 0), (buy - 1, 0), (buy, -9000)] for buy in (30, 22))
    assert made.connection == "connection"
    assert made.cluster.node("connection") == Manual("connection", points=day)
    assert [phase for phase in made.cluster.phases if isinstance(phase, Events)][1:] == [
        Events([State("connection", points=night)]),
        Events([State("connection", points=day)]),
    ]


@pytest.mark.parametrize(
    ("old", "new", "told"),
    [
        ("buy = 30", "buy = 5", "connection: one cannot sell at more than the price of buying"),
        ("buy = 30", "buy = true", "connection: buy is True: write a number"),
        ("buy = 30", "", "connection has no buy"),
        ("buy = 22", "buy = nan", "connection: time 1: buy is Decimal"),
        ('"22:00"', '"22 o\'clock"', "connection: time 1: from is .*: write a time such as"),
        ("buy = 22", 'days = "Mondays"', "connection: time 1: days is 'Mondays': write one of all, weekdays, weekend"),
        ("power = 9000", "power = -1", "connection: power is -1: write a whole number above 0"),
    ],
)
def test_a_faulty_connection_is_told(tmp_path: Path, old: str, new: str, told: str) -> None:
    """Each fault says what is wrong with the connection."""
    assert old in CONNECTION
    with pytest.raises(RecipeFault, match=told):
        from_csv(recipe(tmp_path, ["2026-06-21T00:00,1"], "minutes = 60", CONNECTION.replace(old, new, 1)))


def test_weekends_have_prices_of_their_own(tmp_path: Path) -> None:
    """2026-06-19 is a Friday: on Saturday the window holds all day, since it ends where it begins."""
    words = '[connection]\nbuy = 30\nsell = 8\npower = 1\n[[connection.time]]\nfrom = "00:00"\nuntil = "24:00"\ndays = "weekend"\nbuy = 20\n'
    rows = [f"2026-06-{day}T00:00,1" for day in (19, 20, 21, 22)]
    made = made_by(recipe(tmp_path, rows, "minutes = 1440", words))
    bids = [getattr(made.cluster.node("connection"), "points")]
    bids += [event.points for phase in made.cluster.phases if isinstance(phase, Events) for event in phase.events if isinstance(event, State)]
    assert [points[-1][0] for points in bids] == [30, 20, 30]


@pytest.mark.parametrize(("buy", "sell"), [(30, 8), (8, 8), (9, 8), (10, 0), (0, 0), (50, 0), (50, 50)])
def test_a_supplier_sells_from_one_step_and_buys_below_another(buy: int, sell: int, program: Program) -> None:
    """With a surplus the market clears at the price of selling, and with a lack at that of buying."""
    from cogmaula import Basis, Load

    basis = Basis(-10, 40, 51)
    points = supplier_points(basis, buy, sell, 1000)
    for node, step in ((Solar("house", start=100), sell), (Load("house", start=100), buy)):
        cluster = Cluster(basis, [node, Manual("connection", points=points)])
        (end,) = run(cluster.with_phases(cluster.join_all()), program=program).ends
        assert end.step == step


def test_the_power_of_a_connection_is_more_than_all_the_others(tmp_path: Path) -> None:
    """Loads of 700 W and 400 W at most, and a battery of 2,000 W: the next whole kilowatts above 3,100 W."""
    battery = '[[node]]\nname = "store"\nkind = "battery"\nparent = "auctioneer"\ncapacity = 10\ncharge = 1000\ndischarge = 2000\nspread = 0\nstart = 5\nslices = 2\n'
    words = "[connection]\nbuy = 30\nsell = 8\n"
    rows = ["2026-06-21T00:00,100,400", "2026-06-21T01:00,700,0"]
    made = made_by(recipe(tmp_path, rows, "minutes = 60", battery + words, head="time,a,b"))
    assert getattr(made.cluster.node("connection"), "points")[-1] == (30, -4000)
    assert made.cluster.nodes[:2] == tuple(Battery("store", capacity=10, charge=1000, discharge=2000, spread=0, start=5).sliced(2))
    for old, new, told in (("slices = 2", "slices = 11", "cannot share"), ("slices = 2", 'slices = "2"', "slices is '2'"), ('"battery"', '"load"', "not known")):
        with pytest.raises(Unreadable, match=told):
            from_csv(recipe(tmp_path, rows, "minutes = 60", battery.replace(old, new) + words, head="time,a,b"))


@pytest.mark.parametrize(
    ("kind", "series", "told"),
    [
        ("load", [0] * 90 + [1, 2, 3, 1, 2, 3], "its mean is 0.1 W, below 50: is the unit kW"),
        ("load", [60_000] * 96, "its mean is 60,000 W, above 50,000"),
        ("load", [0] * 48 + [3000] * 48, "it is 0 in 50% of its rows: is it solar"),
        ("load", list(range(1000, 1096)), "it never falls: is it the count of a meter"),
        ("solar", [300] * 95 + [200], "it is never 0, not even at night: is it a load"),
        ("solar", [0] * 48 + [1, 3] * 24, "it is at most 3 W: is the unit kW"),
        ("load", [200, 300] * 48, None),
        ("solar", [0] * 48 + [900, 1000] * 24, None),
        ("load", [1000, 2000], None),
    ],
)
def test_a_column_that_looks_wrong_is_told(kind: str, series: list[int], told: str | None) -> None:
    """Quarters of an hour of a day: each likely slip has its warning, and right ones have none."""
    found = look_of("a", kind, series, 15).warning
    assert found == told if told is None or found is None else told in found


def test_the_look_of_a_column_by_hand() -> None:
    """Four quarters of an hour of 0, 1,000, 2,000 and 5,000 W: 2 kWh, a quarter of them 0."""
    look = look_of("a", "load", [0, 1000, 2000, 5000], 15)
    assert (look.kwh, look.least, look.mean, look.most, look.zeros) == (2.0, 0, 2000, 5000, 0.25)


def test_the_command_tells_how_it_looks_and_what_it_did(tmp_path: Path, program: Program, capsys: pytest.CaptureFixture[str]) -> None:
    """The table of the columns on standard output; the rest on standard error, with the connection that the report takes."""
    rows = [f"2026-10-25T{hour:02}:00,0.4" for hour in (0, 1, 2, 2, 3)]
    path = recipe(tmp_path, rows, 'minutes = 60\ntimezone = "Europe/Berlin"', CONNECTION)
    assert cli.main(["from-csv", str(path), "-o", str(tmp_path / "a.json"), "--program", program.path]) == 0
    told = capsys.readouterr()
    assert told.out.splitlines()[1].split() == ["a", "load", "0.0", "0", "0", "0", "100%"]
    assert told.err.splitlines() == [
        f"{tmp_path / 'a.json'}: 2 devices, 6 phases, 300 minutes from 2026-10-25T00:00:00+02:00[Europe/Berlin]",
        "warning: a: its mean is 0.0 W, below 50: is the unit kW?",
        f"{tmp_path / 'a.json'}: its connection to the supplier is connection",
    ]
