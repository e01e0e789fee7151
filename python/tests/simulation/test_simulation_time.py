"""Models over the switches of a clock: by hand for Europe/Berlin of 2026, and for the switches of all zones by drawn moments."""

from __future__ import annotations

from datetime import UTC, datetime, time, timedelta
from zoneinfo import ZoneInfo, available_timezones

import pytest
from hypothesis import given
from hypothesis import strategies as st

from cogmaula.moments import later, minutes_between
from cogmaula.simulation import Held, HeatPump, Vehicle

BERLIN = ZoneInfo("Europe/Berlin")
ZONES = sorted(name for name in available_timezones() if "/" in name and not name.startswith(("Etc/", "posix/", "right/")))


def quarters(start, count):
    """So many moments, a quarter of an hour apart."""
    return [later(start, 15 * at) for at in range(count)]


@pytest.mark.parametrize(("day", "rows"), [((2026, 3, 29), 92), ((2026, 10, 25), 100), ((2026, 7, 1), 96)])
def test_a_table_that_began_in_winter_has_each_of_its_rows_once_on_each_day(day, rows):
    """Row 4 n of the year begins n hours after its start, whatever the clock shows: none is skipped, and none comes twice."""
    begin = datetime(2026, 1, 1, tzinfo=BERLIN)
    year = Held(begin, 15, range(35_040))
    first = datetime(*day, tzinfo=BERLIN)
    before = round((first.astimezone(UTC) - begin.astimezone(UTC)).total_seconds() / 900)
    assert [year(now) for now in quarters(first, rows)] == list(range(before, before + rows))


@given(st.sampled_from(ZONES), st.datetimes(datetime(1990, 1, 1), datetime(2037, 1, 1)), st.integers(0, 400 * 96))
def test_a_table_of_any_zone_counts_the_time_that_passes(name, naive, at):
    start = naive.replace(microsecond=0, tzinfo=ZoneInfo(name))
    table = Held(start, 15, range(400 * 96 + 1))
    now = later(start, 15 * at)
    assert table(now) == table(now.astimezone(UTC)) == at
    assert minutes_between(start, now) == 15 * at


def test_a_typical_day_goes_by_the_clock():
    """Its eighth value holds at eight by the clock, in winter and in summer, and of a clock of another zone too."""
    day = Held(datetime(2026, 1, 1, tzinfo=BERLIN), 60, range(24), repeats=True)
    for at in (datetime(2026, 1, 10, 8, tzinfo=BERLIN), datetime(2026, 7, 10, 8, tzinfo=BERLIN), datetime(2026, 7, 10, 6, tzinfo=UTC)):
        assert day(at) == 8
    assert [day(later(datetime(2026, 3, 29, tzinfo=BERLIN), 60 * hour)) for hour in range(4)] == [0, 1, 3, 4]
    assert [day(later(datetime(2026, 10, 25, tzinfo=BERLIN), 60 * hour)) for hour in range(5)] == [0, 1, 2, 2, 3]


def test_moments_with_and_without_a_zone_are_told_apart():
    with pytest.raises(ValueError, match="has a zone and .* has none"):
        Held(datetime(2026, 1, 1), 60, [1.0])(datetime(2026, 1, 1, tzinfo=BERLIN))


def charged(car, start, count):
    """The energy that a car got by its own bids if all is dear, in watt-hours."""
    got = 0.0
    for now in quarters(start, count):
        bid = car.bid(now)
        power = bid if isinstance(bid, int) else 0
        car.step(power, 15)
        got += power / 4
    return got


@pytest.mark.parametrize(("day", "hours"), [((2026, 3, 28), 12), ((2026, 10, 24), 14), ((2026, 6, 1), 13)])
def test_a_vehicle_is_full_in_the_night_of_the_switch(day, hours):
    """From 18:00 to 07:00 are 12, 14 and 13 hours. 18,500 Wh by 3,700 W are five of them, and it is full by seven."""
    car = Vehicle(name="car", power=3700, arrival=time(18), departure=time(7), needed=18_500, prices=(0, 9))
    begin = datetime(*day, 18, tzinfo=BERLIN)
    bid = car.bid(begin)
    # At first it pays 9 times the share of its time that it needs.
    assert bid[0][0] == round(9 * 5 / hours)
    assert charged(car, begin, 4 * hours + 1) == 18_500
    assert (car.unmet, car.is_there) == (0, False)


def test_a_vehicle_that_leaves_in_the_hour_that_comes_twice_leaves_once():
    car = Vehicle(name="car", power=1000, arrival=time(18), departure=time(2, 30), needed=500, prices=(0, 9))
    begin = datetime(2026, 10, 24, 18, tzinfo=BERLIN)
    assert charged(car, begin, 4 * 14) == 500
    assert (car.unmet, car.is_there) == (0, False)


@given(st.sampled_from(ZONES), st.dates(datetime(1990, 1, 1).date(), datetime(2037, 1, 1).date()), st.integers(1, 23))
def test_a_vehicle_of_any_zone_has_what_it_needs_at_its_departure(name, day, hour):
    """It asks for two hours of charging at least half an hour early, so it is full whatever the clock does meanwhile."""
    car = Vehicle(name="car", power=4000, arrival=time(hour), departure=time(hour - 1, 45), needed=8_000, prices=(0, 9))
    start = datetime(day.year, day.month, day.day, hour, tzinfo=ZoneInfo(name))
    assert charged(car, later(start, 0), 4 * 30) in (8_000, 16_000)
    assert car.unmet == 0


def test_a_model_that_steps_over_the_switch_has_the_weather_of_the_moment():
    """An hour after 01:00 of the 29th of March it is 03:00, so the outside is that of the second row."""
    start = datetime(2026, 3, 29, 1, tzinfo=BERLIN)
    seen = []
    house = HeatPump(
        name="pump", power=1000, loss=100, constant=50, outdoor=lambda now: seen.append(now) or 5.0, low=19, high=22, prices=(0, 9), temperature=20
    )
    house.bid(start)
    house.step(0, 60)
    house.step(0, 60)
    assert [(moment.hour, moment.utcoffset()) for moment in seen] == [(1, timedelta(hours=1)), (3, timedelta(hours=2))]
