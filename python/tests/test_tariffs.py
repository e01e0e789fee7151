"""Bills of tariffs, by hand."""

from __future__ import annotations

from datetime import time

import pytest

from cogmaula.tariffs import Hours, Tariff, households

pandas = pytest.importorskip("pandas")


def test_a_bill_by_month_for_each_household() -> None:
    """House a takes 1 kW for the last hour of June and gives 2 kW for the first of July; b takes 500 W in both hours.

    At 0.20 and 0.05, a fee of 10 and VAT of 20%: June of a is (0.20 + 10) * 1.2 = 12.24; July is 10 * 1.2 - 2 * 0.05 = 11.90.
    """
    index = pandas.date_range("2026-06-30T23:00", periods=4, freq="30min", tz="Europe/Berlin")
    power = pandas.DataFrame({"load": [1000, 1000, 0, 0], "roof": [0, 0, -2000, -2000], "b": [500] * 4}, index=index)
    bill = Tariff("EUR", buy=0.20, sell=0.05, fee=10, vat=20).bill(households(power, {"a": ["load", "roof"], "b": ["b"]}))
    assert bill.index.tolist() == [("a", "2026-06"), ("a", "2026-07"), ("b", "2026-06"), ("b", "2026-07")]
    assert bill.loc[("a", "2026-06")].tolist() == pytest.approx([1, 0, 0.20, 0, 10, 2.04, 12.24])
    assert bill.loc[("a", "2026-07")].tolist() == pytest.approx([0, 2, 0, 0.10, 10, 2, 11.90])
    assert bill.total.loc["b"].tolist() == pytest.approx([12.12, 12.12])


def test_prices_by_the_time_of_use() -> None:
    """Nights over midnight, and weekends, of which the first in the list counts; 2026-06-20 is a Saturday."""
    nights, weekends = Hours(time(22), time(6), buy=0.1), Hours(time(0), time(0), buy=0.2, sell=0.0, days=(5, 6))
    index = pandas.DatetimeIndex(["2026-06-19T21:59", "2026-06-19T22:00", "2026-06-20T05:59", "2026-06-20T06:00"])
    prices = Tariff("EUR", buy=0.3, sell=0.08, hours=[nights, weekends]).prices(index)
    assert prices.buy.tolist() == [0.3, 0.1, 0.1, 0.2]
    assert prices.sell.tolist() == [0.08, 0.08, 0.0, 0.0]


def test_a_series_of_prices_and_negative_ones() -> None:
    """An hour's price holds for its quarters; below 0 one is paid for taking. A series that begins later is told."""
    series = pandas.Series([0.1, -0.05], index=pandas.date_range("2026-06-21", periods=2, freq="60min"))
    power = pandas.DataFrame({"a": [4000] * 8}, index=pandas.date_range("2026-06-21", periods=8, freq="15min"))
    assert Tariff("EUR", buy=series, sell=0).bill(power).bought.tolist() == pytest.approx([0.2])
    with pytest.raises(ValueError, match="behind the first time"):
        Tariff("EUR", buy=series.iloc[1:], sell=0).bill(power)


def test_rows_of_other_lengths_are_told() -> None:
    """A bill needs to know how long a row lasts."""
    power = pandas.DataFrame({"a": [1, 1, 1]}, index=pandas.DatetimeIndex(["2026-06-21", "2026-06-22", "2026-06-24"]))
    with pytest.raises(ValueError, match="take run.series"):
        Tariff("EUR", buy=1, sell=0).bill(power)
