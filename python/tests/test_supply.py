"""What a supplier bills, by files and pages, with amounts by hand."""

from __future__ import annotations

import re
from pathlib import Path

import pytest

from cogmaula import Basis, Cluster, Events, Join, Load, Program, Tick, cli
from cogmaula.data.faults import RecipeFault
from cogmaula.data.supplier_connection import read_supply

pandas = pytest.importorskip("pandas")
pytest.importorskip("matplotlib")

NIGHTS = """currency = "EUR"
buy = 0.30
sell = 0.08
fee = 10
vat = 20

[[time]]
from = "22:00"
until = "06:00"
buy = 0.20
"""
HOUSES = """
[households]
a = ["load", "roof"]
b = ["other"]
"""
SERIES = """currency = "EUR"
fee = 1

[prices]
file = "ahead.csv"
unit = "EUR/MWh"
markup = 100
"""


def powers() -> pandas.DataFrame:
    """The last hour before 22:00 and the first behind it: load takes 1 kW, the roof gives 3 kW in the second, other takes 2 kW."""
    index = pandas.date_range("2026-06-30T21:00", periods=2, freq="60min")
    return pandas.DataFrame({"load": [1000, 1000], "roof": [0, -3000], "other": [2000, 2000]}, index=index)


def test_households_by_the_time_of_use(tmp_path: Path) -> None:
    """a buys 1 kWh at 0.30 and sells 2 at 0.08: 0.30 + 10, 20% of that, less 0.16. b buys 2 at 0.30 and 2 at 0.20."""
    path = tmp_path / "supplier.toml"
    path.write_text(NIGHTS + HOUSES)
    bill = read_supply(path).bill(powers())
    assert bill.loc[("a", "2026-06")].tolist() == pytest.approx([1, 2, 0.30, 0.16, 10, 2.06, 12.20])
    assert bill.loc[("b", "2026-06")].tolist() == pytest.approx([4, 0, 1.00, 0, 10, 2.20, 13.20])


def test_all_devices_but_the_connection_are_one_household(tmp_path: Path) -> None:
    """Without households: 3 kWh at 0.30 in the first hour, and nothing in the second, in which the roof gives what is taken."""
    path = tmp_path / "supplier.toml"
    path.write_text(NIGHTS)
    bill = read_supply(path).bill(powers().assign(connection=[-3000, 0]), "connection")
    assert bill.loc[("all devices", "2026-06")].tolist() == pytest.approx([3, 0, 0.90, 0, 10, 2.18, 13.08])


def test_a_series_of_prices_with_a_markup(tmp_path: Path) -> None:
    """50 and -20 EUR/MWh: one buys at 0.15 and 0.08, and sells at 0.05 and -0.02, for which one pays."""
    (tmp_path / "ahead.csv").write_text("time,price\n2026-06-30T21:00,50\n2026-06-30T22:00,-20\n")
    path = tmp_path / "supplier.toml"
    path.write_text(SERIES + HOUSES)
    bill = read_supply(path).bill(powers())
    assert bill.loc[("a", "2026-06")].tolist() == pytest.approx([1, 2, 0.15, -0.04, 1, 0, 1.19])
    assert bill.loc[("b", "2026-06")].tolist() == pytest.approx([4, 0, 0.46, 0, 1, 0, 1.46])


@pytest.mark.parametrize(
    ("text", "told"),
    [
        ("buy = 1", "has no currency"),
        ('currency = "EUR"\nbuy = 1', "has no sell"),
        ('currency = "EUR"\nbuy = "1"\nsell = 0', "buy is '1': write a number"),
        ('currency = "EUR"\nbuy = 1\nsell = 0\nvat = -1', "vat is -1: write a number that is not below 0"),
        ('currency = "EUR"\nbuy = 1\nsell = 0\nfees = 1', "has 'fees', which is unknown"),
        ('currency = "EUR"\nbuy = 1\nsell = 0\n[[time]]\nfrom = "25:00"\nuntil = "06:00"', "time 1: from is '25:00'"),
        (NIGHTS + '[households]\na = []', "households: a is []"),
        (NIGHTS + '[households]\na = ["load"]\nb = ["load"]', "load is named twice, in a and b"),
        (NIGHTS + '[households]\na = ["lamp"]', "a has lamp, which is no device"),
    ],
)
def test_what_is_wrong_is_told(tmp_path: Path, text: str, told: str) -> None:
    """A line with the place, whatever is wrong."""
    path = tmp_path / "supplier.toml"
    path.write_text(text)
    with pytest.raises(RecipeFault, match=re.escape(told)):
        read_supply(path).bill(powers())


def test_the_page_has_the_bill(program: Program, tmp_path: Path, capsys: pytest.CaptureFixture[str]) -> None:
    """A load of 2 kW for an hour before 22:00 costs 0.60, and the fee 10: with VAT 12.72. Without a start there are no months."""
    cluster = Cluster(Basis(0, 9, 10), [Load("lamp", start=2000)], [Events([Join("lamp")]), Tick(60)])
    file, supplier, page = tmp_path / "lamp.json", tmp_path / "supplier.toml", tmp_path / "page.html"
    file.write_text(cluster.to_json())
    supplier.write_text(NIGHTS)
    words = ["report", str(file), "-o", str(page), "--tariff", str(supplier)]
    assert cli.main([*words, "--start", "2026-06-30T21:00", "--quiet"]) == 0
    row = re.search("<tr><th[^>]*>all devices</th>(.*?)</tr>", page.read_text())
    assert row and re.findall("<td[^>]*>([^<]*)</td>", row[1]) == ["2026-06", "2.000", "0.000", "0.60", "0.00", "10.00", "2.12", "12.72"]
    with pytest.raises(SystemExit):
        cli.main(words)
    assert "--tariff needs --start" in capsys.readouterr().err
