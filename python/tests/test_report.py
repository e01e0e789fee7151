"""The report: its bills, violations and flexibility against the program's lines and an independent auction, and its page."""

from __future__ import annotations

import json
import re
import sys
import textwrap
from dataclasses import replace
from datetime import datetime
from zoneinfo import ZoneInfo
from fractions import Fraction
from html import unescape
from html.parser import HTMLParser
from pathlib import Path
from typing import Any

import pytest
from hypothesis import given, settings

from clusters import clusters
from cogmaula import Account, Basis, Cluster, Events, Join, Limited, Load, Manual, NoPackage, Program, Refused, Run, State, Tick, bill, run
from cogmaula import cli
from cogmaula.continuing import continued
from cogmaula.report import Currency, bills_of, flexibility_of, frame_of, groups_of
from cogmaula.report.bills import add_up, sum_of
from cogmaula.report.flexibility import MOST_TARGET
from cogmaula.report.kept_limits import Violation
from cogmaula.report.cluster_report import span_for
from cogmaula.report.intervals import intervals_of, spans_of
from cogmaula.study import summary

TOP = Path(__file__).resolve().parents[2]
from checks.oracle import targets as oracle
from checks.oracle.accounts import bill_of as oracle_bill

numpy = pytest.importorskip("numpy")
pytest.importorskip("matplotlib")
from cogmaula.report import report
from cogmaula.report.long_course import Course
from cogmaula.report.grouping import rows_of
from cogmaula.report.markup import STYLE
from cogmaula.report.svg import inline
from cogmaula.moments import later
from cogmaula.report.charts import Hours, number, watts
from cogmaula.report.words import duration

FEEDER = Cluster(
    Basis(0, 9, 10),
    [Limited("feeder", floor=-1000, ceiling=1000), Load("house", parent="feeder", start=500)],
    [
        Events([Join("house")]),
        Tick(30),
        Events([State("house", 1500)]),
        Tick(60),
        Events([State("house", 2000)]),
        Tick(15),
        Events([State("house", 0)]),
        Tick(15),
        Events([State("house", 3000)]),
        Events([State("house", 100)]),
        Tick(10),
    ],
)


def test_spans_are_whole_ticks() -> None:
    """Worked by hand: ticks of 30, 60, 15, 15 and 10 minutes in spans of an hour."""
    assert [(interval.begin, interval.end, interval.phases) for interval in intervals_of(FEEDER)] == [
        (0, 30, 1), (30, 90, 3), (90, 105, 5), (105, 120, 7), (120, 130, 10)
    ]
    assert list(spans_of(intervals_of(FEEDER), 60)) == [(0, 90, 0, 4), (90, 120, 4, 8), (120, 130, 8, 11)]
    assert list(spans_of([], 60)) == []
    assert [span_for(minutes) for minutes in (0, 1440, 2880, 2881, 44640, 525_600)] == [60, 60, 60, 120, 960, 8 * 1440]


def test_violations_are_counted_and_listed(program: Program) -> None:
    """Worked by hand: 1,500 and 2,000 W break the ceiling for 75 minutes together; the end with 3,000 W lasts no time."""
    (group,) = groups_of(run(FEEDER, program=program), intervals_of(FEEDER))
    assert group.loads == (500, 1500, 2000, 0, 100)
    assert group.violations == (Violation(30, 105, 1000, 2000),)
    assert (group.minutes_outside, group.outside) == (75, 5)


def test_each_side_of_the_limits_is_a_violation_of_its_own(program: Program) -> None:
    """A load above the ceiling, then delivery below the floor."""
    cluster = Cluster(
        Basis(0, 1, 2),
        [Limited("g", floor=-5, ceiling=5), Manual("m", parent="g", demand=(9, 9))],
        [Events([Join("m")]), Tick(1), Events([State("m", demand=(-7, -7))]), Tick(2), Tick(3)],
    )
    (group,) = groups_of(run(cluster, program=program), intervals_of(cluster))
    assert group.violations == (Violation(0, 1, 5, 9), Violation(1, 6, -5, -7))


@settings(max_examples=60, deadline=None)
@given(clusters())
def test_bills_of_spans_add_up_to_the_bill(program: Program, cluster: Cluster) -> None:
    """Of any cluster: the spans' accounts add up to those of the whole run, and each span's amounts to 0."""
    spans = list(bills_of(run(cluster, program=program), 45))
    whole = bill(cluster, program=program)
    for name, account in whole.devices.items():
        parts = [span.bill.devices[name] for span in spans]
        assert Account(*(sum(getattr(part, word) for part in parts) for word in ("amount", "taken", "given"))) == account
    assert sum(span.bill.minutes for span in spans) == whole.minutes == cluster.minutes
    assert sum(span.bill.ticks for span in spans) == whole.ticks
    for span in spans:
        assert sum(one.amount for one in span.bill.devices.values()) + span.bill.grid.amount == 0


@settings(max_examples=30, deadline=None)
@given(clusters())
def test_bills_of_spans_are_those_of_an_independent_program(program: Program, cluster: Cluster) -> None:
    """Of any cluster: each span has what the powers and prices of its ticks come to."""
    done = run(cluster, program=program)
    text = done.text.decode()
    for (begin, end, first, last), span in zip(spans_of(intervals_of(cluster), 45), bills_of(done, 45), strict=True):
        due, before = (oracle_bill(cluster.with_script(cluster.phases[:script]).to_json(), text) for script in (last, first))
        for line, old in zip(due.splitlines()[:-1], before.splitlines()[:-1], strict=True):
            name = line.split()[1]
            now, then = (Account(*map(int, line_text.split()[-5::2])) for line_text in (line, old))
            found = span.bill.devices[name] if line.startswith("account") else span.bill.grid
            assert sum_of([found, then]) == now
        assert (span.begin, span.end) == (begin, end)


def test_a_frame_has_a_row_for_each_account_of_each_span(program: Program) -> None:
    """Worked by hand: the house takes 500 W for 30 minutes and 1,500 W for 60, then 2,000 W for 15, at price 9; the grid gives it."""
    start = datetime(2026, 6, 21)
    frame = frame_of(bills_of(run(FEEDER, program=program), 60), start)
    first, last = datetime(2026, 6, 21, 1, 30), datetime(2026, 6, 21, 2)
    assert list(frame.columns) == ["amount", "taken_Wmin", "given_Wmin"] and len(frame) == 6
    assert list(frame.loc[(start, first, "device", "house")]) == [105_000 * 9, 105_000, 0]
    assert list(frame.loc[(start, first, "grid", "")]) == [-105_000 * 9, 0, 105_000]
    assert list(frame.loc[(first, last, "device", "house")]) == [30_000 * 9, 30_000, 0]
    assert len(frame_of([], start)) == 0 and list(frame_of([], start).index.names) == ["begin", "end", "party", "name"]


def test_the_notebook_of_the_page_runs(tmp_path: Path, program: Program, monkeypatch: pytest.MonkeyPatch) -> None:
    """The code of docs/REPORTS.md, on the feeder's file: two hours and ten minutes are three spans of a device and the grid."""
    FEEDER.save(tmp_path / "day.json")
    monkeypatch.chdir(tmp_path)
    page = (TOP / "docs" / "REPORTS.md").read_text()
    begin = page.index("    from datetime import datetime\n")
    names: dict[str, Any] = {}
    exec(textwrap.dedent(page[begin : page.index("\n\n### ", begin)]), names)
    assert len(names["hours"]) == 6


def test_bills_that_do_not_add_up_are_seen(program: Program) -> None:
    """A part too few, and a part too much of one account or of the grid."""
    whole = bill(FEEDER, program=program)
    parts = [bill.bill for bill in bills_of(run(FEEDER, program=program), 60)]
    assert add_up(parts, whole) and not add_up(parts[1:], whole)
    one = replace(parts[0], grid=replace(parts[0].grid, taken=1))
    assert not add_up([one, *parts[1:]], whole)


@settings(max_examples=60, deadline=None)
@given(clusters())
def test_demands_are_the_total_of_all_bids(program: Program, cluster: Cluster) -> None:
    """Of any cluster: what `ask` tells of each step is what an independent auction adds up."""
    flexibility = flexibility_of(cluster, [0, 700, -700], program)
    assert flexibility == flexibility_of(continued(run(cluster, program=program)), [0, 700, -700], program)
    total = oracle.last_total(json.loads(cluster.to_json()))
    assert list(flexibility.demands) == total
    for answer in flexibility.answers:
        below, at, above = flexibility.around(answer)
        assert at == total[answer.step]
        assert below == (total[answer.step - 1] if answer.step else None)
        assert above == (total[answer.step + 1] if answer.step + 1 < len(total) else None)
        assert at <= answer.target or answer.step == len(total) - 1
        assert below is None or below > answer.target


def test_a_total_beyond_all_targets_is_not_told(program: Program) -> None:
    """Two plants of a gigawatt each: at the last step the total is below every target that may be asked."""
    plants = [Manual(f"m{at}", demand=(0, 0, -MOST_TARGET)) for at in range(2)]
    cluster = Cluster(Basis(0, 2, 3), [*plants, Manual("n", demand=(0, -MOST_TARGET, -MOST_TARGET))])
    cluster = cluster.with_phases(cluster.join_all())
    assert flexibility_of(cluster, None, program).demands == (0, -MOST_TARGET, None)


@settings(max_examples=10, deadline=None)
@given(clusters())
def test_each_cluster_has_a_page(program: Program, cluster: Cluster) -> None:
    """Of any cluster: one page that names no address, runs no script, and has each account and each violation once."""
    text = report(cluster, program=program)
    assert text.startswith("<!DOCTYPE html>") and text.endswith("</html>\n")
    assert not outside_addresses(text) and "<script" not in text
    reader = Balanced()
    reader.feed(text)
    assert not reader.open
    names = re.findall(r'\bid="([^"]*)"', text)
    assert len(names) == len(set(names))
    assert set(re.findall(r'(?:href="#|url\(#)([^")]*)', text)) <= set(names)
    done = run(cluster, program=program)
    groups = groups_of(done, intervals_of(cluster))
    assert sum(group.outside for group in groups) == len(done.violations)
    assert sum(group.minutes_outside for group in groups) == done.violations["minutes"].sum()
    for group in groups:
        told = f"{group.name} was outside its limits"
        assert (told in text) == bool(group.outside)


class Balanced(HTMLParser):
    """Fails if an element is closed that is not the one opened last."""

    def __init__(self) -> None:
        super().__init__()
        self.open: list[str] = []

    def handle_starttag(self, tag: str, attrs: object) -> None:
        """Opens an element, unless it is one that has no end."""
        if tag != "meta":
            self.open.append(tag)

    def handle_startendtag(self, tag: str, attrs: object) -> None:
        """An element of a figure that ends itself."""

    def handle_endtag(self, tag: str) -> None:
        """Closes the element that was opened last."""
        assert self.open.pop() == tag


def outside_addresses(text: str) -> list[str]:
    """What a browser would fetch: addresses in links, sources and styles that are no place of the page and no data."""
    found = re.findall(r'(?:href|src|srcset|action|data|poster)="([^"]*)"', text) + re.findall(r"url\(([^)]*)\)", text)
    found += re.findall(r"@import[^;]*", text) + re.findall(r"\bhttps?://[^\s\"'<]*", text)
    return [address for address in found if not address.startswith(("#", "data:image/png;base64,"))]


def test_an_outside_address_would_be_seen() -> None:
    """The test of addresses sees a link, a picture, a style and a name space."""
    for text in ('<a href="x.html">', '<img src="//a/b.png">', "url(a.png)", "@import 'a';", 'xmlns="http://a"'):
        assert outside_addresses(text)
    assert not outside_addresses('<a href="#price"> <image xlink:href="data:image/png;base64,AA//"/> url(#p1)')


def test_the_page_of_the_feeder_tells_its_violation(program: Program) -> None:
    """The verdict, the row of the violation, the bill in money, and the title with its marks escaped."""
    money = Currency("EUR", Fraction("0.01"))
    text = report(FEEDER, title="A <b> & c", start=datetime(2026, 6, 21, 12), currency=money, program=program)
    assert "feeder was outside its limits for 1 h 15 min, at the ends of 5 of 11 phases." in text
    row = ["12:30", "13:45", "1 h 15 min", "1 kW", "2 kW", "1 kW"]
    assert '<th scope="row">feeder</th>' + "".join(f"<td>{cell}</td>" for cell in row) in text
    assert "<title>A &lt;b&gt; &amp; c: report of a run</title>" in text
    assert text == report(FEEDER, title="A <b> & c", start=datetime(2026, 6, 21, 12), currency=money, program=program)
    # The price is 9 over 115 of 130 minutes, and 0 while the house takes nothing.
    assert "0.0796 EUR/kWh (price 8.0)" in text
    # The house takes 500 W, 1500 W, 2000 W, 0 W and 100 W over 30, 60, 15, 15 and 10 minutes: 2.267 kWh at price 9.
    assert "<td>2.267</td><td>0.000</td><td>0.20</td>" in text
    assert "price (EUR/MWh)" in text and "1 is 0.01" not in text and not outside_addresses(text)


def test_a_run_without_time_or_members_has_a_page(program: Program) -> None:
    """Nothing to draw is said in words."""
    empty = Cluster(Basis(0, 1, 2))
    for cluster in (empty, empty.with_phases(Tick(5)), empty.with_nodes(Load("a", start=1)).with_phases(Events([Join("a")]))):
        text = report(cluster, program=program)
        assert "so there is nothing to draw" in text


def test_many_devices_are_a_heat_map(program: Program) -> None:
    """Nine devices and uneven ticks: the figure holds a picture, with a name for each; of seventy it has groups, which are named too."""
    nodes = [Load(f"house{at}", start=100 * at) for at in range(70)]
    cluster = Cluster(Basis(0, 9, 10), nodes)
    for few, has_names in ((9, True), (70, False)):
        small = Cluster(cluster.basis, nodes[:few])
        text = report(small.with_phases(small.join_all(), Tick(10), Tick(35)), program=program)
        assert ("data:image/png;base64," in text) == has_names
        assert (">house3</text>" in text) == has_names and (">auctioneer: load (70)</text>" in text) != has_names
        assert all(f'<th scope="row">house{at}</th>' in text for at in range(few))


def test_a_report_needs_matplotlib(program: Program, monkeypatch: pytest.MonkeyPatch) -> None:
    """Without it the error names the package."""
    monkeypatch.setitem(sys.modules, "cogmaula.report.sections", None)
    with pytest.raises(NoPackage, match="python3-matplotlib"):
        report(FEEDER, program=program)


def test_many_limited_groups_are_in_tables(program: Program) -> None:
    """Twenty groups outside their limits: twelve figures, seven prices of their own, and a row for each."""
    groups = [Limited(f"g{at}", floor=0, ceiling=0) for at in range(20)]
    cluster = Cluster(Basis(0, 9, 10), [*groups, *(Load(f"d{at}", parent=f"g{at}", start=100) for at in range(20))])
    text = report(cluster.with_phases(cluster.join_all(), Tick(60)), program=program)
    assert text.count("Outside its limits for 1 h, shaded.</figcaption>") == 12
    assert "So were 15 more groups." in text and "The figures show 12 of 20 groups; the table has all." in text
    assert "At some time 20 limited groups had another price. The figure shows 7 of them." in text
    assert all(f'<th scope="row">g{at}</th>' in text for at in range(20))


def test_numbers_at_their_limits_have_a_page(program: Program) -> None:
    """Nine loads of nothing, 200 of a gigawatt in a unit with marks, and prices at both ends with the widest limits."""
    basis = Basis(0, 9, 10)
    nothing = Cluster(basis, [Load(f"d{at}", start=0) for at in range(9)])
    assert "<td>0.000</td>" in report(nothing.with_phases(nothing.join_all(), Tick(60)), program=program)
    large = Cluster(basis, [Load(f"d{at}", start=10**9) for at in range(200)])
    text = report(large.with_phases(large.join_all(), Tick(60)), currency=Currency("$A$<", Fraction(1, 3)), program=program)
    assert "<td>1\u202f000\u202f000.000</td>" in text and "$A$&lt;/kWh" in text
    wide = Cluster(Basis(-(10**9), 10**9, 2), [Limited("g", floor=-256 * 10**9, ceiling=256 * 10**9), Load("d", parent="g", start=5)])
    assert "All limits were kept, in 1 group." in report(wide.with_phases(wide.join_all(), Tick(5)), program=program)


def test_a_device_called_grid_is_not_the_grid(program: Program) -> None:
    """Worked by hand: it takes 1 kW for an hour at price 9, which the grid gives: a row for each."""
    cluster = Cluster(Basis(0, 9, 10), [Load("grid", start=1000)])
    text = report(cluster.with_phases(cluster.join_all(), Tick(60)), program=program)
    assert '<th scope="row">grid</th><td>1.000</td><td>0.000</td><td>9.00</td>' in text
    assert '<th scope="row">(the grid)</th><td>0.000</td><td>1.000</td><td>\u22129.00</td>' in text


def test_durations_as_a_reader_sees_them() -> None:
    """Minutes, hours, and days from four on."""
    assert [duration(minutes) for minutes in (0, 59, 60, 135, 5759, 5760, 43_215)] == [
        "0 min", "59 min", "1 h", "2 h 15 min", "95 h 59 min", "4 days", "30 days 15 min"
    ]


def test_numbers_as_a_reader_sees_them() -> None:
    """Thousands apart, true minus signs, the unit that suits."""
    assert [watts(power) for power in (0, -5, 999, 1000, -1234, 35000, 2500000)] == [
        "0 W", "\u22125 W", "999 W", "1 kW", "\u22121.234 kW", "35 kW", "2.5 MW"
    ]
    assert number(-1234567.891, 2) == "\u22121\u202f234\u202f567.89"


def test_the_command_writes_a_page(tmp_path: Path, program: Program) -> None:
    """With a currency, spans and targets; and the arguments that do not fit are refused."""
    file = tmp_path / "feeder.json"
    FEEDER.save(file)
    page = tmp_path / "feeder.html"
    words = ["report", str(file), "-o", str(page), "--program", program.path, "--start", "2026-06-21"]
    more = ["--currency", "EUR", "--per-kwh", "0.01", "--span", "30", "--target", "100", "--target", "-1"]
    assert cli.main([*words, *more]) == 0
    text = page.read_text()
    assert "<title>feeder: report of a run</title>" in text and "from 2026-06-21 00:00" in text
    # Price 9 is 90 EUR/MWh.
    assert '<th scope="row">100 W</th><td>0</td>' in text and '<th scope="row">\u22121 W</th><td>90</td>' in text
    for bad in (["--currency", "EUR"], ["--per-kwh", "x", "--currency", "EUR"], ["--per-kwh", "-1"], ["--span", "0"]):
        with pytest.raises(SystemExit):
            cli.main([*words, *bad])
    assert cli.main(["report", str(tmp_path / "none.json"), "-o", str(page), "--program", program.path]) == 1


def test_a_long_run_has_days_on_its_axis(program: Program) -> None:
    """A run of three days: the spans are of two hours, and times have their day."""
    house = Cluster(Basis(0, 9, 10), [Load("house", start=5)])
    text = report(house.with_phases(house.join_all(), *[Tick(1440)] * 3), start=datetime(2026, 6, 30), program=program)
    assert "30 Jun 00:00 to 01 Jul 00:00" in text and ">2 Jul</text>" in text


def test_a_script_that_is_too_long_for_one_run_has_a_page(program: Program) -> None:
    """Worked by hand: 1,200 minutes in ticks of one at 60 W are 1.2 kWh at price 9."""
    house = Cluster(Basis(0, 9, 10), [Load("house", start=60)])
    long = house.with_phases(house.join_all(), *[Tick(1)] * 1200)
    with pytest.raises(Refused):
        run(long, program=program)
    text = report(long, program=program)
    assert "1 device, 0 concentrators, 1\u202f201 phases, 20 h" in text
    assert '<th scope="row">house</th><td>1.200</td><td>0.000</td><td>10.80</td>' in text
    assert summary(long.to_bytes(), program).amount == 60 * 1200 * 9


def test_a_span_is_as_long_as_it_likes(program: Program) -> None:
    """Worked by hand: a span of 1,200 ticks, which is longer than one run, has all of the bill. A span below a minute is refused."""
    house = Cluster(Basis(0, 9, 10), [Load("house", start=60)])
    long = house.with_phases(house.join_all(), *[Tick(1)] * 1200)
    text = report(long, span=1200, program=program)
    assert '<th scope="row">00:00 to 20:00</th><td>1.200</td><td>0.000</td><td>10.80</td><td>\u221210.80</td>' in text
    for bad in (0, -5):
        with pytest.raises(ValueError, match="a span has at least one"):
            report(long.with_script(long.phases[:3]), span=bad, program=program)


def test_the_connection_and_the_grid_are_one_account(tmp_path: Path, program: Program) -> None:
    """Worked by hand on the cookbook's page: 0.5 kWh bought at 30 and 0.5 kWh sold at 8, where the connection alone gives 10 kWh."""
    file = TOP / "examples" / "cookbook" / "connection.json"
    text = report(file, connection="connection", program=program)
    assert '<th scope="row">(the supplier)</th><td>0.500</td><td>0.500</td><td>\u221211.00</td>' in text
    assert '<th scope="row">connection</th>' not in text and ">connection</text>" not in text
    assert '<th scope="row">00:00 to 01:00</th><td>0.500</td><td>0.000</td><td>15.00</td><td>\u221215.00</td>' in text
    assert "<h2>Bought and sold</h2>" in text and "<dt>Bought</dt><dd>0.500 kWh</dd>" in text
    (first, second) = bills_of(run(file, program=program), 60, "connection")
    assert (first.bill.grid, second.bill.grid) == (Account(-900_000, 0, 30_000), Account(240_000, 30_000, 0))
    page = tmp_path / "page.html"
    words = ["report", str(file), "-o", str(page), "--program", program.path, "--connection"]
    assert cli.main([*words, "connection"]) == 0 and "(the supplier)" in page.read_text()
    assert cli.main([*words, "roof"]) == 1


def test_the_page_warns_of_a_bill_that_nobody_pays(program: Program) -> None:
    """A battery of 5 kW beside 2 kW of sun, as in test_figures.py: all is sold above the price of sale, and the battery is idle."""
    from test_figures import STORE, sunny

    text = unescape(report(sunny(24), connection="supplier", program=program))
    assert "48.000 of 48.000 kWh that were sold are billed above the connection's price of sale" in text
    assert "at the connection's prices the run costs \u2212384.00 price units" in text
    assert "Hardly used, with less than 0.1 cycles a day: store." in text
    day = sunny(12)
    night = day.with_phases(Events([State("roof", 0)]), *[Tick(60)] * 12)
    follows = Cluster(day.basis, [node if node != STORE else replace(STORE, charge=2000, discharge=2000) for node in day.nodes], night.phases)
    assert "Hardly used" not in report(follows, connection="supplier", program=program)
    # The same costs stand in the table, and the rules that they stand on are said to be models.
    assert '<th scope="row">by plain rules *</th><td>\u2212344.00</td>' in text and "a model beside the proved market, not proved" in text


def test_print_and_dark_rules() -> None:
    """On paper no row sticks over another and no heading is alone; in the dark there is other ink and paper, and figures take them."""
    screen, _, paper = STYLE.partition("@media print")
    assert "tr.sum > *, .wide tbody th, .wide thead th, caption { position: static; }" in paper
    assert "h1, h2, h3, caption { break-after: avoid; }" in paper and "tr, figure" in paper and "prefers-color-scheme: dark" in screen
    drawn = inline('<svg width="1pt" height="1pt" ><path d="M 1.23456 7" style="fill: #ffffff; stroke: #000000"/></svg>', "a")
    assert 'd="M 1.23 7" style="fill: var(--paper); stroke: currentColor"' in drawn


def test_the_course_of_a_long_run() -> None:
    """Worked by hand: 2,001 ticks of 45 minutes. The first hour has a whole tick of 4 and a third of one of 8, which are (45*4 + 15*8) / 60."""
    course = Course.of([45 * (at + 1) for at in range(2001)])
    values = numpy.array([4, 8, 0] * 667)
    assert course.word == "hour" and len(course.edges) == 1502 and course.edges[-1] == 2001 * 0.75
    assert course.mean(values)[:3].tolist() == [5, 4, 3] and course.mean(values)[-1] == 0
    assert course.least(values)[:3].tolist() == [4, 0, 0] and course.greatest(values)[:4].tolist() == [8, 8, 4, 8]
    assert course.mean([values, values])[1, 1] == 4
    assert (course.mean(values) * numpy.diff(course.edges)).sum() == pytest.approx(values.sum() * 0.75)
    short = Course.of([45, 60])
    assert short.word == "" and short.mean([1, 2]).tolist() == [1, 2]
    assert Course.of([60 * (at + 1) for at in range(2001)]).word == "day"


def test_groups_have_names() -> None:
    """By kind and parent; by kind alone if these are too many."""
    parents = [Limited(f"f{at}", floor=-9, ceiling=9) for at in range(2)]
    loads = [Load(f"d{at}", parent=f"f{at % 2}", start=1) for at in range(61)]
    powers = numpy.ones((3, 61))
    assert list(rows_of(Cluster(Basis(0, 1, 2), [*parents, *loads]), powers, list(range(60)))) == [load.name for load in loads[:60]]
    found = rows_of(Cluster(Basis(0, 1, 2), [*parents, *loads]), powers, list(range(61)))
    assert {name: powers.tolist() for name, powers in found.items()} == {"f0: load (31)": [31] * 3, "f1: load (30)": [30] * 3}
    many = [Limited(f"f{at}", floor=-9, ceiling=9) for at in range(61)]
    apart = Cluster(Basis(0, 1, 2), [*many, *(replace(load, parent=f"f{at}") for at, load in enumerate(loads))])
    assert list(rows_of(apart, powers, list(range(61)))) == ["load (61)"]


def test_runs_know_their_program(program: Program) -> None:
    """A run without ends has empty groups."""
    done = run(Cluster(Basis(0, 1, 2), [Limited("g", floor=0, ceiling=0)]), program=program)
    assert isinstance(done, Run) and groups_of(done, [])[0].violations == ()


BERLIN = ZoneInfo("Europe/Berlin")


def test_the_days_of_a_year_are_those_of_the_clock() -> None:
    """By hand for Europe/Berlin in 2026: the 88th day has 23 hours, the 298th has 25, and all others begin at midnight."""
    start = datetime(2026, 1, 1, tzinfo=BERLIN)
    course = Course.of([15 * (at + 1) for at in range(35_040)], start)
    lengths = numpy.diff(course.edges).tolist()
    assert (len(lengths), lengths[87], lengths[297], sorted(set(lengths))) == (365, 23, 25, [23, 24, 25])
    # Means of days are of calendar days: each row has the number of its day, and so has its mean.
    days = numpy.array([later(start, 15 * at).timetuple().tm_yday for at in range(35_040)])
    assert course.mean(days).tolist() == course.least(days).tolist() == course.greatest(days).tolist() == list(range(1, 366))
    axis = Hours(start, course)
    assert [axis.label(at) for at in axis.places()] == [f"1 {month}" for month in "Jan Mar May Jul Sep Nov Jan".split()]


def test_bills_of_days_are_those_of_the_clock(program: Program) -> None:
    """The day of the switch has 23 hours and so 23 kWh at 1 kW; hours are as long as ever; parts of a day go by the clock."""
    one = Cluster(Basis(0, 9, 10), [Load("house", start=1000)])
    done = run(one.with_phases(one.join_all(), *[Tick(60)] * 71), start=datetime(2026, 3, 28, tzinfo=BERLIN), program=program)
    assert [span.bill.devices["house"].taken // 60_000 for span in bills_of(done, 1440)] == [24, 23, 24]
    assert [span.end - span.begin for span in bills_of(done, 2880)] == [47 * 60, 24 * 60]
    assert [(span.end - span.begin) // 60 for span in bills_of(done, 360)] == [6, 6, 6, 6, 5, 6, 6, 6, 6, 6, 6, 6]
    assert {span.end - span.begin for span in bills_of(done, 60)} == {60}
    # A run that begins at noon has half a day first.
    late = run(done.cluster, start=datetime(2026, 3, 28, 12), program=program)
    assert [(span.end - span.begin) // 60 for span in bills_of(late, 1440)] == [12, 24, 24, 11]


@pytest.mark.parametrize(
    ("day", "hours", "labels"),
    [
        ((2026, 3, 29), 23, ["00:00", "03:00", "06:00", "09:00", "12:00", "15:00", "18:00", "21:00", "00:00"]),
        ((2026, 10, 25), 25, ["00:00", "06:00", "12:00", "18:00", "00:00"]),
        ((2026, 6, 1), 24, ["00:00", "03:00", "06:00", "09:00", "12:00", "15:00", "18:00", "21:00", "00:00"]),
    ],
)
def test_the_axis_of_a_day_of_the_switch_goes_by_the_clock(day: tuple[int, int, int], hours: int, labels: list[str]) -> None:
    axis = Hours(datetime(*day, tzinfo=BERLIN), Course.of([60 * (at + 1) for at in range(hours)]))
    assert [axis.label(at) for at in axis.places()] == labels
