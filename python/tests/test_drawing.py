"""Pictures: the sums of bids that they show against an independent auction, and the command that draws them."""

from __future__ import annotations

import json
import sys
from pathlib import Path

import pytest
from hypothesis import given, settings

from clusters import clusters
from cogmaula import Basis, Cluster, Load, NoPackage, Program, Tick, cli, run
from cogmaula.states import snapshots

pytest.importorskip("matplotlib")
from cogmaula.drawing import draw_answers, draw_bill, draw_clearing, draw_run, save
from cogmaula.drawing.asked_bids import sum_of_bids
from cogmaula.report import flexibility_of

TOP = Path(__file__).resolve().parents[2]
from checks.oracle.auction import ends_of, part_of


@settings(max_examples=60, deadline=None)
@given(clusters())
def test_the_sum_of_a_group_is_that_of_an_independent_auction(program: Program, cluster: Cluster) -> None:
    """Of any cluster at each phase's end: what `ask` tells of a group's members alone is the sum of their bids."""
    done = run(cluster, program=program)
    scene = json.loads(cluster.to_json())
    inside = part_of(scene)
    for now, end, due in zip(snapshots(cluster, done.ends), done.ends, ends_of(scene), strict=True):
        for name, part in due.parts.items():
            if name is not None:
                members = [power for power in end.powers if inside[power] == name]
                assert sum_of_bids(cluster, now, members, program) == part.sums


def heights(figure: object, at: int) -> list[float]:
    """What the first line of a figure's axes shows."""
    axes = figure.axes[at]  # type: ignore[attr-defined]
    return [float(power) for power in axes.lines[0].get_ydata()]


def test_a_run_shows_its_prices_and_powers(program: Program) -> None:
    """The village's prices, which were worked out by hand, and a marker at the sum of all powers of each phase."""
    done = run(TOP / "examples" / "village.json", program=program)
    figure = draw_run(done, 3, program)
    assert heights(figure, 0) == [40, 47, 50, 60, 53]
    together = [line for line in figure.axes[3].lines if line.get_label() == "together"]
    assert [int(power) for power in together[0].get_ydata()] == [sum(end.powers.values()) for end in done.ends]


def test_a_limited_run_shows_its_limits(program: Program) -> None:
    """The feeder of the tutorial: its local price of 60 in phase 2, and its ceiling as a line."""
    done = run(TOP / "examples" / "limited_feeder.json", program=program)
    figure = draw_run(done, 2, program)
    texts = [text.get_text() for axes in figure.axes for text in axes.texts]
    assert "ceiling 5 kW" in texts and "price 60: 4.466 kW" in texts


def test_a_picture_has_its_limits(program: Program) -> None:
    """Too many phases or devices, and a phase that is not there."""
    house = Cluster(Basis(0, 9, 10), [Load("house", start=5)])
    long = run(house.with_phases(house.join_all(), *[Tick(1)] * 60), program=program)
    with pytest.raises(ValueError, match="take cogmaula report"):
        draw_run(long)
    with pytest.raises(ValueError, match="there is no phase 99"):
        draw_clearing(long, 99, program)
    short = run(house.with_phases(house.join_all()), program=program)
    with pytest.raises(ValueError, match="there is no phase 2"):
        draw_run(short, 2, program)
    limited = run(TOP / "examples" / "limited_feeder.json", program=program)
    with pytest.raises(ValueError, match="limited groups"):
        draw_clearing(limited, 1, program)


def test_a_clearing_shows_each_bid(program: Program) -> None:
    """The tutorial's small tree: the bids and the total at each price, and where they balance."""
    figure = draw_clearing(run(TOP / "examples" / "balance.json", program=program), program=program)
    lines = {line.get_label().split(":")[0]: [int(y) for y in line.get_ydata()] for line in figure.axes[0].lines}
    assert lines["roof"] == [-300] * 6
    assert lines["boiler"] == [500, 400, 300, 200, 100, 0]
    assert lines["total"] == [200, 100, 0, -100, -200, -300]


def test_a_bill_and_answers_are_drawn(program: Program) -> None:
    """A bar for each account, in kilowatt-hours; the targets at the prices of docs/CLUSTER_FILE.md."""
    done = run(TOP / "examples" / "battery_day.json", program=program)
    bars = draw_bill(done.bill).axes[1].containers[0]
    assert [bar.get_width() for bar in bars][:1] == [8.0]
    figure = draw_answers(flexibility_of(done.cluster, [-1000, -2000], program))
    (markers,) = [line for line in figure.axes[0].lines if line.get_marker() == "D"]
    assert list(markers.get_ydata()) == [79, 85]


def test_the_command_draws_the_same_bytes_each_time(tmp_path: Path, program: Program) -> None:
    """SVG and PNG; other endings, too much and no matplotlib are told."""
    words = ["--program", program.path, "-o"]
    for what, file in (("run", "street"), ("clearing", "balance"), ("bill", "battery_day"), ("ask", "battery_day")):
        pictures = [tmp_path / f"{what}{name}" for name in ("0.svg", "1.svg")]
        for picture in pictures:
            assert cli.main(["draw", what, str(TOP / "examples" / f"{file}.json"), *words, str(picture)]) == 0
        assert pictures[0].read_bytes() == pictures[1].read_bytes()
        assert b"http://purl.org" not in pictures[0].read_bytes()
    pictures = [tmp_path / f"{at}.png" for at in range(2)]
    for picture in pictures:
        assert cli.main(["draw", "clearing", str(TOP / "examples" / "balance.json"), *words, str(picture)]) == 0
    assert pictures[0].read_bytes() == pictures[1].read_bytes()
    assert pictures[0].read_bytes().startswith(b"\x89PNG")
    assert cli.main(["draw", "run", str(TOP / "examples" / "street.json"), *words, str(tmp_path / "a.gif")]) == 1


def test_a_picture_needs_matplotlib(tmp_path: Path, program: Program, monkeypatch: pytest.MonkeyPatch) -> None:
    """Without it the error names the package."""
    from cogmaula.commands import draw

    for name in [module for module in sys.modules if module.startswith("cogmaula.drawing")]:
        monkeypatch.delitem(sys.modules, name)
    monkeypatch.setitem(sys.modules, "matplotlib", None)
    monkeypatch.delattr("cogmaula.drawing", raising=False)
    arguments = cli.make_parser().parse_args(["draw", "bill", "x.json", "-o", "x.svg"])
    with pytest.raises(NoPackage, match="python3-matplotlib"):
        draw.main(arguments)


def test_a_picture_ends_in_svg_or_png(tmp_path: Path, program: Program) -> None:
    """Other formats are not made."""
    figure = draw_bill(run(TOP / "examples" / "balance.json", program=program).bill)
    with pytest.raises(ValueError, match="ends in .svg or .png"):
        save(figure, tmp_path / "a.pdf")
