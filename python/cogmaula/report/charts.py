"""The figures of a report: prices, loads of limited groups, powers of devices, what is left over, and the flexibility.

Each function draws on new axes and gives the figure. Powers are in watts, positive if taken. `Hours` has the intervals, and each list
of values has one value for each interval. Of a long run the figures show means, and a band from the least to the greatest value.
"""

from __future__ import annotations

import math
from collections.abc import Mapping, Sequence
from dataclasses import dataclass
from datetime import datetime
from typing import Any

import matplotlib
import numpy
from matplotlib.axes import Axes
from matplotlib.colors import SymLogNorm
from matplotlib.figure import Figure
from matplotlib.patches import StepPatch
from matplotlib.ticker import FixedLocator, FuncFormatter, MaxNLocator

from ..moments import clock_marks, later, month_marks
from .long_course import Course
from .svg import COLOURS, LIMIT, LINE, SETTINGS, new_figure

# Up to so many devices a figure stacks their powers; it shows more as a heat map.
MOST_STACKED = 8
# So many limited groups' prices are drawn beside that of the market.
MOST_LINES = 7
# The distances of labels that go by the clock: whole hours, and days.
WHOLE_HOURS = (1, 2, 3, 6, 12, 24, 48, 96, 168)
# So many names are beside each other above a figure.
MOST_BESIDE = 3


@dataclass(frozen=True)
class Hours:
    """The time axis: when the run begins, and the course of its intervals."""

    start: datetime
    course: Course

    @property
    def edges(self) -> Any:
        """The edges of what is shown, in hours after the start."""
        return self.course.edges

    def label(self, hour: float) -> str:
        """The time of so many hours after the start, as an axis shows it."""
        time = later(self.start, round(hour * 60))
        if self.edges[-1] <= 48:
            return f"{time:%H:%M}"
        day = f"{time.day} {time:%b}"
        return f"{day}\n{time:%H:%M}" if time.hour or time.minute else day

    def places(self) -> list[float]:
        """Where the axis has labels, at most nine: at equal distances of the clock, or of more than two months at the firsts of months."""
        last = float(self.edges[-1])
        if last > 60 * 24:
            firsts = [passed / 60 for passed in month_marks(self.start, last * 60)]
            return firsts[:: 1 + (len(firsts) - 1) // 9]
        width = next((width for width in (0.25, 0.5, 1, 2, 3, 6, 12, 24, 48, 96, 168) if last / width <= 8.01), last / 8)
        if width not in WHOLE_HOURS:
            return [float(tick) for tick in numpy.arange(0, last + width / 100, width)]
        # The end of the axis has a label too.
        marks = [passed / 60 for passed in clock_marks(self.start, round(width * 60), last * 60 + 0.5)]
        return marks if width >= 24 and not self._begins_at_midnight else [0.0, *marks]

    @property
    def _begins_at_midnight(self) -> bool:
        return (self.start.hour, self.start.minute) == (0, 0)


def number(value: float, digits: int = 0) -> str:
    """A number as a reader sees it: thousands apart, and a true minus sign."""
    return f"{value:,.{digits}f}".replace("-", "\u2212").replace(",", "\u202f")


def watts(power: float, _: object = None) -> str:
    """A power with the unit that suits its size."""
    for size, unit in ((1e6, "MW"), (1e3, "kW")):
        if abs(power) >= size:
            return f"{number(power / size, 3).rstrip('0').rstrip('.')} {unit}"
    return f"{number(power)} W"


def timed_axes(hours: Hours, **edges: float) -> tuple[Figure, Axes]:
    """Axes over the hours of a run."""
    with matplotlib.rc_context(SETTINGS):
        figure = new_figure(**edges)
        axes = figure.add_subplot()
    set_hours(axes, hours)
    return figure, axes


def legend_above(many: int) -> dict[str, float]:
    """The height of a figure over hours with so many names above its axes, and their upper edge."""
    rows = -(-many // MOST_BESIDE)
    high = 3.1 + 0.24 * rows
    return {"high": high, "bottom": 0.45 / high, "top": 1 - (0.1 + 0.24 * rows) / high}


def put_legend(axes: Axes) -> None:
    """Puts the names above axes, where they hide nothing."""
    axes.legend(fontsize=10, loc="lower left", bbox_to_anchor=(-0.03, 1), ncols=MOST_BESIDE, frameon=False, columnspacing=1.2,
                handlelength=1.4, borderaxespad=0.1)


def set_hours(axes: Axes, hours: Hours) -> None:
    """Puts the hours below axes."""
    axes.xaxis.set_major_locator(FixedLocator(hours.places()))
    axes.xaxis.set_major_formatter(FuncFormatter(lambda hour, _: hours.label(hour)))
    axes.set_xlim(0, hours.edges[-1])


def set_powers(axes: Axes) -> None:
    """Puts powers beside axes, and a line at 0."""
    axes.yaxis.set_major_locator(MaxNLocator(6))
    axes.yaxis.set_major_formatter(FuncFormatter(watts))
    axes.axhline(0, color="0.6", linewidth=0.8, zorder=0)


def put_steps(axes: Axes, values: Any, edges: Any, *, baseline: Any, color: str, fill: bool = False, **look: Any) -> None:
    """Draws values between edges, as `Axes.stairs` does.

    That call follows the outline of a patch a piece at a time to know its limits, which are known. For a year that takes seconds.
    """
    colours = {"facecolor": color, "linewidth": 0} if fill else {"edgecolor": color}
    patch = StepPatch(values, edges, baseline=baseline, fill=fill, **{**colours, **look})
    axes.add_artist(patch)
    lowest, known = (0, values) if baseline is None else (baseline, numpy.concatenate([numpy.ravel(values), numpy.ravel(baseline)]))
    patch.sticky_edges.y.append(numpy.min(lowest))
    axes.update_datalim([(edges[0], numpy.min(known)), (edges[-1], numpy.max(known)), (edges[0], numpy.min(lowest))])
    axes.autoscale_view()


def draw_line(axes: Axes, hours: Hours, values: Any, **look: Any) -> None:
    """A line of the values over the hours; of a long run their means, on a band from the least to the greatest."""
    course = hours.course
    if course.word:
        put_steps(axes, course.greatest(values), hours.edges, baseline=course.least(values), color=look["color"], fill=True, alpha=0.25)
    put_steps(axes, course.mean(values), hours.edges, baseline=None, **look)


def draw_prices(hours: Hours, market: Any, groups: Mapping[str, Any], unit: str) -> Figure:
    """The price of the market, and of the first limited groups whose price differs from it at some time."""
    own = {name: prices for name, prices in groups.items() if list(prices) != list(market)}
    figure, axes = timed_axes(hours, **(legend_above(1 + min(len(own), MOST_LINES)) if own else {}))
    for at, (name, prices) in enumerate(list(own.items())[:MOST_LINES]):
        put_steps(axes, hours.course.mean(prices), hours.edges, baseline=None, color=COLOURS[at % 8], linewidth=1.2, label=f"below {name}")
    draw_line(axes, hours, market, color=LINE, linewidth=1.8, label="market")
    # A unit may have a dollar sign, which would begin a formula.
    axes.set_ylabel(f"price ({unit})", parse_math=False)
    axes.yaxis.set_major_locator(MaxNLocator(6, integer=True))
    axes.margins(y=0.1)
    if own:
        put_legend(axes)
    return figure


def draw_load(hours: Hours, load: Sequence[int], floor: int, ceiling: int) -> Figure:
    """The load of a limited group between its limits; what is outside them is shaded."""
    figure, axes = timed_axes(hours, left=0.16)
    draw_line(axes, hours, load, color=COLOURS[0], linewidth=1.8)
    low, high, course = min(load), max(load), hours.course
    for limit, word, edge in ((ceiling, "ceiling", "bottom"), (floor, "floor", "top")):
        # A limit far from all that was taken would press the load flat.
        if low - 2 * (high - low + 1) <= limit <= high + 2 * (high - low + 1):
            axes.axhline(limit, color=LIMIT, linestyle="--", linewidth=1.4)
            axes.annotate(f"{word} {watts(limit)}", (1, limit), xycoords=("axes fraction", "data"), ha="right", va=edge,
                          xytext=(-3, 2 if edge == "bottom" else -2), textcoords="offset points", color=LIMIT, fontsize=10,
                          bbox={"facecolor": "white", "edgecolor": "none", "alpha": 0.7, "pad": 0.5}, zorder=5)
    highest, lowest = course.greatest(load), course.least(load)
    for begin, end in runs_of(list((highest > ceiling) | (lowest < floor))):
        axes.axvspan(hours.edges[begin], hours.edges[end], color=LIMIT, alpha=0.15, linewidth=0)
    for limit, beyond in ((ceiling, numpy.maximum(highest, ceiling)), (floor, numpy.minimum(lowest, floor))):
        if any(beyond != limit):
            put_steps(axes, beyond, hours.edges, baseline=limit, color=LIMIT, fill=True, alpha=0.55)
    set_powers(axes)
    axes.margins(y=0.15)
    return figure


def runs_of(flags: Sequence[bool]) -> list[tuple[int, int]]:
    """Where the flags are true: the first place of each run, and the place behind its last."""
    found: list[tuple[int, int]] = []
    for at, is_set in enumerate(flags):
        if is_set and found and found[-1][1] == at:
            found[-1] = (found[-1][0], at + 1)
        elif is_set:
            found.append((at, at + 1))
    return found


def draw_powers(hours: Hours, powers: Mapping[str, Any]) -> Figure:
    """What each device takes, stacked upwards, and delivers, stacked downwards; of many devices a heat map."""
    return draw_stack(hours, powers) if len(powers) <= MOST_STACKED else draw_heat(hours, powers)


def draw_stack(hours: Hours, powers: Mapping[str, Any]) -> Figure:
    """The powers of a few devices, one on another."""
    figure, axes = timed_axes(hours, left=0.16, **legend_above(len(powers)))
    count, mean = len(hours.edges) - 1, hours.course.mean
    up, down = numpy.zeros(count), numpy.zeros(count)
    for at, (name, row) in enumerate(powers.items()):
        taken, given = mean(numpy.maximum(row, 0)), mean(numpy.minimum(row, 0))
        color = COLOURS[at % 8]
        put_steps(axes, up + taken, hours.edges, baseline=up, color=color, fill=True, label=name)
        put_steps(axes, down + given, hours.edges, baseline=down, color=color, fill=True)
        up, down = up + taken, down + given
    set_powers(axes)
    axes.margins(y=0.1)
    put_legend(axes)
    return figure


def draw_heat(hours: Hours, powers: Mapping[str, Any]) -> Figure:
    """The powers of many devices or groups: a row for each, and a colour for each power, on a scale that also tells small ones apart."""
    names, rows = list(powers), hours.course.mean(list(powers.values()))
    high = 1.3 + 0.15 * len(names)
    longest = max(map(len, names))
    with matplotlib.rc_context(SETTINGS):
        figure = new_figure(high=high, left=min(0.4, 0.035 + 0.014 * longest), bottom=0.85 / high, top=1 - 0.15 / high, right=0.94)
        axes = figure.add_subplot()
        most = max(1.0, float(numpy.abs(rows).max()))
        # A house takes hundreds of watts beside a connection of tens of kilowatts.
        norm = SymLogNorm(linthresh=max(1.0, most / 1000), vmin=-most, vmax=most)
        edges = numpy.array(hours.edges)
        even = resampled(rows, edges)
        image = axes.imshow(even, aspect="auto", interpolation="none", cmap="PuOr_r", norm=norm,
                            extent=(0, float(edges[-1]), len(names) - 0.5, -0.5))
        set_hours(axes, hours)
        axes.set_yticks(range(len(names)), names, fontsize=8)
        beside = figure.add_axes((0.2, 0.28 / high, 0.65, 0.1 / high))
        bar = figure.colorbar(image, cax=beside, orientation="horizontal")
        # Between 0 and the most a power of ten, far enough from both that the words have room.
        middle = 10.0 ** math.floor(math.log10(most / 20))
        ticks = [-most, -middle, 0, middle, most]
        bar.set_ticks(ticks, labels=[watts(tick) for tick in ticks], fontsize=8)
        bar.ax.minorticks_off()
    return figure


def resampled(rows: Any, edges: Any) -> Any:
    """The rows over columns of one width: as they are if the intervals are equal, and else the value at each of 960 moments."""
    widths = numpy.diff(edges)
    if numpy.allclose(widths, widths[0]):
        return rows
    moments = (numpy.arange(960) + 0.5) * edges[-1] / 960
    return rows[:, numpy.searchsorted(edges, moments, side="right") - 1]


def draw_exchange(hours: Hours, totals: Any) -> Figure:
    """What the devices take together, less what they deliver: above 0 it comes from outside, below 0 it goes there."""
    figure, axes = timed_axes(hours, left=0.16)
    means = hours.course.mean(totals)
    put_steps(axes, numpy.maximum(means, 0), hours.edges, baseline=0, color=COLOURS[4], fill=True, alpha=0.6)
    put_steps(axes, numpy.minimum(means, 0), hours.edges, baseline=0, color=COLOURS[1], fill=True, alpha=0.6)
    draw_line(axes, hours, totals, color=COLOURS[0], linewidth=1.4)
    set_powers(axes)
    axes.margins(y=0.1)
    return figure


def draw_curve(prices: Sequence[float], demands: Sequence[int | None], answers: Sequence[tuple[int, float]], unit: str) -> Figure:
    """The total of all bids at each price, as dots since nothing lies between two steps, and the price that answers each target."""
    with matplotlib.rc_context(SETTINGS):
        figure = new_figure(left=0.16, bottom=0.15)
        axes = figure.add_subplot()
        known = [(price, demand) for price, demand in zip(prices, demands) if demand is not None]
        small = 2.5 if len(known) > 60 else 5
        axes.plot(*zip(*known), linestyle="none", marker="o", markersize=small, color=COLOURS[0], label="what the cluster takes")
        if answers:
            axes.plot([price for _, price in answers], [target for target, _ in answers], linestyle="none", marker="D",
                      markerfacecolor="none", color=LIMIT, label="target, at its price")
        set_powers(axes)
        axes.set_xlabel(f"price ({unit})", parse_math=False)
        axes.margins(x=0.03, y=0.1)
        axes.legend(fontsize=10, loc="best", framealpha=0.85)
    return figure
