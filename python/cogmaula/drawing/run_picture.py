"""The picture of a small run: its prices, its tree in one phase, the sums of the bids there, and the powers over the phases."""

from __future__ import annotations

from collections.abc import Iterable, Sequence
from typing import Any

import matplotlib
from matplotlib.axes import Axes
from matplotlib.figure import Figure

from ..cluster import Cluster
from ..nodes import AUCTIONEER, Limited
from ..phases import Tick
from ..program import Program, found_program
from ..report.charts import number, set_powers, watts
from ..report.flexibility import demands_after
from ..report.svg import COLOURS, LIMIT, LINE, SETTINGS
from ..runs import Run
from ..states import snapshots
from ..texts import PhaseEnd
from .asked_bids import sum_of_bids

HATCHES = ["", "//", "..", "xx", "--", "oo"]
# A picture has at most so many devices and phases: a report shows more.
MOST_DEVICES, MOST_PHASES = 48, 60
Looks = dict[str, dict[str, Any]]


class TooMuch(ValueError):
    """A run has too many devices or phases for a picture."""


def draw_run(run: Run, phase: int | None = None, program: Program | None = None) -> Figure:
    """The picture of a run, with the tree and the bids at the end of a phase, from 1; the last one if it is not given.

    Raises TooMuch if the run has too many devices or phases, and ValueError if it has no such phase.
    """
    program, cluster = program or found_program(), run.cluster
    if len(cluster.devices) > MOST_DEVICES or len(run.ends) > MOST_PHASES:
        raise TooMuch(f"a picture shows at most {MOST_DEVICES} devices and {MOST_PHASES} phases: take cogmaula report")
    chosen = len(run.ends) if phase is None else phase
    if not 1 <= chosen <= len(run.ends):
        raise ValueError(f"there is no phase {chosen}: the run has {len(run.ends)}")
    groups = [node for node in cluster.nodes if isinstance(node, Limited)]
    top = max(2.8, 0.24 * (len(cluster.nodes) + 1))
    with matplotlib.rc_context(SETTINGS):
        figure = Figure(figsize=(10, top + 2.9 * (1 + len(groups))), layout="constrained")
        grid = figure.add_gridspec(2 + len(groups), 2, height_ratios=[top, *[2.9] * (1 + len(groups))])
        beside = grid[0, 0].subgridspec(2, 1, height_ratios=[2.8, max(top - 2.8, 0.001)])
        draw_prices(figure.add_subplot(beside[0]), run, groups)
        looks = looks_of(cluster)
        draw_tree(figure.add_subplot(grid[0, 1]), cluster, run.ends[chosen - 1], looks)
        for row, group in enumerate([None, *groups], 1):
            bids, powers = (figure.add_subplot(grid[row, column]) for column in (0, 1))
            draw_bids(bids, run, group, chosen, program, bool(groups))
            draw_powers(powers, run, group, looks, bool(groups))
    return figure


def looks_of(cluster: Cluster) -> Looks:
    """The colour and the hatch of each device."""
    return {
        device.name: {"facecolor": COLOURS[at % 8], "hatch": HATCHES[at // 8 % 6], "edgecolor": "black", "linewidth": 0.5}
        for at, device in enumerate(cluster.devices)
    }


def draw_prices(axes: Axes, run: Run, groups: Sequence[Limited]) -> None:
    """The market's price and that of each limited group, at each phase's end."""
    phases = range(1, len(run.ends) + 1)
    axes.plot(phases, [end.price for end in run.ends], label="market", marker="o", color=LINE, zorder=3)
    for at, group in enumerate(groups):
        line = [end.groups[at].price for end in run.ends]
        axes.plot(phases, line, label=f"below {group.name}", marker="sD^v"[at % 4], color=COLOURS[at % 8], zorder=2)
    basis = run.cluster.basis
    margin = 0.05 * (basis.max - basis.min)
    axes.set_ylim(basis.min - margin, basis.max + margin)
    set_phases(axes, run)
    axes.set(title="Price at each phase's end", ylabel="price (price units)")
    if groups:
        axes.legend(fontsize=8)


def set_phases(axes: Axes, run: Run) -> None:
    """The phases below axes: all with the minutes of ticks if they are few, else some."""
    phases = range(1, len(run.ends) + 1)
    ticks = [phase.minutes if isinstance(phase, Tick) else None for phase in run.cluster.phases]
    if len(ticks) > 12:
        axes.set_xticks(phases[:: 1 + (len(ticks) - 1) // 12])
        axes.set_xlabel("phase")
    else:
        axes.set_xticks(phases, [f"{at}\n{minutes} min" if minutes else str(at) for at, minutes in zip(phases, ticks, strict=True)])
        axes.set_xlabel("phase, and the minutes of a tick" if any(ticks) else "phase")


def places_of(cluster: Cluster) -> dict[str, tuple[int, int]]:
    """Where each node of the tree is drawn: its depth, and its row below 0."""
    below: dict[str, list[str]] = {AUCTIONEER: [], **{node.name: [] for node in cluster.nodes}}
    for node in cluster.nodes:
        below[node.above].append(node.name)
    found: dict[str, tuple[int, int]] = {}

    def put(name: str, depth: int) -> None:
        found[name] = depth, -len(found)
        for child in below[name]:
            put(child, depth + 1)

    put(AUCTIONEER, 0)
    return found


def draw_tree(axes: Axes, cluster: Cluster, end: PhaseEnd, looks: Looks) -> None:
    """The nodes from left to right, leaves one below another, with names, kinds and powers."""
    places = places_of(cluster)
    axes.set_title(f"The tree and its powers in phase {end.phase}")
    for node in cluster.nodes:
        (x, y), (ax, ay) = places[node.name], places[node.above]
        axes.plot([ax, ax, x], [ay, y, y], color="0.6", linewidth=1, zorder=1)
    above = {node.name: node.above for node in cluster.nodes}
    sums = dict.fromkeys(places, 0)
    for name, power in end.powers.items():
        while name:
            sums[name] += power
            name = above.get(name, "")
    kinds = {node.name: node.kind.replace("_", " ") for node in cluster.nodes}
    for name, (x, y) in places.items():
        is_out = name in looks and name not in end.powers
        look: dict[str, Any] = {"edgecolor": "black", **looks.get(name, {})}
        if is_out or name not in looks:
            look["facecolor"] = "white"
        axes.scatter([x], [y], s=50, marker="s" if name in looks else "o", zorder=2, **look)
        told = ", ".join(text for text in (name, kinds.get(name, ""), "no member" if is_out else watts(sums[name])) if text)
        axes.annotate(told, (x, y), xytext=(7, 0), textcoords="offset points", va="center", fontsize=9,
                      color="0.4" if is_out else "black")
    axes.set_xlim(-0.2, 2.6 + max(x for x, _ in places.values()))
    axes.set_ylim(-len(places) + 0.3, 0.7)
    axes.axis("off")


def draw_bids(axes: Axes, run: Run, group: Limited | None, phase: int, program: Program, has_groups: bool) -> None:
    """The sum of the bids at each price, and the step that was taken."""
    cluster, end = run.cluster, run.ends[phase - 1]
    if group is None:
        sums = demands_after(cluster.with_script(cluster.phases[:phase]), program)
        step, said, name = end.step, " within limits" if has_groups else "", ""
    else:
        *_, now = snapshots(cluster.with_script(cluster.phases[:phase]), run.ends[:phase])
        inside = cluster.groups()
        sums = sum_of_bids(cluster, now, [name for name in end.powers if inside[name] == group.name], program)
        step, name = next((ended.step, ended.name) for ended in end.groups if ended.name == group.name)
        said = f" below {name}"
    draw_sums(axes, cluster.basis.prices, sums, step)
    draw_limits(axes, group)
    axes.margins(y=0.15)
    axes.set(title=f"Sum of the bids{said} in phase {phase}", xlabel="price (price units)", ylabel="sum of the bids")


def draw_sums(axes: Axes, prices: Sequence[int], sums: Sequence[int | None], step: int) -> None:
    """A sum of bids over the prices, and the step that was taken."""
    known = [(price, power) for price, power in zip(prices, sums, strict=True) if power is not None]
    set_powers(axes)
    axes.plot(*zip(*known), color=COLOURS[0], marker="o" if len(prices) <= 30 else None, markersize=4)
    price, total = prices[step], sums[step]
    if total is None:
        return
    axes.plot([price], [total], marker="D", color=LINE, zorder=3)
    # The sum falls, so nothing is above it to the right, nor below it to the left.
    way, side, edge = (-1, "right", "top") if step > len(prices) // 2 else (1, "left", "bottom")
    axes.annotate(f"price {number(price)}: {watts(total)}", (price, total), xytext=(8 * way, 5 * way),
                  textcoords="offset points", ha=side, va=edge, fontsize=9)


def draw_limits(axes: Axes, group: Limited | None) -> None:
    """The floor and the ceiling of a limited group, as lines."""
    for word, limit, way, edge in (
        () if group is None else (("floor", group.floor, -2, "top"), ("ceiling", group.ceiling, 2, "bottom"))
    ):
        axes.axhline(limit, color=LIMIT, linestyle="--", linewidth=1.5)
        axes.annotate(f"{word} {watts(limit)}", (1, limit), xycoords=("axes fraction", "data"), xytext=(-3, way),
                      textcoords="offset points", ha="right", va=edge, fontsize=8, color=LIMIT,
                      bbox={"facecolor": "white", "edgecolor": "none", "alpha": 0.7, "pad": 0.5})


def draw_powers(axes: Axes, run: Run, group: Limited | None, looks: Looks, has_groups: bool) -> None:
    """The powers of a group's devices at each phase's end: what is taken stacked upwards, what is delivered downwards."""
    inside = run.cluster.groups()
    names = [name for name in looks if inside[name] == (None if group is None else group.name)]
    sums = stack(axes, run.ends, names, looks)
    set_powers(axes)
    axes.plot(range(1, len(run.ends) + 1), sums, linestyle="none", marker="D", color=LINE, markeredgecolor="white", label="together")
    draw_limits(axes, group)
    axes.use_sticky_edges = False
    axes.margins(y=0.15)
    set_phases(axes, run)
    which = f" below {group.name}" if group else " outside limited groups" if has_groups else ""
    axes.set(title=f"Powers of the devices{which}", ylabel="power")
    # The tree shows the colours too, and a longer list would not fit here.
    if len(names) <= 14:
        axes.legend(fontsize=8, loc="center left", bbox_to_anchor=(1.01, 0.5), frameon=False)


def stack(axes: Axes, ends: Sequence[PhaseEnd], names: Iterable[str], looks: Looks) -> list[int]:
    """Draws the powers of these devices as bars, one on another, and gives their sum at each end."""
    phases = range(1, len(ends) + 1)
    up, down = [0] * len(ends), [0] * len(ends)
    for name in names:
        powers = [end.powers.get(name, 0) for end in ends]
        bottom = [a if power > 0 else b for power, a, b in zip(powers, up, down, strict=True)]
        axes.bar(phases, powers, bottom=bottom, width=0.7, label=name, **looks[name])
        up = [a + max(power, 0) for a, power in zip(up, powers, strict=True)]
        down = [a + min(power, 0) for a, power in zip(down, powers, strict=True)]
    return [a + b for a, b in zip(up, down, strict=True)]
