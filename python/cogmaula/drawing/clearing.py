"""The picture of how a market clears: the bid of each member over the price, their total, and the price that is taken."""

from __future__ import annotations

import matplotlib
from matplotlib.figure import Figure

from ..program import Program, found_program
from ..report.charts import number, set_powers, watts
from ..report.flexibility import demands_after
from ..report.svg import COLOURS, LINE, SETTINGS
from ..runs import Run
from ..states import snapshots
from .asked_bids import sum_of_bids


def draw_clearing(run: Run, phase: int = 1, program: Program | None = None) -> Figure:
    """How the market clears at the end of a phase, from 1.

    Raises ValueError if there is no such phase, if nobody is a member there, or if the cluster has limited groups, whose devices
    go by prices of their own.
    """
    program, cluster = program or found_program(), run.cluster
    if not 1 <= phase <= len(run.ends) or not run.ends[phase - 1].powers:
        raise ValueError(f"there is no phase {phase} with a member: the run has {len(run.ends)} phases")
    if any(node.kind == "limited" for node in cluster.nodes):
        raise ValueError("the cluster has limited groups: cogmaula draw run shows them")
    end, script = run.ends[phase - 1], cluster.with_script(cluster.phases[:phase])
    *_, now = snapshots(script, run.ends[:phase])
    prices, total = cluster.basis.prices, demands_after(script, program)
    with matplotlib.rc_context(SETTINGS):
        figure = Figure(figsize=(7.2, 3.3))
        figure.subplots_adjust(left=0.12, right=0.68, bottom=0.15, top=0.9)
        axes = figure.add_subplot()
        set_powers(axes)
        for at, (name, power) in enumerate(end.powers.items()):
            bid = sum_of_bids(cluster, now, [name], program)
            known = [(price, power) for price, power in zip(prices, bid, strict=True) if power is not None]
            axes.plot(*zip(*known), color=COLOURS[at % 8], linewidth=1.6, label=f"{name}: {watts(power)}")
        known = [(price, power) for price, power in zip(prices, total, strict=True) if power is not None]
        axes.plot(*zip(*known), color=LINE, linewidth=2.4, label=f"total: {watts(end.total)}")
        axes.axvline(end.price, color=LINE, linestyle="--", linewidth=1)
        axes.plot([end.price], [end.total], marker="o", markersize=9, color=LINE)
        axes.set_title(f"The market clears at price {number(end.price)}: the total is {watts(end.total)}", fontsize=11, loc="left")
        axes.set_xlabel("price (price units)")
        axes.legend(loc="upper left", bbox_to_anchor=(1.02, 1), frameon=False, fontsize=10)
    return figure
