"""The pictures of a bill and of the answers to targets."""

from __future__ import annotations

import matplotlib
from matplotlib.figure import Figure
from matplotlib.ticker import FuncFormatter

from ..report.bills import energy
from ..report.charts import number, set_powers, watts
from ..report.flexibility import Flexibility
from ..report.svg import COLOURS, LIMIT, LINE, SETTINGS
from ..texts import Bill


def draw_bill(bill: Bill) -> Figure:
    """What each device and the grid paid, took and gave."""
    accounts = [*bill.devices.items(), ("(the grid)", bill.grid)]
    names = [name for name, _ in accounts]
    amounts = [float(energy(account.amount)) for _, account in accounts]
    taken, given = ([float(energy(getattr(account, word))) for _, account in accounts] for word in ("taken", "given"))
    with matplotlib.rc_context(SETTINGS):
        figure = Figure(figsize=(10, 1 + 0.35 * len(accounts)), layout="constrained")
        paid, moved = figure.subplots(1, 2, sharey=True)
        paid.barh(names, amounts, color=[LIMIT if amount > 0 else COLOURS[2] for amount in amounts])
        paid.set(title="Paid, or earned below 0", xlabel="price units \u00d7 kWh")
        moved.barh(names, taken, color=COLOURS[0], label="taken")
        moved.barh(names, [-power for power in given], color=COLOURS[1], label="given")
        moved.set(title="Taken, and given to the left", xlabel="kWh")
        moved.legend(fontsize=8)
        for axes in (paid, moved):
            axes.axvline(0, color="0.5", linewidth=0.8)
            axes.xaxis.set_major_formatter(FuncFormatter(lambda power, _: number(power)))
        paid.invert_yaxis()
    return figure


def draw_answers(flexibility: Flexibility) -> Figure:
    """At which price the cluster clears for each target, with the targets that were asked."""
    known = [(demand, price) for demand, price in zip(flexibility.demands, flexibility.prices, strict=True) if demand is not None]
    targets = [answer.target for answer in flexibility.answers]
    shown = [*targets, *(power for power, _ in known)]
    low, high = min(shown), max(shown)
    margin = max(1, (high - low) // 20)
    # Each step answers the targets from its own total to below that of the step before.
    edges = [low - margin, *(price for price, _ in reversed(known[:-1])), high + margin]
    with matplotlib.rc_context(SETTINGS):
        figure = Figure(figsize=(10, 4), layout="constrained")
        axes = figure.add_subplot()
        axes.stairs([price for _, price in reversed(known)], edges, baseline=None, color=COLOURS[0])
        axes.plot(targets, [answer.price for answer in flexibility.answers], marker="D", linestyle="none", color=LINE, zorder=3)
        for answer in flexibility.answers[:30]:
            said = f"{watts(answer.target)}: price {number(answer.price)}" + (f", {watts(answer.total)} left" if answer.total else "")
            axes.annotate(said, (answer.target, answer.price), xytext=(3, 5), textcoords="offset points", fontsize=8, rotation=40)
        set_powers(axes)
        axes.yaxis.set_major_formatter(FuncFormatter(lambda power, _: number(power)))
        axes.xaxis.set_major_formatter(FuncFormatter(watts))
        axes.margins(x=0, y=0.35)
        axes.set(title="The price for each target", xlabel="target: so much more is taken, or delivered below 0",
                 ylabel="price (price units)")
    return figure
