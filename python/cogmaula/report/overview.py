"""The overview of a run for a notebook: its price, what its devices take, and what is left over or bought and sold."""

from __future__ import annotations

import matplotlib
from matplotlib.figure import Figure

from ..figures.supplier_tariffs import connection_in
from ..money import Currency
from ..runs import Run
from .charts import MOST_STACKED, Hours, draw_line, number, put_legend, set_hours, set_powers
from .long_course import Course
from .grouping import rows_of
from .svg import COLOURS, LINE, SETTINGS
from .words import in_unit, unit_of


def draw_overview(run: Run, connection: str | None = None, currency: Currency | None = None) -> Figure:
    """Three axes over the hours of a run. Powers are in watts, above 0 if they are taken. Of a long run they show means.

    connection: the manual device that is the connection to the supplier; it is not drawn as a device
    currency:   the unit of money, in which the price is then for a megawatt-hour

    Raises NoConnection.
    """
    if connection is not None:
        connection_in(run.cluster, connection)
    held, money = run.held, currency or Currency()
    hours = Hours(run.start, Course.of(held.ends.tolist() or [1], run.start))
    with matplotlib.rc_context(SETTINGS):
        figure = Figure(figsize=(9, 7.5), layout="constrained")
        price, devices, outside = figure.subplots(3, 1, sharex=True)
        if len(held.minutes):
            draw_line(price, hours, held.prices[:, 0] * in_unit(money, 1), color=LINE, linewidth=1.6)
            rows = rows_of(run.cluster, held.powers, held.without(connection))
            largest = sorted(rows, key=lambda name: -int(abs(rows[name]).sum()))[:MOST_STACKED]
            for at, name in enumerate(largest):
                devices.stairs(hours.course.mean(rows[name]), hours.edges, baseline=None, color=COLOURS[at % 8], linewidth=1.4, label=name)
            put_legend(devices)
            draw_line(outside, hours, held.exchange(connection), color=COLOURS[0], linewidth=1.6)
        price.set_ylabel(f"price ({unit_of(money)})", parse_math=False)
        price.yaxis.set_major_formatter(lambda power, _: number(power))
        devices.set_ylabel("power of devices" if len(held.names) <= MOST_STACKED else f"the {MOST_STACKED} largest powers")
        outside.set_ylabel("left over" if connection is None else "bought, and sold below 0")
        for axes in (devices, outside):
            set_powers(axes)
        set_hours(outside, hours)
    return figure
