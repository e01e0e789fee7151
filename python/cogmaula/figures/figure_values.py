"""The figures of a run as values, and as a table in units that people read."""

from __future__ import annotations

from collections.abc import Iterator
from dataclasses import dataclass
from datetime import datetime
from html import escape

from ..errors import MarketError


class NoConnection(MarketError):
    """A run has no such connection: no manual device has the name, or it is no member while power is exchanged."""


@dataclass(frozen=True)
class Peak:
    """The greatest power of an exchange in watts, and the moment at which it begins; 0 and None if there is none."""

    power_W: int
    at: datetime | None


@dataclass(frozen=True)
class BatteryUse:
    """How a battery was used. Charges are shares of its capacity, over the ticks of the run.

    least, mean, most, last: its charge, from 0 to 1
    cycles:                  what was taken out of its charge, divided by its capacity
    cycles_a_day:            the same for a day
    flips:                   how often it went from charging to discharging or back, from a tick to the next
    ticks:                   of the run
    churned_kWh:             what it took and gave back within an hour of the run, and so did not shift
    """

    least: float
    mean: float
    most: float
    last: float
    cycles: float
    cycles_a_day: float
    flips: int = 0
    ticks: int = 0
    churned_kWh: float = 0.0


@dataclass(frozen=True)
class Figures:
    """What a reader asks of a run first. Energies are in kilowatt-hours, and money is in `unit`.

    unit:                 the unit of money
    connection:           the manual device that is the connection to the supplier, or None if none was named
    minutes:              how long the run is
    cost:                 what the devices paid by the bill of the market, without the connection
    cost_at_connection:   what the exchange of the market costs at the prices that the connection asks for it
    cost_plain:           the same for the exchange that the devices have by their plain rules, without a market
    cost_without_battery: the same if the batteries were not there
    left_kWh:             what the batteries hold more at the end than at the begin, by what they took and gave
    left_value:           what that is worth at the market's mean price over the time; costs have nothing of it
    left_plain_value:     the same by plain rules
    bought_kWh, sold_kWh: what the devices took from outside, and gave
    consumed_kWh:         what the devices other than batteries and objectives took
    produced_kWh:         what they delivered
    self_consumption:     the share of what was produced that was not sold, tick by tick and through the batteries (`figures.own_shares`)
    self_sufficiency:     the share of what was consumed that was not bought, alike
    peak_bought, peak_sold: the greatest powers from outside and to it
    sold_above_kWh:       what was sold at a higher price than the connection asks
    bought_below_kWh:     what was bought at a lower price than the connection asks
    batteries:            the use of each battery
    shifted_kWh:          for each device with a plain rule the energy at another time than by that rule; of a battery, which by this
                          count would rest, half of what it took and delivered, each hour's net
    minutes_outside:      for how long each limited group was outside its limits

    Figures that need the connection are None without one. Shares are None if nothing was produced or consumed, if the cluster has
    manual devices and none is named as the connection, or if another manual device takes and gives, as a battery does. Plain rules are models beside the proved market (`figures.plain`).
    """

    unit: str
    connection: str | None
    minutes: int
    cost: float
    cost_at_connection: float | None
    cost_plain: float | None
    cost_without_battery: float | None
    left_kWh: float
    left_value: float
    left_plain_value: float | None
    bought_kWh: float
    sold_kWh: float
    consumed_kWh: float
    produced_kWh: float
    self_consumption: float | None
    self_sufficiency: float | None
    peak_bought: Peak
    peak_sold: Peak
    sold_above_kWh: float | None
    bought_below_kWh: float | None
    batteries: dict[str, BatteryUse]
    shifted_kWh: dict[str, float]
    minutes_outside: dict[str, int]

    @property
    def kept_limits(self) -> bool:
        """Whether each limited group was within its limits at all times."""
        return not any(self.minutes_outside.values())

    def rows(self) -> Iterator[tuple[str, float | str | None, str]]:
        """Each figure of the site: its name, its value, and its unit."""
        yield "limits kept", ("yes" if self.kept_limits else "no") if self.minutes_outside else "no limits", ""
        yield "cost by the market's bill", self.cost, self.unit
        yield "cost at the connection's prices", self.cost_at_connection, self.unit
        yield "cost by plain rules (a model, not proved)", self.cost_plain, self.unit
        yield "cost by plain rules without batteries (a model, not proved)", self.cost_without_battery, self.unit
        yield "left in batteries, at the mean price", self.left_value, self.unit
        yield "bought", self.bought_kWh, "kWh"
        yield "sold", self.sold_kWh, "kWh"
        yield "consumed", self.consumed_kWh, "kWh"
        yield "produced", self.produced_kWh, "kWh"
        yield "self-consumption", percent(self.self_consumption), "%"
        yield "self-sufficiency", percent(self.self_sufficiency), "%"
        yield "peak bought", self.peak_bought.power_W, "W"
        yield "peak sold", self.peak_sold.power_W, "W"

    def __repr__(self) -> str:
        limits = "limits kept" if self.kept_limits else "limits broken"
        return f"Figures({limits}, cost {self.cost:.2f} {self.unit}, {self.bought_kWh:.1f} kWh bought, {self.sold_kWh:.1f} kWh sold)"

    def _repr_html_(self) -> str:
        """The figures of the site as a table of a notebook."""
        told = ((name, f"{value:,.2f}" if isinstance(value, float) else "not known" if value is None else str(value), unit) for name, value, unit in self.rows())
        lines = "".join(f"<tr><th>{escape(name)}</th><td>{escape(value)}</td><td>{escape(unit)}</td></tr>" for name, value, unit in told)
        return f"<table><tbody>{lines}</tbody></table>"


def percent(share: float | None) -> float | None:
    """A share in percent."""
    return None if share is None else 100 * share
