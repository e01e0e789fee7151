"""The head of a report: were limits kept, what did it cost, who flexed; and what a reader should be warned of."""

from __future__ import annotations

from collections.abc import Iterator

from ..figures import Figures
from ..money import Currency
from . import markup
from .charts import number, watts
from .cluster_report import Findings
from .words import count, duration, hours, kilowatt_hours, moment, money_of

# A battery with fewer cycles a day than this is hardly used.
FEW_CYCLES = 0.1
# A battery that turns at more than this share of the ticks, and so often at least, moves energy to and fro.
OFTEN_TURNS, MOST_TURNS = 1 / 3, 10
# So many names are told in a sentence.
MOST_TOLD = 3


def glance(found: Findings) -> str:
    """Three answers beside each other, and the warnings below them."""
    answers = markup.cards([("Were limits kept?", verdict(found)), ("What did it cost?", cost(found)), ("Who flexed?", flexed(found))])
    return "\n".join([answers, *(markup.words(f"\u26a0 {warning}", "warning") for warning in warnings(found))])


def verdict(found: Findings) -> str:
    """Whether the limits were kept."""
    if not found.groups:
        return markup.words("No group has limits.", "soft")
    broken = [group for group in found.groups if group.outside]
    if not broken:
        return markup.words(f"\u2713 All limits were kept, in {count(len(found.groups), 'group')}.", "good")
    lines = [
        markup.words(
            f"\u26a0 {group.name} was outside its limits for {duration(group.minutes_outside)}, "
            f"at the ends of {group.outside} of {count(len(found.run.ends), 'phase')}.",
            "bad",
        )
        for group in broken[:5]
    ]
    if len(broken) > 5:
        lines.append(markup.words(f"\u26a0 So were {count(len(broken) - 5, 'more group')}.", "bad"))
    return "\n".join(lines)


def cost(found: Findings) -> str:
    """What the devices paid, and what the same would have cost otherwise."""
    figures, currency = found.figures, found.currency
    lines = [markup.words(money_of(currency, figures.cost), "large"), markup.words("by the market's bill, paid by all devices together.", "soft")]
    if figures.cost_at_connection is None:
        lines.append(markup.words("Name the connection to the supplier (--connection) to compare this with the cost without the market.", "soft"))
    else:
        rows = [[name, amount(currency, value), amount(currency, None if value is None else value - left)] for name, value, left in compared(figures)]
        if figures.batteries:
            lines.append(markup.plain_table(["At the connection's prices", currency.unit, "less what is left"], rows))
        else:
            lines.append(markup.plain_table(["At the connection's prices", currency.unit], [row[:2] for row in rows]))
    if figures.batteries:
        lines.append(markup.words(f"{left_words(found)}.", "soft"))
    return "\n".join(lines)


def compared(figures: Figures) -> list[tuple[str, float | None, float]]:
    """The costs that are compared, all at the prices that the connection asks, and what is left in the batteries at the end of each.

    Models of a simulation have no plain rules.
    """
    plain = [("by plain rules *", figures.cost_plain, figures.left_plain_value or 0.0)] if figures.cost_plain is not None else []
    return [("the run", figures.cost_at_connection, figures.left_value), *plain, ("without batteries *", figures.cost_without_battery, 0.0)]


def left_words(found: Findings) -> str:
    """What the batteries hold more or less at the end than at the begin, and what it is worth."""
    figures = found.figures
    more, value = figures.left_kWh, money_of(found.currency, abs(figures.left_value))
    if not more:
        return "The batteries hold as much at the end as at the begin"
    return f"The batteries hold {hours(abs(more))} kWh {'more' if more > 0 else 'less'} at the end than at the begin: {value} at the mean price"


def amount(currency: Currency, value: float | None) -> str:
    """An amount with two digits behind the point."""
    return "unknown" if value is None else number(value, 2)


def flexed(found: Findings) -> str:
    """The devices that shifted most energy."""
    figures = found.figures
    moved = sorted(((energy, name) for name, energy in figures.shifted_kWh.items() if energy > 0), key=lambda move: (-move[0], move[1]))
    if not moved:
        return markup.words("No device with a plain rule took or delivered energy at another time than by that rule.", "soft")
    total = sum(energy for energy, _ in moved)
    lines = [markup.words(f"{hours(total)} kWh", "large"), markup.words(f"shifted by {count(len(moved), 'device')} *, most by", "soft")]
    rows = [[name, hours(energy)] for energy, name in moved[:MOST_TOLD]]
    return "\n".join([*lines, markup.plain_table(["device", "kWh"], rows)])


def warnings(found: Findings) -> Iterator[str]:
    """What makes a bill misleading, or shows that a device is hardly used."""
    figures, currency = found.figures, found.currency
    if figures.sold_above_kWh:
        yield (
            f"{hours(figures.sold_above_kWh)} of {hours(figures.sold_kWh)} kWh that were sold are billed above the connection's price of sale. "
            f"The supplier does not pay that: at the connection's prices the run costs {money_of(currency, figures.cost_at_connection)}."
        )
    if figures.bought_below_kWh:
        yield f"{hours(figures.bought_below_kWh)} of {hours(figures.bought_kWh)} kWh that were bought are billed below the connection's price of purchase."
    yield from turning(found)
    idle = [name for name, battery in figures.batteries.items() if battery.cycles_a_day < FEW_CYCLES]
    if idle and found.run.cluster.minutes >= 1440:
        told = ", ".join(idle[:MOST_TOLD]) + (f" and {count(len(idle) - MOST_TOLD, 'more')}" if len(idle) > MOST_TOLD else "")
        yield (
            f"Hardly used, with less than {FEW_CYCLES} cycles a day: {told}. A battery charges with its whole power or not at all, "
            "so a power that is left over and smaller than that charges none of it. Several small ones in its place can follow."
        )


def turning(found: Findings) -> Iterator[str]:
    """A warning of batteries that go from charging to discharging and back at almost each tick."""
    uses = found.figures.batteries.items()
    restless = sorted(((use, name) for name, use in uses if use.flips >= max(MOST_TURNS, OFTEN_TURNS * use.ticks)), key=lambda one: -one[0].flips)
    if not restless:
        return
    (worst, name), more = restless[0], len(restless) - 1
    told = f"{name} turned from charging to discharging or back at {worst.flips} of {worst.ticks} ticks, in {number(worst.cycles_a_day, 1)} cycles a day"
    churned = sum(use.churned_kWh for use, _ in restless)
    alike = f", and {count(more, 'other')} alike" if more else ""
    yield (
        f"{told}{alike}. "
        f"{hours(churned)} kWh were taken and given back within an hour: they shifted nothing, and wear a battery. "
        "A greater spread keeps it at rest between its prices, and slices or longer ticks make it turn less often."
    )


def share_words(share: float | None, what: str) -> str:
    """A share of what was produced or consumed."""
    return "not known" if share is None else f"{number(100 * share, 1)} % of what was {what}"


def facts(found: Findings) -> Iterator[tuple[str, str]]:
    """The figures that a reader looks for next, each with its unit."""
    figures, bill = found.figures, found.bill
    if found.connection is None:
        yield "Taken by devices", f"{kilowatt_hours(sum(account.taken for account in bill.devices.values()))} kWh"
        yield "Delivered by devices", f"{kilowatt_hours(sum(account.given for account in bill.devices.values()))} kWh"
        yield "Left over, given to the grid", f"{kilowatt_hours(bill.grid.taken)} kWh"
        yield "Lacking, taken from the grid", f"{kilowatt_hours(bill.grid.given)} kWh"
    else:
        yield "Bought", f"{hours(figures.bought_kWh)} kWh"
        yield "Sold", f"{hours(figures.sold_kWh)} kWh"
        yield "Consumed", f"{hours(figures.consumed_kWh)} kWh"
        yield "Produced", f"{hours(figures.produced_kWh)} kWh"
    if figures.produced_kWh:
        yield "Self-consumption", share_words(figures.self_consumption, "produced")
    if figures.consumed_kWh:
        yield "Self-sufficiency", share_words(figures.self_sufficiency, "consumed")
    for word, peak in (("Peak from outside", figures.peak_bought), ("Peak to outside", figures.peak_sold)):
        if peak.at is not None:
            yield word, f"{watts(peak.power_W)} at {moment(found, peak.at)}"
