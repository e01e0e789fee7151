"""The sections of the page of a day of a live market."""

from __future__ import annotations

from collections.abc import Callable, Iterable, Iterator
from typing import Any

import numpy
from matplotlib.ticker import MaxNLocator

from ..history.accounts import Account
from ..history.span_course import Relay
from . import markup
from .charts import Hours, draw_exchange, draw_load, draw_powers, number, timed_axes, watts
from .long_course import Course as TimeAxis
from .grouping import MOST_NAMED
from .history_day import FAR, KILOWATT_HOUR, MOST_FIGURES, Day, prices_by_slot
from .svg import LINE, svg_of
from .words import count, duration, in_unit, money, unit_of

# A table with more rows is folded, and one of accounts has at most so many of them.
MOST_OPEN, MOST_ROWS = 40, 2_000
HOUR = 3_600_000


def page_of(day: Day) -> str:
    """The whole page."""
    sections = [section for section in SECTIONS if section[0] != "limits" or has_limits(day)]
    body = [
        markup.heading(day.title, 1),
        markup.words(f"From {day.begin:%Y-%m-%d %H:%M} to {day.end:%Y-%m-%d %H:%M %Z}, as the history of the market has it.", "soft"),
        markup.facts(facts(day)),
        markup.contents((name, title) for name, title, _, _ in sections),
        markup.parts(markup.section(name, title, is_wide, *make(day)) for name, title, is_wide, make in sections),
    ]
    return markup.page(day.title, body)


def facts(day: Day) -> Iterator[tuple[str, str]]:
    """The figures of the head."""
    course = day.course
    accounts = course.accounts.values()
    prices = [price.price for price in course.market]
    yield "devices", str(len(course.accounts))
    yield "clearings", number(course.clearings)
    yield "prices", f"{min(prices)} to {max(prices)}" if prices else "none"
    yield "taken", f"{kilowatt_hours(sum(account.taken for account in accounts))} kWh"
    yield "given", f"{kilowatt_hours(sum(account.given for account in accounts))} kWh"
    yield "all devices pay", f"{money(day.money(sum(account.amount for account in accounts)))} {day.currency.unit}"
    if course.by_measure:
        yield "billed by measured power alone", str(sum(account.is_measured for account in accounts))
    yield "told otherwise by devices", number(course.different)


def kilowatt_hours(energy: int) -> str:
    """Watts times milliseconds in kilowatt-hours."""
    return number(energy / KILOWATT_HOUR, 3)


def lasting(milliseconds: int) -> str:
    """How long something was, to the second if it was shorter than ten minutes."""
    return duration(round(milliseconds / 60_000)) if milliseconds >= 600_000 else f"{number(milliseconds / 1000)} s"


def hours_of(day: Day) -> Hours:
    """The time axis of the figures."""
    return Hours(day.begin, TimeAxis.of([(end - day.course.begin) / 60_000 for end in day.course.ends]))


def mean_powers(day: Day, energies: Iterable[int]) -> list[float]:
    """The mean power over each slot, in watts."""
    begins = (day.course.begin, *day.course.ends)
    return [energy / (end - begin) for energy, begin, end in zip(energies, begins, day.course.ends, strict=False)]


def has_limits(day: Day) -> bool:
    """Whether a relay has limits, was given some, or had an alarm."""
    return bool(limited(day) or day.course.answers or day.course.alarms)


def limited(day: Day) -> dict[str, Relay]:
    """The relays that have limits."""
    return {name: relay for name, relay in day.course.relays.items() if relay.place.floor is not None or relay.place.ceiling is not None}


def prices(day: Day) -> Iterator[str]:
    """The price of the market."""
    slots = prices_by_slot(day.course)
    known = [slot for slot in slots if slot.mean is not None]
    if not known:
        yield markup.words("The history has no clearing of this day.")
        return
    hours = hours_of(day)
    figure, axes = timed_axes(hours)

    def values(name: str) -> Any:
        found = numpy.array([numpy.nan if getattr(slot, name) is None else float(getattr(slot, name)) for slot in slots])
        return in_unit(day.currency, 1) * found

    axes.stairs(values("greatest"), hours.edges, baseline=values("least"), fill=True, color=LINE, alpha=0.2, linewidth=0)
    axes.stairs(values("mean"), hours.edges, baseline=None, color=LINE, linewidth=1.8)
    # A unit may have a dollar sign, which would begin a formula.
    axes.set_ylabel(f"price ({unit_of(day.currency)})", parse_math=False)
    axes.yaxis.set_major_locator(MaxNLocator(6, integer=True))
    axes.margins(y=0.1)
    caption = "The auctioneer's price: the mean of each quarter of an hour, and a band from its least to its greatest value."
    least, greatest = min(slot.least or 0 for slot in known), max(slot.greatest or 0 for slot in known)
    yield markup.figure(svg_of(figure, "price"), caption, f"{caption} It goes from {least} to {greatest}.")


def powers(day: Day) -> Iterator[str]:
    """The power of each device, or of the devices below each node if they are many."""
    if not day.course.energies:
        yield markup.words("The history has no power of this day.")
        return
    rows = {name: mean_powers(day, energies) for name, energies in rows_of(day).items()}
    kind = "measured or else set" if day.course.by_measure else "as the market set it"
    caption = f"The mean power of each quarter of an hour, {kind}: taken above 0, given below."
    if len(day.course.energies) > MOST_NAMED:
        caption += " Devices are added up by the node above them."
    yield markup.figure(svg_of(draw_powers(hours_of(day), rows), "powers"), caption, caption)


def rows_of(day: Day) -> dict[str, list[int]]:
    """The energies of each device in each slot, or of the devices below each node if they are many."""
    energies = day.course.energies
    if len(energies) <= MOST_NAMED:
        return energies
    groups: dict[str, list[str]] = {}
    for name in energies:
        place = day.course.places.get(name)
        groups.setdefault((place.parent if place is not None else None) or "elsewhere", []).append(name)
    slots = range(len(day.course.ends))
    return {f"{parent} ({len(names)})": [sum(energies[name][at] for name in names) for at in slots] for parent, names in groups.items()}


def left_over(day: Day) -> Iterator[str]:
    """What all devices take, less what they give."""
    totals = mean_powers(day, (slot.taken - slot.given for slot in day.course.sums))
    caption = "What all devices take, less what they give: the mean of each quarter of an hour."
    yield markup.figure(svg_of(draw_exchange(hours_of(day), totals), "left-over"), caption, caption)


def limits(day: Day) -> Iterator[str]:
    """The relays with limits: their loads, for how long limits were reached, what was given, and alarms."""
    relays = limited(day)
    longest = sorted(relays.items(), key=lambda item: -(item[1].ceiling_for + item[1].floor_for))[:MOST_FIGURES]
    figures = [load_of(day, at, name, relay) for at, (name, relay) in enumerate(longest)]
    yield markup.beside(*figures)
    if relays:
        head = ["relay", "floor", "ceiling", "least load", "greatest load", "ceiling reached for", "floor reached for"]
        yield long_table("Relays with limits", head, [relay_row(day, name, relay) for name, relay in relays.items()])
        yield markup.words(
            "A limit is reached while a relay passes another price down than it has: a higher one at its ceiling, a lower one at its floor. "
            "Loads are means of quarters of an hour, of powers as they are billed. The limits are the newest that the relay told."
        )
    answers = [
        [answer.relay, day.time(answer.at), answer.state, watts(answer.floor), watts(answer.ceiling), answer.reference or "", answer.why]
        for answer in day.course.answers
    ]
    if answers:
        yield long_table("Answers about limits that were given", ["relay", "at", "state", "floor", "ceiling", "reference", "why"], answers)
    if day.course.alarms:
        yield long_table("Alarms", ["node", "at", "alarm"], [[node, day.time(at), alarm] for at, node, alarm in day.course.alarms])


def load_of(day: Day, at: int, name: str, relay: Relay) -> str:
    """The figure of a relay's load."""
    loads = [round(load) for load in mean_powers(day, relay.loads)]
    floor, ceiling = relay.place.floor, relay.place.ceiling
    figure = draw_load(hours_of(day), loads, -FAR if floor is None else floor, FAR if ceiling is None else ceiling)
    told = f"The load of {name} goes from {watts(min(loads))} to {watts(max(loads))}."
    return markup.heading(name, 3) + markup.figure(svg_of(figure, f"load{at}"), "Means of quarters of an hour.", told)


def relay_row(day: Day, name: str, relay: Relay) -> list[str]:
    """The row of a relay with limits."""
    loads = mean_powers(day, relay.loads)
    ends = ["none" if limit is None else watts(limit) for limit in (relay.place.floor, relay.place.ceiling)]
    return [name, *ends, watts(round(min(loads))), watts(round(max(loads))), lasting(relay.ceiling_for), lasting(relay.floor_for)]


BY_FRAMES = (
    "Each device is billed by the power that the market set it: what its bid has at the price that answers the bid, from the clearing on. "
    "Nothing counts that a device says of itself."
)
BY_MEASURE = (
    "Each device is billed by the power that its control says it measured, and by the power that the market set it where none was measured. "
    "A measured power counts until the next one, for 15 minutes at most."
)


def bills(day: Day) -> Iterator[str]:
    """The bill of each device, and that of each hour."""
    unit, accounts = day.currency.unit, day.course.accounts
    yield markup.words(f"{BY_MEASURE if day.course.by_measure else BY_FRAMES} Amounts are in {unit}: above 0 if the device pays.")
    head = ["device", "billed by", "taken (kWh)", "given (kWh)", f"amount ({unit})"]
    rows = [account_row(day, name, account) for name, account in list(accounts.items())[:MOST_ROWS]]
    whole = Account(*(sum(getattr(account, name) for account in accounts.values()) for name in ("taken", "given", "amount")))
    by_device = markup.table("By device", head, rows, [["all devices", "", *energies_and_amount(day, whole)]])
    yield by_device if len(rows) <= MOST_OPEN else markup.folded(f"By device ({count(len(accounts), 'device')})", by_device)
    if len(accounts) > MOST_ROWS:
        yield markup.words(f"The table has the first {MOST_ROWS} of {count(len(accounts), 'device')}; the sum has all.", "soft")
    yield markup.table("By hour, all devices", ["from", "taken (kWh)", "given (kWh)", f"amount ({unit})"], list(hour_rows(day)))
    if unpriced := sum(account.unpriced for account in accounts.values()):
        yield markup.words(f"{kilowatt_hours(unpriced)} kWh were taken or given before the device was told a price. No amount has them.", "warning")
    if claimed := sum(account.claimed for account in accounts.values()):
        yield markup.words(f"{kilowatt_hours(claimed)} kWh were fallbacks, by the devices' word alone. No energy and no amount has them.", "warning")
    for name, account in accounts.items():
        if account.unknown_for:
            yield markup.words(f"{name}: for {lasting(account.unknown_for)} the history lacks the bid that was answered. Nothing counts.", "warning")


def differences(day: Day) -> Iterator[str]:
    """What devices wrote of themselves that the market does not bear out."""
    course = day.course
    if not course.different:
        yield markup.words("None: each setpoint that a device wrote is what its bid has at the price that it was told.")
        return
    yield markup.words(
        "A device writes its own setpoint and its own place. No account goes by them. Here is where they differ from bids and prices: an error "
        "of the device's node, or a lie."
    )
    rows = [
        [one.device, day.time(one.at) if one.at else "", one.what, *("not known" if power is None else watts(power) for power in (one.told, one.due))]
        for one in course.differences
    ]
    yield long_table("What devices wrote otherwise", ["device", "at", "what", "wrote", "due"], rows)
    if course.different > len(rows):
        yield markup.words(f"The table has the first {len(rows)} of {course.different}.", "soft")


def account_row(day: Day, name: str, account: Account) -> list[str]:
    """The row of a device."""
    return [name, account.basis, *energies_and_amount(day, account)]


def energies_and_amount(day: Day, account: Account) -> list[str]:
    """What an account took, gave and pays."""
    return [kilowatt_hours(account.taken), kilowatt_hours(account.given), money(day.money(account.amount))]


def hour_rows(day: Day) -> Iterator[list[str]]:
    """The sums of each hour."""
    hours: dict[int, Account] = {}
    for end, slot in zip(day.course.ends, day.course.sums, strict=True):
        hour = hours.setdefault((end - 1 - day.course.begin) // HOUR, Account())
        hour.taken, hour.given, hour.amount = hour.taken + slot.taken, hour.given + slot.given, hour.amount + slot.amount
    for at, account in hours.items():
        yield [day.time(day.course.begin + at * HOUR)[:5], *energies_and_amount(day, account)]


def cautions(_: Day) -> Iterator[str]:
    """What the page does not show."""
    yield markup.words(
        "The history has what the broker told. A set power counts until the next price that answers another bid or has another step, until the "
        "device leaves or is let go, or while it falls back because a node above it was down or silent. When a device leaves, its own clock "
        "says. That a device did as it was told is not known. Prices are as they were told; the judge decides from recordings whether they "
        "are right."
    )


def long_table(title: str, head: list[str], rows: list[list[str]]) -> str:
    """A table, folded if it is long."""
    made = markup.table(title, head, rows)
    return made if len(rows) <= MOST_OPEN else markup.folded(f"{title} ({len(rows)} rows)", made)


# Each section by its name and its title; whether it is as wide as the page; and what makes it.
SECTIONS: list[tuple[str, str, bool, Callable[[Day], Iterable[str]]]] = [
    ("price", "Price", False, prices),
    ("left-over", "Left over", False, left_over),
    ("limits", "Limits", True, limits),
    ("powers", "Who took what", False, powers),
    ("bills", "Bill", True, bills),
    ("differences", "What devices wrote otherwise", True, differences),
    ("notes", "What this page does not show", False, cautions),
]
