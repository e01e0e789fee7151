"""The sections of a report, from what was found of a run."""

from __future__ import annotations

from collections.abc import Callable, Iterable, Iterator, Mapping, Sequence
from fractions import Fraction
from typing import Any

import numpy

from ..money import Currency
from ..texts import Account
from . import markup
from .charts import MOST_LINES, MOST_STACKED, Hours, draw_curve, draw_exchange, draw_load, draw_powers, draw_prices, number, watts
from .glance import compared, facts, glance
from .grouping import MOST_NAMED, rows_of
from .kept_limits import Group, Violation
from .cluster_report import Findings
from .svg import svg_of
from .words import count, duration, hours, in_unit, kilowatt_hours, moment, money, price_words, span_words, unit_of, unit_price

# So many limited groups get a figure, those that were outside their limits first; a table has all.
MOST_FIGURES = 12
# A table with more rows is folded, and has at most so many of them.
MOST_OPEN, MOST_ROWS = 40, 400
# So many spans have a column for each of them.
MOST_COLUMNS = 60
# What a plain rule is, wherever a figure stands on one.
MODEL = (
    "* By plain rules: a model beside the proved market, not proved. A battery follows the devices below its parent, a freezer, heat pump or "
    "cogeneration unit runs between its temperatures, an objective asks nothing, and all others do what they did in the run."
)


def page_of(found: Findings) -> str:
    """The whole page."""
    left_out = {"use"} if not has_use(found) else set[str]()
    left_out |= set() if found.groups else {"limits"}
    left_out |= set() if found.tariff else {"tariff"}
    sections = [section for section in SECTIONS if section[0] not in left_out]
    body = [
        markup.heading(found.title, 1),
        markup.words(span_of(found), "soft"),
        glance(found),
        markup.facts([*price_facts(found), *facts(found)]),
        markup.words(MODEL, "soft small"),
        markup.contents((name, title_of(found, name, title)) for name, title, _, _ in sections),
        markup.parts(
            markup.section(name, title_of(found, name, title), is_wide and (name != "use" or is_use_wide(found)), *make(found))
            for name, title, is_wide, make in sections
        ),
        foot(found),
    ]
    return markup.page(f"{found.title}: report of a run", body)


def title_of(found: Findings, name: str, title: str) -> str:
    """The title of a section."""
    return "Bought and sold" if name == "left-over" and found.connection is not None else title


# What all sections use.


def hours_of(found: Findings) -> Hours:
    """The time axis of the figures."""
    return Hours(found.run.start, found.course)


def means(found: Findings, many: str = "") -> str:
    """What the figures of a long run show, in a sentence, or nothing."""
    word = found.course.word
    return f" The figure shows the mean of each {word}{many}." if word else ""


WITH_BAND = ", and a band from its least to its greatest value"


# The head of the page.


def span_of(found: Findings) -> str:
    """What was run, in a line."""
    cluster = found.run.cluster
    concentrators = len(cluster.nodes) - len(cluster.devices)
    start = f"from {found.run.start:%Y-%m-%d %H:%M}" + ("" if found.has_start else " (no start was named)")
    tree = f"{count(len(cluster.devices), 'device')}, {count(concentrators, 'concentrator')}"
    return f"{tree}, {count(len(cluster.phases), 'phase')}, {duration(cluster.minutes)} {start}."


def price_facts(found: Findings) -> Iterator[tuple[str, str]]:
    """The range and the mean of the market's price."""
    held, minutes = found.run.held.prices[:, 0], found.run.held.minutes
    if len(held):
        mean = Fraction(sum(price * length for price, length in zip(held.tolist(), minutes.tolist(), strict=True)), int(minutes.sum()))
        yield "Lowest price", price_words(found.currency, Fraction(int(min(held))))
        yield "Highest price", price_words(found.currency, Fraction(int(max(held))))
        yield "Mean price over the time", price_words(found.currency, mean, 1)


def foot(found: Findings) -> str:
    """Where the numbers come from."""
    if found.digest:
        told = (
            "Powers, prices, accounts and answers are those of the program market. This page adds, compares and rounds them. "
            f"The cluster file has the SHA-256 {found.digest}."
        )
    else:
        told = (
            "The devices are models of a simulation. Prices and answers are those of the program market over what they bid, and each power is "
            "what the device's bid names at its price. This page adds up the accounts, and compares and rounds."
        )
    return f"<footer>{markup.words(told)}</footer>"


# The sections.


def prices(found: Findings) -> Iterator[str]:
    """The price over the hours."""
    if not found.intervals:
        yield markup.words("No time passes in this run, so there is nothing to draw.")
        return
    held, groups = held_prices(found), {group.name: group.prices for group in found.groups}
    figure = draw_prices(hours_of(found), *priced(found.currency, held, groups), unit_of(found.currency))
    told = f"The market's price goes from {min(held)} to {max(held)}"
    own = sum(list(prices) != held for prices in groups.values())
    caption = "The price that holds over each tick." + (f" At some time {count(own, 'limited group')} had another price." if own else "")
    if own > MOST_LINES:
        caption += f" The figure shows {MOST_LINES} of them."
    yield markup.figure(svg_of(figure, "price"), caption + means(found, WITH_BAND), told)


def priced(currency: Currency, market: Sequence[int], groups: Mapping[str, Sequence[int]]) -> tuple[Any, dict[str, Any]]:
    """Prices of the market and of groups in the unit of the figures."""
    factor = in_unit(currency, 1)
    return numpy.array(market) * factor, {name: numpy.array(prices) * factor for name, prices in groups.items()}


def held_prices(found: Findings) -> list[int]:
    """The market's price over each interval; before the first phase the lowest, at which an empty market clears."""
    held, lowest = found.run.held, found.run.cluster.basis.min
    return [price if phases else lowest for price, phases in zip(held.prices[:, 0].tolist(), held.phases.tolist(), strict=True)]


def limits(found: Findings) -> Iterator[str]:
    """The load of each limited group against its limits, and a list of the violations."""
    shown = sorted(found.groups, key=lambda group: -group.minutes_outside)[:MOST_FIGURES] if found.intervals else []
    figures = [load_of(found, at, group) for at, group in enumerate(shown)]
    tables = "\n".join(limit_tables(found))
    # One group leaves room for the tables beside it.
    yield markup.beside(*figures, tables) if len(figures) == 1 else markup.beside(*figures) + tables
    if len(found.groups) > len(shown) > 0:
        yield markup.words(f"The figures show {len(shown)} of {len(found.groups)} groups; the table has all.", "soft")


def limit_tables(found: Findings) -> Iterator[str]:
    """The table of the groups, and the list of the violations."""
    head = ["group", "floor", "ceiling", "least load", "greatest load", "outside for", "ends of phases outside"]
    yield long_table("Limited groups", head, [group_row(group) for group in found.groups])
    broken = [(group.name, violation) for group in found.groups for violation in group.violations]
    longest = sorted(broken, key=lambda pair: pair[1].begin - pair[1].end)[:MOST_ROWS]
    rows = [violation_row(found, name, violation) for name, violation in (broken if len(broken) <= MOST_ROWS else longest)]
    if rows:
        title = f"Violations: {count(len(broken), 'span')} of time outside a limit"
        title += f", the {MOST_ROWS} longest" if len(broken) > MOST_ROWS else ""
        yield long_table(title, ["group", "from", "to", "for", "limit", "farthest load", "beyond"], rows)
        yield markup.words(
            "In these spans no price of the market brings the group within its limits. A phase that ends outside, "
            "and lasts no time, is counted above and is in no span."
        )


def load_of(found: Findings, at: int, group: Group) -> str:
    """The figure of a limited group."""
    figure = draw_load(hours_of(found), group.loads, group.floor, group.ceiling)
    if group.violations:
        caption = f"Outside its limits for {duration(group.minutes_outside)}, shaded."
    else:
        caption = "Within its limits at all times." if not group.outside else "Within its limits, except in phases that last no time."
    told = f"The load of {group.name} goes from {watts(min(group.loads))} to {watts(max(group.loads))}. {caption}"
    return markup.heading(group.name, 3) + markup.figure(svg_of(figure, f"load{at}"), caption, told)


def group_row(group: Group) -> list[str]:
    """The row of a limited group."""
    loads = group.loads or (0,)
    ends = [watts(group.floor), watts(group.ceiling), watts(min(loads)), watts(max(loads))]
    return [group.name, *ends, duration(group.minutes_outside), str(group.outside)]


def violation_row(found: Findings, name: str, violation: Violation) -> list[str]:
    """The row of a violation."""
    times = [moment(found, violation.begin), moment(found, violation.end), duration(violation.end - violation.begin)]
    return [name, *times, watts(violation.limit), watts(violation.load), watts(abs(violation.load - violation.limit))]


def long_table(title: str, head: Sequence[str], rows: Sequence[Sequence[str]], limit: int = MOST_OPEN) -> str:
    """A table, folded if it has more rows than the limit."""
    made = markup.table(title, head, rows)
    return made if len(rows) <= limit else markup.folded(f"{title} ({len(rows)} rows)", made)


def powers(found: Findings) -> Iterator[str]:
    """The power of each device over the hours."""
    held = found.run.held
    columns = held.without(found.connection)
    if not found.intervals or not columns:
        yield markup.words("No time passes in this run, or nobody is in it, so there is nothing to draw.")
        return
    rows = rows_of(found.run.cluster, held.powers, columns)
    devices = count(len(columns), "device")
    if len(columns) > MOST_NAMED:
        caption = f"The power of {devices} in {count(len(rows), 'group')} of one kind below one parent: taken above 0, delivered below. "
    else:
        caption = f"The power of each of {devices} over each tick: taken above 0, delivered below. "
    if found.connection is not None:
        caption += f"The connection ({found.connection}) is not drawn. "
    caption += "Who is no member has 0." if len(rows) <= MOST_STACKED else "Who is no member has 0. The scale also tells small powers apart."
    svg = svg_of(draw_powers(hours_of(found), rows), "powers")
    yield markup.figure(svg, caption + means(found), caption, is_detailed=len(rows) > MOST_STACKED)


def exchange(found: Findings) -> Iterator[str]:
    """What the devices leave over, or buy and sell."""
    if not found.intervals:
        yield markup.words("No time passes in this run, so there is nothing to draw.")
        return
    totals = found.run.held.exchange(found.connection)
    if found.connection is None:
        caption = (
            "What all devices take, less what they deliver. Below 0 they deliver too much, and above 0 power is lacking. "
            "The grid's account takes and gives it."
        )
    else:
        caption = f"What the devices buy above 0 and sell below. The supplier is the connection ({found.connection}) and the grid together."
    told = f"{caption} It goes from {watts(min(totals))} to {watts(max(totals))}."
    yield markup.figure(svg_of(draw_exchange(hours_of(found), totals), "left-over"), caption + means(found, WITH_BAND), told)


def has_use(found: Findings) -> bool:
    """Whether something is to be said of the use of devices."""
    figures = found.figures
    return bool(figures.batteries or any(figures.shifted_kWh.values()) or figures.cost_at_connection is not None)


def is_use_wide(found: Findings) -> bool:
    """Whether there is more than one table of the use of devices, so that it needs the whole width."""
    figures = found.figures
    return [figures.cost_at_connection is not None, bool(figures.batteries), any(figures.shifted_kWh.values())].count(True) > 1


def use(found: Findings) -> Iterator[str]:
    """What the market changed: costs with and without it, the use of batteries, and what each device shifted."""
    figures, unit = found.figures, found.currency.unit
    tables = []
    if figures.cost_at_connection is not None:
        costs = [("the market's bill", figures.cost, figures.left_value)]
        costs += [(f"at the connection's prices, {name}", value or 0.0, left) for name, value, left in compared(figures)]
        rows = [[name, money(value), money(left), money(value - left)] for name, value, left in costs]
        head = ["cost", f"amount ({unit})", "left in batteries", "less what is left"]
        tables.append(markup.table("What it costs, and would cost", head, rows) if figures.batteries else
                      markup.table("What it costs, and would cost", head[:2], [row[:2] for row in rows]))
    if figures.batteries:
        head = ["battery", "charge, least (%)", "mean (%)", "greatest (%)", "at the end (%)", "cycles", "cycles a day"]
        use = [
            [
                name,
                *(number(100 * share, 0) for share in (battery.least, battery.mean, battery.most, battery.last)),
                number(battery.cycles, 2),
                number(battery.cycles_a_day, 2),
            ]
            for name, battery in figures.batteries.items()
        ]
        tables.append(long_table("The use of batteries", head, use))
    moved = [(name, energy) for name, energy in figures.shifted_kWh.items() if energy]
    if moved:
        rows = [[name, hours(energy)] for name, energy in sorted(moved, key=lambda move: -move[1])]
        tables.append(long_table("Energy at another time than by the device's plain rule *", ["device", "shifted (kWh)"], rows))
    # The long table of batteries is beside the two short ones.
    yield markup.beside(*tables) if len(tables) < 3 else markup.beside(tables[0] + tables[2], tables[1])
    yield markup.words(
        "Costs at the connection's prices: what the connection asks for the power that is bought or sold over each tick, as the program answers. "
        "What the batteries hold more at the end than at the begin is worth the market's mean price, and stands beside each cost. "
        "Of a battery, half of what it took and delivered counts as shifted, but not what it took and gave back within an hour."
    )


def bills(found: Findings) -> Iterator[str]:
    """The bills by device and by span of time."""
    bill, currency = found.bill, found.currency
    party = "(the grid)" if found.connection is None else "(the supplier)"
    other = party.strip("()")
    yield markup.words(
        f"Amounts are in {currency.unit}: above 0 if the account pays, below 0 if it earns. All amounts add up to 0. "
        + (
            "The grid takes and gives what the devices leave over."
            if found.connection is None
            else f"The supplier is the connection ({found.connection}) and the grid together: their amounts are one, and what they pass to each other is left out."
        )
    )
    head = ["account", "taken (kWh)", "given (kWh)", f"amount ({currency.unit})"]
    sums = [account_row(found, party, bill.grid)]
    by_device = markup.table("By device", head, [account_row(found, name, account) for name, account in bill.devices.items()], sums)
    head = ["span", "taken (kWh)", "given (kWh)", f"devices pay ({currency.unit})", f"{other} pays ({currency.unit})"]
    by_span = long_table(
        "By span of time, all devices", head, [span_row(found, at) for at in range(min(len(found.spans), MOST_ROWS))], limit=MOST_COLUMNS
    )
    yield markup.beside(by_device, by_span) if found.spans else by_device
    if len(found.spans) > MOST_ROWS:
        yield markup.words(f"The table has the first {MOST_ROWS} of {count(len(found.spans), 'span')}. In Python, bills_of gives all.", "soft")
    if 0 < len(found.spans) <= MOST_COLUMNS:
        yield by_device_and_span(found)


def by_device_and_span(found: Findings) -> str:
    """Energies and amounts of each device in each span."""
    spans = [moment(found, span.begin) for span in found.spans]
    names, currency = list(found.bill.devices), found.currency
    energies = [[name, *(kilowatt_hours(net(span.bill.devices.get(name))) for span in found.spans)] for name in names]
    amounts = [[name, *(money(paid(found, span.bill.devices.get(name))) for span in found.spans)] for name in names]
    return markup.folded(
        "By device and span of time",
        markup.table("Energy taken, less what was given (kWh), by the begin of each span", ["account", *spans], energies),
        markup.table(f"Amounts ({currency.unit}), by the begin of each span", ["account", *spans], amounts),
    )


def tariff(found: Findings) -> Iterator[str]:
    """What a supplier bills each household and month for the powers of the run."""
    if found.tariff is None:
        return
    unit, frame = found.tariff
    yield markup.words(
        f"What a supplier bills by its tariff for the powers of the run. It is no account of the market. Amounts are in {unit}: VAT is paid on what "
        "is bought and on the fee, and the total is that less what is sold."
    )
    head = ["household", "month", "bought (kWh)", "sold (kWh)", *(f"{word} ({unit})" for word in ("bought", "sold", "fee", "VAT", "total"))]
    rows = [[household, month, *(hours(energy) for energy in row[:2]), *(money(amount) for amount in row[2:])] for (household, month), row in frame_rows(frame)]
    yield long_table("Each household and month", head, rows)
    if len(rows) > 1:
        sums = frame.sum().tolist()
        yield markup.words(f"All together pay {money(sums[-1])} {unit}.", "soft")


def frame_rows(frame: Any) -> Iterator[tuple[tuple[str, str], list[float]]]:
    """The rows of the bill of a tariff, each with its household and month."""
    yield from zip(frame.index.tolist(), frame.to_numpy().tolist(), strict=True)


def net(account: Account | None) -> int:
    """What an account took less what it gave, in watts times minutes."""
    return account.taken - account.given if account else 0


def paid(found: Findings, account: Account | None) -> Fraction:
    """What an account paid."""
    return found.currency.money(account.amount) if account else Fraction(0)


def account_row(found: Findings, name: str, account: Account) -> list[str]:
    """The row of an account."""
    return [name, kilowatt_hours(account.taken), kilowatt_hours(account.given), money(paid(found, account))]


def span_row(found: Findings, at: int) -> list[str]:
    """The row of a span of time."""
    span, currency = found.spans[at], found.currency
    devices = span.bill.devices.values()
    taken, given = sum(one.taken for one in devices), sum(one.given for one in devices)
    amount = currency.money(sum(one.amount for one in devices))
    amounts = [money(amount), money(currency.money(span.bill.grid.amount))]
    return [span_words(found, span.begin, span.end), kilowatt_hours(taken), kilowatt_hours(given), *amounts]


def flexibility(found: Findings) -> Iterator[str]:
    """What the cluster would take or deliver at each price, at the end of the run."""
    flex = found.flexibility
    factor = in_unit(found.currency, 1)
    answers = [(answer.target, answer.price * factor) for answer in flex.answers]
    figure = draw_curve([price * factor for price in flex.prices], flex.demands, answers, unit_of(found.currency))
    known = [demand for demand in flex.demands if demand is not None]
    caption = "What the cluster takes beyond what it delivers, at each price of the basis. Nothing lies between two steps."
    told = f"{caption} It goes from {watts(known[0])} at the lowest price to {watts(known[-1])}."
    yield markup.figure(svg_of(figure, "curve"), caption, told)
    yield markup.words(
        "A target asks the cluster to take so much more than it delivers, or below 0 to deliver so much more. The price is the first at "
        "which the cluster takes at most the target. If the neighbouring steps differ much, no price delivers exactly the target."
    )
    head = ["target", f"price ({unit_of(found.currency)})", "one step lower", "at the price", "one step higher", "taken less the target"]
    yield markup.table("What the cluster takes at and beside the price that answers each target", head, list(answer_rows(found)))


def answer_rows(found: Findings) -> Iterable[list[str]]:
    """The row of each target."""
    for answer in found.flexibility.answers:
        around = ["none" if power is None else watts(power) for power in found.flexibility.around(answer)]
        yield [watts(answer.target), unit_price(found.currency, answer.price), *around, watts(answer.total)]


# Each section by its name and its title; whether it is as wide as the page; and what makes it.
SECTIONS: list[tuple[str, str, bool, Callable[[Findings], Iterable[str]]]] = [
    ("price", "Price", False, prices),
    ("left-over", "Left over", False, exchange),
    ("use", "What the market changed", True, use),
    ("limits", "Limited groups", True, limits),
    ("powers", "Who took what", False, powers),
    ("flexibility", "Flexibility at the end", False, flexibility),
    ("bills", "Bills", True, bills),
    ("tariff", "By the tariff", True, tariff),
]
