"""Finds the figures of a run."""

from __future__ import annotations

from collections.abc import Sequence
from dataclasses import dataclass
from fractions import Fraction
from typing import Any

import numpy

from ..held import Held
from ..moments import later
from ..money import WATT_MINUTES, Currency
from ..nodes import Battery, Limited
from ..runs import Run
from .own_shares import own_shares
from .plain_rules import WITHOUT_RULE, plain_powers
from .supplier_tariffs import connection_in, prices_asked
from .figure_values import BatteryUse, Figures, NoConnection, Peak
from .stores import Stores, churn_of, flips_of


def figures_of(run: Run, connection: str | None = None, currency: Currency | None = None) -> Figures:
    """The figures of a run. They need numpy, which comes with pandas.

    connection: the manual device that is the connection to the supplier
    currency:   the unit of money; price units times kilowatt-hours if it is not given

    Raises NoConnection, and what `Program.answer` raises.
    """
    money, held = currency or Currency(), run.held
    site = Site.of(run, connection)
    exchange = site.exchange(held.powers)
    plain = plain_powers(run.cluster, held, connection) if run.has_plain_rules else None
    costs = UNKNOWN if connection is None else Costs.of(run, connection, [exchange, *site.without_market(run, plain)])
    own = [at for at, device in enumerate(run.cluster.devices) if device.kind not in ("battery", "objective") and device.name != connection]
    stores = run.stores
    shares = own_shares(run.cluster, held, stores, connection)
    consumed, produced = (total(numpy.maximum(sign * held.powers[:, own], 0).sum(axis=1), held) for sign in (1, -1))
    bought, sold = (total(numpy.maximum(sign * exchange, 0), held) for sign in (1, -1))
    paid = sum(account.amount for name, account in run.bill.devices.items() if name != connection)

    def worth(watt_hours: int) -> float:
        return float(money.price(mean_price(held)) * watt_hours / 1000)

    def in_money(amount: int | None) -> float | None:
        return None if amount is None else float(money.money(amount))

    def hours(watt_minutes: int | None) -> float | None:
        return None if watt_minutes is None else watt_minutes / WATT_MINUTES

    return Figures(
        unit=money.unit,
        connection=connection,
        minutes=run.cluster.minutes,
        cost=float(money.money(paid)),
        cost_at_connection=in_money(costs.market),
        cost_plain=in_money(costs.plain),
        cost_without_battery=in_money(costs.without_battery),
        left_kWh=stores.left / 1000,
        left_value=worth(stores.left),
        left_plain_value=None if connection is None or plain is None else worth(Stores.of(run.cluster, held, plain).left),
        bought_kWh=bought / WATT_MINUTES,
        sold_kWh=sold / WATT_MINUTES,
        consumed_kWh=consumed / WATT_MINUTES,
        produced_kWh=produced / WATT_MINUTES,
        self_consumption=shares.self_consumption,
        self_sufficiency=shares.self_sufficiency,
        peak_bought=peak_of(run, exchange),
        peak_sold=peak_of(run, -exchange),
        sold_above_kWh=hours(costs.sold_above),
        bought_below_kWh=hours(costs.bought_below),
        batteries=batteries_of(run, stores),
        shifted_kWh=shifted_of(run, plain, connection),
        minutes_outside=minutes_outside_of(run),
    )


@dataclass(frozen=True)
class Site:
    """The columns of the devices of a site: all but its connection and objectives."""

    columns: Any

    @staticmethod
    def of(run: Run, connection: str | None) -> Site:
        """The site of a run. Raises NoConnection."""
        if connection is not None:
            connection_in(run.cluster, connection)
        devices = enumerate(run.cluster.devices)
        return Site(numpy.array([at for at, device in devices if device.kind != "objective" and device.name != connection], dtype=numpy.int64))

    def exchange(self, powers: Any) -> Any:
        """What the site takes from outside over each tick, in watts; below 0 it gives."""
        return powers[:, self.columns].sum(axis=1)

    def without_market(self, run: Run, plain: Any) -> list[Any]:
        """The exchange that the devices have by these plain powers, and that without the batteries.

        Without plain rules it is that of the run, with its batteries and without them.
        """
        batteries = [at for at, device in enumerate(run.cluster.devices) if isinstance(device, Battery)]
        powers = run.held.powers if plain is None else plain
        whole = self.exchange(powers)
        return [whole, whole - powers[:, batteries].sum(axis=1)]


@dataclass(frozen=True)
class Costs:
    """What exchanges cost at the prices that the connection asks, and what was billed at better ones; in the program's whole numbers.

    Each is None if no connection was named.
    """

    market: int | None
    plain: int | None
    without_battery: int | None
    sold_above: int | None
    bought_below: int | None

    @staticmethod
    def of(run: Run, connection: str, exchanges: Sequence[Any]) -> Costs:
        """The costs of three exchanges: of the run, of the plain rules, and of those without batteries. Raises NoConnection."""
        held, own = run.held, run.held.column_of(connection)
        if any(bool((~held.members[:, own] & (exchange != 0)).any()) for exchange in exchanges):
            raise NoConnection(f"the connection {connection} is no member of the market all the time: its prices are not known")
        asked = prices_asked(run.cluster, connection, run.bids_of_connection(connection), exchanges, run.program)
        market, plain, without = (exact_sum([exchange, price, held.minutes]) for exchange, price in zip(exchanges, asked, strict=True))
        billed, exchange = held.prices[:, held.column[own]], exchanges[0]
        above, below = (exchange < 0) & (billed > asked[0]), (exchange > 0) & (billed < asked[0])
        return Costs(market, plain if run.has_plain_rules else None, without, -total(exchange * above, held), total(exchange * below, held))


UNKNOWN = Costs(None, None, None, None, None)


def exact_sum(factors: Sequence[Any]) -> int:
    """The sum of the products of arrays, in whole numbers of any size."""
    rows = zip(*(factor.tolist() for factor in factors), strict=True)
    return sum(power * price * minutes for power, price, minutes in rows)


def total(powers: Any, held: Held) -> int:
    """The energy of powers over the ticks, in watts times minutes."""
    return int((powers * held.minutes).sum())


def mean_price(held: Held) -> Fraction:
    """The market's mean price over the time."""
    return Fraction(total(held.prices[:, 0], held), max(1, int(held.minutes.sum())))


def peak_of(run: Run, powers: Any) -> Peak:
    """The greatest of the powers, and when it begins."""
    if not len(powers) or powers.max() <= 0:
        return Peak(0, None)
    at = int(powers.argmax())
    begin = int(run.held.ends[at] - run.held.minutes[at])
    return Peak(int(powers[at]), later(run.start, begin))


def batteries_of(run: Run, stores: Stores) -> dict[str, BatteryUse]:
    """How each battery was used over the ticks."""
    held, found = run.held, dict[str, BatteryUse]()
    if not run.cluster.minutes:
        return found
    for at, (battery, column) in enumerate(zip(stores.nodes, stores.columns, strict=True)):
        shares, powers = stores.after[:, at] / battery.capacity, held.powers[:, column]
        cycles = int(numpy.maximum(stores.before[:, at] - stores.after[:, at], 0).sum()) / battery.capacity
        # Between both ends whatever the rounding.
        mean = min(max(float((shares * held.minutes).sum() / held.minutes.sum()), float(shares.min())), float(shares.max()))
        found[battery.name] = BatteryUse(
            float(shares.min()), mean, float(shares.max()), float(shares[-1]), cycles, cycles * 1440 / run.cluster.minutes,
            flips_of(powers), len(powers), churn_of(powers, held) / WATT_MINUTES,
        )
    return found


def shifted_of(run: Run, plain: Any, connection: str | None) -> dict[str, float]:
    """The energy that each device with a plain rule had at another time than by that rule, in kilowatt-hours."""
    found, held = {}, run.held
    for at, device in enumerate(run.cluster.devices):
        if device.kind in (*WITHOUT_RULE, "objective") or device.name == connection or (plain is None and not isinstance(device, Battery)):
            continue
        # A battery that follows its plain rule shifts too, so it is compared with one that rests.
        is_battery, powers = isinstance(device, Battery), held.powers[:, at]
        moved = total(numpy.abs(powers if is_battery else powers - plain[:, at]), held) / 2
        found[device.name] = (moved - (churn_of(powers, held) if is_battery else 0)) / WATT_MINUTES
    return found


def minutes_outside_of(run: Run) -> dict[str, int]:
    """For how long each limited group was outside its limits."""
    found = {}
    for at, node in enumerate(node for node in run.cluster.nodes if isinstance(node, Limited)):
        loads = run.group_loads[at]
        is_out = [not node.floor <= load <= node.ceiling for load in loads]
        found[node.name] = sum(minutes for out, minutes in zip(is_out, run.durations, strict=True) if out)
    return found
