"""Bills by device and span of time, in kilowatt-hours and a currency.

The bill of a span is the sum over its ticks of what the run's report says. All spans have to add up to the program's bill of the whole
run, to the last unit.
"""

from __future__ import annotations

from collections.abc import Iterable, Iterator
from dataclasses import dataclass
from datetime import datetime
from typing import TYPE_CHECKING

from .. import data_frames
from ..errors import ProgramFault
from ..moments import later
from ..money import WATT_MINUTES, Currency, energy
from ..runs import Run
from ..texts import Account, Bill
from .intervals import intervals_of, spans_of

if TYPE_CHECKING:
    from pandas import DataFrame

__all__ = ["WATT_MINUTES", "Currency", "Span", "add_up", "bill_with_supplier", "bills_of", "energy", "frame_of", "sum_of"]


@dataclass(frozen=True)
class Span:
    """The bill of a span of time, which begins and ends so many minutes after the start of the run."""

    begin: int
    end: int
    bill: Bill


def bills_of(run: Run, minutes: int, connection: str | None = None) -> Iterator[Span]:
    """The bills of a run over spans of so many minutes, in order. It needs numpy, which comes with pandas.

    Spans of more than an hour go by the clock of the run's start, and those of whole days from midnight to midnight.

    connection: a device whose account is one with that of the grid: together they are the supplier

    Raises ValueError if the minutes are below 1, what `Program.answer` raises, and ProgramFault if the spans do not add up to the bill
    of the whole run.
    """
    if minutes < 1:
        raise ValueError(f"a span of {minutes} minutes: a span has at least one")
    spans = list(spans_of(intervals_of(run.cluster), minutes, run.start))
    places = {int(end): at + 1 for at, end in enumerate(run.held.ends)}
    firsts = [places.get(begin, 0) for begin, *_ in spans]
    bills = run.held.bills(firsts)
    if spans and not add_up(bills, run.bill):
        raise ProgramFault("the bills of the spans do not add up to the bill of the run")
    if connection is not None:
        bills = run.held.bills(firsts, connection)
    for (begin, end, _, _), one in zip(spans, bills, strict=True):
        yield Span(begin, end, one)


def frame_of(spans: Iterable[Span], start: datetime) -> DataFrame:
    """The bills of spans as a data frame, which needs pandas: a row for each span and device, and one for the grid.

    start: the moment before the first phase

    The index has the levels begin, end (moments), party (device or grid) and name. The columns are those of `Run.accounts`: amount in
    price units times watts times minutes, as Python's whole numbers, and taken_Wmin and given_Wmin as int64.

    Raises NoPackage without pandas.
    """
    pd = data_frames.pandas()
    parts = [data_frames.accounts(span.bill).assign(begin=later(start, span.begin), end=later(start, span.end)) for span in spans]
    if not parts:
        parts = [data_frames.accounts(Bill({}, Account(0, 0, 0), 0, 0)).iloc[:0].assign(begin=start, end=start)]
    return pd.concat(parts).set_index(["begin", "end"], append=True).reorder_levels(["begin", "end", "party", "name"])


def add_up(parts: Iterable[Bill], whole: Bill) -> bool:
    """Whether the accounts of these bills come to those of the whole."""
    bills = list(parts)
    for name, account in whole.devices.items():
        if sum_of(bill.devices[name] for bill in bills) != account:
            return False
    return sum_of(bill.grid for bill in bills) == whole.grid


def sum_of(accounts: Iterable[Account]) -> Account:
    """The sum of some accounts."""
    amount = taken = given = 0
    for account in accounts:
        amount, taken, given = amount + account.amount, taken + account.taken, given + account.given
    return Account(amount, taken, given)


def bill_with_supplier(run: Run, connection: str | None) -> Bill:
    """The bill of a run; with a connection its account and that of the grid are one."""
    if connection is None or not run.bill.ticks:
        return run.bill
    (whole,) = run.held.bills([0], connection)
    return whole
