"""The texts of the program as values: the report of `run`, the accounts of `bill`, the answers of `ask`, the moves of `trace`.

The program's lines are read here and nowhere else. docs/CLUSTER_FILE.md has their forms.
"""

from __future__ import annotations

import sys
from collections.abc import Iterable, Iterator
from dataclasses import dataclass
from decimal import Decimal
from typing import TYPE_CHECKING

from .errors import ProgramFault
from .money import Currency, Rate, currency_of

if TYPE_CHECKING:
    from pandas import DataFrame


@dataclass(frozen=True)
class GroupEnd:
    """A limited concentrator at the end of a phase.

    price, step: those that hold for the nodes below it, in price units and from 0
    total:       the sum of the bids below it there, in watts
    """

    name: str
    price: int
    step: int
    total: int


@dataclass(frozen=True)
class PhaseEnd:
    """The end of a phase.

    phase:   its number, from 1
    price:   the clearing price, in price units; `step` is its step, from 0
    total:   the total demand there, in watts: 0 if the bids balance
    powers:  the power of each member, in watts, positive if it takes power, in the order of the file
    bids:    the number of each member's bid, which is that of its last change
    groups:  the limited concentrators, in the order of the file
    """

    phase: int
    price: int
    step: int
    total: int
    powers: dict[str, int]
    bids: dict[str, int]
    groups: tuple[GroupEnd, ...]


@dataclass(frozen=True)
class Report:
    """The text of `run`: the end of each phase, and the number of changes of the run."""

    ends: tuple[PhaseEnd, ...]
    changes: int


@dataclass(frozen=True)
class Account:
    """What one device, or the grid, paid, took and gave over all ticks.

    amount: in price units times watts times minutes, negative if it earned more than it paid; 60 are a price unit times a
            watt-hour
    taken, given: in watts times minutes; 60,000 are a kilowatt-hour
    """

    amount: int
    taken: int
    given: int


@dataclass(frozen=True, repr=False)
class Bill:
    """The text of `bill`: the account of each device in the order of the file, and of the grid; ticks and their minutes.

    A bill is exact. Called with a currency, it gives the same as a data frame in kilowatt-hours and money.
    """

    devices: dict[str, Account]
    grid: Account
    ticks: int
    minutes: int

    def __call__(self, currency: str, per_kwh: Rate, number: type[float] | type[Decimal] = float) -> DataFrame:
        """A row for each device and for the grid, with the index (party, name): amount_UNIT, taken_kWh, given_kWh.

        currency: the unit of money, such as EUR, which names the column
        per_kwh:  what a kilowatt-hour costs at price 1 in that unit; a float counts as the decimal number that it prints as
        number:   float, or `Decimal` for decimal numbers of 28 digits

        Raises ValueError if per_kwh is not above 0, and NoPackage without pandas.
        """
        from .data_frames import money_accounts

        return money_accounts(self, currency_of(currency, per_kwh), number)

    def __repr__(self) -> str:
        paid = sum(account.amount for account in self.devices.values())
        return f"Bill({len(self.devices)} devices, {self.ticks} ticks, {self.minutes} minutes, devices pay {paid} price units\u00b7W\u00b7min)"

    def _repr_html_(self) -> str:
        """The accounts as a table of a notebook, in price units times kilowatt-hours. It needs pandas."""
        from .data_frames import money_accounts

        caption = f"<p>{self.ticks} ticks, {self.minutes} minutes. Amounts in price units \u00d7 kWh, above 0 if the account pays.</p>"
        return caption + str(money_accounts(self, Currency(), float).to_html(max_rows=60))


@dataclass(frozen=True)
class Range:
    """The targets that a step answers, in watts: from `least` to `most`, each None if there is no such limit."""

    step: int
    price: int
    least: int | None
    most: int | None


@dataclass(frozen=True)
class Answer:
    """What the market would do with a target: its price and step, and the total that is left over there. Powers in watts."""

    target: int
    price: int
    step: int
    total: int


@dataclass(frozen=True)
class Answers:
    """The text of `ask`: the range of each step that answers some target, and the answer to each target, in order."""

    curve: tuple[Range, ...]
    answers: tuple[Answer, ...]


@dataclass(frozen=True)
class Move:
    """A move of a run.

    what:   change, learn, publish, clear, pass or close
    node:   the name of the node that moves, is told or is passed the price; of `learn` the parent; of `clear` and `close` None
    child:  of `learn` the child that is heard, else None
    number: of the change, the bid, the clearing or the phase
    price:  of a `pass` to a device the price that it then holds, with `bid`, the number of its own bid that this answers
    """

    what: str
    node: str | None
    child: str | None
    number: int
    price: int | None = None
    bid: int | None = None


def lines_of(text: bytes) -> list[list[str]]:
    """The words of each line of a text."""
    return [line.split(" ") for line in text.decode("ascii").splitlines()]


def misread(words: list[str]) -> ProgramFault:
    """The error of a line of another form than the page gives."""
    return ProgramFault(f"the program wrote a line that this package does not know: {' '.join(words)!r}")


def report_of(text: bytes) -> Report:
    """The report that a text of `run` or `free` is. Raises ProgramFault if it has another form."""
    # A line at a time: the words of a year's report at once would take ten times its memory.
    return _report(line.split(" ") for line in text.decode("ascii").splitlines())


def _report(lines: Iterable[list[str]]) -> Report:
    """The report at the head of these lines. An iterator is left at the line behind it."""
    ends: list[PhaseEnd] = []
    groups: list[GroupEnd] = []
    powers, bids = dict[str, int](), dict[str, int]()
    for words in lines:
        # Nearly all lines are of this form.
        if ends and len(words) == 6 and words[0] == "member" and words[2] == "power" and words[4] == "bid":
            name = sys.intern(words[1])
            powers[name], bids[name] = int(words[3]), int(words[5])
            continue
        match words:
            case ["phase", phase, "price", price, "step", step, "total", total, "members", _]:
                groups, powers, bids = [], {}, {}
                ends.append(PhaseEnd(int(phase), int(price), int(step), int(total), powers, bids, ()))
            case ["limited", name, "price", price, "step", step, "total", total] if ends:
                groups.append(GroupEnd(sys.intern(name), int(price), int(step), int(total)))
                object.__setattr__(ends[-1], "groups", tuple(groups))
            case ["end", "phases", _, "changes", changes]:
                return Report(tuple(ends), int(changes))
            case _:
                raise misread(words)
    raise ProgramFault("the program's report has no last line")


def report_text(report: Report) -> bytes:
    """The text of a report, as the program writes it."""
    lines = []
    for end in report.ends:
        lines.append(f"phase {end.phase} price {end.price} step {end.step} total {end.total} members {len(end.powers)}")
        lines.extend(f"member {name} power {power} bid {end.bids[name]}" for name, power in end.powers.items())
        lines.extend(f"limited {group.name} price {group.price} step {group.step} total {group.total}" for group in end.groups)
    lines.append(f"end phases {len(report.ends)} changes {report.changes}")
    return "".join(f"{line}\n" for line in lines).encode()


def bill_of(text: bytes) -> Bill:
    """The bill that a text of `bill` is. Raises ProgramFault if it has another form."""
    devices: dict[str, Account] = {}
    grid: Account | None = None
    for words in lines_of(text):
        match words:
            case ["account", name, "amount", amount, "taken", taken, "given", given]:
                devices[name] = Account(int(amount), int(taken), int(given))
            case ["grid", "amount", amount, "taken", taken, "given", given]:
                grid = Account(int(amount), int(taken), int(given))
            case ["ticks", ticks, "minutes", minutes] if grid is not None:
                return Bill(devices, grid, int(ticks), int(minutes))
            case _:
                raise misread(words)
    raise ProgramFault("the program's bill has no last line")


def answers_of(text: bytes) -> Answers:
    """The answers that a text of `ask` has. Raises ProgramFault if it has another form."""
    curve: list[Range] = []
    answers: list[Answer] = []
    for words in lines_of(text):
        match words:
            case ["curve", "step", step, "price", price, "from", least, "to", most]:
                low, high = None if least == "low" else int(least), None if most == "high" else int(most)
                curve.append(Range(int(step), int(price), low, high))
            case ["target", target, "price", price, "step", step, "total", total]:
                answers.append(Answer(int(target), int(price), int(step), int(total)))
            case _:
                raise misread(words)
    return Answers(tuple(curve), tuple(answers))


def moves_of(text: bytes) -> tuple[Report, tuple[Move, ...]]:
    """The report and the moves that a text of `trace` has. Raises ProgramFault if it has another form."""
    words = iter(lines_of(text))
    report, lines = _report(words), list(words)
    moves = tuple(_moves(lines))
    if not lines or lines[-1] != ["moves", str(len(moves))]:
        raise ProgramFault("the program's trace has no last line with the number of its moves")
    return report, moves


def _moves(lines: list[list[str]]) -> Iterator[Move]:
    """The move of each line but the last."""
    for words in lines[:-1]:
        match words:
            case ["change" | "publish" as what, node, number]:
                yield Move(what, node, None, int(number))
            case ["learn", node, child, number]:
                yield Move("learn", node, child, int(number))
            case ["clear" | "close" as what, number]:
                yield Move(what, None, None, int(number))
            case ["pass", node, number] | ["pass", node, number, "none"]:
                yield Move("pass", node, None, int(number))
            case ["pass", node, number, "price", price, "bid", bid]:
                yield Move("pass", node, None, int(number), int(price), int(bid))
            case _:
                raise misread(words)
