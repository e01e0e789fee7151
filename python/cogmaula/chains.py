"""Chains: a script that is too long for one run, cut into parts that continue each other, and put together again."""

from __future__ import annotations

import json
from collections import Counter
from collections.abc import Callable, Iterable, Iterator, Sequence
from concurrent.futures import ThreadPoolExecutor
from datetime import date

from . import schema
from .calls import bill, cluster_in, run
from .cluster import Cluster, Source
from .continuing import NoContinuation, resumed
from .errors import Place, Refused
from .data_frames import START
from .program_limits import MOST_BYTES, MOST_CHANGES
from .moments import later, moment_of
from .phases import Events, Join, Leave, Phase, State, Tick
from .program import Program, chosen
from .progress import Progress
from .runs import Run
from .states import first_snapshot
from .texts import Account, Bill, PhaseEnd, Report


class Members:
    """Follows a script: who is a member, and how many changes each device made."""

    def __init__(self, cluster: Cluster) -> None:
        self.now: set[str] = set()
        self.changes: Counter[str] = Counter()
        self._ticking = [device.name for device in cluster.devices if device.ticks]

    def changed_by(self, phase: Phase) -> list[str]:
        """The device of each change of a phase, in order. The members are then those after it."""
        if isinstance(phase, Tick):
            found = [device for device in self._ticking if device in self.now]
        else:
            found = [event.device for event in phase.events]
            for event in phase.events:
                if isinstance(event, Join):
                    self.now.add(event.device)
                elif isinstance(event, Leave):
                    self.now.discard(event.device)
        self.changes.update(found)
        return found


def _size(phase: Phase) -> int:
    """The bytes of a phase in the file, with what stands behind it."""
    return len(phase.line) + 2


def _head_size(cluster: Cluster) -> int:
    """The most bytes of a part before its own phases: the nodes with any state that they come to, and the joins."""
    largest: dict[str, int] = {}
    for phase in cluster.phases:
        for event in phase.events if isinstance(phase, Events) else ():
            # A number of a start is short, and a bid may be long.
            if isinstance(event, State) and event.value is None:
                largest[event.device] = max(largest.get(event.device, 0), len(json.dumps(event.members())))
    return len(cluster.with_script([cluster.join_all()]).to_bytes()) + sum(largest.values()) + 32 * len(cluster.nodes)


def parts_of(cluster: Cluster, minutes: int | None = None) -> Iterator[tuple[Phase, ...]]:
    """The script of a cluster in parts, each as long as one run takes with the joins before it.

    minutes: the most minutes of a part, such as 1440 for days; a longer tick is a part of its own

    Raises NoContinuation if a phase is too large for a run of its own, and ValueError if the minutes are not above 0.
    """
    if minutes is not None and minutes < 1:
        raise ValueError(f"minutes is {minutes}: a part has at least 1")
    most_phases = schema.counts_of("document", "phases") - 1
    head, members = _head_size(cluster), Members(cluster)
    part, changes, size, passed = list[Phase](), 0, head, 0
    for number, phase in enumerate(cluster.phases, 1):
        joined = len(members.now)
        more, bytes_more = len(members.changed_by(phase)), _size(phase)
        lasts = phase.minutes if isinstance(phase, Tick) else 0
        if joined + more > MOST_CHANGES or head + bytes_more > MOST_BYTES:
            raise NoContinuation(f"phase {number} is too large for a run of its own: split its events")
        full = changes + more > MOST_CHANGES or size + bytes_more > MOST_BYTES or len(part) == most_phases
        if part and (full or (minutes is not None and lasts > 0 and passed + lasts > minutes)):
            yield tuple(part)
            part, changes, size, passed = [], joined, head, 0
        part.append(phase)
        changes, size, passed = changes + more, size + bytes_more, passed + lasts
    yield tuple(part)


def run_parts(
    cluster: Cluster,
    parts: Iterable[Sequence[Phase]],
    *,
    start: date | None = None,
    program: Program | None = None,
) -> Iterator[Run]:
    """Runs the parts of a script one after another, each as the continuation of the one before.

    The cluster of each run is one that the program takes by itself. From the second on its first phase joins the members, and repeats
    the end before. Raises what `run` raises; the place of a refusal counts the phases of the whole script.
    """
    program, moment = chosen(program), moment_of(start, cluster.start or START)
    now, passed = first_snapshot(cluster), 0
    for at, part in enumerate(parts):
        # The first part begins as the cluster does, and has no phase of joins.
        behind = 1 if at else 0
        piece = resumed(cluster, now, part) if behind else cluster.with_script(part)
        try:
            done = run(piece, start=moment, program=program)
        except Refused as error:
            raise _in_whole(error, passed - behind) from None
        yield done
        now, moment = done.snapshot, later(moment, piece.minutes)
        passed += len(part)


def _in_whole(error: Refused, before: int) -> Refused:
    """The refusal of a part, with its phase counted in the whole script."""
    if error.place.what not in ("phase", "event"):
        return error
    phase, *event = error.place.numbers
    return Refused(error.code, Place(error.place.what, (phase + before, *event)), error.item)


def whole_of(cluster: Cluster, runs: Iterable[Run], ask: Callable[[Run], Callable[[], Bill]] | None = None) -> Run:
    """The runs of the parts of a cluster's script as one run of the whole cluster, with its phases and bids numbered through.

    ask: what gives the bill of a part when it is called; without it the program is asked when the bill is wanted

    Its text is the report that one run would have if it had no limits. Its bill is the sum of those of the parts.
    """
    ends, members, bills, first = list[PhaseEnd](), Members(cluster), list[Callable[[], Bill]](), None
    for at, done in enumerate(runs):
        first = first or done
        bills.append((ask or later_bill)(done))
        # What each device had changed before this part, less the join with which the part begins.
        before = members.changes.copy()
        before.subtract(members.now if at else ())
        for end, phase in zip(done.ends[1 if at else 0 :], done.cluster.phases[1 if at else 0 :], strict=True):
            members.changed_by(phase)
            bids = {name: bid + before[name] for name, bid in end.bids.items()}
            ends.append(PhaseEnd(len(ends) + 1, end.price, end.step, end.total, end.powers, bids, end.groups))
    if first is None:
        raise ValueError("a chain has at least one part")
    report = Report(tuple(ends), members.changes.total())
    return Run(cluster, report, first.start, first.program, bill=lambda: sum_of([make_bill() for make_bill in bills]))


def later_bill(done: Run) -> Callable[[], Bill]:
    """What asks for the bill of a run when it is wanted, and keeps no more of the run than its cluster and a bill that is known."""
    if "bill" in vars(done):
        known = done.bill
        return lambda: known
    cluster, program = done.cluster, done.program
    return lambda: bill(cluster, program=program)


def sum_of(bills: Sequence[Bill]) -> Bill:
    """The bill over all ticks of several bills of one cluster."""

    def added(accounts: Iterable[Account]) -> Account:
        them = list(accounts)
        return Account(sum(account.amount for account in them), sum(account.taken for account in them), sum(account.given for account in them))

    devices = {name: added(bill.devices[name] for bill in bills) for name in bills[0].devices}
    return Bill(devices, added(bill.grid for bill in bills), sum(bill.ticks for bill in bills), sum(bill.minutes for bill in bills))


def chain(
    source: Source,
    *,
    minutes: int | None = None,
    start: date | None = None,
    program: Program | None = None,
    quiet: bool = True,
    with_bill: bool = False,
) -> Run:
    """Runs a cluster of any number of phases and changes, in parts that continue each other.

    minutes: the most minutes of a part, such as 1440 for days; else a part is as long as the program takes
    start, program: as for `run`
    quiet:   whether to tell no progress on standard error
    with_bill: whether the bill is wanted for sure: the program is then asked for that of a part while the next part runs

    Raises what `run` raises. The limits of a single phase and of the tree hold as for `run`.
    """
    cluster = cluster_in(source)
    with Progress("chain", len(cluster.phases), quiet=quiet) as progress:

        def told() -> Iterator[Run]:
            for at, done in enumerate(run_parts(cluster, parts_of(cluster, minutes), start=start, program=program)):
                progress.step(len(done.ends) - (1 if at else 0))
                yield done

        if not with_bill:
            return whole_of(cluster, told())
        with ThreadPoolExecutor(1) as pool:
            return whole_of(cluster, told(), lambda done: pool.submit(later_bill(done)).result)
