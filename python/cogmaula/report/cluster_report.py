"""Makes the report of a cluster file: runs it, bills it, asks for its flexibility, and puts the page together."""

from __future__ import annotations

import hashlib
from collections.abc import Iterable
from concurrent.futures import ThreadPoolExecutor
from dataclasses import dataclass
from datetime import datetime
from pathlib import Path
from typing import TYPE_CHECKING, Any

from ..cluster import Cluster, Source, bytes_of
from ..continuing import continued
from ..errors import NoPackage
from ..figures import Figures
from ..program import Program, found_program
from ..runs import Run
from ..texts import Bill
from ..whole import whole_run
from .bills import Currency, Span, bill_with_supplier, bills_of
from .flexibility import Flexibility, flexibility_of
from .kept_limits import Group, groups_of
from .intervals import Interval, intervals_of

if TYPE_CHECKING:
    from ..data.supplier_connection import Supply
    from ..simulation.as_run import SimulatedRun
    from .long_course import Course

# The minutes of a bill's span if the user names none.
SPAN = 60
# The most spans that a bill has if the user names no length of them.
MOST_SPANS = 48


@dataclass(frozen=True)
class Findings:
    """All that a report tells of a run, and that its sections are made of.

    has_start:  whether the user named the start of the run
    connection: the manual device that is the connection to the supplier, or None if the user named none
    bill:       the bill of the run, in which the connection and the grid are one account if there is a connection
    tariff:     what a supplier bills each household and month, in a currency, as `Tariff.bill` has it; None if the user named no tariff
    """

    title: str
    run: Run
    has_start: bool
    connection: str | None
    bill: Bill
    figures: Figures
    course: Course
    intervals: tuple[Interval, ...]
    groups: tuple[Group, ...]
    spans: tuple[Span, ...]
    currency: Currency
    flexibility: Flexibility
    digest: str
    tariff: tuple[str, Any] | None = None


def findings_of(
    source: Source,
    *,
    title: str | None = None,
    start: datetime | None = None,
    currency: Currency | None = None,
    span: int | None = None,
    targets: Iterable[int] | None = None,
    connection: str | None = None,
    supply: Supply | None = None,
    program: Program | None = None,
    quiet: bool = True,
) -> Findings:
    """Runs a cluster and finds what its report tells. The arguments are those of `report`."""
    # These need numpy, which the command line does without until a page is made.
    from ..figures.supplier_tariffs import connection_in

    program, data = program or found_program(), bytes_of(source)
    cluster = source if isinstance(source, Cluster) else Cluster.from_json(data)
    if connection is not None:
        connection_in(cluster, connection)
    done = whole_run(cluster, start=start, program=program, quiet=quiet, with_bill=True)
    return findings_of_run(
        done, title or title_of(source), (start or cluster.start) is not None, connection, currency, span,
        flexibility_of(continued(done), targets, program), hashlib.sha256(data).hexdigest(), supply,
    )


def findings_of_run(
    done: Run,
    title: str,
    has_start: bool,
    connection: str | None,
    currency: Currency | None,
    span: int | None,
    flexibility: Flexibility,
    digest: str,
    supply: Supply | None = None,
) -> Findings:
    """What the report of a run tells. `flexibility` is that at its end, and `digest` that of its file."""
    from ..figures.run_figures import figures_of
    from .long_course import Course

    intervals = intervals_of(done.cluster)
    spans = list(bills_of(done, span_for(done.cluster.minutes) if span is None else span, connection))
    return Findings(
        title,
        done,
        has_start,
        connection,
        bill_with_supplier(done, connection),
        figures_of(done, connection, currency),
        Course.of([interval.end for interval in intervals], done.start),
        tuple(intervals),
        tuple(groups_of(done, intervals)),
        tuple(spans),
        currency or Currency(),
        flexibility,
        digest,
        None if supply is None else (supply.tariff.currency, supply.bill(done.series(), connection)),
    )


def span_for(minutes: int) -> int:
    """The minutes of a span of the bill of a run of so many minutes: an hour, or so many whole hours or days that there are few spans."""
    hours = max(1, -(-minutes // (SPAN * MOST_SPANS)))
    return SPAN * (hours if hours <= 24 else 24 * -(-hours // 24))


def title_of(source: Source) -> str:
    """The title of a report: the name of the file."""
    return "cluster" if isinstance(source, Cluster | bytes) else Path(source).stem


def report(
    source: Source,
    *,
    title: str | None = None,
    start: datetime | None = None,
    currency: Currency | None = None,
    span: int | None = None,
    targets: Iterable[int] | None = None,
    connection: str | None = None,
    supply: Supply | None = None,
    program: Program | None = None,
    quiet: bool = True,
) -> str:
    """The report of a cluster's run, as one page in HTML that needs no script and no network. The run may be of any length.

    source:   the cluster, the path of its file, or the bytes of the file
    title:    the page's title; the name of the file if it is not given
    start:    the moment before the first phase; 2000-01-01 00:00 if neither it nor the cluster's own is given
    currency: the unit of money, and what a kilowatt-hour costs at price 1; price units times kilowatt-hours if it is not given
    span:     the minutes of a span of the bill; if it is not given, an hour, or some hours if the run is long
    targets:  watts that the cluster is asked for at the end of the run; some of its range if they are not given
    connection: the manual device that is the connection to the supplier: its account and that of the grid are then one, the page
                shows what is bought and sold, and compares the cost with that without the market
    supply:   what a supplier bills by its tariff: the page then has the bill of each household and month; none if it is not given
    program:  the proved program; by default the one that `Program.find()` finds
    quiet:    whether no progress is told on standard error

    Raises what `run` and `chain` raise, NoConnection, RecipeFault if the supply does not fit the run, ValueError if a span is below 1, and
    NoPackage without matplotlib.
    """
    asked = None if targets is None else list(targets)
    with ThreadPoolExecutor(1) as pool:
        # The program runs while matplotlib is loaded, which takes longer than a short run.
        found = pool.submit(
            lambda: findings_of(
                source, title=title, start=start, currency=currency, span=span, targets=asked, connection=connection, supply=supply,
                program=program, quiet=quiet,
            )
        )
        try:
            from .sections import page_of
        except ImportError:
            raise NoPackage("a report needs matplotlib: on Debian, apt-get install python3-matplotlib") from None
    return page_of(found.result())


def report_of_run(done: SimulatedRun, title: str, *, connection: str | None, currency: Currency | None, span: int | None) -> str:
    """The page of a simulation, as a run of models. Raises NoConnection, and NoPackage without matplotlib."""
    from ..figures.supplier_tariffs import connection_in

    try:
        from .sections import page_of
    except ImportError:
        raise NoPackage("a report needs matplotlib: on Debian, apt-get install python3-matplotlib") from None
    if connection is not None:
        connection_in(done.cluster, connection)
    flexibility = flexibility_of(done.simulation.at_the_end(), None, done.program)
    return page_of(findings_of_run(done, title, True, connection, currency, span, flexibility, ""))
