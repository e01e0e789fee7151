"""The flexibility of a cluster at the end of its run: what it would take or deliver at each price, by the program's `ask`."""

from __future__ import annotations

from collections.abc import Iterable
from dataclasses import dataclass

from ..calls import ask
from ..cluster import Cluster
from ..program import Program
from ..texts import Answer, Answers

# The largest target that the program takes, in watts.
MOST_TARGET = 1_000_000_000


@dataclass(frozen=True)
class Flexibility:
    """The total of all bids at each step, and the answers to the targets.

    prices:  the price of each step
    demands: what the cluster would take there beyond what it delivers, in watts; None if it is below all targets that may be asked
    answers: the answer to each target, in order
    """

    prices: tuple[int, ...]
    demands: tuple[int | None, ...]
    answers: tuple[Answer, ...]

    def around(self, answer: Answer) -> tuple[int | None, int, int | None]:
        """What the cluster takes one step below an answer's price, at it, and one step above, in watts.

        None if there is no such step, or if the program cannot be asked.
        """
        below = self.demands[answer.step - 1] if answer.step > 0 else None
        above = self.demands[answer.step + 1] if answer.step + 1 < len(self.demands) else None
        return below, answer.target + answer.total, above


def flexibility_of(cluster: Cluster, targets: Iterable[int] | None, program: Program) -> Flexibility:
    """Asks the program what the cluster does at the end of its run. Of a run that is known, `continued(run)` gives the same sooner.

    targets: watts; above 0 the cluster is asked to take so much more than it delivers, below 0 to deliver so much more. None asks for
             0 and the quarters of what the cluster can do.

    Raises what `Program.answer` raises.
    """
    file = cluster.to_bytes()
    asked = [] if targets is None else list(targets)
    told = ask(file, [-MOST_TARGET, *asked], program=program)
    demands = demands_of(told, cluster.basis.steps)
    if targets is None:
        told = ask(file, [-MOST_TARGET, *quarters_of(demands)], program=program)
    return Flexibility(tuple(cluster.basis.prices), tuple(demands), told.answers[1:])


def demands_after(cluster: Cluster, program: Program) -> list[int | None]:
    """The total of all bids at each step at the end of the cluster's run, in watts; None as in `Flexibility.demands`."""
    return demands_of(ask(cluster, [-MOST_TARGET], program=program), cluster.basis.steps)


def demands_of(told: Answers, steps: int) -> list[int | None]:
    """The total of all bids at each step, by answers of which the first is that to the least target.

    The market clears at the first step at which the total is at most the target. So the least target of a step is the total there, and
    a step that answers none has the total of the step before. The last step answers every lower target, so its total is told by
    what it leaves over.
    """
    least = {point.step: point.least for point in told.curve}
    demands: list[int | None] = []
    for step in range(steps):
        demands.append(least[step] if step in least else demands[-1])
    lowest = told.answers[0]
    if lowest.step == steps - 1:
        demands[-1] = lowest.target + lowest.total
    return demands


def quarters_of(demands: Iterable[int | None]) -> list[int]:
    """0, and the quarters from what the cluster takes at its highest price to what it takes at its lowest, as far as may be asked."""
    known = [max(-MOST_TARGET, min(demand, MOST_TARGET)) for demand in demands if demand is not None]
    low, high = min(known), max(known)
    return sorted({0, *(low + (high - low) * part // 4 for part in range(5))})
