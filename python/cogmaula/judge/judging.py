"""Judges the recordings of a folder: each service is run again, and the frames between nodes are put into one order."""

from __future__ import annotations

import os
from collections.abc import Callable

from .merging import Merge, Visit
from .reading import recordings_in
from .recording_faults import Faulty
from .replay import Counts, replayed
from .session_tree import Market, markets_of
from .verdict import Verdict


def judge(
    folder: str | os.PathLike[str], live: str = "live", follow: Callable[[Market], Visit | None] | None = None
) -> Verdict:
    """Decides whether the recordings of a folder are those of a run of the network. docs/JUDGE.md says what that shows.

    folder: has the recordings of all nodes of a market, over any number of sessions
    live:   the proved program `live`, which runs each service again
    follow: gives for each session what is called with its lines, in an order in which each frame is sent before it is taken

    Raises NoRecording if there is nothing to judge, LiveError if the program cannot be run, and OSError.
    """
    try:
        recordings = recordings_in(folder)
        markets = markets_of(recordings)
        merges, counts = [], []
        for market in markets:
            done, merge = _judged(market, live, follow(market) if follow is not None else None)
            counts += done
            merges.append(merge)
    except Faulty as error:
        return Verdict("invalid", fault=error.fault)
    missing = tuple(missing for market in markets for missing in market.missing)
    return Verdict(
        verdict="incomplete" if missing else "valid",
        sessions=len(markets),
        nodes=len(recordings),
        lives=sum(count.lives for count in counts),
        frames_in=sum(count.fed.total() for count in counts),
        frames_out=sum(count.handled.total() for count in counts),
        taken=sum(merge.taken for merge in merges),
        unmatched=sum(merge.unmatched for merge in merges),
        clearings=sum(count.clearings for count in counts),
        setpoints=sum(count.handled["Setpoint"] for count in counts),
        missing=missing,
    )


def _judged(market: Market, live: str, visit: Visit | None) -> tuple[list[Counts], Merge]:
    """Judges one session. What is wrong within a node's recording is told only if the node comes so far in the order of all."""
    counts, faulty = [], {}
    for name, one in market.nodes.items():
        try:
            counts.append(replayed(one, live, market.relays_below(name)))
        except Faulty as error:
            # Without what was open where it was raised.
            faulty[name] = error.with_traceback(None)
    merge = Merge(market, faulty, visit)
    merge.run()
    return counts, merge
