"""Runs the lives of a recorded service again by the proved program `live`, and compares what it writes, byte for byte.

Nothing is computed here. A life is from a start to the next one. Its frames in are fed in their order; at each frame out the
program has to have written just this frame, by the frames in before it. What it wrote behind the last frame out was lost with the
life: the node had not handled it.
"""

from __future__ import annotations

from collections import Counter
from dataclasses import dataclass, field

from ..live.node.node_errors import BadFrame, LiveError
from ..live.messages.frames import (
    READS,
    RESUMES,
    WRITES,
    AuctioneerResume,
    Bid,
    DeviceResume,
    Expire,
    Frame,
    Hello,
    Kinds,
    Limits,
    RelayResume,
    Resume,
    ResumeGone,
    frame_of,
)
from ..live.node.recording import IN, OUT, STORED
from ..live.node.statuses import STATUSES
from .frame_words import difference_of, words_of_bytes
from .reading import Event, Recorded, Start
from .restarts import Giving, Keeping
from .service_life import Late, Running

# The seconds for which a frame is awaited before the end of the input asks for it, from try to try.
PATIENCE = (2.0, 30.0, 300.0)
# The statuses of a service that read all that it was fed, or all that it takes, of one that refused a frame, and of wrong arguments.
WHOLE, REFUSED, USAGE = (0, 4), 5, 2


@dataclass
class Counts:
    """How much was replayed: lives, clearings, and frames in and out by their names."""

    lives: int = 0
    clearings: int = 0
    fed: Counter[str] = field(default_factory=Counter)
    handled: Counter[str] = field(default_factory=Counter)


def replayed(recorded: Recorded, live: str, relays: frozenset[int] = frozenset()) -> Counts:
    """Runs all lives of a recording again, by the program at the path `live`.

    relays: the node's children that are relays, by their numbers, which it must never let go

    Raises Faulty at the first line that the program does not bear out, LiveError if the program cannot say, and OSError.
    """
    for patience in PATIENCE:
        replay = _Replay(recorded, live, patience, relays)
        try:
            return replay.run()
        except Late:
            continue
        finally:
            replay.close()
    raise LiveError(f"{live} does not answer within {PATIENCE[-1]:g} s: end what else runs on this machine, and judge again")


class _Replay:
    """One try, with the patience in seconds of a wait for a frame."""

    def __init__(self, recorded: Recorded, live: str, patience: float, relays: frozenset[int]) -> None:
        self._recorded, self._live, self._patience, self._relays = recorded, live, patience, relays
        self._keeping, self._giving = Keeping(), Giving()
        self._running: Running | None = None
        self._has_ended = False
        self._begin: Event | None = None
        self._start: Start | None = None
        self._counts = Counts()

    def run(self) -> Counts:
        for event in self._recorded.events():
            self._take(event)
        self._end_life()
        return self._counts

    def close(self) -> None:
        if self._running is not None:
            self._running.close()
            self._running = None

    def _take(self, event: Event) -> None:
        if event.start is not None:
            self._begin_life(event, event.start)
        elif self._has_ended:
            raise self._recorded.fault(event, "the service has ended before, and did not start anew")
        elif event.what == IN:
            self._feed(event)
        elif event.what == OUT:
            self._compare(event)
        elif event.what == STORED:
            self._require(event, self._keeping.stores())
        else:
            self._has_ended = True

    def _begin_life(self, event: Event, start: Start) -> None:
        self._end_life()
        self._begin, self._start = event, start
        self._require(event, wrong_place(start, self._recorded.first))
        resume = self._resume(event, start.resume) if start.resume else None
        self._require(event, self._keeping.starts(resume, event.is_late))
        self._require(event, self._giving.resumes(resume))
        self._running = Running(self._live, start, self._patience)
        self._counts.lives += 1

    def _end_life(self) -> None:
        """Lets the program answer all that it was fed, which it has to have taken, up to its limit."""
        running, self._has_ended = self._running, False
        if running is not None:
            for _ in running.finish():
                pass
            self._require_whole(running)
            self.close()

    def _require_whole(self, running: Running) -> None:
        """Raises Faulty if the program refused a frame of this life, and LiveError if it failed. It has ended."""
        status = running.status()
        assert self._begin is not None
        if status == REFUSED:
            raise self._recorded.fault(self._begin, "the service refuses its Resume or a frame of this life")
        if status == USAGE:
            raise self._recorded.fault(self._begin, "its arguments are no command of the program live")
        if status not in WHOLE:
            told = STATUSES.get(status, "that is no status of live")
            raise LiveError(f"{self._live} ended with status {status} in a life of {self._recorded.node}: {told}")

    def _feed(self, event: Event) -> None:
        assert self._start is not None
        assert self._running is not None
        sort = self._start.sort
        kinds = {number: kind for number, kind in READS[sort].items() if number != Hello.KIND and number not in RESUMES[sort]}
        frame = self._frame(event, event.frame, kinds, "is no frame that a node feeds to its service")
        if isinstance(frame, Limits):
            self._require(event, self._giving.takes(frame))
        if isinstance(frame, Expire) and frame.child in self._relays:
            raise self._recorded.fault(event, f"child {frame.child} is let go, and it is a relay: only a device may be")
        self._counts.fed[type(frame).__name__] += 1
        self._running.feed(event.frame)

    def _compare(self, event: Event) -> None:
        assert self._start is not None
        assert self._running is not None
        sort, steps = self._start.sort, self._start.basis.steps
        due = self._running.frame()
        if due is None:
            self._require_whole(self._running)
            told = words_of_bytes(event.frame, sort, steps)
            raise self._recorded.fault(event, f"{told} is recorded, and the frames in before it have no further answer")
        if due != event.frame:
            raise self._recorded.fault(event, difference_of(event.frame, due, sort, steps))
        self._counts.handled[WRITES[sort][due[0]].__name__] += 1
        resume = self._resume(event, due) if due[0] in RESUMES[sort] else None
        if isinstance(resume, AuctioneerResume):
            self._counts.clearings = resume.index
        is_bid = sort == "relay" and due[0] == Bid.KIND
        self._require(event, self._keeping.writes(resume, int.from_bytes(due[3:7], "big") if is_bid else 0))

    def _resume(self, event: Event, data: bytes) -> Resume:
        assert self._start is not None
        frame = self._frame(event, data, RESUMES[self._start.sort], "is no Resume that the service takes")
        assert isinstance(frame, RelayResume | AuctioneerResume | DeviceResume | ResumeGone)
        return frame

    def _frame(self, event: Event, data: bytes, kinds: Kinds, wrong: str) -> Frame:
        """The frame of a line. Raises Faulty if it is none of these kinds."""
        assert self._start is not None
        try:
            return frame_of(data, kinds, self._start.basis.steps)
        except BadFrame as error:
            told = f"{data[:16].hex()}{'..' if len(data) > 16 else ''}"
            raise self._recorded.fault(event, f"{told} {wrong}: {error}") from None

    def _require(self, event: Event, wrong: str) -> None:
        if wrong:
            raise self._recorded.fault(event, wrong)


def wrong_place(start: Start, first: Start | None) -> str:
    """What is wrong with the place that a service is started in, in words, "" if nothing is."""
    arguments: list[str] = [start.sort] if start.sort == "auctioneer" else [start.sort, str(start.child)]
    if list(start.arguments[: len(arguments)]) != arguments or (start.parent is None) != (start.sort == "auctioneer"):
        told = " ".join(start.arguments)
        return f"the arguments {told} are not of its place, {' '.join(arguments)} below {start.parent or 'nobody'}"
    for now, before in [] if first is None else zip(_place_of(start), _place_of(first), strict=True):
        if now != before:
            return f"it starts {now}, and before in this session {before}"
    return ""


def _place_of(start: Start) -> list[str]:
    """What has to be the same at all starts of a node in a session, in words."""
    return [
        f"as {' '.join(start.arguments)} below {start.parent or 'nobody'}",
        f"with {start.basis}",
        f"in {start.session}",
    ]
