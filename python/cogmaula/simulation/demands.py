"""Bids as the bytes of a frame: demands at each step, for a market that takes nothing else. Of points and states the proved `live device`
makes them.

One process makes those of all devices, since its bid of points, or of a kind and a state, depends on nothing before. So all that it made
is kept, and it is asked once for what is bid again. docs/RELAY.md has its frames.
"""

from __future__ import annotations

import struct
import subprocess
from collections.abc import Iterable, Mapping, Sequence
from types import TracebackType
from typing import Any

from ..cluster import Basis
from ..live.messages.frames import BASIS, AnyOffer, Bid, DeviceResume, Gone, Hello, Leave, Offer, ResumeGone, frames_of, size_of
from ..program import Program, live_at, live_program
from .device import Demands, offer_of
from .device import Bid as AnyBid
from .streams import LONGEST, ROOM, Stream, open_live

# How many offers an agent keeps that are unanswered. Once it leaves it keeps none.
WINDOW = 8
# So many bytes at most are written before the answers are read: they fit into a pipe, so writing never waits for reading.
AT_ONCE = 32_768
# So many bytes of demands are kept at most.
MOST_KEPT = 32_000_000


class _Agent(Stream):
    """The program `live device`."""

    def __init__(self, live: str) -> None:
        self._words = [live, "device", "1"]
        super().__init__(" ".join(self._words))

    def open(self) -> subprocess.Popen[bytes]:
        """See Stream."""
        return open_live(self._words)


class BidMaker:
    """Makes demands of bids, from its start to its end: `with BidMaker(basis) as maker`."""

    def __init__(self, basis: Basis, live: str | None = None, program: Program | None = None) -> None:
        """Takes the basis of the market, and the program `live`, by default the one beside the program of the market.

        The program is looked for and started by the first offer that is none by demands.
        """
        self._hello = Hello(basis.min, basis.max, basis.steps).to_bytes()
        self._basis = basis
        self._live, self._program = live, program
        self._agent: _Agent | None = None
        self._written = 0
        # To an offer come a Resume and a Bid, and to a Leave a ResumeGone and a Gone.
        self._resume = struct.calcsize(f">BII{BASIS}{basis.steps}i")
        self._answer = self._resume + struct.calcsize(f">BHI{basis.steps}i")
        self._gone = size_of(ResumeGone, basis.steps) + size_of(Gone, basis.steps)
        self._demands = struct.Struct(f">{basis.steps}i")
        # What was made of an offer, and of a bid as it is: most are bid again and again.
        self._made: dict[AnyOffer, bytes] = {}
        self._of_bids: dict[Any, bytes] = {}
        self._most = max(1, MOST_KEPT // (8 * basis.steps))

    def __enter__(self) -> BidMaker:
        return self

    def __exit__(self, kind: type[BaseException] | None, error: BaseException | None, trace: TracebackType | None) -> None:
        self.close()

    def close(self) -> None:
        """Ends its process."""
        if self._agent is not None:
            self._agent.close()

    def demands(self, offers: Mapping[str, AnyOffer]) -> dict[str, Demands]:
        """The demand at each step, in watts, of the offer of each device. Raises ProgramFault."""
        return dict(zip(offers, map(self._demands.unpack, self._packed(list(offers.values()))), strict=True))

    def bids(self, bids: Sequence[AnyBid], names: Sequence[str]) -> list[bytes]:
        """The demands of the bids of these devices, each as the bytes of a frame. Raises BadBid and ProgramFault."""
        keys = [_key(bid) for bid in bids]
        found = [None if key is None else self._of_bids.get(key) for key in keys]
        if None not in found:
            return found  # type: ignore[return-value]
        new = [at for at, data in enumerate(found) if data is None]
        made = self._packed([offer_of(bids[at], self._basis, names[at]) for at in new])
        if len(self._of_bids) > self._most:
            self._of_bids.clear()
        for at, data in zip(new, made, strict=True):
            found[at] = data
            if keys[at] is not None:
                self._of_bids[keys[at]] = data
        return found  # type: ignore[return-value]

    def _packed(self, offers: Sequence[AnyOffer]) -> list[bytes]:
        """The demands of offers as bytes. Those of points and states that are not known are asked for together."""
        asked = list(dict.fromkeys(offer for offer in offers if not isinstance(offer, Offer) and offer not in self._made))
        known = self._made
        if asked:
            if len(known) + len(asked) > self._most:
                known = {offer: data for offer, data in known.items() if offer in set(offers)}
            known |= zip(asked, self._ask(asked), strict=True)
            self._made = known
        return [self._demands.pack(*offer.demands) if isinstance(offer, Offer) else known[offer] for offer in offers]

    def _started(self) -> _Agent:
        """A new process. Raises NoProgram and ProgramFault."""
        self._agent = None
        agent = _Agent(live_at(self._live) if self._live else live_program(self._program))
        agent.start()
        return agent

    def _ask(self, offers: Sequence[AnyOffer]) -> Iterable[bytes]:
        """The demands of offers: as many as a pipe takes are written at once, with a Leave behind as many as an agent keeps."""
        windows = [offers[at : at + WINDOW] for at in range(0, len(offers), WINDOW)]
        first = 0
        while first < len(windows):
            data, last = b"", first
            while last < len(windows) and (last == first or len(data) < AT_ONCE):
                data += b"".join(frame.to_bytes() for offer in windows[last] for frame in frames_of(offer)) + Leave().to_bytes()
                last += 1
            yield from self._answers(data, [len(window) for window in windows[first:last]])
            first = last

    def _answers(self, data: bytes, counts: Sequence[int]) -> Iterable[bytes]:
        """What comes to offers in windows of so many, as the bytes of their demands."""
        if self._agent is None or self._written + len(data) > LONGEST - ROOM:
            self.close()
            self._agent, data = self._started(), self._hello + data
            self._written = 0
        self._written += len(data)
        self._agent.write(data)
        told = self._agent.read_all(sum(counts) * self._answer + len(counts) * self._gone)
        at, demands = 0, 4 * self._basis.steps
        for many in counts:
            for _ in range(many):
                if told[at] != DeviceResume.KIND or told[at + self._resume] != Bid.KIND:
                    raise self._agent.fault("it wrote no Bid to an offer")
                at += self._answer
                yield told[at - demands : at]
            if told[at] != ResumeGone.KIND:
                raise self._agent.fault("it wrote no Bid to an offer")
            at += self._gone


def _key(bid: Any) -> Any:
    """What tells a bid apart from others; None if it is looked at anew each time, as what is no plain number, list or state."""
    if type(bid) is int:
        return bid
    if isinstance(bid, float | bool) or hasattr(bid, "tolist"):
        return None
    key = tuple(bid) if isinstance(bid, list) else bid
    try:
        hash(key)
    except TypeError:
        return None
    return key
