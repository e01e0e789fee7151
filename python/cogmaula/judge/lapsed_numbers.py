"""Which numbers of devices their parents gave: the odd ones, each of which says that the device is gone.

A parent's number stands between two of the device's own, so what a device did can only be told once it is known which of them were
given. Only those count that a Resume of the parent has: what a parent heard and did not send is in no state of the market.
"""

from __future__ import annotations

from ..live.messages.frames import RESUMES, AuctioneerResume, RelayResume, frame_of
from ..live.node.recording import OUT
from .reading import Start
from .session_tree import Market


def lapses_of(market: Market) -> dict[str, set[int]]:
    """Of each device of a session the numbers under which its parent let it go."""
    found: dict[str, set[int]] = {}
    below = {place: name for place, name in market.children.items() if _is_device(market.nodes[name].first)}
    for name, one in market.nodes.items():
        if one.first is None or one.first.sort == "device":
            continue
        places = [(child, node) for (parent, child), node in below.items() if parent == name]
        for event in one.events():
            resume = event.start.resume if event.start is not None else event.frame if event.what == OUT else b""
            if not resume or resume[0] not in RESUMES[one.first.sort]:
                continue
            told = frame_of(resume, RESUMES[one.first.sort], one.first.basis.steps)
            assert isinstance(told, RelayResume | AuctioneerResume)
            for child, node in places:
                if told.numbers[child - 1] % 2:
                    found.setdefault(node, set()).add(told.numbers[child - 1])
    return found


def _is_device(start: Start | None) -> bool:
    return start is not None and start.sort == "device"
