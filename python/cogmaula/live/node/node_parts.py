"""What a node has from its start to its end, which each of its sessions works with."""

from __future__ import annotations

from collections.abc import Callable
from dataclasses import dataclass, field

from ...logs import NodeLog
from .ask_schedule import AskSchedule
from .heartbeat_sender import HeartbeatSender
from ..children.kept_bids import BidLog
from ..broker.broker_link import Link
from ..device.control_feed import ControlFeed
from .counting import Counts
from ..device.offers import Offers
from ..broker.publisher import Publisher
from .recording import Recording
from .node_settings import Settings
from .store import Store


@dataclass(frozen=True)
class NodeParts:
    """The parts of one node.

    bids:  the bids of its children on its disk
    feed:  records a frame and feeds it to the service, if that runs
    is_up: says whether the service runs
    names: the names that each child gave its node
    """

    settings: Settings
    store: Store
    link: Link
    log: NodeLog
    publisher: Publisher
    offers: Offers
    asking: AskSchedule
    recording: Recording
    bids: BidLog
    beating: HeartbeatSender
    controlling: ControlFeed
    counts: Counts
    feed: Callable[[bytes], None]
    is_up: Callable[[], bool]
    names: dict[int, set[str]] = field(default_factory=dict)
