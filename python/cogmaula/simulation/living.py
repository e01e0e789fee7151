"""A cluster file as a living market: a node of `cogmaula.live` for each node of the file, in one process, and models as the devices.

The nodes are joined by the exchange of a hub. Each has its own process of the proved program `live`, so a concentrator is a relay, and
a limited one keeps its limits. What the devices are is a model, and no part of the market.
"""

from __future__ import annotations

import json
import logging
import shutil
import tempfile
import threading
import time
from collections.abc import Callable
from pathlib import Path

from ..cluster import Cluster
from ..errors import NoProgram
from ..hub.exchange import Exchange
from ..hub.hub_page import HubPageFeed
from ..hub.node_thread import Running
from ..live.broker.broker_link import Message
from ..live.node.counting import NodeFacts
from ..live.node.node_errors import LiveError
from ..live.messages.frames import MOST, AnyOffer, Leave, Sort, Stated
from ..live.messages.messages import ControlMessage, SetpointMessage, SilentMessage, StateMessage, members_of
from ..live.node.node import Node
from ..live.page.page_settings import PageSettings
from ..live.messages.price_table import PriceTable
from ..live.node.node_settings import Settings
from ..logs import NodeLog
from ..nodes import AUCTIONEER, Limited
from ..program import LIVE_VARIABLE
from .life import Life

# The seconds between two looks at the clock, in which models step and bid; those between two clearings; and the least between two states
# that a device says: most say nothing new of its bid, and each is an offer that its node stores.
EVERY, PAUSE, STATES = 0.5, 0.1, 2.0
# The seconds between looks of a device's node at its own clock, and those in which all nodes have to end.
TICK, LAST_SECONDS = 1.0, 5.0
# The seconds within which a page is served, if it can be, and a node is in its session; and those for which a settled market is quiet.
PAGE_SECONDS, START_SECONDS, QUIET_SECONDS = 2.0, 30.0, 1.0
NOTE = "The devices here are models, which cogmaula simulate runs. They are no part of the market, and nothing about them is proved."


class ModelControl:
    """The control of a model: it offers what the model bids, and keeps the power that it is told. See Control."""

    def __init__(self) -> None:
        """Offers nothing yet."""
        self._lock = threading.Lock()
        self._notify: Callable[[bytes], None] | None = None
        self._newest: AnyOffer | None = None
        self._offer: bytes | None = None
        self._since = 0.0
        # The newest power that it was told, in watts: a setpoint's, or the fallback while the market is silent.
        self.power = 0
        self.is_told = False

    def start(self, notify: Callable[[bytes], None], _log: NodeLog) -> None:
        """See Control."""
        with self._lock:
            self._notify = notify
            if self._offer is not None:
                notify(self._offer)

    def write(self, told: ControlMessage) -> None:
        """See Control."""
        if isinstance(told, SetpointMessage | SilentMessage):
            self.power, self.is_told = told.power, True

    def offer(self, offer: AnyOffer | None, now: float) -> None:
        """Offers this at a second of a clock that only rises, None to leave. The same again, or the next state too soon, is told to nobody."""
        newest = self._newest
        if offer == newest or (isinstance(offer, Stated) and isinstance(newest, Stated) and now < self._since + STATES):
            return
        data = json.dumps(members_of(Leave() if offer is None else offer)).encode()
        with self._lock:
            self._newest, self._offer, self._since = offer, data, now
            if self._notify is not None:
                self._notify(data)


class LivingCluster:
    """A cluster file that lives, from its start to its end. `run` does the work, and `stop` ends it from anywhere."""

    def __init__(
        self,
        cluster: Cluster,
        live: str,
        *,
        speed: float = 60.0,
        page: PageSettings | None = None,
        tell: Callable[[str], None] = print,
        log: NodeLog | None = None,
    ) -> None:
        """Takes a cluster that the program takes.

        live:  the program `live`
        speed: how many seconds of the devices pass in a second
        page:  where a page of the market is served, None for no page
        tell:  takes a line for each phase and each new price
        log:   takes what is wrong, by default the logger of this module

        Raises BadSettings for a name or limits that no node of a living market has, and NoProgram if there is no program `live`.
        """
        if shutil.which(live) is None:
            raise NoProgram(f"there is no program {live}: prove it by ./market prove live, or name it by --live or {LIVE_VARIABLE}")
        self._cluster = cluster
        self._live = live
        self._speed = speed
        self._tell = tell
        self._log = log or NodeLog(logging.getLogger(__name__))
        self.life = Life(cluster)
        self.exchange = Exchange()
        self.controls = {name: ModelControl() for name in self.life.devices}
        self._folder = tempfile.TemporaryDirectory(prefix="cogmaula.")
        self._settings = self._all_settings(Path(self._folder.name))
        self.topics = self._settings[0].topics
        self._page = page
        self._running: list[Running] = []
        self._showing = HubPageFeed(page, self.topics.prefix, self.exchange, self._log, self.facts, NOTE)
        self._stopping = threading.Event()
        self._newest: PriceTable | None = None

    def _all_settings(self, folder: Path) -> list[Settings]:
        """The settings of all nodes, parents first. Raises BadSettings."""
        basis, live = self._cluster.basis, self._live
        found = [Settings("auctioneer", AUCTIONEER, str(folder / "0"), basis, live, pause=PAUSE)]
        children: dict[str, int] = {}
        for number, node in enumerate(self._cluster.nodes, 1):
            child = children[node.above] = children.get(node.above, 0) + 1
            floor, ceiling = (node.floor, node.ceiling) if isinstance(node, Limited) else (-MOST, MOST)
            sort: Sort = "device" if node.is_device else "relay"
            found.append(Settings(sort, node.name, str(folder / str(number)), basis, live, node.above, child, floor, ceiling, pause=PAUSE, offer_validity=None))
        return found

    def run(self, minutes: float | None = None) -> None:
        """Lives for so many minutes of the devices' clock, or until `stop` is called.

        Raises LiveError or OSError if a node fails, such as for want of the program or of room on the disk.
        """
        self._showing.start()
        self.exchange.watch(self._hear)
        try:
            self._tell_page()
            self._start_nodes()
            self._pass(minutes)
        finally:
            self._end_nodes()
            self._showing.close()
            self._folder.cleanup()
        for carrier in self._running:
            if carrier.error is not None:
                raise carrier.error

    def facts(self) -> list[NodeFacts]:
        """What the nodes tell of themselves. It may be called from any thread."""
        return [carrier.node.facts() for carrier in list(self._running)]

    def stop(self) -> None:
        """Ends `run`, from any thread or from the handler of a signal."""
        self._stopping.set()

    def _tell_page(self) -> None:
        """Tells the page's address, once it is served."""
        end = time.monotonic() + PAGE_SECONDS
        while self._page is not None and not self._showing.port and time.monotonic() < end and not self._stopping.is_set():
            time.sleep(EVERY / 100)
        if self._page is not None and self._showing.port:
            host = f"[{self._page.host}]" if ":" in self._page.host else self._page.host
            self._tell(f"page: http://{host}:{self._showing.port}/")

    def _start_nodes(self) -> None:
        """Starts all nodes, each parent before its children."""
        for settings in self._settings:
            control = self.controls.get(settings.name)
            tick = TICK if settings.sort == "device" else EVERY / 10
            node = Node(settings, control, self._log.of_node(settings.name), self.exchange.link, tick)
            self._running.append(Running(node, lambda _: None))
            if settings.sort != "device":
                self._wait_for(settings.name)

    def _wait_for(self, name: str) -> None:
        """Waits until a node is in its session. Raises LiveError if it does not come."""
        end = time.monotonic() + START_SECONDS
        while not self._is_up(name) and self._lives():
            if time.monotonic() > end:
                raise LiveError(f"the node {name} does not start within {START_SECONDS:g} s: the lines above say why")
            time.sleep(EVERY / 100)

    def _end_nodes(self) -> None:
        """Ends all nodes, each parent after its children, so that none of them misses it."""
        devices = [carrier for carrier in self._running if carrier.node.settings.sort == "device"]
        for device in devices:
            device.stop()
        for device in devices:
            device.join(LAST_SECONDS)
        for carrier in reversed(self._running):
            carrier.stop()
            carrier.join(LAST_SECONDS)

    def _is_up(self, name: str) -> bool:
        message = self.exchange.message(self.topics.of(name, "state"))
        return message is not None and StateMessage.of(message.payload).state == "up"

    def _lives(self) -> bool:
        return not self._stopping.is_set() and all(carrier.is_alive for carrier in self._running)

    def _pass(self, minutes: float | None) -> None:
        """Lets the devices' time pass, and tells what happens."""
        told = self._settle()
        begin = time.monotonic()
        while self._lives():
            passed = (time.monotonic() - begin) * self._speed / 60
            now = passed if minutes is None else min(passed, minutes)
            told = self._look(now, told)
            if minutes is not None and now >= minutes:
                return

    def _settle(self) -> str:
        """Lets no time pass until the market of the first events has settled: each member was told a power, and nothing changes any more."""
        told, end = "", time.monotonic() + START_SECONDS
        quiet_since = time.monotonic()
        while self._lives() and time.monotonic() < min(end, quiet_since + QUIET_SECONDS):
            newest, before = self._newest, told
            told = self._look(0.0, told)
            if told != before or self._newest is not newest or not all(self.controls[name].is_told for name in self.life.members):
                quiet_since = time.monotonic()
        return told

    def _look(self, now: float, told: str) -> str:
        """Lets time pass up to a minute, hands on what the devices offer then, and tells the sums if they differ from these. Gives them."""
        for line in self.life.advance(now):
            self._tell(f"{self._clock} {line}")
        for name, offer in self.life.offers().items():
            self.controls[name].offer(offer, time.monotonic())
        self._stopping.wait(EVERY)
        for name in self.life.members:
            self.life.powers[name] = self.controls[name].power
        if self._newest is not None and (sums := self._sums(self._newest)) != told:
            told = sums
            self._tell(f"{self._clock} {sums}")
        return told

    @property
    def _clock(self) -> str:
        whole = int(self.life.minute)
        return f"{whole // 60:02}:{whole % 60:02}"

    def _sums(self, prices: PriceTable) -> str:
        powers = [self.life.powers[name] for name in self.life.members]
        taken, given = sum(power for power in powers if power > 0), -sum(power for power in powers if power < 0)
        return f"price {self._cluster.basis.price(prices.step)}: {len(powers)} devices take {taken} W and give {given} W"

    def _hear(self, message: Message) -> None:
        """Keeps the newest clearing of the auctioneer. It is called in the node's thread."""
        if message.topic != self.topics.prices(AUCTIONEER) or not message.payload:
            return
        try:
            found = PriceTable.of(message.payload)
        except LiveError as error:
            self._log.warning(f"{message.topic}: {error}")
            return
        if self._newest is None or found.index > self._newest.index:
            self._newest = found
