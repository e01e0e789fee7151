"""A site: many nodes of a market in one process, in one loop and over one connection to the broker.

The nodes are those of `cogmaula node`, each with its own process of `live`, its own folder and its own topics. A node has no thread: the
loop moves the bytes of its service, hands it what came, and lets it look at the clock. It is no loop of asyncio, since a node is driven by
calls, and paho gives its socket to any loop.
"""

from __future__ import annotations

import heapq
import logging
import math
import resource
from collections import deque
from collections.abc import Callable, Iterable, Sequence
from functools import partial

from ... import clock
from ...logs import NodeLog
from ..node.node_errors import LiveError
from ..messages.frames import Sort
from .loop import Loop
from ..messages.messages import ControlMessage
from ..node.node import TICK, Node
from ..node.service import PolledService
from ..node.node_settings import Settings
from ..broker.shared import SharedConnection
from .site_life import SiteLife
from .site_settings import SiteSettings

# A device looks at the clock so often within a heartbeat, and not more seldom than each so many seconds. A parent with nothing that is due
# soon looks each so many.
LOOKS, MOST_SECONDS, QUIET = 6, 5.0, 0.25
# The open files of a device: two pipes, its lock and a recording. A parent has a file of bids too. And those of the site itself.
FILES_OF_DEVICE, FILES_OF_PARENT, FILES = 4, 5, 128
# The seconds within which the broker has to confirm what nodes say last.
LAST_SECONDS = 5.0


class NoControl:
    """The control of a device of a site: it offers and is told by the topics of the device alone. See Control."""

    def start(self, notify: Callable[[bytes], None], log: NodeLog) -> None:
        """See Control."""

    def write(self, told: ControlMessage) -> None:
        """See Control."""


class Site:
    """The nodes of a site, from their start to their end. `run` does the work, and `stop` ends it from anywhere."""

    def __init__(self, settings: SiteSettings, turns: Callable[[], None] = lambda: None) -> None:
        """Takes the place of each node on disk.

        turns: is called about each second, as long as the loop turns

        Raises BadStore if another process has a node's folder, NoPackage if paho is missing, LiveError if too few files may be open, and
        OSError.
        """
        require_files(settings.nodes)
        self.settings = settings
        self._turns = turns
        self._turned = -math.inf
        self._log = NodeLog(logging.getLogger(__name__))
        self._loop = Loop()
        client_id = f"cogmaula.{settings.broker.prefix.replace('/', '.')}.{settings.name}"
        self._life = SiteLife(settings.name, settings.broker, self._log)
        self._connection = SharedConnection(settings.broker, client_id, self._loop, self._log, self._life)
        self._is_stopped = False
        # The nodes that have something to take, each once, and when each looks at the clock next.
        self._ready: deque[str] = deque()
        self._is_ready: set[str] = set()
        self._looks: list[tuple[float, str]] = []
        self._look_at: dict[str, float] = {}
        self.nodes: dict[str, Node] = {}
        for one in settings.nodes:
            self.nodes[one.name] = Node(
                one,
                NoControl() if one.sort == "device" else None,
                self._log.of_node(one.name),
                self._connection.link,
                tick=MOST_SECONDS,
                make_service=partial(PolledService, self._loop),
                wake=partial(self._wake, one.name),
                site=self._life,
            )

    def _wake(self, name: str) -> None:
        """Notes that a node has something to take."""
        if name not in self._is_ready:
            self._is_ready.add(name)
            self._ready.append(name)

    def stop(self) -> None:
        """Ends `run`, from any thread or from the handler of a signal."""
        self._is_stopped = True
        self._loop.wake()

    def run(self) -> None:
        """Works until `stop` is called. A node that fails ends by itself, with a line. Raises LiveError once all have failed."""
        why = "it failed"
        try:
            now = clock.now()
            for at, (name, node) in enumerate(self.nodes.items()):
                node.start()
                # The nodes do not look at the clock all at once.
                self._plan(name, now + MOST_SECONDS * at / len(self.nodes))
            while self.nodes and not self._is_stopped:
                self._turn()
            if not self.nodes:
                why = "no node of it is left"
                raise LiveError("no node of the site is left: the lines above say why")
            why = "stopped"
        finally:
            self._end(why)

    def _turn(self) -> None:
        """Waits for something to do, and does it."""
        now = clock.now()
        self._loop.turn(0.0 if self._ready else min(max(0.0, self._looks[0][0] - now), TICK if not self._connection.is_there else 1.0))
        now = clock.now()
        self._connection.tick(now)
        for _ in range(len(self._ready)):
            name = self._ready.popleft()
            self._is_ready.discard(name)
            self._work(name)
        while self._looks and self._looks[0][0] <= now:
            at, name = heapq.heappop(self._looks)
            if name in self.nodes and self._look_at.get(name) == at:
                self._look_at.pop(name)
                self._work(name)
        if now >= self._turned + 1.0:
            self._turned = now
            self._turns()

    def _plan(self, name: str, at: float) -> None:
        """Lets a node look at the clock then, if it does not sooner."""
        if at < self._look_at.get(name, math.inf):
            self._look_at[name] = at
            heapq.heappush(self._looks, (at, name))

    @staticmethod
    def _next_look(node: Node, now: float) -> float:
        """When a node looks at the clock next: it needs no more for its heartbeats, and a parent for its pause."""
        serving = node.serving
        if node.settings.sort == "device":
            return now + min(max(TICK, serving.beating.silence.times.heartbeat / LOOKS), MOST_SECONDS)
        asks_at = serving.asks_at
        return now + TICK if serving.is_awaited else now + QUIET if asks_at is None else min(now + QUIET, max(asks_at, now))

    def _work(self, name: str) -> None:
        """Lets a node take all that has come. One that fails ends, and the others go on."""
        node = self.nodes.get(name)
        if node is None:
            return
        try:
            node.turn()
            self._plan(name, self._next_look(node, clock.now()))
        except Exception as error:  # noqa: BLE001 - whatever is wrong with one node, the others go on
            why = str(error) if isinstance(error, LiveError | OSError) else f"{type(error).__name__}: {error}"
            self._log.of_node(name).error(f"it ends: {why}")
            del self.nodes[name]
            self._end_node(node, why)

    def _end_node(self, node: Node, why: str) -> None:
        try:
            node.end(why)
        except Exception as error:  # noqa: BLE001 - the others go on
            self._log.of_node(node.settings.name).error(str(error))

    def _end(self, why: str) -> None:
        """Ends all nodes and the site, and waits until the broker has what they said last."""
        for node in self.nodes.values():
            self._end_node(node, "stopped")
        self._connection.say_down(why)
        end = clock.now() + LAST_SECONDS
        while self._connection.is_there and self._connection.unconfirmed and clock.now() < end:
            self._loop.turn(TICK)
            self._connection.tick(clock.now())
        self._connection.close()
        self._loop.close()


def files_of(sorts: Iterable[Sort]) -> int:
    """How many files a site has open that has nodes of these sorts."""
    return FILES + sum(FILES_OF_DEVICE if sort == "device" else FILES_OF_PARENT for sort in sorts)


def require_files(nodes: Sequence[Settings]) -> None:
    """Lets these nodes have their open files. Raises LiveError if the system allows too few."""
    needed = files_of(node.sort for node in nodes)
    soft, hard = resource.getrlimit(resource.RLIMIT_NOFILE)
    if hard != resource.RLIM_INFINITY and hard < needed:
        raise LiveError(f"{len(nodes)} nodes need {needed} open files, and {hard} are allowed: raise LimitNOFILE of the unit, or ulimit -n")
    if soft != resource.RLIM_INFINITY and soft < needed:
        resource.setrlimit(resource.RLIMIT_NOFILE, (needed, hard))
