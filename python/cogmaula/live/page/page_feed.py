"""How a node shows its market on a page: what it hears, or the whole market by a connection that reads all."""

from __future__ import annotations

from collections.abc import Callable, Iterable
from dataclasses import replace

from ...errors import MarketError
from ...logs import NodeLog
from .board import Board
from ..broker.broker_link import Message
from ..node.counting import NodeFacts
from .market_page import Page
from .page_settings import PageSettings
from ..broker.market_reader import Reader
from ..node.node_settings import BrokerSettings, Settings


def reading_settings(page: PageSettings, broker: BrokerSettings) -> BrokerSettings:
    """How a connection that reads the whole market reaches the broker: by its own login, or else by that of the node."""
    return broker if page.user is None else replace(broker, user=page.user, password_file=page.password_file)


class PageFeed:
    """The page of a node. No call raises or waits for long: what is wrong with the page is a line."""

    def __init__(self, settings: Settings, log: NodeLog, facts: Callable[[], list[NodeFacts]] = list) -> None:
        """Takes the settings of the node, a log, and what the node tells of itself. Without a page in them there is none."""
        log_of_page = log.of_part("page")
        self._board = Board(log)
        self._page: Page | None = None
        self._reader: Reader | None = None
        page, broker = settings.page, settings.broker
        if page is None:
            return
        try:
            own = None if page.whole else settings.name
            self._page = Page(page, broker.prefix, self._board, log_of_page, own, facts)
            if page.whole:
                client_id = f"cogmaula.{broker.prefix.replace('/', '.')}.{settings.name}.page"
                self._reader = Reader(reading_settings(page, broker), client_id, self._board, log_of_page)
        except (MarketError, OSError) as error:
            self._page = None
            log_of_page.error(str(error))

    def start(self) -> None:
        """Serves from now on, if there is a page."""
        if self._page is not None:
            self._page.start()
        if self._reader is not None:
            self._reader.start()

    def take(self, messages: Iterable[Message]) -> None:
        """Takes what the node has heard."""
        if self._page is not None and self._reader is None:
            self._board.take(messages)

    def tick(self, is_settled: bool) -> None:
        """Takes whether the node's own connection is there."""
        if self._page is not None and self._reader is None:
            (self._board.settled if is_settled else self._board.lost)()

    def close(self, seconds: float) -> None:
        """Ends the page, within so many seconds."""
        if self._reader is not None:
            self._reader.close(seconds / 2)
        if self._page is not None:
            self._page.close(seconds / 2)

    @property
    def port(self) -> int:
        """The port that the page is served at, 0 before that and without a page."""
        return 0 if self._page is None else self._page.port
