"""The page of a hub: the whole market, as the hub's exchange has it. docs/OPERATE.md says what it shows."""

from __future__ import annotations

from collections.abc import Callable

from ..errors import NoPackage
from ..live.page.board import Board
from ..live.node.counting import NodeFacts
from ..live.page.market_page import Page
from ..live.page.page_settings import PageSettings
from ..logs import NodeLog
from .exchange import Exchange

# The seconds in which the page has to end.
LAST_SECONDS = 1.0


class HubPageFeed:
    """Shows the market of an exchange. No call raises or waits for long: what is wrong with the page is a line."""

    def __init__(
        self,
        settings: PageSettings | None,
        prefix: str,
        exchange: Exchange,
        log: NodeLog,
        facts: Callable[[], list[NodeFacts]],
        note: str = "",
    ) -> None:
        """Takes the settings, the prefix of the market's topics, the exchange, a log, and what the nodes tell of themselves.

        note: what the page has to say of the market. Without settings there is no page.
        """
        self._exchange = exchange
        self._page: Page | None = None
        if settings is None:
            return
        self._board = Board(log := log.of_part("page"))
        try:
            self._page = Page(settings, prefix, self._board, log, facts=facts, note=note)
        except NoPackage as error:
            log.error(str(error))

    def start(self) -> None:
        """Serves from now on, if there is a page. To be called before the first message."""
        if self._page is not None:
            self._page.start()
            self._exchange.watch(lambda message: self._board.take([message]))
            self._board.settled()

    def close(self) -> None:
        """Ends the page."""
        if self._page is not None:
            self._page.close(LAST_SECONDS)

    @property
    def port(self) -> int:
        """The port that the page is served at, 0 before that and without a page."""
        return 0 if self._page is None else self._page.port
