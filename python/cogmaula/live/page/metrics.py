"""The metrics of a node and of the market that it shows, as Prometheus reads them. docs/OPERATE.md says where to scrape."""

from __future__ import annotations

from collections.abc import Iterable, Iterator, Sequence
from typing import Any

from ...errors import NoPackage
from ...version import __version__, commit
from ..node.counting import NodeFacts
from ..node.node_errors import BadMessage
from ..node.sessions import time_of
from .view import MarketView, NodeView

# Of each metric its kind, its labels beside the node, and what it is.
OF_NODE: dict[str, tuple[str, tuple[str, ...], str]] = {
    "market_clearings": ("counter", (), "Clearings of an auctioneer since its process started"),
    "market_bids": ("counter", ("outcome",), "What the service said of bids since the process started"),
    "market_prices": ("counter", ("outcome",), "What the service said of prices since the process started"),
    "market_service_restarts": ("counter", (), "How often the node's service has ended since the process started"),
    "market_stores": ("counter", (), "How often the node made something safe on disk"),
    "market_store_seconds": ("counter", (), "The seconds that this took in all"),
    "market_service_up": ("gauge", (), "Whether the node's service runs"),
    "market_connected": ("gauge", (), "Whether the node's broker is there"),
    "market_children_waiting": ("gauge", (), "How many children a restarted parent waits for"),
    "market_children_lapsed": ("gauge", (), "How many children are let go"),
    "market_heartbeat_timestamp_seconds": ("gauge", (), "When the node made or heard the newest heartbeat, by its own clock"),
    "market_loop_age_seconds": ("gauge", (), "The seconds since the node's loop turned last"),
}
OF_MARKET: dict[str, tuple[str, tuple[str, ...], str]] = {
    "market_node_up": ("gauge", ("sort", "parent"), "Whether a node says that it is up"),
    "market_node_silent": ("gauge", (), "Whether a node hears no heartbeat"),
    "market_node_lapsed": ("gauge", (), "Whether a node is let go by its parent"),
    "market_node_alarm": ("gauge", (), "Whether a relay cannot keep its limits, or hears prices of another basis"),
    "market_node_bid_answered": ("gauge", (), "Whether a price answers the node's newest bid"),
    "market_power_watts": ("gauge", (), "The power of a node; of a relay, the sum of what is below"),
    "market_floor_watts": ("gauge", (), "The least power that a relay announces"),
    "market_ceiling_watts": ("gauge", (), "The greatest power that a relay announces"),
    "market_price": ("gauge", (), "The newest price of a node, in price units"),
    "market_price_timestamp_seconds": ("gauge", (), "When the market cleared for that price"),
    "market_clearing": ("gauge", (), "The index of the clearing of that price"),
}
OF_PAGE: dict[str, tuple[str, tuple[str, ...], str]] = {
    "market_build_info": ("gauge", ("version", "commit"), "1, with the version and the commit of the program"),
    "market_page_connected": ("gauge", (), "Whether the page hears the market"),
    "market_messages_not_taken": ("gauge", (), "How many messages are not what their topics hold"),
}
ALL = OF_NODE | OF_MARKET | OF_PAGE

Sample = tuple[str, tuple[str, ...], float]


def prometheus_package() -> Any:
    """The package prometheus_client. Raises NoPackage if it is not installed."""
    try:
        import prometheus_client.core
    except ImportError:
        raise NoPackage("metrics need the package prometheus_client (Debian: python3-prometheus-client)") from None
    return prometheus_client


def metrics_bytes(view: MarketView | None, is_connected: bool, facts: Sequence[NodeFacts]) -> bytes:
    """All metrics, in the text format of Prometheus. Raises NoPackage.

    view:         the market that the page shows, None if it cannot be shown
    is_connected: whether the page hears the market
    facts:        what the nodes of this process tell of themselves
    """
    package = prometheus_package()
    samples: list[Sample] = [("market_page_connected", (), float(is_connected))]
    samples.append(("market_build_info", (__version__, commit()), 1.0))
    for facts_of_node in facts:
        samples += _of_facts(facts_of_node)
    if view is not None:
        samples.append(("market_messages_not_taken", (), float(len(view.not_taken))))
        for node in view.nodes:
            samples += _of_view(node)
    registry = package.CollectorRegistry()
    registry.register(_Collector(package, samples))
    return bytes(package.generate_latest(registry))


class _Collector:
    """Gives samples to the package, each metric once."""

    def __init__(self, package: Any, samples: Iterable[Sample]) -> None:
        self._package = package
        self._samples: dict[str, list[tuple[tuple[str, ...], float]]] = {}
        for name, labels, value in samples:
            self._samples.setdefault(name, []).append((labels, value))

    def describe(self) -> list[Any]:
        """Nothing: what there is differs from time to time."""
        return []

    def collect(self) -> Iterator[Any]:
        """The metrics that have samples."""
        for name, found in self._samples.items():
            kind, more, what = ALL[name]
            labels = [*more] if name in OF_PAGE else ["node", *more]
            core = self._package.core
            family = (core.CounterMetricFamily if kind == "counter" else core.GaugeMetricFamily)(name, what, labels=labels)
            for values, number in found:
                family.add_metric(values, number)
            yield family


def _seconds_of(text: str | None) -> float | None:
    """A time as seconds since 1970, None if it is none."""
    try:
        return time_of(text or "").timestamp()
    except BadMessage:
        return None


def _of_facts(facts: NodeFacts) -> Iterator[Sample]:
    node, counts = (facts.node,), facts.counts
    yield "market_clearings", node, counts.clearings
    for outcome, number in counts.bids.items():
        yield "market_bids", (*node, outcome), number
    for outcome, number in counts.prices.items():
        yield "market_prices", (*node, outcome), number
    numbers = {
        "market_service_restarts": counts.restarts,
        "market_stores": facts.stores,
        "market_store_seconds": facts.store_seconds,
        "market_service_up": not facts.why_down,
        "market_connected": facts.is_connected,
        "market_children_waiting": counts.waiting,
        "market_children_lapsed": facts.lapsed,
        "market_heartbeat_timestamp_seconds": _seconds_of(facts.heartbeat),
        "market_loop_age_seconds": facts.loop_age,
    }
    yield from ((name, node, float(value)) for name, value in numbers.items() if value is not None)


def _of_view(view: NodeView) -> Iterator[Sample]:
    node = (view.name if view.name is not None else f"{view.parent}/{view.child}",)
    if view.state is not None:
        yield "market_node_up", (*node, view.sort or "", view.parent or ""), float(view.state == "up")
    price = view.price
    numbers = {
        "market_node_silent": None if view.state is None else view.silent is not None,
        "market_node_lapsed": view.lapsed is not None,
        "market_node_alarm": None if view.state is None else bool(view.alarm),
        "market_node_bid_answered": None if view.bid is None or view.bid.is_gone else view.bid.is_answered,
        "market_power_watts": None if view.power is None else view.power.power,
        "market_floor_watts": view.floor,
        "market_ceiling_watts": view.ceiling,
        "market_price": None if price is None else price.price,
        "market_price_timestamp_seconds": None if price is None else _seconds_of(price.time),
        "market_clearing": None if price is None else price.clearing,
    }
    yield from ((name, node, float(value)) for name, value in numbers.items() if value is not None)
