"""The states of other nodes as the broker tells them: each by its own topic, and those of a site's nodes by that of the site too."""

from __future__ import annotations

from collections.abc import Callable

from ..broker.broker_link import Message
from ..messages.messages import SiteMessage, StateMessage
from .node_errors import BadSettings
from ..messages.topics import Topics, require_name

# The most sites that are read of those which one node names, one after the other.
SITES = 4


class NodeStates:
    """The newest states of some nodes and of their sites. All calls are of one thread."""

    def __init__(self, topics: Topics, also_read: Callable[[str], None]) -> None:
        """Knows none yet. `also_read` reads one more topic from now on: the state of a site that a node names."""
        self._topics = topics
        self._also_read = also_read
        self._states: dict[str, StateMessage] = {}
        self._sites: dict[str, SiteMessage] = {}
        self._named: dict[str, set[str]] = {}

    def take(self, message: Message) -> dict[str, StateMessage | None]:
        """Takes the state of a node or of a site. Gives the state of each node that it tells, None if it is cleared. Raises BadMessage."""
        name, word, _ = self._topics.parts_of(message.topic) or ("", "", None)
        if word == "site":
            return self._take_site(name, message.payload)
        if word != "state":
            return {}
        if not message.payload:
            self._states.pop(name, None)
            return {name: None}
        state = self._states[name] = StateMessage.of(message.payload)
        self._read_site(name, state.site)
        return {name: self._seen(state)}

    def _take_site(self, site: str, payload: bytes) -> dict[str, StateMessage | None]:
        if payload:
            self._sites[site] = SiteMessage.of(payload)
        else:
            self._sites.pop(site, None)
        return {name: self._seen(state) for name, state in self._states.items() if state.site == site}

    def _seen(self, state: StateMessage) -> StateMessage:
        """A node's state, beside that of its site."""
        site = None if state.site is None else self._sites.get(state.site)
        return state if site is None else site.state_of(state)

    def _read_site(self, name: str, site: str | None) -> None:
        """Reads the site that a node names, unless it has named too many."""
        named = self._named.setdefault(name, set())
        if site is None or site in named or len(named) >= SITES:
            return
        named.add(site)
        try:
            self._also_read(self._topics.site(require_name(site, "site")))
        except BadSettings:
            # No site has such a name, so no state of it comes.
            pass
