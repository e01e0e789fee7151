"""Which connections the hub has: how many in all and of one address may wait for their login, and how many files are left for them.

A connection is a guest from when it is accepted until it ends. One that has not logged in waits. If too many wait, the one that has
waited longest ends, of the address of which most wait. So who connects without a login ends connections of the own address first,
and a new one always has its try.
"""

from __future__ import annotations

import ipaddress
import resource
from collections.abc import Callable

# The most guests, those of them that may wait, and those of one address.
GUESTS, WAITING, WAITING_OF_ADDRESS = 1_024, 512, 256
# The files of the hub itself, and those of an agent's node: its service, its folder, its recording, and two while it stores or starts.
OWN_FILES, FILES_OF_AGENT = 64, 6
# The bits of an address of IPv6 that a whole network shares.
NETWORK = 64


def network_of(host: str) -> str:
    """What counts as one address: the address, or of IPv6 the network of 64 bits."""
    try:
        found = ipaddress.ip_address(host.partition("%")[0])
    except ValueError:
        return host
    if isinstance(found, ipaddress.IPv6Address):
        mapped = found.ipv4_mapped
        return str(ipaddress.ip_network((found, NETWORK), strict=False)) if mapped is None else str(mapped)
    return str(found)


def files_allowed() -> int:
    """How many files this process may open."""
    least, _ = resource.getrlimit(resource.RLIMIT_NOFILE)
    return 1 << 30 if least == resource.RLIM_INFINITY else least


class Guest:
    """A connection that was accepted."""

    def __init__(self, host: str, end: Callable[[], object]) -> None:
        """Takes the host of the other side, and a call that ends the connection at once."""
        self.network = network_of(host)
        self.end = end


class Admission:
    """The guests of a hub. All calls are of the thread of the hub's loop."""

    def __init__(self, files: int) -> None:
        """Takes the files that the process may open."""
        self._files = files
        self._guests: set[Guest] = set()
        # Those that wait, by their network, in the order in which they came.
        self._waiting: dict[str, dict[Guest, None]] = {}
        # The agents that have a node, and how many guests have gone so far.
        self.agents = self.ended = 0

    @property
    def room(self) -> int:
        """How many guests there may be: the files of all nodes are kept free."""
        return min(GUESTS, self._files - OWN_FILES - FILES_OF_AGENT * self.agents)

    def files_lacking(self, agents: int) -> int:
        """How many more files are needed for so many agents, each with its node and its connection, and some that wait."""
        return max(0, OWN_FILES + (FILES_OF_AGENT + 2) * agents - self._files)

    def enter(self, guest: Guest) -> bool:
        """Takes a guest, which then waits. Gives whether another one had to end for it, or it itself."""
        self._guests.add(guest)
        self._waiting.setdefault(guest.network, {})[guest] = None
        one = self._one_too_many(guest.network)
        if one is None:
            return False
        # It counts no more from now on, also if its end takes a moment.
        self.leave(one)
        one.end()
        return True

    def admit(self, guest: Guest) -> None:
        """Notes that a guest has logged in."""
        waiting = self._waiting.get(guest.network, {})
        waiting.pop(guest, None)
        if not waiting:
            self._waiting.pop(guest.network, None)

    def leave(self, guest: Guest) -> None:
        """Notes that a guest has gone."""
        if guest in self._guests:
            self.admit(guest)
            self._guests.remove(guest)
            self.ended += 1

    def _one_too_many(self, network: str) -> Guest | None:
        """The guest that has to end, if there are too many."""
        if len(self._waiting[network]) > WAITING_OF_ADDRESS:
            return next(iter(self._waiting[network]))
        if len(self._guests) <= self.room and sum(map(len, self._waiting.values())) <= WAITING:
            return None
        most: dict[Guest, None] = max(self._waiting.values(), key=lambda guests: len(guests))
        return next(iter(most))
