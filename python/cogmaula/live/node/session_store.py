"""What a node has stored of its session, on its disk."""

from __future__ import annotations

from dataclasses import replace
from typing import Any

from .store import Store, Stored


class SessionStore:
    """The stored state of one node in one session. All calls are of the node's one thread."""

    def __init__(self, store: Store, stored: Stored) -> None:
        """Takes the node's disk, and what that has of the session."""
        self._store = store
        # What is stored, or noted and stored with the next change.
        self.stored = stored
        self._is_safe = True

    def change(self, **members: Any) -> None:
        """Stores other members of `Stored`, safely. Raises OSError, and then the node has to end."""
        self.note(**members)
        self.make_safe()

    def note(self, **members: Any) -> None:
        """Notes other members of `Stored`, which are stored with the next change: those that may be lost with the process."""
        self.stored = replace(self.stored, **members)
        self._is_safe = False

    def make_safe(self) -> None:
        """Stores what was noted. Raises OSError, and then the node has to end."""
        if not self._is_safe:
            self._store.save(self.stored)
            self._is_safe = True
