"""A node at work in a thread of its own, and why it ended."""

from __future__ import annotations

import threading
from collections.abc import Callable

from ..live.node.node_errors import LiveError
from ..live.node.node import Node


class Running:
    """A node from its start to its end."""

    def __init__(self, node: Node, at_end: Callable[[Running], object]) -> None:
        """Starts the node. `at_end` is called with this in the node's thread once it has ended."""
        self.node = node
        # Why the node ended, None if it was stopped.
        self.error: LiveError | OSError | None = None
        self._at_end = at_end
        self._thread = threading.Thread(target=self._work, name=node.settings.name, daemon=True)
        self._thread.start()

    def _work(self) -> None:
        try:
            self.node.run()
        except (LiveError, OSError) as error:
            self.error = error
        finally:
            self._at_end(self)

    @property
    def is_alive(self) -> bool:
        """Whether the node works."""
        return self._thread.is_alive()

    def stop(self) -> None:
        """Lets the node end."""
        self.node.stop()

    def join(self, seconds: float) -> None:
        """Waits for the end, at most so many seconds."""
        self._thread.join(seconds)
