"""Why the hub refuses a login or ends a connection, each cause an exception of its own."""

from __future__ import annotations

from ..live.node.node_errors import BadMessage, LiveError
from .agent_messages import LONGEST


class LineTooLong(LiveError):
    """A line or a message is longer than the hub takes."""

    def __init__(self) -> None:
        super().__init__(f"the line is above {LONGEST} bytes: the connection ends")


class NoLogin(BadMessage):
    """No login came in time."""


class WrongLogin(BadMessage):
    """The agent is not known, or the token is not its own."""


class TooManyWrongLogins(WrongLogin):
    """The same, after others of the same address."""


class NodeDown(LiveError):
    """The node of an agent does not start."""
