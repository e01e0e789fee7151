"""What can go wrong at a node of the live market, each cause an exception of its own."""

from __future__ import annotations

from ...errors import MarketError


class LiveError(MarketError):
    """The base of the errors of `cogmaula.live`."""


class BadSettings(LiveError):
    """A setting of a node is missing, unknown or out of its limits. The message names it."""


class BadFrame(LiveError):
    """Bytes are no frame of docs/RELAY.md that may come there. The message says why."""


class BadMessage(LiveError):
    """A message that is no frame, such as an offer in JSON, is not what it should be. The message says why."""


class BadStore(LiveError):
    """A stored Resume is damaged, or in use by another process. The message says what to do."""


class NodeRefused(LiveError):
    """The node must not go on until a person has looked: another basis, another process of its name, a lost Resume."""


class OtherTerms(NodeRefused):
    """The stored Resume is of other limits, another place of limits or another basis than the node's settings, or of another version."""
