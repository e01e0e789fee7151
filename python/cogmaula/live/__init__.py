"""Nodes of a market across machines, joined to an MQTT broker. docs/LIVE.md says how to run one.

    from cogmaula.live import make_node, read_toml, settings_of

    make_node(settings_of("relay", read_toml("street.toml"))).run()

What is proved is the service, the program `live` (docs/RELAY.md). This package carries its frames, and is tested.
"""

from .device.control import Control, StandardControl
from .node.node_errors import BadFrame, BadMessage, BadSettings, BadStore, LiveError, NodeRefused, OtherTerms
from .node.node import Node, make_node
from .page.page_settings import PageSettings
from .node.node_settings import BrokerSettings, ChildSettings, Settings, read_toml, settings_of

__all__ = [
    "BadFrame",
    "BadMessage",
    "BadSettings",
    "BadStore",
    "BrokerSettings",
    "ChildSettings",
    "Control",
    "LiveError",
    "Node",
    "NodeRefused",
    "OtherTerms",
    "PageSettings",
    "Settings",
    "StandardControl",
    "make_node",
    "read_toml",
    "settings_of",
]
