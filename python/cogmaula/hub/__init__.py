"""A hub: one whole market in one process, for agents that connect by WebSocket or TCP. docs/HUB.md says how to run one.

    from cogmaula.hub import Hub, hub_settings_of, read_hub_toml

    Hub(hub_settings_of(read_hub_toml("hub.toml"))).run()

With an `Exchange` two or more nodes of `cogmaula.live` run a market in one process without a broker.
"""

from .exchange import Exchange
from .hub import Hub
from .hub_settings import HubSettings, hub_settings_of, read_hub_toml
from .tokens import TokenFile

__all__ = ["Exchange", "Hub", "HubSettings", "TokenFile", "hub_settings_of", "read_hub_toml"]
