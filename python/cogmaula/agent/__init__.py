"""An agent of a real device: a control that reads its state, bids by a model, and writes the power that the market tells.

    from cogmaula.agent import Agent, read_agent_toml

    Agent(read_agent_toml("battery.toml"), print).run()

docs/DEVICES.md says how to write the settings.
"""

from .guard import Guard, Limits
from .running import Agent
from .agent_settings import AgentSettings, agent_settings_of, read_agent_toml

__all__ = ["Agent", "AgentSettings", "Guard", "Limits", "agent_settings_of", "read_agent_toml"]
