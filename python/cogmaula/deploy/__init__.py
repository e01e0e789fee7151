"""Makes all files of a market over a broker from one that names its tree, machines and limits. docs/OPERATE.md says how.

    from cogmaula.deploy import init_market, read_tree

    init_market(read_tree("TREE.toml"), Path("market"))
"""

from ..live.node.node_errors import BadSettings
from .market_files import add_device, fence_settings, init_market, renumber_device, revoke_login, rotate_login
from .market_file import Login, Member, Tree, read_tree

__all__ = [
    "BadSettings", "Login", "Member", "Tree", "add_device", "fence_settings", "init_market", "read_tree", "renumber_device", "revoke_login",
    "rotate_login",
]
