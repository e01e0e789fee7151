"""What each login may subscribe to, for mosquitto's plugin of dynamic security.

mosquitto's list of rights says who may read and write a topic, and lets anybody subscribe to all:
subscriptions to long topics fill its memory, also over a restart. So a device and a control
may subscribe to what they may read, and to nothing else. The plugin defers passwords and all other
rights to the broker's files. It reads its own file at the broker's start alone, so it has no login
whose rights change when the tree grows: neither parents nor sites.
"""

from __future__ import annotations

import json
from pathlib import Path

from .market_file import CONTROL, Tree

NAME = "mosquitto_dynamic_security.so"
FALLBACK = f"/usr/lib/x86_64-linux-gnu/{NAME}"


def plugin_path() -> str:
    """The plugin of this machine, or where Debian has it on most."""
    return next((str(path) for path in sorted(Path("/usr/lib").glob(f"*/{NAME}"))), FALLBACK)


def subscriptions_text(tree: Tree) -> str:
    """The plugin's file: a role for each login that allows its subscriptions and refuses others."""
    clients, roles = [], []
    devices = {member.name for member in tree.alone if member.sort == "device"}
    for login, rights in tree.rights().items():
        if login not in devices and not login.endswith(CONTROL):
            continue
        topics = [right.topic for right in rights if right.access != "write"]
        acls = [
            {"acltype": "subscribePattern", "topic": topic, "priority": 1, "allow": True}
            for topic in topics
        ]
        acls.append({"acltype": "subscribePattern", "topic": "#", "priority": 0, "allow": False})
        roles.append({"rolename": login, "acls": acls})
        clients.append({"username": login, "roles": [{"rolename": login}]})
    access = {
        "publishClientSend": False,
        "publishClientReceive": False,
        "subscribe": False,
        "unsubscribe": True,
    }
    return (
        json.dumps(
            {"defaultACLAccess": access, "clients": clients, "groups": [], "roles": roles}, indent=1
        )
        + "\n"
    )
