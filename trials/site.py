"""The site that trials add to the market of the example: two further devices of the street, in one process of one machine."""

import json

SITE = "block"
NODES = {"barn": "device", "shed": "device"}
TEXT = "".join(f'\n[devices.{name}]\nparent = "street"\nleast = -1000\ngreatest = 1000\ncontrol = true\n' for name in NODES)
TEXT += f"\n[sites.{SITE}]\nnodes = {json.dumps(list(NODES))}\n"
# What each device of it takes at each price, in watts.
POWER = 50


def is_up(state, site):
    """Whether a node is up, by its state and that of its site."""
    lives = state.get("site") is None or (site.get("state"), site.get("run")) == ("up", state["run"])
    return state.get("state") == "up" and lives
