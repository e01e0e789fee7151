"""The kinds of node that a cluster file may have, from cluster.schema.json: of each its members, and the limits of each number.

The schema is the one place outside the crates that has them; `checks/run places` compares it with the code.
"""

import json

from checks import SCHEMA, TOP

COMMON = {"name", "kind", "parent"}


def forms():
    """The forms of a node in the schema, each with its kind and its further members."""
    for form in json.loads((TOP / SCHEMA).read_text())["$defs"].values():
        kind = form.get("properties", {}).get("kind", {})
        if "const" in kind:
            yield kind["const"], {name: value for name, value in form["properties"].items() if name not in COMMON}


def kinds():
    """The numbers of each kind with their limits. Of a manual device one of several lists is chosen, so it has none."""
    return {
        kind: {name: (member["minimum"], member["maximum"]) for name, member in members.items() if "minimum" in member}
        for kind, members in forms()
    }
