"""The bill of a cluster file, worked out from the file and the report of its run, and from nothing of the program."""

import json
from collections import defaultdict


def ends_of(report):
    """Of each phase's end in a report: its price, the powers of its members, and of each limited part its price and sum."""
    ends = []
    for words in map(str.split, report.splitlines()):
        if words[0] == "phase":
            ends.append((int(words[3]), {}, {}))
        elif words[0] == "member":
            ends[-1][1][words[1]] = int(words[3])
        elif words[0] == "limited":
            ends[-1][2][words[1]] = (int(words[3]), int(words[7]))
    return ends


def part_of(name, nodes):
    """The limited concentrator above a node, or None."""
    above = nodes[name].get("parent", "auctioneer")
    while above != "auctioneer":
        if nodes[above]["kind"] == "limited":
            return above
        above = nodes[above]["parent"]
    return None


class Account:
    def __init__(self):
        self.amount = self.taken = self.given = 0

    def add(self, cost, power, minutes):
        """So much power over so many minutes, each of which costs so much."""
        self.amount += cost * minutes
        self.taken += max(power, 0) * minutes
        self.given += max(-power, 0) * minutes

    def __str__(self):
        return f"amount {self.amount} taken {self.taken} given {self.given}"


def charge(accounts, grid, end, nodes, minutes):
    """Adds a tick that begins at this end of a phase."""
    price, members, limited = end
    sums = defaultdict(int)
    for name, power in members.items():
        part = part_of(name, nodes)
        own_price = limited[part][0] if part else price
        accounts[name].add(own_price * power, power, minutes)
        sums[part] += power
    groups = [(price, sums[None]), *limited.values()]
    grid.add(-sum(price * power for price, power in groups), -sum(members.values()), minutes)


def bill_of(file, report):
    """The text that `bill` has to give for a cluster file with this report."""
    scene = json.loads(file)
    nodes = {node["name"]: node for node in scene["nodes"]}
    accounts = {name: Account() for name, node in nodes.items() if node["kind"] not in ("concentrator", "limited")}
    grid, ticks = Account(), [phase["tick"] for phase in scene["phases"] if "tick" in phase]
    ends = [(0, {}, {}), *ends_of(report)]
    for end, phase in zip(ends, scene["phases"]):
        if "tick" in phase:
            charge(accounts, grid, end, nodes, phase["tick"])
    lines = [f"account {name} {account}" for name, account in accounts.items()]
    return "\n".join([*lines, f"grid {grid}", f"ticks {len(ticks)} minutes {sum(ticks)}", ""])
