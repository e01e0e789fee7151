#!/usr/bin/env python3
"""Makes a cluster file and a long legal trace of it, by docs/PROTOCOL.md and docs/CLUSTER_FILE.md alone.

    python3 bench/make_trace.py FOLDER [DEVICES [PHASES [EVENTS]]]

In FOLDER it writes `star.json`, the file, and `star.check`, the envelope of it and of the trace that `market check` reads.
All devices stand under the auctioneer and join in phase 1; in each later phase so many events set the load or the panel of
one device each. A clearing behind each event is passed to every device, so that nearly all moves are passes: with 256
devices and 1000 phases of 16 events 4,141,625 moves, 139 MB. The next device changes while a price is on its way, so
that this price answers an older bid of it. The last device is manual and bends with the price; the others take or deliver
the same at every price, so that their sum says at which step the market clears. The same numbers give the same bytes.
"""

import json
import os
import random
import sys
from bisect import bisect_left

SEED = 5
STEPS = 1000
# Watts: the most that a load takes or a panel delivers, and for each of them what the manual device bends by.
MOST = 2_000
BEND = 1_000


def flexible_points(devices):
    """The points of the manual device, from the first price to the last, in watts."""
    return [[0, BEND * devices], [STEPS - 1, -BEND * devices]]


def flexible_demands(devices):
    """What the manual device takes at each step, which is the price, in watts."""
    (low, first), (high, last) = flexible_points(devices)
    return [first + (last - first) * (price - low) // (high - low) for price in range(STEPS)]


class Star:
    """A cluster of a manual device and of loads and panels in turn, all under the auctioneer."""

    def __init__(self, devices, phases, events):
        self.chance = random.Random(SEED)
        self.names = [f"d{number}" for number in range(1, devices + 1)]
        self.fixed = range(devices - 1)
        self.starts = [self.chance.randint(0, MOST) for _ in self.fixed]
        # The device and its new number, for each event of each phase but the first.
        self.phases = [self.draw_events(events) for _ in range(1, phases)]
        self.demands = flexible_demands(devices)
        # What the manual device delivers at each step, which never falls.
        self.given = [-demand for demand in self.demands]

    def draw_events(self, events):
        return [(self.chance.choice(self.fixed), self.chance.randint(0, MOST)) for _ in range(events)]

    def file(self):
        """The cluster file."""
        kinds = ("load", "solar")
        nodes = [{"name": self.names[number], "kind": kinds[number % 2], "parent": "auctioneer", "start": start}
                 for number, start in enumerate(self.starts)]
        flexible = {"name": self.names[-1], "kind": "manual", "parent": "auctioneer", "points": flexible_points(len(self.names))}
        phases = [{"events": [{"join": name} for name in self.names]}]
        phases += [{"events": [{"state": self.names[event], "value": value} for event, value in events]} for events in self.phases]
        basis = {"min": 0, "max": STEPS - 1, "steps": STEPS}
        return {"version": 1, "basis": basis, "nodes": [*nodes, flexible], "phases": phases}

    def power(self, device, value):
        """The power of a load or of a panel, in watts."""
        return -value if device % 2 else value

    def step(self, fixed):
        """The step that clears if the devices that do not bend take so much."""
        return min(bisect_left(self.given, fixed), STEPS - 1)


class Run:
    """A run of the cluster: the lines of its report and of its moves so far."""

    def __init__(self, star):
        self.star = star
        self.powers = [star.power(*pair) for pair in enumerate(star.starts)]
        # How many changes each device made, and how many of them the auctioneer learnt.
        self.made, self.learnt = [0] * len(star.names), [0] * len(star.names)
        self.clearings, self.changes = 0, 0
        self.report, self.moves = [], []

    def change(self, device):
        self.made[device] += 1
        self.changes += 1
        self.moves.append(f"change {self.star.names[device]} {self.made[device]}\n")

    def learn(self, device):
        self.learnt[device] = self.made[device]
        self.moves.append(f"learn auctioneer {self.star.names[device]} {self.learnt[device]}\n")

    def clear(self):
        """Clears over what is learnt; `powers` has just that. The step."""
        self.clearings += 1
        self.moves.append(f"clear {self.clearings}\n")
        return self.star.step(sum(self.powers))

    def pass_all(self, step):
        """Passes the last clearing to every device."""
        told = f" {self.clearings} price {step} bid "
        self.moves += [f"pass {name}{told}{number}\n" for name, number in zip(self.star.names, self.learnt)]

    def close(self, phase, step):
        """Closes a phase, and reports it."""
        self.moves.append(f"close {phase}\n")
        powers = [*self.powers, self.star.demands[step]]
        self.report.append(f"phase {phase} price {step} step {step} total {sum(powers)} members {len(powers)}\n")
        self.report += [f"member {name} power {power} bid {number}\n"
                        for name, power, number in zip(self.star.names, powers, self.made)]

    def join_all(self):
        """Phase 1: all devices join, and are cleared together."""
        for device in range(len(self.star.names)):
            self.change(device)
            self.learn(device)
        step = self.clear()
        self.pass_all(step)
        self.close(1, step)
        return step

    def set_each(self, phase, events, step):
        """A phase of events, each of which is cleared before the next is learnt; `step` is that of the last clearing."""
        if events:
            self.change(events[0][0])
        for (device, value), following in zip(events, [*events[1:], None]):
            self.learn(device)
            self.powers[device] = self.star.power(device, value)
            step = self.clear()
            if following:
                self.change(following[0])
            self.pass_all(step)
        self.close(phase, step)
        return step


def trace_of(star):
    """The trace of a run, line by line."""
    run = Run(star)
    step = run.join_all()
    for phase, events in enumerate(star.phases, 2):
        step = run.set_each(phase, events, step)
    end = f"end phases {len(star.phases) + 1} changes {run.changes}\n"
    return [*run.report, end, *run.moves, f"moves {len(run.moves)}\n"]


def main(folder, devices=256, phases=1000, events=16):
    star = Star(devices, phases, events)
    file = json.dumps(star.file(), separators=(",", ":"))
    with open(os.path.join(folder, "star.json"), "w", encoding="ascii") as target:
        target.write(file)
    with open(os.path.join(folder, "star.check"), "w", encoding="ascii") as target:
        target.write(f"{len(file)}\n{file}")
        target.writelines(trace_of(star))


if __name__ == "__main__":
    main(sys.argv[1], *map(int, sys.argv[2:]))
