"""What a network of nodes has to tell: plain auctions over what was offered, which know no message, window or restart.

An even number of a device stands for an offer, or for its leaving; an odd one is its parent's, and stands for leaving alone. A
number of a giver stands for limits of the relay that is its parent. A number of a relay stands for the numbers of its children that
went into it, and the index of a clearing for those of the auctioneer's children. So each index stands for one offer of each device
and for the limits of each relay.
"""

from dataclasses import dataclass, field

from checks.facts import WINDOW_SIZE
from checks.oracle.auction import clearing_step
from checks.oracle.frames import MOST

# How many numbers of a relay may be unanswered.
WINDOW = WINDOW_SIZE
AUCTIONEER, RELAY, DEVICE, GIVER = "auctioneer", "relay", "device", "giver"


@dataclass
class Place:
    """A node of a tree: where it is in the list, its parent, its number there, how many nodes are above it, its first limits, and
    where its children are, by their numbers. A giver is a child of a relay that gives its limits, and no node of its own."""

    at: int
    kind: str
    parent: int
    child: int
    depth: int
    floor: int = 0
    ceiling: int = 0
    children: dict = field(default_factory=dict)
    giver: int = 0

    def __str__(self):
        return f"{self.kind} {self.at}"

    def arguments(self):
        """The arguments of the node's command."""
        if self.kind == RELAY:
            return [RELAY, str(self.child), str(self.floor), str(self.ceiling), *([str(self.giver)] if self.giver else [])]
        return [AUCTIONEER] if self.kind == AUCTIONEER else [DEVICE, str(self.child)]


@dataclass
class Tree:
    """The places of a tree, the auctioneer first and each parent before its children, and the number of steps."""

    places: list
    steps: int


def added(total, bid):
    for step, demand in enumerate(bid or []):
        total[step] += demand


def steps_within(total, floor, ceiling):
    """The steps at which a sum keeps limits, one behind the other, since it falls."""
    return [step for step, power in enumerate(total) if floor <= power <= ceiling]


def settled_step(total, floor, ceiling, step):
    """The step that the devices below a relay go by: the nearest that keeps the limits. Without one it is the first below the floor,
    so that the ceiling is kept, or the last if all are above the ceiling."""
    within = steps_within(total, floor, ceiling)
    if within:
        return min(within, key=lambda other: abs(other - step))
    return next((at for at, power in enumerate(total) if power < floor), len(total) - 1)


def announced(total, floor, ceiling):
    """The bid of a relay: what it takes at each step, as far as a bid may say it."""
    taken = (total[settled_step(total, floor, ceiling, step)] for step in range(len(total)))
    return [min(max(power, -MOST), MOST) for power in taken]


class Cuts:
    """What the numbers and the indices of a network stand for.

    `meant` has by node and number the demands of a device's offer, None for its leaving, the floor and the ceiling of a giver, or the
    numbers of a relay's children; under node 0 and an index, those of the auctioneer's children. `newest` is of each node the last
    number that is its own.
    """

    def __init__(self, tree):
        self.tree, self.meant, self.newest = tree, {}, {}
        self.bids, self.auctions = {}, {}

    def add(self, at, number, meaning):
        """Gives a further number of a node its meaning."""
        self.newest[at], self.meant[at, number] = number, meaning

    def bid_of(self, at, number):
        """The demands of a number of a node, None for one that asks for nothing and is told nothing."""
        place, key = self.tree.places[at], (at, number)
        if place.kind == GIVER or place.kind == DEVICE and number % 2:
            return None
        if place.kind == DEVICE:
            return self.meant[key]
        if key not in self.bids:
            numbers = self.meant[key]
            self.bids[key] = announced(self.sum_of(numbers), *self.limits_of(at, numbers))
        return self.bids[key]

    def sum_of(self, numbers):
        total = [0] * self.tree.steps
        for at, number in numbers.items():
            added(total, self.bid_of(at, number))
        return total

    def limits_of(self, at, numbers):
        """The floor and the ceiling of a relay in a bid of these numbers."""
        place = self.tree.places[at]
        given = [self.meant[child, number] for child, number in numbers.items() if self.tree.places[child].kind == GIVER]
        return given[0] if given else (place.floor, place.ceiling)

    def keeps(self, at, number):
        """Whether some step keeps the limits of a relay in this bid."""
        numbers = self.meant[at, number]
        return bool(steps_within(self.sum_of(numbers), *self.limits_of(at, numbers)))

    def told(self, index):
        """The number and the step that a clearing has for each node that was not gone in it."""
        if index not in self.auctions:
            self.auctions[index] = {}
            self.go_down(0, index, self.step_of(index), self.auctions[index])
        return self.auctions[index]

    def step_of(self, index):
        """The step at which a clearing clears."""
        return clearing_step(self.sum_of(self.meant[0, index]))

    def go_down(self, at, number, step, told):
        """Adds what the nodes below a node are told if this step was told to it for this number."""
        numbers = self.meant[at, number]
        if at:
            step = settled_step(self.sum_of(numbers), *self.limits_of(at, numbers), step)
        for child, its in numbers.items():
            if self.bid_of(child, its) is None:
                continue
            told[child] = its, step
            if self.tree.places[child].kind == RELAY:
                self.go_down(child, its, step, told)

    def can_say(self, at, index):
        """Whether a relay's bid in a clearing says what is taken below it: it cannot say more than the most of a bid."""
        number, step = self.told(index)[at]
        numbers = self.meant[at, number]
        total, limits = self.sum_of(numbers), self.limits_of(at, numbers)
        return abs(total[settled_step(total, *limits, step)]) <= MOST


def plain_steps(tree, newest, limits):
    """The step of each device in the auction of its newest demands and of the newest limits, by places, without any number."""
    sums = [[0] * tree.steps for _ in tree.places]
    for place in reversed(tree.places[1:]):
        if place.kind == DEVICE:
            added(sums[place.parent], newest.get(place.at))
        elif place.kind == RELAY:
            added(sums[place.parent], announced(sums[place.at], *limits[place.at]))
    steps = [clearing_step(sums[0])]
    for place in tree.places[1:]:
        step = steps[place.parent]
        if tree.places[place.parent].kind == RELAY:
            step = settled_step(sums[place.parent], *limits[place.parent], step)
        steps.append(step)
    return {at: steps[at] for at in newest}
