"""Random trees of relays and devices below an auctioneer, random limits and random bids, for the network of nodes."""

from checks.oracle.cuts import AUCTIONEER, DEVICE, GIVER, RELAY, Place, Tree
from checks.oracle.frames import CHILDREN, MOST

# The most levels of relays. The most relays and devices of a small tree and of a large one.
LEVELS, RELAYS, DEVICES = 3, (3, 12), (6, 60)
STEPS = (2, 3, 10, 20)
WIDEST = (10, 1_000, MOST)


def random_limits(chance, widest):
    """A floor and a ceiling: as wide as they can be, or so that they may bind."""
    if chance.random() < 0.3:
        return -MOST, MOST
    return narrow_limits(chance, widest)


def narrow_limits(chance, widest):
    """A floor and a ceiling that may bind."""
    floor, ceiling = (min(chance.choice([0, widest // 5, widest, 4 * widest]), MOST) for _ in range(2))
    return -floor, ceiling


def add(places, chance, above, kind, *limits):
    """Adds a node below a place, under a number that is free there."""
    child = chance.choice([1, 2, 3, CHILDREN - 1, CHILDREN])
    while child in above.children:
        child = chance.randint(1, CHILDREN)
    above.children[child] = len(places)
    places.append(Place(len(places), kind, above.at, child, above.depth + 1, *limits))


def add_relay(places, chance, above, widest, limits=None):
    """Adds a relay, and for every second one a giver of its limits below it."""
    add(places, chance, above, RELAY, *(limits or random_limits(chance, widest)))
    relay = places[-1]
    if chance.random() < 0.5:
        add(places, chance, relay, GIVER)
        relay.giver = places[-1].child


def random_tree(chance, widest):
    """A tree of relays and devices. Every second one has limits nested three deep."""
    places = [Place(0, AUCTIONEER, 0, 0, 0)]
    levels, size = chance.randint(1, LEVELS), chance.choice([0, 0, 1])
    if chance.random() < 0.5:
        levels = LEVELS
        for depth in range(LEVELS):
            above = next(place for place in places if place.depth == depth and place.kind != GIVER)
            add_relay(places, chance, above, widest, narrow_limits(chance, widest))
    for _ in range(chance.randint(1, RELAYS[size])):
        above = chance.choice([place for place in places if place.depth < levels and place.kind != GIVER])
        add_relay(places, chance, above, widest)
    inner = [place for place in places if place.kind != GIVER]
    for _ in range(chance.randint(2, DEVICES[size])):
        add(places, chance, chance.choice(inner), DEVICE)
    return Tree(places, chance.choice(STEPS))


def random_bid(chance, steps, widest):
    return tuple(sorted((chance.randint(-widest, widest) for _ in range(steps)), reverse=True))
