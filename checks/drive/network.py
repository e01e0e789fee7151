"""Runs trees of nodes over channels that lose, repeat and reorder, stops nodes, and compares what they tell with plain auctions.

    python3 -m checks.drive.network PROGRAM [SEEDS]
    python3 -m checks.drive.network --model [SEEDS]

The first form starts a process of the program `live` for each node, the second takes the model of the nodes in this process. The
carriers do what docs/RELAY.md asks of them. Each price and each setpoint has to be that of the plain auction over the offers and
the limits that its clearing stands for, and what the devices below a relay are set to has to be what it announced. From time to
time everything is delivered, and then each member that lives has to hold the price of all newest offers of the living.
"""

import random
import sys

from checks.drive.carriers import Carriers, require
from checks.drive.flows import compare_flows
from checks.drive.started import Wrong
from checks.make.node_bytes import CLEAR, LEAVE, SEND, bid, limits, offer, too_much
from checks.make.trees import narrow_limits, random_bid
from checks.oracle import frames
from checks.oracle.cuts import AUCTIONEER, DEVICE, GIVER, RELAY, plain_steps

SEEDS = 5
# How many spells a seed has, and how many events one may have. In a calm spell nobody offers or leaves, so that a node that comes
# back may hear again just what it had heard.
SPELLS, LENGTHS = 40, (50, 200, 600)
# How often each event comes, in a busy spell and in a calm one.
BUSY = {
    "deliver_one": 60, "offer": 9, "give_limits": 3, "ask_one": 14, "clear": 12, "put_one_again": 3, "come_back_one": 2, "let_go_one": 2,
    "cut_one": 0.5, "end_one": 0.3, "bid_too_much": 0.5,
}
CALM = {"deliver_one": 60, "ask_one": 14, "clear": 10, "put_one_again": 10, "come_back_one": 6, "let_go_one": 1}
# For how many events at most a device cannot be reached.
LONGEST_CUT = 150
# In how many rounds of everything delivered and asked a network has to settle.
ROUNDS = 20
# How often a node is killed between two bytes of its answers: in a spell, and as everything is delivered and asked for the first
# time. How often a frame is lost, and how often it is delivered once more.
STOPS, STOPS_AT_LAST, LOST, REPEATED = 0.01, 0.03, 0.1, 0.15
NOT_CHANGED = bytes([frames.NOT_CHANGED])


class Network(Carriers):
    """Events of a tree of nodes, drawn one by one."""

    def __init__(self, program, chance):
        super().__init__(program, chance, STOPS)

    def offer(self):
        site = self.drawn(DEVICE)
        if site is None:
            return
        site.wants = None
        if self.chance.random() < 0.1:
            self.give(site, LEAVE)
        else:
            site.wants = random_bid(self.chance, self.tree.steps, min(self.widest, 999_999_999))
            self.give(site, offer(*site.wants))

    def drawn(self, *kinds):
        """A node of these kinds that runs, None if there is none."""
        found = [site for site in self.sites if site.place.kind in kinds and not site.is_dead]
        return self.chance.choice(found) if found else None

    def give_limits(self):
        """A giver gives its relay other limits, under a number that it stored before. It may have skipped some."""
        site = self.drawn(GIVER)
        if site is None:
            return
        at, (floor, ceiling) = site.place.at, narrow_limits(self.chance, self.widest)
        number = self.cuts.newest.get(at, 0) + self.chance.choice([2, 2, 2, 4])
        self.cuts.add(at, number, (floor, ceiling))
        self.send(at, site.place.parent, limits(number, floor, ceiling), number)

    def bid_too_much(self):
        """A child sends a bid beyond its bound: it is refused whatever its number is, and changes nothing."""
        site = self.drawn(AUCTIONEER, RELAY)
        for child, most in site.bounds.items():
            number = self.chance.randint(1, 100)
            answers = site.node.answers(bid(child, number, *(most + 1,) * self.tree.steps))
            require(answers == [too_much(child, number)], f"{site} answers a bid beyond its bound by {answers}")
            self.compared += 1

    def let_go_one(self):
        """A parent lets a device go, whether it lives or not."""
        site = self.drawn(AUCTIONEER, RELAY)
        devices = [child for child, at in site.place.children.items() if self.tree.places[at].kind == DEVICE]
        if devices:
            self.let_go(site, self.chance.choice(devices))

    def cut_one(self):
        """A device cannot be reached for a time, and goes on."""
        site = self.drawn(DEVICE)
        if site is not None:
            site.cut = self.events + self.chance.randint(1, LONGEST_CUT)

    def end_one(self):
        """A device ends for good, or one that had comes back with its newest Resume."""
        dead = [site for site in self.sites if site.is_dead]
        site = self.chance.choice(dead) if dead and self.chance.random() < 0.5 else self.drawn(DEVICE)
        if site is None:
            return
        site.is_dead = not site.is_dead
        if not site.is_dead:
            self.come_back(site)

    def deliver_one(self):
        ways = [way for way, frames_on_it in self.ways.items() if frames_on_it]
        if not ways:
            return
        way = self.chance.choice(ways)
        frame = self.ways[way].pop(self.chance.randrange(len(self.ways[way])))
        if self.chance.random() < REPEATED:
            self.put(way, frame)
        if self.chance.random() >= LOST:
            self.deliver(way, frame)

    def ask_one(self):
        self.give(self.drawn(RELAY), SEND)

    def clear(self):
        self.give(self.sites[0], CLEAR)

    def put_one_again(self):
        self.put_again(self.chance.choice(list(self.ways)))

    def come_back_one(self):
        site = self.drawn(self.chance.choice([AUCTIONEER, RELAY, RELAY, DEVICE]))
        if site is not None:
            self.come_back(site)

    def spell(self):
        """Some events in a row."""
        often = self.chance.choice([BUSY, BUSY, CALM])
        for event in self.chance.choices(list(often), often.values(), k=self.chance.choice(LENGTHS)):
            self.events += 1
            getattr(self, event)()

    # Everything delivered.

    def settle(self):
        """Delivers everything, lets the dead go and asks all, until nothing changes. At first nodes may still stop."""
        self.stops = STOPS_AT_LAST
        for site in self.sites:
            site.cut = 0
        for way, on_it in self.ways.items():
            self.chance.shuffle(on_it)
            while on_it:
                self.deliver(way, on_it.pop())
        self.round()
        self.stops = 0
        rounds = next((number for number in range(ROUNDS) if self.round()), None)
        require(rounds is not None, f"the network has not settled after {ROUNDS} rounds")
        self.stops = STOPS

    def round(self):
        """Delivers the newest bids and asks, from the leaves up, and then the newest prices down. Whether nothing changed."""
        answers, before = [], dict(self.cuts.newest)
        for site in reversed(self.sites):
            for child, at in site.place.children.items():
                self.deliver_newest((at, site.place.at))
                if self.sites[at].is_dead or site.let_go.get(child, 0) > self.cuts.newest.get(at, 0):
                    self.let_go(site, child)
            if site.place.kind in (RELAY, AUCTIONEER):
                answers += self.give(site, SEND if site.place.kind == RELAY else CLEAR)
        for site in self.sites[1:]:
            way = site.place.parent, site.place.at
            for frame in [frame for frame in self.ways[way] if frame[0] == frames.OLD]:
                self.deliver(way, frame)
            self.deliver_newest(way)
        return all(answer == NOT_CHANGED for answer in answers) and before == self.cuts.newest

    def deliver_newest(self, way):
        self.ways[way].clear()
        if way in self.newest:
            self.deliver(way, self.newest[way][1])

    def compare_all(self):
        """Looks whether each member that lives holds the price of the last clearing, and this is the auction of their newest offers."""
        devices = [site.place.at for site in self.sites if site.place.kind == DEVICE and not site.is_dead and site.place.at in self.cuts.newest]
        offers = {at: self.cuts.meant[at, self.cuts.newest[at]] for at in devices}
        members = {at: demands for at, demands in offers.items() if demands is not None}
        index = self.cuts.newest.get(0, 0)
        for at, step in plain_steps(self.tree, members, self.newest_limits()).items():
            due = self.cuts.newest[at], index, step, members[at][step]
            require(self.sites[at].told == due, f"{self.sites[at]} holds {self.sites[at].told} at last, and due is {due}")
            self.compared += 1
        told = [site.place.at for site in self.sites if site.place.kind == DEVICE and site.place.at in self.cuts.told(index)] if index else []
        require(set(told) == members.keys(), f"clearing {index} tells {told}, and members are {list(members)}")

    def newest_limits(self):
        """The floor and the ceiling of each relay that were given last."""
        given = {place.parent: self.cuts.newest.get(place.at, 0) for place in self.tree.places if place.kind == GIVER}
        givers = {place.parent: place.at for place in self.tree.places if place.kind == GIVER}
        return {
            place.at: self.cuts.meant[givers[place.at], given[place.at]] if given.get(place.at) else (place.floor, place.ceiling)
            for place in self.tree.places if place.kind == RELAY
        }


def run(network):
    """What was wrong in the spells of a network, or None."""
    try:
        network.start()
        for number in range(1, SPELLS + 1):
            network.spell()
            if number == SPELLS or network.chance.random() < 0.5:
                network.settle()
                network.compare_all()
        compare_flows(network)
    except Wrong as why:
        return f"step {network.events}: {why}"
    finally:
        network.stop()


def main(program, seeds):
    passed = failed = clearings = restarts = kills = flows = 0
    for seed in range(1, seeds + 1):
        network = Network(program, random.Random(f"network {seed}"))
        why = run(network)
        passed, failed = passed + network.compared, failed + (why is not None)
        clearings, restarts = clearings + network.cuts.newest.get(0, 0), restarts + network.restarts
        kills, flows = kills + network.kills, flows + network.flows
        if why is not None:
            print(f"seed {seed} {why}", flush=True)
    print(f"{seeds} seeds with {clearings} clearings, {flows} flows through relays, and {restarts} restarts, {kills} behind a kill")
    print(f"{passed + flows} passed, {failed} failed")
    return 1 if failed else 0


if __name__ == "__main__":
    sys.exit(main(None if sys.argv[1] == "--model" else sys.argv[1], int(sys.argv[2]) if sys.argv[2:] else SEEDS))
