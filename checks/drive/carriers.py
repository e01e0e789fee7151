"""The carriers of a tree of nodes, by the rules of docs/RELAY.md: what they do with answers, and what these have to be.

What is due comes from checks/oracle/cuts.py. `network.py` drives the carriers.
"""

import struct
from dataclasses import dataclass, field

from checks.drive.started import Wrong, started
from checks.make.node_bytes import bound, expire, hello
from checks.make.trees import WIDEST, random_tree
from checks.oracle import frames, node_frames
from checks.oracle.cuts import AUCTIONEER, DEVICE, GIVER, RELAY, WINDOW, Cuts, Place

# How many frames are on their way from one node to another at most. One more lets the first be lost.
ON_THE_WAY = 12
# Answers that a carrier needs to do nothing for.
TOLD = {
    frames.NOT_CHANGED, node_frames.WINDOW_FULL, node_frames.NOT_CAUGHT_UP, node_frames.OUT_OF_NUMBERS, node_frames.DROPPED,
}


def require(holds, why):
    if not holds:
        raise Wrong(why)


@dataclass
class Site:
    """A node where it runs, and what its carrier keeps.

    `stored` is its newest Resume, or nothing, and `alike` are all that had the same last number. `heard` has of each child the
    greatest number that was delivered since the node came up. `index` is that of the price that it took last since then. `wants` is
    the demands that a device's control offered last, None for leaving, `left` the number of its last leaving, and `told` the
    setpoint that it was told last; `given` has by index the power of each. `bounds` has of some children the most that they may bid,
    and `let_go` the number under which the carrier let a child go. `alarm` is the number of a bid that no step keeps the limits of,
    and of which this has still to be told. `is_dead` says that a device runs no more, and `cut` until which event it is not reached.
    """

    place: Place
    node: object
    stored: bytes = b""
    alike: list = field(default_factory=list)
    heard: dict = field(default_factory=dict)
    index: int = 0
    wants: tuple | None = None
    left: int = 0
    is_let_go: bool = False
    told: tuple | None = None
    given: dict = field(default_factory=dict)
    bounds: dict = field(default_factory=dict)
    let_go: dict = field(default_factory=dict)
    alarm: int = 0
    is_dead: bool = False
    cut: int = 0

    def __str__(self):
        return str(self.place)


class Carriers:
    """Nodes at the places of a tree, and the ways between them.

    `stops` is how often a node is killed between two bytes of its answers, and `events` how many events there were.
    """

    def __init__(self, program, chance, stops):
        self.program, self.chance, self.widest = program, chance, chance.choice(WIDEST)
        self.tree = random_tree(chance, self.widest)
        self.cuts, self.stops = Cuts(self.tree), stops
        self.basis = (0, self.tree.steps - 1, self.tree.steps)
        self.events = self.compared = self.restarts = self.kills = self.flows = 0
        # By relay and number the demands that it bid.
        self.announced = {}
        # By sender and receiver: the frames on their way, and the newest bid or price that was sent, with its number or index.
        self.ways = {way: [] for place in self.tree.places[1:] for way in ((place.at, place.parent), (place.parent, place.at))}
        self.newest = {}
        self.sites = [Site(place, None) for place in self.tree.places]
        for site in self.sites:
            devices = [child for child, at in site.place.children.items() if self.tree.places[at].kind == DEVICE]
            site.bounds = {child: min(self.widest, 999_999_999) for child in devices if chance.random() < 0.5}

    def start(self):
        for site in self.sites:
            if site.place.kind != GIVER:
                self.come_up(site, b"")

    def stop(self):
        for site in self.sites:
            if site.node:
                site.node.stop()

    # What a carrier does with the answers of its node.

    def give(self, site, frame):
        """Gives a frame to a node, and handles its answers in their order. The node may be killed between any two bytes of these, and
        comes back."""
        if site.node is None:
            return []
        is_killed = self.chance.random() < self.stops
        size = self.chance.randint(0, self.chance.choice([30, 1_200])) if is_killed else None
        answers = site.node.answers(frame, size)
        for answer in answers:
            self.handle(site, answer)
        if is_killed:
            self.kills += 1
            site.alarm = 0
            self.come_back(site)
        require(not site.alarm, f"{site} does not tell that no step of its bid {site.alarm} keeps its limits")
        return answers

    def handle(self, site, answer):
        kind = answer[0]
        alarm, site.alarm = site.alarm, 0
        if kind == node_frames.OUT_OF_LIMITS:
            number = int.from_bytes(answer[1:], "big")
            require(alarm == number, f"{site} tells that no step of its bid {number} keeps its limits, and due is {alarm}")
            return
        require(not alarm, f"{site} does not tell that no step of its bid {alarm} keeps its limits")
        if kind in (node_frames.RESUME, node_frames.RESUME_GONE):
            self.store(site, answer)
        elif kind in (frames.BID, frames.GONE):
            self.send_up(site, answer)
        elif kind == node_frames.PRICE:
            self.send_down(site, answer)
        elif kind == frames.OLD:
            self.tell_old(site, answer)
        elif kind == node_frames.SETPOINT:
            self.tell_control(site, answer)
        else:
            require(kind in TOLD, f"{site} answers {answer.hex()}")

    def store(self, site, answer):
        at = site.place.at
        number, meaning, index = self.parted(site, answer)
        newest = self.cuts.newest.get(at, 0)
        if number > newest:
            self.add(site, number, meaning)
        else:
            require(0 < number == newest, f"{site} keeps number {number} behind {newest}")
            due = self.cuts.meant[at, number]
            require(meaning == due, f"{site} keeps {meaning} as its number {number}, which was {due}")
        require(index >= site.index, f"{site} goes back from price {site.index} to {index}")
        site.stored, site.index = answer, index
        site.alike.append(answer)

    def add(self, site, number, meaning):
        """Gives a node's next number its meaning: what a control offered, or what was heard, and of nobody less than before."""
        if site.place.kind == DEVICE:
            self.add_offer(site, number, meaning)
        else:
            self.add_sum(site, number, meaning)
        site.alike = []

    def add_offer(self, site, number, meaning):
        at = site.place.at
        newest = self.cuts.newest.get(at, 0)
        due, step = site.wants, 2
        if site.is_let_go:
            # It leaves under the number before, of which nothing is sent, and makes its newest offer anew.
            due, step = self.cuts.meant.get((at, newest)), 4
            self.cuts.add(at, newest + 2, None)
            site.left = newest + 2
        require((number, meaning) == (newest + step, due), f"{site} offers {meaning} as {number}, and due is {due} as {newest + step}")
        site.left = number if meaning is None else site.left
        self.cuts.add(at, number, meaning)

    def add_sum(self, site, number, meaning):
        at = site.place.at
        require(number == self.cuts.newest.get(at, 0) + 1, f"{site} goes on with number {number}")
        require(meaning == site.heard, f"{site} bids {meaning} as its number {number}, and {site.heard} is due")
        before = self.cuts.meant.get((at, number - 1), {})
        back = [device for device in before if meaning.get(device, 0) < before[device]]
        require(not back, f"{site} bids {meaning} as its number {number}, behind {before}")
        self.cuts.add(at, number, dict(meaning))

    def parted(self, site, answer):
        """The last number in a Resume, what it stands for, and the index of the price that was taken."""
        place = site.place
        if place.kind == DEVICE:
            number, index, *fields = struct.unpack(f">IIiiH{(len(answer) - 19) // 4}i", answer[1:])
            require(index <= self.cuts.newest.get(0, 0), f"{site} took price {index}, which there is not")
            basis, demands = fields[:3], tuple(fields[3:])
            meaning = demands if answer[0] == node_frames.RESUME else None
        else:
            first = ">IiiH1024s" if place.kind == AUCTIONEER else ">IIIiiHiiHii1024s"
            *first, numbers = struct.unpack(first, answer[1:])
            numbers = node_frames.with_numbers(struct.unpack(">256I", numbers))
            require(numbers.keys() <= place.children.keys(), f"{site} keeps numbers {numbers} of strangers")
            meaning = {place.children[child]: number for child, number in numbers.items()}
            number, index, basis = first[0], 0, first[1:4]
        if place.kind == RELAY:
            number, index, basis = self.parted_relay(site, first, meaning)
        require(tuple(basis) == self.basis, f"{site} keeps the basis {basis}")
        return number, meaning, index

    def parted_relay(self, site, fields, meaning):
        place = site.place
        number, answered, index = fields[:3]
        due = self.due(place.at, index)[0] if index else 0
        require(answered == due, f"{site} took price {index} for number {answered}, and it is for {due}")
        require(number <= self.cuts.newest.get(place.at, 0) or number - answered <= WINDOW, f"{site} bids {number} behind {answered}")
        given, newest = tuple(fields[6:9]), tuple(fields[9:])
        require(given == (place.floor, place.ceiling, place.giver), f"{site} keeps the arguments {given}")
        due = self.cuts.limits_of(place.at, meaning)
        require(newest == tuple(due), f"{site} keeps the limits {newest} of its bid {number}, and they are {due}")
        return number, index, fields[3:6]

    def due(self, at, index):
        """The number and the step of a node in a clearing."""
        require(0 < index <= self.cuts.newest.get(0, 0), f"there is no clearing {index}")
        told = self.cuts.told(index)
        require(at in told, f"clearing {index} tells {self.sites[at]} nothing")
        return told[at]

    def send_up(self, site, answer):
        at, place = site.place.at, site.place
        child, number = struct.unpack_from(">HI", answer, 1)
        require(child == place.child and number == self.cuts.newest.get(at), f"{site} bids as child {child} number {number}")
        demands = list(struct.unpack(f">{(len(answer) - 7) // 4}i", answer[7:])) if answer[0] == frames.BID else None
        due = self.cuts.bid_of(at, number)
        require(demands == (due and list(due)), f"{site} bids {demands} as number {number}, and {due} is due")
        if place.kind == RELAY:
            self.announced[at, number] = demands
            site.alarm = 0 if self.cuts.keeps(at, number) else number
        self.send(at, place.parent, answer, number)
        self.compared += 1

    def send_down(self, site, answer):
        child, number, index, step, *basis = struct.unpack(">HIIHiiH", answer[1:])
        require(child in site.place.children and tuple(basis) == self.basis, f"{site} tells a price of {basis} to child {child}")
        to = site.place.children[child]
        require(self.due(to, index) == (number, step), f"{site} tells {self.sites[to]} {number, step} by {index}, due is {self.due(to, index)}")
        require(site.place.kind == AUCTIONEER or index > site.index, f"{site} tells price {index} behind {site.index}")
        self.send(site.place.at, to, answer, index)
        self.compared += 1

    def tell_old(self, site, answer):
        child, kept = struct.unpack(">HI", answer[1:])
        to = site.place.children.get(child)
        require(site.heard.get(to) == kept, f"{site} keeps {kept} of child {child}, and heard {site.heard.get(to)}")
        self.put((site.place.at, to), answer)

    def tell_control(self, site, answer):
        number, index, step, power = struct.unpack(">IIHi", answer[1:])
        at = site.place.at
        require(self.due(at, index) == (number, step), f"{site} is set by {index} to {number, step}, and due is {self.due(at, index)}")
        due = self.cuts.meant[at, number][step]
        require(power == due, f"{site} is set to {power} watts, and its offer {number} has {due} at step {step}")
        require(index > site.index, f"{site} is set by {index} behind {site.index}")
        require(number > site.left, f"{site} is set for number {number}, and left by number {site.left}")
        site.index, site.told, site.given[index] = index, (number, index, step, power), power
        self.compared += 1

    # The ways between the carriers.

    def send(self, at, to, frame, order):
        """Sends a bid or a price, and keeps it if it is the newest."""
        if order >= self.newest.get((at, to), (0, b""))[0]:
            self.newest[at, to] = order, frame
        self.put((at, to), frame)

    def put(self, way, frame):
        self.ways[way].append(frame)
        if len(self.ways[way]) > ON_THE_WAY:
            self.ways[way].pop(0)

    def put_again(self, way):
        if way in self.newest:
            self.put(way, self.newest[way][1])

    def is_reached(self, at):
        """Whether frames from and to a node come."""
        return not self.sites[at].is_dead and self.sites[at].cut <= self.events

    def deliver(self, way, frame):
        """Hands a frame to its receiver, unless one of both cannot be reached."""
        sender, receiver = way
        site = self.sites[receiver]
        if not (self.is_reached(sender) and self.is_reached(receiver)):
            return
        if frame[0] in (frames.BID, frames.GONE, node_frames.LIMITS):
            number = struct.unpack_from(">I", frame, 1 if frame[0] == node_frames.LIMITS else 3)[0]
            site.heard[sender] = max(number, site.heard.get(sender, 0))
        if frame[0] == frames.OLD and site.place.kind == DEVICE:
            kept, newest = struct.unpack_from(">I", frame, 3)[0], self.cuts.newest.get(receiver, 0)
            site.is_let_go = kept > newest and self.cuts.meant.get((receiver, newest)) is not None
        self.give(site, frame)
        site.is_let_go = False

    # What happens to a node.

    def come_up(self, site, resume):
        """Starts a node with nothing, or with what it gave to be kept, and with the bounds of its children."""
        if site.node:
            site.node.stop()
        site.node, site.heard = started(self.program, site.place, self.tree.steps), {}
        number, meaning, site.index = self.parted(site, resume) if resume else (0, {}, 0)
        # A relay that comes back has heard the limits of its Resume.
        heard = {child: meaning[child] for child in meaning if self.tree.places[child].kind == GIVER} if site.place.kind == RELAY else {}
        site.heard = heard
        bounds = b"".join(bound(child, -bound_, bound_) for child, bound_ in site.bounds.items())
        steps = self.tree.steps
        self.give(site, hello(steps, 0, steps - 1) + resume + bounds)

    def come_back(self, site):
        """Stops a node and starts it anew. Its carrier and its neighbours' send their newest again, of which some may be lost."""
        self.restarts += 1
        self.come_up(site, self.kept(site))
        for way in self.ways:
            if site.place.at in way and self.chance.random() < 0.7:
                self.put_again(way)
        for child in list(site.let_go):
            if self.chance.random() < 0.7:
                self.let_go(site, child)

    def kept(self, site):
        """What a node comes back with: its newest Resume, or one with an older price or none and the same last number."""
        what = self.chance.random()
        if not site.stored or what < 0.6 or site.place.kind == AUCTIONEER:
            return site.stored
        if what < 0.8:
            return self.chance.choice(site.alike)
        if site.place.kind == RELAY:
            return site.stored[:5] + bytes(8) + site.stored[13:]
        return site.stored[:5] + bytes(4) + site.stored[9:]

    def let_go(self, site, child):
        """The carrier of a parent lets a device go: it is gone under the odd number that is not below the newest that is known."""
        at = site.place.children[child]
        recorded = self.parted(site, site.stored)[1].get(at, 0) if site.stored else 0
        known = max(site.heard.get(at, 0), recorded)
        number = known + (known % 2 == 0)
        site.let_go[child] = number
        site.heard[at] = max(number, site.heard.get(at, 0))
        self.give(site, expire(child))
