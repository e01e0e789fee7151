"""A pretended connection and a pretended service, which tests drive by hand, and the small market that the tests have."""

from __future__ import annotations


from logged import log_to

from cogmaula import clock
from cogmaula.cluster import Basis
from cogmaula.live.messages import messages
from cogmaula.live.broker.broker_link import Arrived, Confirmed, Message, Settled
from cogmaula.live.messages.frames import AuctioneerResume, Bid, DeviceResume, Gone, Price, RelayResume, ResumeGone
from cogmaula.live.messages.messages import BasisMessage, SetpointMessage, StateMessage
from cogmaula.live.node.service import Came, Ended
from cogmaula.live.node.sessions import Session
from cogmaula.live.node.node import Node
from cogmaula.live.messages.price_table import price_for
from cogmaula.live.node.node_settings import Settings
from cogmaula.live.node.store import Store, Stored

BASIS, BASIS_TOPIC = Basis(0, 9, steps=2), "market/basis"
SESSION = Session("0123456789abcdef", "2026-01-31T06:00:00.000Z")
LATER = Session("fedcba9876543210", "2026-01-31T07:00:00.000Z")
MOMENT = "2026-01-31T06:30:00.000Z"
VERSION = str(messages.VERSION)
MARKED = (("time", MOMENT), ("session", SESSION.id), ("version", VERSION))
# What a bid of a relay has, whose numbers may be odd.
OF_RELAY = (*MARKED, ("sort", "relay"))


def settings(sort, folder, **more):
    """Settings of a node: the auctioneer `auctioneer`, its child 3, the relay `street`, and child 2 of that, the device `house`."""
    place = {
        "auctioneer": {"name": "auctioneer"},
        "relay": {"name": "street", "parent": "auctioneer", "child": 3, "floor": -1000, "ceiling": 1000},
        "device": {"name": "house", "parent": "street", "child": 2},
    }[sort]
    return Settings(**{"sort": sort, "state": str(folder), "basis": BASIS, "pause": 0.01, **place, **more})


class PretendedLink:
    """A connection that the test settles, loses and lets messages come by. `sent` has all publications in their order."""

    def __init__(self, notify, log):
        self.notify, self.log = notify, log
        self.sent, self.newest, self.held, self.inbox = [], {}, set(), {}
        self.is_settled = self.confirms = self.has_lost = False
        self.readings = 0
        self.closed = self.will = self.topics = None

    def start(self, topics, will, marker, written=()):
        self.topics, self.will, self.marker = [*topics, *written], will, marker

    def also_read(self, topic):
        if topic not in self.topics:
            self.topics.append(topic)

    def publish(self, publication):
        self.newest[publication.topic] = publication
        self.sent.append(publication)
        # A node that begins acts once its state and its Resume are confirmed.
        if not self.confirms and not publication.topic.endswith(("/state", "/resume")):
            self.held.add(publication.topic)

    def publish_all(self):
        for publication in list(self.newest.values()):
            self.publish(publication)

    def kept(self, topic):
        return self.newest.get(topic)

    def is_unconfirmed(self, topics):
        return bool(self.held & set(topics))

    def taken(self):
        found, self.inbox = list(self.inbox.values()), {}
        return found

    def read_again(self):
        self.readings += 1

    def tick(self):
        pass

    def close(self, last, seconds):
        self.closed = last

    # What the test does.

    def comes(self, topic, payload, properties=MARKED, **more):
        self.inbox[topic] = Message(topic, payload, dict(properties), **more)
        self.notify(Arrived())

    def settles(self):
        self.is_settled = True
        self.notify(Settled())

    def confirm(self):
        self.held.clear()
        self.notify(Confirmed())

    def of(self, topic):
        """The payloads that were published under a topic, in their order."""
        return [publication.payload for publication in self.sent if publication.topic == topic]


class PretendedService:
    """A service that the test lets write. `read` has all that it was fed, the Resume first."""

    made = []

    def __init__(self, command, sort, basis, resume, notify):
        self.command, self.sort, self.basis, self.notify = command, sort, basis, notify
        self.read, self.is_killed, self.is_closed = [resume], False, False
        PretendedService.made.append(self)

    def feed(self, data):
        if data:
            self.read.append(data)

    def kill(self):
        self.is_killed = True

    def close(self, seconds):
        self.is_closed = True

    def writes(self, *frames):
        self.notify(Came(self, frames))

    def ends(self, why="status 4"):
        self.notify(Ended(self, why))


class PretendedControl:
    """A control of which the test sees what it is told, as bytes."""

    def __init__(self):
        self.told = []

    def start(self, notify, log):
        self.offer = notify

    def write(self, told):
        self.told.append(told.to_bytes())


class Joined:
    """A node of a sort, with all its pretended parts. What it says is in `said`."""

    def __init__(self, sort, folder, **more):
        self.said = []
        self.control = PretendedControl() if sort == "device" else None
        self.node = Node(settings(sort, folder, **more), self.control, log_to(self.said.append), self._linked)
        self.link.start(self.node._subscriptions(), None, self.node._marker, self.node._written())
        if self.control is not None:
            self.control.start(lambda data: self.node.serving.offers.take(data, clock.now()), log_to(self.said.append))

    def _linked(self, notify, log):
        self.link = PretendedLink(notify, log)
        return self.link

    def begun(self, *retained):
        """Lets the connection settle, with the basis and these topics and payloads retained, and their properties if they are others than MARKED."""
        if self.node.settings.sort != "auctioneer":
            self.link.comes(BASIS_TOPIC, basis_payload())
        for topic, payload, *properties in retained:
            self.link.comes(topic, payload, *properties, retained=True)
        self.link.settles()
        self.turned()
        if self.service is None and self.node.serving.session is not None:
            # It waits for the broker to confirm the Bid that is stored.
            self.link.confirm()
        return self.turned()

    def turned(self):
        turn(self.node)
        return self

    def writes(self, *frames):
        self.service.writes(*frames)
        return self.turned()

    @property
    def service(self):
        return self.node.serving.service

    def prices_told(self, node, child):
        """What was published for one child of a node, in its own topic or in the table of all: a frame's bytes, b"" for none."""
        found = []
        for publication in self.link.sent:
            if publication.topic == f"market/{node}/price/{child}":
                found.append(publication.payload)
            elif publication.topic == f"market/{node}/prices":
                told = price_for(publication.payload, child) if publication.payload else None
                found.append(b"" if told is None else told.to_bytes())
        return found

    def stored(self, session=SESSION):
        """The bytes of the Resume on disk."""
        found = self.node._store.load(session)
        return None if found is None else found.frame


def saved(folder, sort, name, frame, session=SESSION, basis=BASIS, setpoint=b"", **more):
    """Puts a Resume on a node's disk."""
    store = Store(folder / sort, name, sort)
    kept = SetpointMessage.of(setpoint) if setpoint else None
    store.save(Stored(session, basis, frame.to_bytes(), MOMENT, kept, **more))
    store.close()


def turn(node):
    """Lets a node take all that has come, and then look at the clock once."""
    while not node._events.empty():
        node._take(node._events.get())
        node.serving.tick(clock.now())
    node.serving.tick(clock.now())
    node._tell_state()


def basis_payload(session=SESSION, basis=BASIS, **more):
    return BasisMessage(basis, session, **more).to_bytes()


def state_payload(run, started, state="up", why="", **more):
    return StateMessage(state, run, started, SESSION.id, MOMENT, why, **more).to_bytes()


def bid(child, number, *demands):
    return Bid(child, number, demands)


def gone(child, number):
    return Gone(child, number)


def fields_of(basis):
    """A basis as frames have it."""
    return basis.min, basis.max, basis.steps


def price(child, number, index, step, basis=BASIS):
    return Price(child, number, index, step, *fields_of(basis))


def relay_resume(last, answered, index, numbers, terms=(-1000, 1000, 0), limits=(-1000, 1000), basis=BASIS):
    """A relay's Resume under the limits of its arguments, and those of its newest bid."""
    return RelayResume(last, answered, index, *fields_of(basis), *terms, *limits, numbers)


def auctioneer_resume(index, numbers, basis=BASIS):
    return AuctioneerResume(index, *fields_of(basis), numbers)


def device_resume(last, index, demands, basis=BASIS):
    return DeviceResume(last, index, *fields_of(basis), demands)


def resume_gone(last, index, basis=BASIS):
    return ResumeGone(last, index, *fields_of(basis))


def numbers(*pairs):
    """The numbers of 256 children, 0 for one that is not given."""
    found = dict(pairs)
    return tuple(found.get(child, 0) for child in range(1, 257))
