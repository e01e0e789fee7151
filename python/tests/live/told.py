"""The messages of a market as tests make them by hand, for what a page shows of them."""

from __future__ import annotations

from pretended import MOMENT, SESSION

from cogmaula.cluster import Basis
from cogmaula.live.broker.broker_link import Message
from cogmaula.live.messages.frames import Bid, Gone, Price, Setpoint
from cogmaula.live.messages.messages import BasisMessage, SetpointMessage, SiteMessage, StateMessage
from cogmaula.live.messages.price_table import PriceTable
from cogmaula.live.page.view import view_of

BASIS = Basis(0, 9, 10)


class Told:
    """The newest messages of a market of ten prices."""

    def __init__(self, prefix="market", basis=BASIS):
        self.prefix, self.messages, self.basis = prefix, {}, basis or BASIS
        if basis is not None:
            self.put("basis", BasisMessage(basis, SESSION).to_bytes())

    def put(self, below, payload, session=SESSION.id, time=MOMENT):
        topic = f"{self.prefix}/{below}"
        self.messages[topic] = Message(topic, payload, {"time": time, "session": session})
        return self

    def state(self, name, sort=None, parent=None, child=None, floor=None, ceiling=None, state="up", why="", session=SESSION.id, run="0" * 16, **more):
        told = StateMessage(state, run, MOMENT, session, MOMENT, why, sort, parent, child, floor, ceiling, **more)
        return self.put(f"{name}/state", told.to_bytes())

    def site(self, name, state="up", run="0" * 16, why="", **more):
        return self.put(f"{name}/site", SiteMessage(state, run, MOMENT, "2026-01-31T06:45:00.000Z", why, **more).to_bytes())

    def bid(self, parent, child, number, *demands, **more):
        return self.put(f"{parent}/bid/{child}", Bid(child, number, demands).to_bytes(), **more)

    def gone(self, parent, child, number):
        return self.put(f"{parent}/bid/{child}", Gone(child, number).to_bytes())

    def price(self, parent, child, number, index, step, **more):
        return self.put(f"{parent}/price/{child}", Price(child, number, index, step, self.basis.min, self.basis.max, self.basis.steps).to_bytes(), **more)

    def prices(self, parent, index, step, numbers, **more):
        return self.put(f"{parent}/prices", PriceTable(index, step, self.basis, numbers).to_bytes(), **more)

    def setpoint(self, name, power, number, index, step, **more):
        return self.put(f"{name}/setpoint", SetpointMessage.made_of(Setpoint(number, index, step, power), BASIS, MOMENT).to_bytes(), **more)

    def without(self, *below):
        for name in below:
            del self.messages[f"{self.prefix}/{name}"]
        return self

    def view(self, own=None):
        return view_of(self.prefix, self.messages, own)

    def node(self, name, own=None):
        (found,) = [node for node in self.view(own).nodes if node.name == name]
        return found


def falls_at(step, before, behind):
    return [before] * step + [behind] * (10 - step)


def village():
    """A tree of three levels after its clearing 7, worked by hand.

    The house takes 100 W at each price, and the store gives 150 W from step 4 on. So the street's sum is 100 W below step 4 and
    -50 W from there on. Its ceiling is 50 W, so below step 4 it settles for step 4, and bids -50 W at each step. The mill takes 60 W
    below step 2 and gives 60 W from there on. The sum at the auctioneer is 10 W at step 1 and -110 W at step 2, so it clears at step 2.
    There the street passes step 4 down.
    """
    told = Told()
    told.state("auctioneer", "auctioneer").state("street", "relay", "auctioneer", 1, None, 50)
    told.state("mill", "device", "auctioneer", 2).state("house", "device", "street", 1).state("store", "device", "street", 2)
    told.bid("street", 1, 3, *falls_at(0, 0, 100)).bid("street", 2, 4, *falls_at(4, 0, -150))
    told.bid("auctioneer", 1, 5, *[-50] * 10).bid("auctioneer", 2, 6, *falls_at(2, 60, -60))
    told.price("auctioneer", 1, 5, 7, 2).price("auctioneer", 2, 6, 7, 2).price("street", 1, 3, 7, 4).price("street", 2, 4, 7, 4)
    return told.setpoint("mill", -60, 6, 7, 2).setpoint("house", 100, 3, 7, 4).setpoint("store", -150, 4, 7, 4)
