"""Beginnings of journals worked by hand, each with the report of its file and the line that is bad: the last, or, if all moves
are legal, the line behind them that is missing."""

import json
from dataclasses import dataclass

from checks.facts import WINDOW_SIZE

# How many numbers of a concentrator may be unanswered.
WINDOW = WINDOW_SIZE


@dataclass
class Worked:
    name: str
    file: bytes
    report: list
    moves: list
    last_is_legal: bool

    def trace(self):
        return "".join(f"{line}\n" for line in [*self.report, *self.moves]).encode()

    def bad_line(self):
        return len(self.report) + len(self.moves) + self.last_is_legal


def file_of(nodes, events):
    basis = {"min": 0, "max": 9, "steps": 10}
    return json.dumps({"version": 1, "basis": basis, "nodes": nodes, "phases": [{"events": events}]}).encode()


def concentrator(name, parent="auctioneer"):
    return {"name": name, "kind": "concentrator", "parent": parent}


def load(name, parent, power):
    return {"name": name, "kind": "load", "parent": parent, "start": power}


def generator(name):
    return {"name": name, "kind": "manual", "parent": "auctioneer", "demand": [0] * 4 + [-150] * 6}


def join(name):
    return {"join": name}


def former_session():
    """A price that names a bid of a session before the last join is dropped."""
    file = file_of([load("load1", "auctioneer", 100)], [join("load1"), {"leave": "load1"}, join("load1")])
    report = ["phase 1 price 9 step 9 total 100 members 1", "member load1 power 100 bid 3", "end phases 1 changes 3"]
    moves = ["change load1 1", "learn auctioneer load1 1", "clear 1", "change load1 2", "change load1 3"]
    yield Worked("a former session's price is dropped", file, report, [*moves, "pass load1 1 none"], True)
    yield Worked("a former session's price is held", file, report, [*moves, "pass load1 1 price 9 bid 1"], False)
    yield Worked("a price that nobody cleared", file, report, [*moves, "pass load1 2 none"], False)
    held = [*moves[:3], "change load1 2", "pass load1 1 none", "change load1 3", "learn auctioneer load1 3", "clear 2"]
    yield Worked("the price of the new session", file, report, [*held, "pass load1 2 price 9 bid 3"], True)
    yield Worked("the first price again", file, report, [*held, "pass load1 1 none"], False)
    gone = [*moves[:4], "learn auctioneer load1 2", "clear 2"]
    yield Worked("a clearing without a device is not passed to it", file, report, [*gone, "pass load1 2 none"], False)
    yield Worked("a close before the last change", file, report, [*moves[:3], "pass load1 1 price 9 bid 1", "close 1"], False)
    yield Worked("a close of another phase", file, report, [*moves, "learn auctioneer load1 3", "clear 2", "pass load1 2 price 9 bid 3",
                                                            "close 2"], False)
    yield Worked("a change too many", file, report, [*moves, "change load1 4"], False)


def full_window():
    """Eight numbers of a concentrator may be unanswered, and no ninth."""
    events = [join("d"), *({"state": "d", "value": 100 + number} for number in range(1, WINDOW + 1))]
    file = file_of([concentrator("c1"), load("d", "c1", 100)], events)
    report = ["phase 1 price 9 step 9 total 108 members 1", "member d power 108 bid 9", "end phases 1 changes 9"]
    moves = [line.format(number) for number in range(1, WINDOW + 1) for line in ("change d {}", "learn c1 d {}", "publish c1 {}")]
    ninth = [*moves, "change d 9", "learn c1 d 9"]
    yield Worked("eight unanswered numbers", file, report, ninth, True)
    yield Worked("a ninth unanswered number", file, report, [*ninth, "publish c1 9"], False)
    answered = [*ninth, "learn auctioneer c1 8", "clear 1", "pass c1 1"]
    yield Worked("an answer opens the window", file, report, [*answered, "publish c1 9"], True)
    yield Worked("a clearing does not yet open it", file, report, [*answered[:-1], "publish c1 9"], False)
    oldest = [*ninth, "learn auctioneer c1 1", "clear 1", "pass c1 1", "publish c1 9"]
    yield Worked("the answer to the first opens it by one", file, report, [*oldest, "pass d 1 price 9 bid 1"], True)
    yield Worked("nothing new is published", file, report, [*oldest, "publish c1 10"], False)
    yield Worked("an older number is not learnt", file, report, [*answered, "learn auctioneer c1 7"], False)
    yield Worked("a number that is not there is not learnt", file, report, [*answered, "learn auctioneer c1 9"], False)
    yield Worked("a price comes by the concentrator", file, report, [*answered[:-1], "pass d 1 price 9 bid 8"], False)
    yield Worked("a price by the concentrator", file, report, [*answered, "pass d 1 price 9 bid 8"], True)


def old_numbers():
    """A price for an older clearing, and a price that names an old bid beside a new one of another."""
    file = file_of([concentrator("c1"), load("a", "c1", 100), generator("g")], [join("a"), join("g")])
    report = ["phase 1 price 4 step 4 total -50 members 2", "member a power 100 bid 1", "member g power -150 bid 1",
              "end phases 1 changes 2"]
    first = ["change a 1", "learn c1 a 1", "publish c1 1", "learn auctioneer c1 1", "clear 1", "pass c1 1"]
    second = ["change g 1", "learn auctioneer g 1", "clear 2"]
    yield Worked("prices for old numbers", file, report,
                 [*first, "pass a 1 price 9 bid 1", *second, "pass c1 2", "pass a 2 price 4 bid 1"], True)
    yield Worked("an older clearing is passed late", file, report, [*first, *second, "pass a 1 price 9 bid 1"], True)
    yield Worked("a newer clearing has not come to the concentrator", file, report, [*first, *second, "pass a 2 price 4 bid 1"], False)
    yield Worked("a clearing that came after it is not taken back", file, report, [*first, *second, "pass c1 2", "pass c1 1"], False)
    yield Worked("a clearing does not address who is not in it", file, report, [*first, "pass g 1 none"], False)
    yield Worked("nothing is cleared twice", file, report, [*first, "clear 2"], False)
    everything = [*first, *second, "pass c1 2", "pass a 2 price 4 bid 1"]
    yield Worked("a close while a price waits", file, report, [*everything, "close 1"], False)
    yield Worked("a close once nothing waits", file, report, [*everything, "pass g 2 price 4 bid 1", "close 1"], True)
    yield Worked("nothing moves once all is closed", file, report, [*everything, "pass g 2 price 4 bid 1", "close 1", "clear 3"], False)
    yield Worked("a learning by another's parent", file, report, [*first[:2], "change g 1", "learn c1 g 1"], False)
    yield Worked("a learning of a grandchild", file, report, [*first[:2], "learn auctioneer a 1"], False)
    yield Worked("a concentrator makes no change", file, report, ["change c1 1"], False)
    yield Worked("a device publishes nothing", file, report, ["change g 1", "publish g 1"], False)
    yield Worked("the auctioneer publishes nothing", file, report, ["change g 1", "learn auctioneer g 1", "publish auctioneer 1"], False)
    yield Worked("a change that is another's", file, report, ["change a 2"], False)


def two_full_windows():
    """A concentrator's full window stops its own publishing alone."""
    nodes = [concentrator("c1"), concentrator("c2", "c1"), *(load(f"d{number}", "c2", 1) for number in range(1, 10)), load("e", "c1", 1)]
    file = file_of(nodes, [*(join(f"d{number}") for number in range(1, 10)), join("e")])
    report = ["phase 1 price 9 step 9 total 10 members 10", *(f"member d{number} power 1 bid 1" for number in range(1, 10)),
              "member e power 1 bid 1", "end phases 1 changes 10"]
    lines = ("change d{0} 1", "learn c2 d{0} 1", "publish c2 {0}", "learn c1 c2 {0}", "publish c1 {0}")
    moves = [line.format(number) for number in range(1, WINDOW + 1) for line in lines]
    moves += ["change d9 1", "learn c2 d9 1", "change e 1", "learn c1 e 1"]
    yield Worked("two full windows", file, report, moves, True)
    yield Worked("the lower of two full windows", file, report, [*moves, "publish c2 9"], False)
    yield Worked("the upper of two full windows", file, report, [*moves, "publish c1 9"], False)
    cleared = [*moves, "learn auctioneer c1 8", "clear 1", "pass c1 1"]
    yield Worked("the upper window opens first", file, report, [*cleared, "publish c1 9"], True)
    yield Worked("the lower window is still full", file, report, [*cleared, "publish c2 9"], False)
    yield Worked("the lower window opens", file, report, [*cleared, "pass c2 1", "publish c2 9", "pass d8 1 price 9 bid 1"], True)
    yield Worked("a device that is not in the clearing", file, report, [*cleared, "pass c2 1", "pass d9 1 price 9 bid 1"], False)


def worked():
    for journals in (former_session, full_window, old_numbers, two_full_windows):
        yield from journals()
