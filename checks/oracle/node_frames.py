"""The frames of the nodes of a market across machines, by docs/RELAY.md alone: their kinds, which are right, and their bytes.

What points and states stand for is by docs/CLUSTER_FILE.md, as RELAY.md says.
"""

import struct
from dataclasses import dataclass

from checks import facts
from checks.oracle.auction import TEMPERATURE, bid_of, demand_at
from checks.oracle.frames import CHILDREN, MOST, Hello, Right, is_bid

SEND, WINDOW_FULL, DROPPED = 9, 10, 11
OFFER, LEAVE, SETPOINT = 13, 14, 15
NOT_CAUGHT_UP, OUT_OF_NUMBERS, EXPIRE, LIMITS, BOUND, TOO_MUCH, PRICE, OTHER_BASIS, RESUME, RESUME_GONE, OUT_OF_LIMITS = range(17, 28)
KIND, STATE = 29, 30
# The kind of Points is this number and how many points there are.
POINTS = 128
# The parameters of each kind of device, by its number from 0 on.
PARAMETERS = {
    "freezer": ("low", "high", "power", "warm", "cool"), "heat_pump": ("low", "high", "power", "loss", "gain"),
    "cogeneration": ("low", "high", "power", "loss", "gain"), "battery": ("capacity", "charge", "discharge", "spread"), "solar": (), "load": (),
}
# The fields of a basis: the least price, the greatest price, and the number of steps.
BASIS = "iiH"


def are_limits(floor, ceiling):
    """Whether a relay may have these limits, or a child these bounds."""
    return -MOST <= floor <= 0 <= ceiling <= MOST


def is_child(child):
    return 1 <= child <= CHILDREN


def with_numbers(numbers):
    """The numbers of 256 children by child, for those that have one."""
    return {child: number for child, number in enumerate(numbers, 1) if number}


def by_child(numbers):
    """The numbers of 256 children as a frame has them, 0 for a child without one."""
    return [numbers.get(child, 0) for child in range(1, CHILDREN + 1)]


# What a node reads.


@dataclass(frozen=True)
class Send(Right):
    pass


@dataclass(frozen=True)
class Leave(Right):
    pass


@dataclass(frozen=True)
class Offer:
    demands: tuple

    def is_right(self, basis):
        return is_bid(self.demands, basis)


def prices_of(basis):
    width = (basis.greatest - basis.least) // (basis.steps - 1)
    return range(basis.least, basis.greatest + 1, width)


@dataclass(frozen=True)
class Points:
    points: tuple

    def is_right(self, basis):
        pairs = list(zip(self.points, self.points[1:]))
        runs = all(a[0] <= b[0] and a[1] >= b[1] for a, b in pairs)
        return runs and all(basis.least <= price <= basis.greatest and abs(demand) <= MOST for price, demand in self.points)

    def demands(self, basis):
        return tuple(demand_at(self.points, price) for price in prices_of(basis))


@dataclass(frozen=True)
class Kind:
    number: int
    numbers: tuple

    def node(self):
        """The kind as a node of a cluster file has it, or None if the numbers name none."""
        if self.number >= len(PARAMETERS):
            return None
        kind, names = list(PARAMETERS.items())[self.number]
        return None if any(self.numbers[len(names) :]) else {"kind": kind, **dict(zip(names, self.numbers))}

    def is_right(self, _):
        node = self.node()
        if node is None:
            return False
        if node["kind"] == "battery":
            powers = node["charge"], node["discharge"]
            return 1 <= node["capacity"] <= MOST and all(0 <= power <= MOST for power in powers) and 0 <= node["spread"] <= facts.SPREAD_LIMIT
        if node["kind"] in ("solar", "load"):
            return True
        low, high, power, *changes = self.numbers
        return -TEMPERATURE <= low < high <= TEMPERATURE and 0 <= power <= MOST and all(0 <= change <= TEMPERATURE for change in changes)


@dataclass(frozen=True)
class State:
    """`node` is the kind that was named last, as a node of a cluster file has it, or None."""

    node: dict
    state: int

    def is_right(self, _):
        if self.node is None:
            return False
        greatest = {"battery": self.node.get("capacity"), "solar": MOST, "load": MOST}.get(self.node["kind"])
        return abs(self.state) <= TEMPERATURE if greatest is None else 0 <= self.state <= greatest

    def demands(self, basis):
        return tuple(bid_of(self.node, self.state, basis.steps))


@dataclass(frozen=True)
class Expire:
    child: int

    def is_right(self, _):
        return is_child(self.child)


@dataclass(frozen=True)
class Limits:
    number: int
    floor: int
    ceiling: int

    def is_right(self, _):
        return self.number > 0 and self.number % 2 == 0 and are_limits(self.floor, self.ceiling)


@dataclass(frozen=True)
class Bound:
    child: int
    least: int
    greatest: int

    def is_right(self, _):
        return is_child(self.child) and are_limits(self.least, self.greatest)


@dataclass(frozen=True)
class Price:
    reader: int
    child: int
    number: int
    index: int
    step: int
    basis: Hello

    def is_right(self, _):
        return self.child == self.reader and self.number > 0 and self.step < self.basis.steps and self.basis.is_right(None)


@dataclass(frozen=True)
class Old:
    reader: int
    child: int
    kept: int

    def is_right(self, _):
        return self.child == self.reader


@dataclass(frozen=True)
class RelayResume:
    """`given` are the floor, the ceiling and the giver of the arguments, `newest` the floor and the ceiling of the newest bid."""

    arguments: tuple
    last: int
    answered: int
    index: int
    basis: Hello
    given: tuple
    newest: tuple
    numbers: dict

    def is_right(self, basis):
        is_same = self.basis == basis and self.given == self.arguments
        return is_same and self.answered <= self.last and are_limits(*self.newest)


@dataclass(frozen=True)
class AuctioneerResume:
    index: int
    basis: Hello
    numbers: dict

    def is_right(self, basis):
        return self.basis == basis


@dataclass(frozen=True)
class DeviceResume:
    last: int
    index: int
    basis: Hello
    demands: tuple

    def is_right(self, basis):
        return self.last > 0 and self.last % 2 == 0 and self.basis == basis and is_bid(self.demands, basis)


@dataclass(frozen=True)
class ResumeGone:
    last: int
    index: int
    basis: Hello

    def is_right(self, basis):
        return self.last % 2 == 0 and self.basis == basis


def price_form(child):
    """The form of a Price that the child of this number reads."""
    return f">HIIH{BASIS}", lambda *fields: Price(child, *fields[:4], Hello(*fields[4:]))


def relay_resume_form(arguments):
    """The form of the Resume of a relay with this floor, ceiling and giver."""
    return f">III{BASIS}iiHii{CHILDREN}I", lambda *fields: RelayResume(
        arguments, *fields[:3], Hello(*fields[3:6]), fields[6:9], fields[9:11], with_numbers(fields[11:])
    )


def control_forms(steps, node):
    """The frames of a device's control, whose kind as a node of a cluster file this is."""
    pairs = {POINTS + many: (f">{2 * many}i", lambda *fields: Points(tuple(zip(fields[::2], fields[1::2])))) for many in range(1, facts.MOST_POINTS + 1)}
    return pairs | {
        OFFER: (f">{steps}i", lambda *fields: Offer(fields)),
        LEAVE: (">", Leave),
        KIND: (">B5i", lambda number, *fields: Kind(number, fields)),
        STATE: (">i", lambda value: State(node, value)),
    }


AUCTIONEER_RESUME_FORM = f">I{BASIS}{CHILDREN}I", lambda *fields: AuctioneerResume(fields[0], Hello(*fields[1:4]), with_numbers(fields[4:]))
RESUME_GONE_FORM = f">II{BASIS}", lambda *fields: ResumeGone(*fields[:2], Hello(*fields[2:]))


def device_resume_form(steps):
    return f">II{BASIS}{steps}i", lambda *fields: DeviceResume(*fields[:2], Hello(*fields[2:5]), fields[5:])


# What a node writes.


def basis_fields(basis):
    return basis.least, basis.greatest, basis.steps


def price(child, number, index, step, basis):
    return struct.pack(f">BHIIH{BASIS}", PRICE, child, number, index, step, *basis_fields(basis))


def dropped(number, index):
    return struct.pack(">BII", DROPPED, number, index)


def other_basis(number, index):
    return struct.pack(">BII", OTHER_BASIS, number, index)


def too_much(child, number):
    return struct.pack(">BHI", TOO_MUCH, child, number)


def out_of_limits(number):
    return struct.pack(">BI", OUT_OF_LIMITS, number)


def setpoint(number, index, step, power):
    return struct.pack(">BIIHi", SETPOINT, number, index, step, power)


def relay_resume(last, answered, index, basis, given, newest, numbers):
    fields = last, answered, index, *basis_fields(basis), *given, *newest
    return struct.pack(f">BIII{BASIS}iiHii{CHILDREN}I", RESUME, *fields, *by_child(numbers))


def auctioneer_resume(index, basis, numbers):
    return struct.pack(f">BI{BASIS}{CHILDREN}I", RESUME, index, *basis_fields(basis), *by_child(numbers))


def device_resume(last, index, basis, demands):
    return struct.pack(f">BII{BASIS}{len(demands)}i", RESUME, last, index, *basis_fields(basis), *demands)


def resume_gone(last, index, basis):
    return struct.pack(f">BII{BASIS}", RESUME_GONE, last, index, *basis_fields(basis))
