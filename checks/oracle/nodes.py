"""Answers what a node of a market across machines reads, by docs/RELAY.md, docs/SERVE.md and docs/DEFINITIONS.md alone.

    python3 -m checks.oracle.nodes relay CHILD FLOOR CEILING [GIVER] | auctioneer | device CHILD

takes the place of the node: it reads standard input in pieces and answers as frames come, with the same exit status.
"""

import re
import sys
from dataclasses import dataclass

from checks.facts import WINDOW_SIZE
from checks.oracle import frames, node_frames
from checks.oracle.frames import (
    BID, CHILDREN, CLEAR, GONE, HELLO_FORM, MOST, NOT_CHANGED, OLD, Bid, Clear, Gone, Hello, bid, bid_forms, clearing_step, gone, old, sum_of,
)
from checks.oracle.node_frames import (
    AUCTIONEER_RESUME_FORM, BOUND, EXPIRE, LIMITS, NOT_CAUGHT_UP, OUT_OF_NUMBERS, PRICE, RESUME, RESUME_GONE, RESUME_GONE_FORM, SEND,
    WINDOW_FULL, AuctioneerResume, Bound, DeviceResume, Expire, Kind, Leave, Limits, Offer, Old, Points, Price, RelayResume, ResumeGone, Send,
    State, are_limits, control_forms, device_resume, device_resume_form, dropped, other_basis, out_of_limits, price, price_form, relay_resume,
    relay_resume_form, resume_gone, setpoint, too_much,
)

WINDOW, LAST_NUMBER = WINDOW_SIZE, 4_294_967_295
USAGE_LINE = b"usage: live relay CHILD FLOOR CEILING [GIVER] | live auctioneer | live device CHILD\n"


def sum_of_heard(heard, steps):
    return sum_of([bid.demands for bid in heard.values() if isinstance(bid, Bid)], steps)


def parents_number(number):
    """The number under which a parent counts a child as gone, of which it knows this number: the odd one that is not below."""
    return number if number % 2 else number + 1


def settled_step(total, floor, ceiling, step):
    """The step for which a relay with this sum and these limits settles if this step is told to it."""
    last = len(total) - 1
    first = next((step for step in range(last + 1) if total[step] <= ceiling), last)
    return max(first, min(step, next((step for step in range(last, -1, -1) if total[step] >= floor), 0)))


def announced(total, floor, ceiling):
    """What a relay announces: at each step what its sum is at the step for which it settles, as far as a bid may say it."""
    settled = (total[settled_step(total, floor, ceiling, step)] for step in range(len(total)))
    return [min(max(power, -MOST), MOST) for power in settled]


class Node:
    """What each node has: the Hello that it read, and how many frames."""

    def __init__(self):
        self.basis, self.read = None, 0

    def forms(self):
        """Of each kind of frame that may come next the format of its fields, and what is made of them."""
        if self.basis is None:
            return HELLO_FORM
        return self.later_forms() | (self.resume_forms() if self.read == 1 else {})

    def to(self, frame):
        """The bytes of the answers to a frame."""
        self.read += 1
        if isinstance(frame, Hello):
            self.basis = frame
            return b""
        if isinstance(frame, Price) and frame.basis != self.basis:
            return other_basis(frame.number, frame.index)
        return self.answer(frame)


class Parent(Node):
    """What a relay and the auctioneer hear of their children.

    `heard` has of each child the Bid, Gone or Limits with the greatest number since the start, and `numbers` the number of each child
    in what was sent last. `is_lost` says whether a restart lost what was sent last. `bounds` has the least and the greatest power of
    a child that has any.
    """

    def __init__(self):
        super().__init__()
        self.heard, self.numbers, self.has_news, self.is_lost = {}, {}, False, False
        self.bounds = {}

    def forms_of_children(self):
        return bid_forms(self.basis.steps) | {EXPIRE: (">H", Expire), BOUND: (">Hii", Bound)}

    def kept(self, child):
        """The number that is kept of a child, 0 if nothing was heard of it."""
        return self.heard[child].number if child in self.heard else 0

    def of_child(self, frame):
        """The answers to a Bid, a Gone or an Expire."""
        if isinstance(frame, Expire):
            known = max(self.kept(frame.child), self.numbers.get(frame.child, 0))
            frame = Gone(frame.child, parents_number(known))
            return b"" if frame.number <= self.kept(frame.child) else self.counted(frame.child, frame)
        if isinstance(frame, Bid) and self.is_too_much(frame):
            return too_much(frame.child, frame.number)
        return self.counted(frame.child, frame)

    def is_too_much(self, frame):
        least, greatest = self.bounds.get(frame.child, (-MOST, MOST))
        return any(not least <= demand <= greatest for demand in frame.demands)

    def counted(self, child, frame):
        """The answers to what a child sent under a number: it counts if its number is the greatest."""
        if frame.number <= self.kept(child):
            return old(child, self.kept(child)) + self.tried_again()
        self.heard[child], self.has_news = frame, True
        return self.found_again() + self.tried_again()

    def tried_again(self):
        """The answers to what waits at a parent."""
        return b""

    def compared(self):
        """The number heard of each child, and its number in what was sent last."""
        return [(self.kept(child), self.numbers.get(child, 0)) for child in self.heard.keys() | self.numbers.keys()]

    def is_caught_up(self):
        return all(now >= then for now, then in self.compared())

    def has_again(self):
        return self.is_lost and all(now == then for now, then in self.compared())

    def may_have_again(self):
        return self.is_lost and all(now <= then for now, then in self.compared())

    def sent(self):
        """Notes that what was heard is what was sent last."""
        self.numbers = {child: bid.number for child, bid in self.heard.items()}
        self.has_news = self.is_lost = False

    def prices_for(self, heard, index, step):
        """A Price for each child that was not gone, in the order of the children."""
        told = [heard[child] for child in sorted(heard)]
        return b"".join(price(to.child, to.number, index, step, self.basis) for to in told if isinstance(to, Bid))


@dataclass(frozen=True)
class Record:
    """What went into a bid of a relay: what was heard of each child, the sum of their demands, and the floor and the ceiling."""

    heard: dict
    total: list
    limits: tuple


class Relay(Parent):
    """`limits` are those of the next bid, and `newest` those of the newest bid."""

    def __init__(self, child, floor, ceiling, giver=0):
        super().__init__()
        self.child, self.given, self.giver = child, (floor, ceiling, giver), giver
        self.limits = self.newest = floor, ceiling
        self.last = self.answered = self.index = 0
        self.records, self.waiting = {}, None

    def resume_forms(self):
        return {RESUME: relay_resume_form(self.given)}

    def later_forms(self):
        own = {PRICE: price_form(self.child), OLD: (">HI", lambda *fields: Old(self.child, *fields)), SEND: (">", Send)}
        if self.giver == 0:
            return self.forms_of_children() | own
        return self.without_giver(self.forms_of_children()) | own | {LIMITS: (">Iii", Limits)}

    def without_giver(self, forms):
        """These forms, of which a frame with the giver as child is refused."""
        def refusing(make):
            def made(*fields):
                return make(*(0 if at == 0 and number == self.giver else number for at, number in enumerate(fields)))
            return made
        return {kind: (fields, refusing(make)) for kind, (fields, make) in forms.items()}

    def answer(self, frame):
        match frame:
            case RelayResume():
                return self.come_back(frame)
            case Old():
                return b""
            case Bound():
                self.bounds[frame.child] = frame.least, frame.greatest
                return b""
            case Price():
                return self.priced(frame)
            case Send():
                return self.asked() + self.tried_again()
            case Limits():
                return self.counted(self.giver, frame)
        return self.of_child(frame)

    def come_back(self, resume):
        self.last, self.answered, self.index, self.numbers, self.newest = resume.last, resume.answered, resume.index, resume.numbers, resume.newest
        self.is_lost = self.last > 0
        number = self.numbers.get(self.giver, 0) if self.giver else 0
        return self.counted(self.giver, Limits(number, *resume.newest)) if number else b""

    def counted(self, child, frame):
        if isinstance(frame, Limits) and frame.number > self.kept(child):
            self.limits = frame.floor, frame.ceiling
        return super().counted(child, frame)

    def found_again(self):
        """The last bid, if the relay just had its record again."""
        if not self.has_again():
            return b""
        self.record()
        return self.last_bid()

    def record(self):
        """Notes what was heard as what went into the last bid."""
        self.sent()
        self.newest = self.limits
        self.records[self.last] = Record(dict(self.heard), sum_of_heard(self.heard, self.basis.steps), self.limits)

    def last_bid(self):
        record = self.records[self.last]
        floor, ceiling = record.limits
        is_kept = any(floor <= power <= ceiling for power in record.total)
        told = b"" if is_kept else out_of_limits(self.last)
        return bid(self.child, self.last, announced(record.total, floor, ceiling)) + told

    def asked(self):
        if not self.is_caught_up():
            return bytes([NOT_CAUGHT_UP])
        if not self.has_news:
            return bytes([NOT_CHANGED])
        if self.last - self.answered >= WINDOW:
            return bytes([WINDOW_FULL])
        if self.last == LAST_NUMBER:
            return bytes([OUT_OF_NUMBERS])
        self.last += 1
        self.record()
        return self.resume() + self.last_bid()

    def resume(self):
        return relay_resume(self.last, self.answered, self.index, self.basis, self.given, self.newest, self.numbers)

    def priced(self, price):
        """The answers to a Price that comes, or that waited."""
        if price.index <= self.index or not self.answered <= price.number <= self.last:
            return dropped(price.number, price.index)
        if price.number == self.last and self.may_have_again():
            return self.waits(price)
        record = self.records.get(price.number)
        self.answered, self.index = price.number, price.index
        self.records = {number: kept for number, kept in self.records.items() if number >= price.number}
        return (self.passed(record, price) if record else b"") + self.resume()

    def waits(self, found):
        if self.waiting is None:
            self.waiting = found
            return b""
        first, self.waiting = self.waiting, max(self.waiting, found, key=lambda price: price.index)
        other = found if self.waiting is first else first
        return dropped(other.number, other.index)

    def tried_again(self):
        """The answers to a Price that waited."""
        if self.waiting is None:
            return b""
        price, self.waiting = self.waiting, None
        return self.priced(price)

    def passed(self, record, price):
        return self.prices_for(record.heard, price.index, settled_step(record.total, *record.limits, price.step))


class Auctioneer(Parent):
    def __init__(self):
        super().__init__()
        self.index = 0

    def resume_forms(self):
        return {RESUME: AUCTIONEER_RESUME_FORM}

    def later_forms(self):
        return self.forms_of_children() | {CLEAR: (">", Clear)}

    def answer(self, frame):
        match frame:
            case AuctioneerResume():
                self.index, self.numbers = frame.index, frame.numbers
                self.is_lost = self.index > 0
                return b""
            case Bound():
                self.bounds[frame.child] = frame.least, frame.greatest
                return b""
            case Clear():
                return self.cleared()
        return self.of_child(frame)

    def found_again(self):
        """The prices of the last clearing, if the auctioneer just had it again."""
        if not self.has_again():
            return b""
        self.sent()
        return self.prices()

    def cleared(self):
        if not self.is_caught_up():
            return bytes([NOT_CAUGHT_UP])
        if not self.has_news:
            return bytes([NOT_CHANGED])
        if self.index == LAST_NUMBER:
            return bytes([OUT_OF_NUMBERS])
        self.index += 1
        self.sent()
        return node_frames.auctioneer_resume(self.index, self.basis, self.numbers) + self.prices()

    def prices(self):
        return self.prices_for(self.heard, self.index, clearing_step(sum_of_heard(self.heard, self.basis.steps)))


class Device(Node):
    """The agent of one device. Its own numbers are even: the odd one after each is its parent's.

    `offers` has by its number the offer answered last, which is number `answered`, and each later one. An offer that came back is
    held for answered. `newest` is the last offer, or None if the device has left or never offered. `kind` is the kind that its control
    named last, as a node of a cluster file has it, or None.
    """

    def __init__(self, child):
        super().__init__()
        self.child, self.last, self.index = child, 0, 0
        self.offers, self.answered, self.newest, self.kind = {}, 0, None, None

    def resume_forms(self):
        return {RESUME: device_resume_form(self.basis.steps), RESUME_GONE: RESUME_GONE_FORM}

    def later_forms(self):
        return control_forms(self.basis.steps, self.kind) | {
            PRICE: price_form(self.child),
            OLD: (">HI", lambda *fields: Old(self.child, *fields)),
        }

    def answer(self, frame):
        match frame:
            case DeviceResume():
                self.last = self.answered = frame.last
                self.index = frame.index
                self.keep(frame.demands)
                return self.last_bid()
            case ResumeGone():
                self.last, self.index = frame.last, frame.index
                return gone(self.child, self.last) if self.last else b""
            case Offer():
                return self.offered(frame.demands)
            case Points() | State():
                return self.offered(frame.demands(self.basis))
            case Kind():
                self.kind = frame.node()
                return b""
            case Leave():
                return self.left()
            case Price():
                return self.priced(frame)
        return self.let_go(frame.kept)

    def keep(self, demands):
        self.newest = self.offers[self.last] = demands

    def last_bid(self):
        return bid(self.child, self.last, self.newest)

    def has_numbers(self, count):
        """Whether so many own numbers are left, each with the parent's behind it."""
        return self.last + 2 * count + 1 <= LAST_NUMBER

    def offered(self, demands):
        if sum(number > self.answered for number in self.offers) >= WINDOW:
            return bytes([WINDOW_FULL])
        # One is left for leaving.
        if not self.has_numbers(2):
            return bytes([OUT_OF_NUMBERS])
        self.last += 2
        self.keep(demands)
        return self.resume() + self.last_bid()

    def left(self):
        if not self.has_numbers(1):
            return bytes([OUT_OF_NUMBERS])
        self.leave()
        return self.resume() + gone(self.child, self.last)

    def leave(self):
        self.last, self.offers, self.newest = self.last + 2, {}, None

    def let_go(self, kept):
        """The answers to an Old: a device that its parent let go leaves, and makes its newest offer anew."""
        if kept <= self.last or self.newest is None or not self.has_numbers(3):
            return b""
        demands = self.newest
        self.leave()
        self.answered, self.last = self.last, self.last + 2
        self.keep(demands)
        return self.resume() + self.last_bid()

    def resume(self):
        if self.newest is None:
            return resume_gone(self.last, self.index, self.basis)
        return device_resume(self.last, self.index, self.basis, self.newest)

    def priced(self, price):
        if price.index <= self.index:
            return dropped(price.number, price.index)
        self.index = price.index
        if price.number not in self.offers:
            return dropped(price.number, price.index)
        self.answered = price.number
        self.offers = {number: kept for number, kept in self.offers.items() if number >= price.number}
        return setpoint(price.number, price.index, price.step, self.offers[price.number][price.step]) + self.resume()


def number_of(word, least, greatest):
    """The number that a word is, or None if it is none of these in decimal digits without a leading zero."""
    found = int(word) if re.fullmatch("0|-?[1-9][0-9]{0,9}", word) else None
    return found if found is not None and least <= found <= greatest else None


def node_of(arguments):
    """The node that the arguments are a command for, or None."""
    match arguments:
        case ["relay", *words] if len(words) in (3, 4):
            ranges = [(1, CHILDREN), (-MOST, 0), (0, MOST), (1, CHILDREN)]
            numbers = [number_of(word, *values) for word, values in zip(words, ranges)]
            return None if None in numbers else Relay(*numbers)
        case ["auctioneer"]:
            return Auctioneer()
        case ["device", word]:
            child = number_of(word, 1, CHILDREN)
            return None if child is None else Device(child)
    return None


def answers_to(arguments, data, ended=True):
    """The status and the answers that a stream has, if these bytes are all that comes, or a read fails after them."""
    node = node_of(arguments)
    return (frames.USAGE, USAGE_LINE) if node is None else frames.answers_to(node, data, ended)


def main(arguments):
    node = node_of(arguments)
    if node is not None:
        return frames.served(node)
    frames.write_all(USAGE_LINE)
    return frames.USAGE


if __name__ == "__main__":
    sys.exit(main(sys.argv[1:]))
