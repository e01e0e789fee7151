"""The bytes of the frames of a node, a relay, an auctioneer and a device, as rows and random streams have them."""

import struct

from checks.make.streams import CLEAR, NOT_CHANGED, bid, gone, hello, old
from checks.facts import DEMAND_LIMIT as MOST
from checks.facts import REFUSED

LAST_NUMBER = 4_294_967_295
SEND, WINDOW_FULL, LEAVE, NOT_CAUGHT_UP, OUT_OF_NUMBERS = (bytes([kind]) for kind in (9, 10, 14, 17, 18))
USAGE_LINE = b"usage: live relay CHILD FLOOR CEILING [GIVER] | live auctioneer | live device CHILD\n"
# The basis of a plain `hello()`: the least and the greatest price, and the number of steps.
BASIS = (0, 9, 2)
# The command of each node in the rows, and of a relay whose limits are given in place 9.
RELAY, AUCTIONEER, DEVICE = ["relay", "3", "-1000", "1000"], ["auctioneer"], ["device", "2"]
GIVEN = [*RELAY, "9"]


def fault(offset):
    return struct.pack(">BQ", 8, offset)


def dropped(number, index):
    return struct.pack(">BII", 11, number, index)


def expire(child):
    return struct.pack(">BH", 19, child)


def limits(number, floor, ceiling):
    return struct.pack(">BIii", 20, number, floor, ceiling)


def bound(child, least, greatest):
    return struct.pack(">BHii", 21, child, least, greatest)


def too_much(child, number):
    return struct.pack(">BHI", 22, child, number)


def price(child, number, index, step, basis=BASIS):
    return struct.pack(">BHIIHiiH", 23, child, number, index, step, *basis)


def other_basis(number, index):
    return struct.pack(">BII", 24, number, index)


def with_children(numbers):
    """The numbers of 256 children, of which these are not 0."""
    return struct.pack(">256I", *(numbers.get(child, 0) for child in range(1, 257)))


def relay_resume(last, answered, index, numbers, newest=None, given=(-1000, 1000, 0), basis=BASIS):
    """The Resume of a relay. The limits of its newest bid are those of its arguments if none are named."""
    return struct.pack(">BIIIiiHiiHii", 25, last, answered, index, *basis, *given, *(newest or given[:2])) + with_children(numbers)


def auctioneer_resume(index, numbers, basis=BASIS):
    return struct.pack(">BIiiH", 25, index, *basis) + with_children(numbers)


def device_resume(last, index, *demands, basis=BASIS):
    return struct.pack(f">BIIiiH{len(demands)}i", 25, last, index, *basis, *demands)


def resume_gone(last, index, basis=BASIS):
    return struct.pack(">BIIiiH", 26, last, index, *basis)


def out_of_limits(number):
    return struct.pack(">BI", 27, number)


def offer(*demands):
    return struct.pack(f">B{len(demands)}i", 13, *demands)


def setpoint(number, index, step, power):
    return struct.pack(">BIIHi", 15, number, index, step, power)


def bad_rows(arguments, first, wrong):
    """A stream of a node, and behind it each of these frames, which its page refuses."""
    for name, frame in wrong:
        yield name, arguments, first + frame + SEND, REFUSED, fault(len(first))


BAD_FRAMES_OF_CHILDREN = [
    ("a bid of child 0", bid(0, 1, 5, -3)), ("a bid of child 257", bid(257, 1, 5, -3)),
    ("a bid of number 0", bid(1, 0, 5, -3)), ("a rising bid", bid(1, 1, 5, 6)),
    ("a demand too large", bid(1, 1, MOST + 1, 0)), ("a demand too small", bid(1, 1, 0, -MOST - 1)),
    ("a leave of child 0", gone(0, 1)), ("a leave of child 257", gone(257, 1)), ("a leave of number 0", gone(1, 0)),
    ("an expiry of child 0", expire(0)), ("an expiry of child 257", expire(257)),
    ("a bound of child 0", bound(0, -5, 5)), ("a bound of child 257", bound(257, -5, 5)), ("a bound above 0", bound(1, 1, 5)),
    ("a bound below 0", bound(1, -5, -1)), ("a bound too large", bound(1, -5, MOST + 1)), ("a bound too small", bound(1, -MOST - 1, 5)),
]


def bad_frames_of_parent(child):
    return [
        ("a price of another child", price(child + 1, 1, 1, 1)), ("a price of child 0", price(0, 1, 1, 1)),
        ("a price of number 0", price(child, 0, 1, 1)), ("a price of step 2 of 2", price(child, 1, 1, 2)),
        ("a price of step 3 of 3 in another basis", price(child, 1, 1, 3, (0, 8, 3))),
        ("a price of no basis", price(child, 1, 1, 1, (0, 9, 3))), ("a price of a basis of one step", price(child, 1, 1, 0, (0, 9, 1))),
        ("a price of the first form", bytes.fromhex("05") + price(child, 1, 1, 1)[1:]),
        ("an old of another child", old(child + 1, 1)),
    ]
