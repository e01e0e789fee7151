"""Streams for a relay of docs/RELAY.md, with the answers due, worked by hand."""

from checks.make.node_bytes import (
    BAD_FRAMES_OF_CHILDREN, CLEAR, GIVEN, LAST_NUMBER, LEAVE, MOST, NOT_CAUGHT_UP, NOT_CHANGED, OUT_OF_NUMBERS, RELAY, SEND, WINDOW_FULL,
    bad_frames_of_parent, bad_rows, bid, bound, dropped, expire, fault, gone, hello, limits, offer, old, other_basis, out_of_limits,
    price, relay_resume, resume_gone, too_much,
)
from checks.oracle.frames import DONE, REFUSED

# The arguments of the relay whose limits are given in place 9, as its Resume has them.
BY_GIVER = (-1000, 1000, 9)


def relay_rows():
    # A relay that bid 1, of child 1 alone, and the Resume before it.
    one, stored = hello() + bid(1, 1, 5, -3) + SEND, relay_resume(1, 0, 0, {1: 1})
    sent = stored + bid(3, 1, 5, -3)
    yield "nothing to send", RELAY, hello() + SEND, DONE, NOT_CHANGED
    yield "sent once", RELAY, one + SEND, DONE, sent + NOT_CHANGED
    yield "old bids", RELAY, one + bid(1, 1, 9, 9) + gone(1, 1) + SEND, DONE, sent + old(1, 1) * 2 + NOT_CHANGED
    yield "an old of the parent", RELAY, one + old(3, 0) + old(3, 9) + SEND, DONE, sent + NOT_CHANGED
    # The children bid 5 and 2 at step 0, -3 and 2 at step 1; then child 1 is gone.
    data = one + bid(256, 7, 2, 2) + gone(1, 2) + SEND + price(3, 2, 1, 1)
    answers = sent + relay_resume(2, 0, 0, {1: 2, 256: 7}) + bid(3, 2, 2, 2) + price(256, 7, 1, 1) + relay_resume(2, 2, 1, {1: 2, 256: 7})
    yield "a child that is gone is told nothing", RELAY, data, DONE, answers
    # Price 1 names bid 1, which has another number of child 1 than bid 2.
    data = one + bid(1, 5, 4, 4) + SEND + price(3, 1, 9, 0) + price(3, 2, 10, 1) + price(3, 2, 11, 0)
    answers = sent + relay_resume(2, 0, 0, {1: 5}) + bid(3, 2, 4, 4) + price(1, 1, 9, 0) + relay_resume(2, 1, 9, {1: 5})
    answers += price(1, 5, 10, 1) + relay_resume(2, 2, 10, {1: 5}) + price(1, 5, 11, 0) + relay_resume(2, 2, 11, {1: 5})
    yield "prices by their records", RELAY, data, DONE, answers
    again = [price(3, 2, 11, 1), price(3, 1, 12, 1), price(3, 3, 12, 1), price(3, LAST_NUMBER, LAST_NUMBER, 1), price(3, 2, 0, 1)]
    told = dropped(2, 11) + dropped(1, 12) + dropped(3, 12) + dropped(LAST_NUMBER, LAST_NUMBER) + dropped(2, 0)
    yield "prices that are not new", RELAY, data + b"".join(again), DONE, answers + told
    yield "a price before any bid", RELAY, hello() + price(3, 1, 1, 1), DONE, dropped(1, 1)
    other = price(3, 1, 9, 2, (0, 18, 3)) + price(3, 1, 9, 1, (0, 18, 2)) + price(3, 1, 9, 1, (-9, 0, 2)) + price(3, 1, 9, 1)
    answers = sent + other_basis(1, 9) * 3 + price(1, 1, 9, 1) + relay_resume(1, 1, 9, {1: 1})
    yield "prices of another basis", RELAY, one + other, DONE, answers
    yield "a child of the number 4,294,967,295", RELAY, hello() + bid(2, LAST_NUMBER, 0, 0) + SEND, DONE, \
        relay_resume(1, 0, 0, {2: LAST_NUMBER}) + bid(3, 1, 0, 0)
    for made in (limit_rows, two_relays_rows, giver_rows, bound_rows, expire_rows, window_rows, restart_rows):
        yield from made()
    yield from bad_rows(RELAY, hello(), BAD_FRAMES_OF_CHILDREN + bad_frames_of_parent(3))
    yield from bad_rows(RELAY, hello(), [
        ("an answered number above the last", relay_resume(4, 5, 1, {})), ("a clear", CLEAR), ("a leave", LEAVE),
        ("an offer", offer(5, -3)), ("a resume of a device that left", resume_gone(2, 1)), ("limits", limits(2, -5, 5)),
        ("a resume of another floor", relay_resume(1, 0, 0, {}, given=(-999, 1000, 0))),
        ("a resume of another ceiling", relay_resume(1, 0, 0, {}, given=(-1000, 999, 0))),
        ("a resume of a giver", relay_resume(1, 0, 0, {}, given=BY_GIVER)),
        ("a resume of another basis", relay_resume(1, 0, 0, {}, basis=(0, 18, 2))),
        ("a resume with a newest floor above 0", relay_resume(1, 0, 0, {}, newest=(1, 5))),
        ("a resume with a newest ceiling below 0", relay_resume(1, 0, 0, {}, newest=(-5, -1))),
        ("a resume with a newest floor too small", relay_resume(1, 0, 0, {}, newest=(-MOST - 1, 5))),
        ("a resume with a newest ceiling too large", relay_resume(1, 0, 0, {}, newest=(-5, MOST + 1))),
        ("a resume of the first form", bytes([12]) + relay_resume(1, 0, 0, {})[1:]),
    ])
    yield "a resume behind a frame", RELAY, one + stored, REFUSED, sent + fault(len(one))
    yield "a second resume", RELAY, hello() + stored * 2, REFUSED, fault(11 + len(stored))
    yield "an end within a resume", RELAY, hello() + stored[:-1], REFUSED, fault(11)


def settles(name, given, demands, announced, locals_, is_kept=True):
    """A relay of child 1 alone, its bid, and of each step that it is told the step that it passes down."""
    basis = (0, len(demands) - 1, len(demands))
    data = hello(len(demands), 0, len(demands) - 1) + bid(1, 2, *demands) + SEND
    own = dict(given=(*given, 0), basis=basis)
    answers = relay_resume(1, 0, 0, {1: 2}, **own) + bid(3, 1, *announced) + (b"" if is_kept else out_of_limits(1))
    for index, (step, local) in enumerate(zip(range(len(demands)), locals_), 1):
        data += price(3, 1, index, step, basis)
        answers += price(1, 2, index, local, basis) + relay_resume(1, 1, index, {1: 2}, **own)
    return name, ["relay", "3", *map(str, given)], data, DONE, answers


def limit_rows():
    """Limits that bind: at each step a relay announces its sum at the step for which it settles."""
    yield settles("limits that bind", (-10, 20), (30, 5, 1, -40), (5, 5, 1, 1), (1, 1, 2, 2))
    yield settles("limits that never bind", (-40, 30), (30, 5, 1, -40), (30, 5, 1, -40), (0, 1, 2, 3))
    yield settles("a sum at the limits", (-10, 20), (21, 20, -10, -11), (20, 20, -10, -10), (1, 1, 2, 2))
    yield settles("one step within", (-10, 20), (90, 20, -11, -50), (20, 20, 20, 20), (1, 1, 1, 1))
    yield settles("a sum that jumps over the limits", (-10, 50), (60, 60, -40, -70), (-40,) * 4, (2, 2, 2, 2), False)
    yield settles("a jump at the first step", (0, 50), (60, -1), (-1, -1), (1, 1), False)
    yield settles("a sum above the limits at every step", (0, 0), (9, 8, 7), (7, 7, 7), (2, 2, 2), False)
    yield settles("a sum below the limits at every step", (0, 0), (-7, -8, -9), (-7, -7, -7), (0, 0, 0), False)
    # Four children bid the most, so the sum is four times what a bid may say.
    widest = ["relay", "3", str(-MOST), str(MOST)]
    own = dict(given=(-MOST, MOST, 0))
    for name, first, last, step in [("jumps", MOST, -MOST, 1), ("is above", MOST, MOST, 1), ("is below", -MOST, -MOST, 0)]:
        data = hello() + b"".join(bid(child, 2, first, last) for child in (1, 2, 255, 256)) + SEND + price(3, 1, 1, 0)
        numbers = dict.fromkeys((1, 2, 255, 256), 2)
        answers = relay_resume(1, 0, 0, numbers, **own) + bid(3, 1, last, last) + out_of_limits(1)
        answers += b"".join(price(child, 2, 1, step) for child in numbers) + relay_resume(1, 1, 1, numbers, **own)
        yield f"a sum past all limits that {name}", widest, data, DONE, answers
    # A bid that is sent again is told again to be out of limits.
    own = dict(given=(0, 0, 0))
    data = hello() + relay_resume(5, 4, 7, {1: 2}, **own) + bid(1, 2, 9, 8)
    yield "a bid out of limits again", ["relay", "3", "0", "0"], data, DONE, bid(3, 5, 8, 8) + out_of_limits(5)


def two_relays_rows():
    """A relay Q with limits over a device, below a relay P with limits and a load beside: what P announces is what flows."""
    basis = (0, 4, 5)
    device, load, flexible = (150, 150, 150, 150, -500), (100,) * 5, (100, 100, 100, -200, -200)
    q = dict(given=(-100, 1000, 0), basis=basis)
    data = hello(5, 0, 4) + bid(1, 2, *device) + SEND + price(1, 1, 1, 4, basis)
    answers = relay_resume(1, 0, 0, {1: 2}, **q) + bid(1, 1, *(150,) * 5) + price(1, 2, 1, 3, basis) + relay_resume(1, 1, 1, {1: 2}, **q)
    yield "the lower of two relays", ["relay", "1", "-100", "1000"], data, DONE, answers
    p, arguments = dict(given=(-1000, 50, 0), basis=basis), ["relay", "1", "-1000", "50"]
    first = hello(5, 0, 4) + bid(1, 1, *(150,) * 5)
    numbers = {1: 1, 2: 2}
    passed = price(1, 1, 1, 4, basis) + price(2, 2, 1, 4, basis) + relay_resume(1, 1, 1, numbers, **p)
    # At step 4 Q settles for step 3, so 150 W of the device and 100 W of the load flow, and no step keeps P's limits.
    data = first + bid(2, 2, *load) + SEND + price(1, 1, 1, 4, basis)
    yield "the upper of two relays over a load", arguments, data, DONE, \
        relay_resume(1, 0, 0, numbers, **p) + bid(1, 1, *(250,) * 5) + out_of_limits(1) + passed
    data = first + bid(2, 2, *flexible) + SEND + price(1, 1, 1, 4, basis)
    yield "the upper of two relays over a flexible load", arguments, data, DONE, \
        relay_resume(1, 0, 0, numbers, **p) + bid(1, 1, *(-50,) * 5) + passed


def giver_rows():
    """Limits that change. The sum is 8, 4, 0, -8, and under -2 to 5 the relay announces 4, 4, 0, 0."""
    basis = (0, 9, 4)
    own = dict(given=BY_GIVER, basis=basis)
    first, demands = hello(4), (8, 4, 0, -8)
    sent = relay_resume(1, 0, 0, {1: 2}, **own) + bid(3, 1, *demands)
    data = first + bid(1, 2, *demands) + SEND + limits(2, -2, 5)
    yield "limits alone are no bid", GIVEN, data, DONE, sent
    numbers, newer = {1: 2, 9: 2}, dict(own, newest=(-2, 5))
    second = relay_resume(2, 0, 0, numbers, **newer) + bid(3, 2, 4, 4, 0, 0)
    yield "limits count from the next bid on", GIVEN, data + SEND + SEND, DONE, sent + second + NOT_CHANGED
    told = data + SEND + price(3, 1, 5, 0, basis) + price(3, 2, 6, 0, basis) + price(3, 2, 7, 3, basis)
    answers = sent + second + price(1, 2, 5, 0, basis) + relay_resume(2, 1, 5, numbers, **newer)
    answers += price(1, 2, 6, 1, basis) + relay_resume(2, 2, 6, numbers, **newer)
    answers += price(1, 2, 7, 2, basis) + relay_resume(2, 2, 7, numbers, **newer)
    yield "a price settles by the limits of the bid that it answers", GIVEN, told, DONE, answers
    before = data + price(3, 1, 5, 3, basis)
    answers = sent + price(1, 2, 5, 3, basis) + relay_resume(1, 1, 5, {1: 2}, **own)
    yield "a price before the bid under new limits", GIVEN, before, DONE, answers
    again = data + limits(2, -9, 9) + SEND + limits(2, -2, 5) + limits(4, 0, 0) + limits(2, -2, 5) + SEND
    third = relay_resume(3, 0, 0, {1: 2, 9: 4}, **dict(own, newest=(0, 0))) + bid(3, 3, 0, 0, 0, 0)
    yield "limits of an older number", GIVEN, again, DONE, sent + old(9, 2) + second + old(9, 2) + old(9, 4) + third
    yield "the newest limits before a bid", GIVEN, data + limits(10, 0, 4) + SEND, DONE, \
        sent + relay_resume(2, 0, 0, {1: 2, 9: 10}, **dict(own, newest=(0, 4))) + bid(3, 2, 4, 4, 0, 0)
    yield "limits that no step keeps", GIVEN, data + limits(4, -1, 3) + bid(1, 4, 9, 4, -2, -8) + SEND, DONE, \
        sent + relay_resume(2, 0, 0, {1: 4, 9: 4}, **dict(own, newest=(-1, 3))) + bid(3, 2, *(-2,) * 4) + out_of_limits(2)
    # The giver is told no price, and asks for nothing.
    alone = relay_resume(1, 0, 0, {9: 2}, **newer) + bid(3, 1, 0, 0, 0, 0)
    data = first + limits(2, -2, 5) + SEND + price(3, 1, 1, 3, basis)
    yield "limits alone are news", GIVEN, data, DONE, alone + relay_resume(1, 1, 1, {9: 2}, **newer)
    yield from giver_restart_rows(first, own, newer, demands)
    yield from bad_rows(GIVEN, hello(), [
        ("a bid of the giver", bid(9, 2, 0, 0)), ("a leave of the giver", gone(9, 2)), ("an expiry of the giver", expire(9)),
        ("a bound of the giver", bound(9, -5, 5)), ("limits of number 0", limits(0, -5, 5)), ("limits of number 1", limits(1, -5, 5)),
        ("limits of number 4,294,967,295", limits(LAST_NUMBER, -5, 5)), ("a floor above 0", limits(2, 1, 5)),
        ("a ceiling below 0", limits(2, -5, -1)), ("a floor too small", limits(2, -MOST - 1, 5)),
        ("a ceiling too large", limits(2, -5, MOST + 1)), ("a resume without the giver", relay_resume(1, 0, 0, {})),
        ("a resume of another giver", relay_resume(1, 0, 0, {}, given=(-1000, 1000, 8))),
    ])


def giver_restart_rows(first, own, newer, demands):
    """A relay that comes back with limits. Its last bid was 5, of number 2 of child 1 and of the limits, -2 to 5."""
    basis, numbers = own["basis"], {1: 2, 9: 2}
    back, last = first + relay_resume(5, 4, 7, numbers, **newer), bid(3, 5, 4, 4, 0, 0)
    yield "limits come back with the resume", GIVEN, back, DONE, b""
    yield "the record again under its limits", GIVEN, back + bid(1, 2, *demands) + SEND, DONE, last + NOT_CHANGED
    told = price(1, 2, 9, 1, basis) + relay_resume(5, 5, 9, numbers, **newer)
    yield "a price that waits for a record under limits", GIVEN, back + price(3, 5, 9, 0, basis) + bid(1, 2, *demands), DONE, last + told
    yield "the limits of a resume are kept", GIVEN, back + limits(2, 0, 0), DONE, old(9, 2)
    other = relay_resume(6, 4, 7, {1: 2, 9: 4}, **dict(own, newest=(0, 9))) + bid(3, 6, 8, 4, 0, 0)
    yield "newer limits than those of the record", GIVEN, back + limits(4, 0, 9) + SEND + bid(1, 2, *demands) + SEND, DONE, \
        NOT_CAUGHT_UP + other
    alone = first + relay_resume(5, 4, 7, {9: 2}, **newer)
    yield "a record of limits alone", GIVEN, alone + SEND, DONE, bid(3, 5, 0, 0, 0, 0) + NOT_CHANGED
    without = first + relay_resume(5, 4, 7, {1: 2}, **own)
    yield "back without limits given", GIVEN, without + bid(1, 2, *demands), DONE, bid(3, 5, *demands)
    lost = relay_resume(5, 4, 9, numbers, **newer)
    yield "a lost record keeps its limits", GIVEN, back + price(3, 4, 9, 0, basis), DONE, lost
    yield "the greatest number of limits", GIVEN, first + limits(LAST_NUMBER - 1, -2, 5) + SEND, DONE, \
        relay_resume(1, 0, 0, {9: LAST_NUMBER - 1}, **newer) + bid(3, 1, 0, 0, 0, 0)


def bound_rows():
    """What a child may bid."""
    first = hello() + bound(1, -10, 10)
    sent = relay_resume(1, 0, 0, {1: 2}) + bid(3, 1, 10, -10)
    yield "a bid at its bound", RELAY, first + bid(1, 2, 10, -10) + SEND, DONE, sent
    yield "bids beyond their bound", RELAY, first + bid(1, 2, 11, 0) + bid(1, 4, 0, -11) + bid(1, 2, 10, -10) + SEND, DONE, \
        too_much(1, 2) + too_much(1, 4) + sent
    yield "an old bid beyond its bound", RELAY, first + bid(1, 2, 10, -10) + SEND + bid(1, 2, 11, 0) + bid(1, 1, 10, 0) + SEND, DONE, \
        sent + too_much(1, 2) + old(1, 2) + NOT_CHANGED
    yield "a bound is of one child", RELAY, first + bid(2, 2, 99, 0) + SEND, DONE, relay_resume(1, 0, 0, {2: 2}) + bid(3, 1, 99, 0)
    yield "the newest bound holds", RELAY, first + bound(1, 0, 20) + bid(1, 2, 20, 0) + bid(1, 4, 0, -1) + SEND, DONE, \
        too_much(1, 4) + relay_resume(1, 0, 0, {1: 2}) + bid(3, 1, 20, 0)
    late = hello() + bid(1, 2, 99, 0) + bound(1, -10, 10) + SEND
    yield "a bound leaves what was heard", RELAY, late, DONE, relay_resume(1, 0, 0, {1: 2}) + bid(3, 1, 99, 0)
    waits = hello() + relay_resume(5, 4, 7, {1: 4}) + bound(1, 0, 0) + price(3, 5, 9, 1) + bid(1, 4, 1, 0)
    yield "a bid beyond its bound catches nobody up", RELAY, waits + SEND, DONE, too_much(1, 4) + NOT_CAUGHT_UP


def expire_rows():
    """A child is let go under the odd number that is not below the newest that is known of it."""
    first, sent = hello() + bid(1, 2, 5, -3) + SEND, relay_resume(1, 0, 0, {1: 2}) + bid(3, 1, 5, -3)
    let_go = relay_resume(2, 0, 0, {1: 3}) + bid(3, 2, 0, 0)
    yield "a child is let go", RELAY, first + expire(1) + SEND, DONE, sent + let_go
    again = first + expire(1) * 2 + SEND + expire(1) + bid(1, 2, 5, -3) + SEND
    yield "a child is let go again", RELAY, again, DONE, sent + let_go + old(1, 3) + NOT_CHANGED
    back = first + expire(1) + bid(1, 6, 7, 7) + SEND
    yield "a child that was let go comes back", RELAY, back, DONE, sent + relay_resume(2, 0, 0, {1: 6}) + bid(3, 2, 7, 7)
    yield "a child that is gone is let go", RELAY, first + gone(1, 4) + expire(1) + SEND, DONE, \
        sent + relay_resume(2, 0, 0, {1: 5}) + bid(3, 2, 0, 0)
    yield "a child that was never heard is let go", RELAY, hello() + expire(7) + SEND, DONE, relay_resume(1, 0, 0, {7: 1}) + bid(3, 1, 0, 0)
    yield "a price for a bid before", RELAY, first + expire(1) + price(3, 1, 4, 1), DONE, \
        sent + price(1, 2, 4, 1) + relay_resume(1, 1, 4, {1: 2})
    # The last bid was 5, of a child that was let go by number 3 and one of number 2.
    numbers = {1: 3, 2: 2}
    lost = hello() + relay_resume(5, 4, 7, numbers) + bid(2, 2, 1, -4)
    yield "the expiry of a record", RELAY, lost + SEND + expire(1) + SEND, DONE, NOT_CAUGHT_UP + bid(3, 5, 1, -4) + NOT_CHANGED
    waits = lost + price(3, 5, 9, 1) + expire(1)
    yield "a price that waits for an expiry", RELAY, waits, DONE, bid(3, 5, 1, -4) + price(2, 2, 9, 1) + relay_resume(5, 5, 9, numbers)
    newer = lost + expire(2) + expire(1) + SEND
    yield "an expiry of a number in the record", RELAY, newer, DONE, relay_resume(6, 4, 7, {1: 3, 2: 3}) + bid(3, 6, 0, 0)
    older = hello() + relay_resume(5, 4, 7, {1: 8}) + bid(1, 4, 9, 9) + SEND + expire(1) + SEND
    yield "an expiry by the record alone", RELAY, older, DONE, NOT_CAUGHT_UP + relay_resume(6, 4, 7, {1: 9}) + bid(3, 6, 0, 0)
    yield "the last expiry", RELAY, hello() + bid(1, LAST_NUMBER - 1, 5, -3) + expire(1) * 2 + SEND, DONE, \
        relay_resume(1, 0, 0, {1: LAST_NUMBER}) + bid(3, 1, 0, 0)


def window_rows():
    """Windows that are full, and numbers that end."""
    data, answers = hello(), b""
    for number in range(1, 9):
        data += bid(1, number, number, 0) + SEND
        answers += relay_resume(number, 0, 0, {1: number}) + bid(3, number, number, 0)
    data, answers = data + SEND + bid(1, 9, 9, 0) + SEND, answers + NOT_CHANGED + WINDOW_FULL
    yield "a full window", RELAY, data, DONE, answers
    data += price(3, 1, 1, 1) + SEND
    answers += price(1, 1, 1, 1) + relay_resume(8, 1, 1, {1: 8}) + relay_resume(9, 1, 1, {1: 9}) + bid(3, 9, 9, 0)
    yield "a price makes room", RELAY, data, DONE, answers
    data += bid(1, 10, 0, 0) + SEND + price(3, 9, 2, 0) + SEND
    answers += WINDOW_FULL + price(1, 9, 2, 0) + relay_resume(9, 9, 2, {1: 9}) + relay_resume(10, 9, 2, {1: 10}) + bid(3, 10, 0, 0)
    yield "a price for the last number", RELAY, data, DONE, answers
    first = hello() + relay_resume(10, 1, 0, {1: 4}) + bid(1, 5, 1, 0) + SEND
    answers = WINDOW_FULL + relay_resume(10, 9, 3, {1: 4}) + relay_resume(11, 9, 3, {1: 5}) + bid(3, 11, 1, 0)
    yield "more than a window after a restart", RELAY, first + price(3, 9, 3, 1) + SEND, DONE, answers
    first = hello() + relay_resume(LAST_NUMBER - 1, LAST_NUMBER - 2, 7, {1: 1}) + bid(1, 2, 5, -3) + SEND + bid(1, 3, 5, -3) + SEND
    last = relay_resume(LAST_NUMBER, LAST_NUMBER - 2, 7, {1: 2}) + bid(3, LAST_NUMBER, 5, -3) + OUT_OF_NUMBERS
    yield "the last number", RELAY, first, DONE, last
    told = price(1, 2, LAST_NUMBER, 0) + relay_resume(LAST_NUMBER, LAST_NUMBER, LAST_NUMBER, {1: 2})
    yield "the last price", RELAY, first + price(3, LAST_NUMBER, LAST_NUMBER, 0), DONE, last + told
    full = hello() + relay_resume(LAST_NUMBER, 7, 7, {1: 1}) + bid(1, 2, 5, -3) + SEND
    yield "a full window and no number", RELAY, full, DONE, WINDOW_FULL


def restart_rows():
    """A relay that comes back. Its last bid was 5, of numbers 3 of child 1 and 2 of child 2, which bid 9, 1 and 1, -4."""
    numbers = {1: 3, 2: 2}
    first, heard = hello() + relay_resume(5, 4, 7, numbers), bid(1, 3, 9, 1) + bid(2, 2, 1, -4)
    last = bid(3, 5, 10, -3)
    yield "a resume alone", RELAY, first, DONE, b""
    yield "not caught up", RELAY, first + SEND + bid(1, 3, 9, 1) + SEND + bid(2, 1, 0, 0) + SEND, DONE, NOT_CAUGHT_UP * 3
    yield "the record again", RELAY, first + heard + SEND, DONE, last + NOT_CHANGED
    yield "the record again, by way of older bids", RELAY, first + bid(1, 1, 8, 8) + heard, DONE, last
    yield "the record again once", RELAY, first + heard + bid(1, 3, 9, 1), DONE, last + old(1, 3)
    next_one = relay_resume(6, 4, 7, {1: 4, 2: 2}) + bid(3, 6, 1, -4)
    yield "a bid behind the record again", RELAY, first + heard + gone(1, 4) + SEND, DONE, last + next_one
    yield "a greater number", RELAY, first + bid(1, 3, 9, 1) + gone(1, 4) + heard + SEND, DONE, old(1, 4) + next_one
    stranger = relay_resume(6, 4, 7, numbers | {9: 1}) + bid(3, 6, 10, -3)
    yield "a child that is not in the record", RELAY, first + bid(9, 1, 0, 0) + heard + SEND, DONE, stranger
    yield "a price for a lost record", RELAY, first + price(3, 4, 9, 1) + heard, DONE, relay_resume(5, 4, 9, numbers) + last
    waits = first + price(3, 5, 9, 1)
    told = price(1, 3, 9, 1) + price(2, 2, 9, 1) + relay_resume(5, 5, 9, numbers)
    yield "a price that waits", RELAY, waits, DONE, b""
    yield "a price that waits and is told", RELAY, waits + heard + price(3, 5, 9, 1), DONE, last + told + dropped(5, 9)
    gone_first = waits + gone(1, 3) + bid(2, 2, 1, -4)
    told_one = bid(3, 5, 1, -4) + price(2, 2, 9, 1) + relay_resume(5, 5, 9, numbers)
    yield "a price that waits for a leave", RELAY, gone_first, DONE, told_one
    lost = relay_resume(5, 5, 9, numbers)
    yield "a price that waits in vain", RELAY, waits + bid(1, 4, 9, 1) + heard, DONE, lost + old(1, 4)
    yield "a price that waits behind an old bid", RELAY, waits + bid(1, 3, 9, 1) * 2 + SEND, DONE, old(1, 3) + NOT_CAUGHT_UP
    more = waits + price(3, 5, 12, 0) + price(3, 5, 12, 1) + price(3, 5, 10, 1) + heard
    answers = dropped(5, 9) + dropped(5, 12) + dropped(5, 10) + last + price(1, 3, 12, 0) + price(2, 2, 12, 0)
    yield "the greatest index waits, and of two the first", RELAY, more, DONE, answers + relay_resume(5, 5, 12, numbers)
    taken = waits + price(3, 4, 11, 1) + SEND + SEND
    answers = relay_resume(5, 4, 11, numbers) + NOT_CAUGHT_UP + dropped(5, 9) + NOT_CAUGHT_UP
    yield "a price that waited is no longer new", RELAY, taken, DONE, answers
    yield "an older price and then the one that waits", RELAY, waits + price(3, 4, 8, 1) + heard, DONE, \
        relay_resume(5, 4, 8, numbers) + last + told
    before = hello() + relay_resume(5, 0, 0, numbers) + heard + price(3, 5, 2, 0)
    yield "back with no price", RELAY, before, DONE, last + price(1, 3, 2, 0) + price(2, 2, 2, 0) + relay_resume(5, 5, 2, numbers)
    before = hello() + relay_resume(14, 0, 0, numbers) + heard + price(3, 5, 9, 1)
    yield "a lost record, nine numbers before the one again", RELAY, before, DONE, bid(3, 14, 10, -3) + relay_resume(14, 5, 9, numbers)
    before = hello() + relay_resume(0, 0, 0, {1: 3}) + SEND + bid(1, 3, 9, 1) + SEND
    yield "back with no bid", RELAY, before, DONE, NOT_CAUGHT_UP + relay_resume(1, 0, 0, {1: 3}) + bid(3, 1, 9, 1)
