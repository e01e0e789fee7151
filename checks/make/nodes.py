"""Streams for the nodes of docs/RELAY.md, a relay, an auctioneer and a device, with the answers due: rows worked by hand."""

from checks.make.control_rows import control_rows
from checks.make.device_rows import device_rows
from checks.make.node_bytes import (
    AUCTIONEER, BAD_FRAMES_OF_CHILDREN, CLEAR, DEVICE, LAST_NUMBER, LEAVE, MOST, NOT_CAUGHT_UP, NOT_CHANGED, OUT_OF_NUMBERS, RELAY, SEND,
    USAGE_LINE, auctioneer_resume, bad_rows, bid, bound, device_resume, expire, fault, gone, hello, limits, offer, old, price,
    relay_resume, resume_gone, setpoint, too_much,
)
from checks.make.relay_rows import relay_rows
from checks.oracle.frames import DONE, REFUSED, USAGE


def from_hex(text):
    """The bytes of an example of the page. `..N` stands for N times four bytes of 0."""
    return b"".join(bytes(4 * int(word[2:])) if word.startswith("..") else bytes.fromhex(word) for word in text.split())


EXAMPLES = [
    (RELAY, """01 00000000 00000009 0002
               02 0001 00000002 00000005 FFFFFFFD
               02 0002 00000004 00000010 00000000
               09
               17 0003 00000001 00000007 0001 00000000 00000009 0002""",
            """19 00000001 00000000 00000000 00000000 00000009 0002 FFFFFC18 000003E8 0000 FFFFFC18 000003E8 00000002 00000004 ..254
               02 0003 00000001 00000015 FFFFFFFD
               17 0001 00000002 00000007 0001 00000000 00000009 0002
               17 0002 00000004 00000007 0001 00000000 00000009 0002
               19 00000001 00000001 00000007 00000000 00000009 0002 FFFFFC18 000003E8 0000 FFFFFC18 000003E8 00000002 00000004 ..254"""),
    (AUCTIONEER, """01 00000000 00000009 0002
                    02 0003 00000001 00000015 FFFFFFFD
                    04
                    04""",
                 """19 00000001 00000000 00000009 0002 00000000 00000000 00000001 ..253
                    17 0003 00000001 00000001 0001 00000000 00000009 0002
                    06"""),
    (DEVICE, """01 00000000 00000009 0002
                0D 000001F4 FFFFFED4
                17 0002 00000002 00000007 0001 00000000 00000009 0002
                0E""",
             """19 00000002 00000000 00000000 00000009 0002 000001F4 FFFFFED4
                02 0002 00000002 000001F4 FFFFFED4
                0F 00000002 00000007 0001 FFFFFED4
                19 00000002 00000007 00000000 00000009 0002 000001F4 FFFFFED4
                1A 00000004 00000007 00000000 00000009 0002
                03 0002 00000004"""),
    (DEVICE, """01 00000000 00000009 0002
                82 00000000 000001F4 00000009 FFFFFED4
                1D 03 000003E8 0000012C 0000012C 00000000 00000000
                1E 00000190""",
             """19 00000002 00000000 00000000 00000009 0002 000001F4 FFFFFED4
                02 0002 00000002 000001F4 FFFFFED4
                19 00000004 00000000 00000000 00000009 0002 00000000 FFFFFED4
                02 0002 00000004 00000000 FFFFFED4"""),
]


def usage_rows():
    """Arguments that are no command, and some at the limits that are one."""
    wrong = [
        "", "serve", "relay", "relay 3", "relay 3 -5", "relay 3 -5 5 0", "relay 3 -5 5 257", "relay 3 -5 5 01", "relay 3 -5 5 -1",
        "relay 3 -5 5 x", "relay 3 -5 5 9 9", "relay 0 -5 5", "relay 257 -5 5", "relay -1 -5 5",
        "relay 3 1 5", "relay 3 -5 -1", "relay 3 -1000000001 5", "relay 3 -5 1000000001", "relay 03 -5 5", "relay 3 -05 5",
        "relay 3 -5 05", "relay 3 -0 5", "relay 3 -5 +5", "relay 3 -5 5.0", "relay 3 -5 x", "relay 3 -5 4294967296",
        "relay 3 -18446744073709551616 5", "Relay 3 -5 5", "auctioneer 1", "device", "device 0", "device 257", "device 2 2",
        "device 02", "device -2", "device x", "devices 2",
    ]
    for words in wrong:
        yield f"the arguments '{words}'", words.split(), hello(), USAGE, USAGE_LINE
    yield "an empty argument", ["device", ""], hello(), USAGE, USAGE_LINE
    yield "a blank in an argument", ["device", " 2"], hello(), USAGE, USAGE_LINE
    for words in ["relay 1 0 0", "relay 256 -1000000000 1000000000", "relay 1 0 0 1", "relay 1 -5 5 256", "device 1", "device 256", "auctioneer"]:
        yield f"the arguments '{words}'", words.split(), hello(), DONE, b""


def common_rows():
    """What all three nodes have: the Hello, and ends of the stream."""
    for arguments in (RELAY, AUCTIONEER, DEVICE):
        yield "no byte", arguments, b"", DONE, b""
        yield "a hello alone", arguments, hello(), DONE, b""
        yield "an end within a hello", arguments, hello()[:-1], REFUSED, fault(0)
        yield "an end behind a kind", arguments, hello() + b"\x19", REFUSED, fault(11)
        yield from bad_rows(arguments, b"", [
            ("one step", hello(1)), ("prices that do not fit", hello(10, 0, 10)),
            ("a resume before a hello", b"\x19" + bytes(2000)), ("the kind 0", b"\x00"),
        ])
        answers = (5, 6, 8, 10, 11, 12, 15, 16, 17, 18, 22, 24, 27, 28, 255)
        yield from bad_rows(arguments, hello(), [(f"the kind {kind}", bytes([kind])) for kind in answers])
        yield from bad_rows(arguments, hello(), [("a second hello", hello())])


def auctioneer_rows():
    one, stored = hello() + bid(1, 1, 5, -3) + CLEAR, auctioneer_resume(1, {1: 1})
    told = stored + price(1, 1, 1, 1)
    yield "a clearing of nothing", AUCTIONEER, hello() + CLEAR, DONE, NOT_CHANGED
    yield "old bids", AUCTIONEER, one + bid(1, 1, 9, 9) + gone(1, 1) + CLEAR, DONE, told + old(1, 1) * 2 + NOT_CHANGED
    yield "all are gone", AUCTIONEER, one + gone(1, 2) + CLEAR * 2, DONE, told + auctioneer_resume(2, {1: 2}) + NOT_CHANGED
    # The sum is 7, 1, 0, -2.
    data = hello(4) + bid(256, 7, 4, 2, 1, 1) + bid(2, 9, 3, -1, -1, -3) + gone(5, 6) + CLEAR
    basis = (0, 9, 4)
    answers = auctioneer_resume(1, {2: 9, 5: 6, 256: 7}, basis) + price(2, 9, 1, 2, basis) + price(256, 7, 1, 2, basis)
    yield "the first step that is not positive", AUCTIONEER, data, DONE, answers
    yield "all positive", AUCTIONEER, hello() + bid(1, 1, 5, 5) + CLEAR, DONE, told
    data = hello() + b"".join(bid(child, 1, MOST, -MOST) for child in range(1, 257)) + CLEAR
    answers = auctioneer_resume(1, dict.fromkeys(range(1, 257), 1)) + b"".join(price(child, 1, 1, 1) for child in range(1, 257))
    yield "the greatest sum at a root", AUCTIONEER, data, DONE, answers
    yield from auctioneer_restart_rows()
    yield from auctioneer_child_rows()
    yield from bad_rows(AUCTIONEER, hello(), BAD_FRAMES_OF_CHILDREN)
    yield from bad_rows(AUCTIONEER, hello(), [
        ("a send", SEND), ("a leave", LEAVE), ("an offer", offer(5, -3)),
        ("a price", price(1, 1, 1, 1)), ("an old", old(1, 1)), ("a leave resumed", resume_gone(2, 1)), ("limits", limits(2, -5, 5)),
        ("a resume of another basis", auctioneer_resume(1, {}, (0, 18, 2))),
        ("a resume of the first form", bytes([12]) + auctioneer_resume(1, {})[1:]),
    ])
    yield "a resume behind a frame", AUCTIONEER, one + stored, REFUSED, told + fault(len(one))
    yield "a second resume", AUCTIONEER, hello() + stored * 2, REFUSED, fault(11 + len(stored))
    yield "an end within a resume", AUCTIONEER, hello() + stored[:-1], REFUSED, fault(11)


def auctioneer_restart_rows():
    """An auctioneer that comes back. Its last clearing was 7, of numbers 3 of child 1 and 2 of child 4, which bid 9, 1 and 1, -4."""
    first, heard = hello() + auctioneer_resume(7, {1: 3, 4: 2}), bid(1, 3, 9, 1) + bid(4, 2, 1, -4)
    again = price(1, 3, 7, 1) + price(4, 2, 7, 1)
    yield "a clearing before the children", AUCTIONEER, first + CLEAR + bid(4, 2, 1, -4) + bid(1, 2, 9, 9) + CLEAR, DONE, NOT_CAUGHT_UP * 2
    yield "the prices again", AUCTIONEER, first + bid(1, 1, 0, 0) + heard + CLEAR, DONE, again + NOT_CHANGED
    yield "the prices again once", AUCTIONEER, first + heard + bid(4, 2, 1, -4), DONE, again + old(4, 2)
    yield "the prices again, with a leave", AUCTIONEER, first + bid(1, 3, 9, 1) + gone(4, 2), DONE, price(1, 3, 7, 1)
    newer = auctioneer_resume(8, {1: 4, 4: 2}) + price(4, 2, 8, 1)
    yield "a clearing behind the prices again", AUCTIONEER, first + heard + gone(1, 4) + CLEAR, DONE, again + newer
    yield "greater numbers", AUCTIONEER, first + gone(1, 4) + heard + CLEAR, DONE, old(1, 4) + newer
    last = hello() + auctioneer_resume(LAST_NUMBER - 1, {1: 1}) + bid(1, 2, 5, -3) + CLEAR + bid(1, 3, 5, -3) + CLEAR
    answers = auctioneer_resume(LAST_NUMBER, {1: 2}) + price(1, 2, LAST_NUMBER, 1) + OUT_OF_NUMBERS
    yield "the last index", AUCTIONEER, last, DONE, answers


def auctioneer_child_rows():
    """Children that are let go, and what a child may bid."""
    one, told = hello() + bid(1, 2, 5, -3) + CLEAR, auctioneer_resume(1, {1: 2}) + price(1, 2, 1, 1)
    let_go = one + expire(1) + CLEAR + expire(1) + CLEAR + bid(1, 2, 5, -3)
    yield "a child of the root is let go", AUCTIONEER, let_go, DONE, told + auctioneer_resume(2, {1: 3}) + NOT_CHANGED + old(1, 3)
    yield "a child of the root comes back", AUCTIONEER, one + expire(1) + bid(1, 6, 7, 0) + CLEAR, DONE, \
        told + auctioneer_resume(2, {1: 6}) + price(1, 6, 2, 1)
    first = hello() + auctioneer_resume(7, {1: 3, 4: 2}) + bid(4, 2, 1, -4)
    yield "an expiry gives the prices again", AUCTIONEER, first + CLEAR + expire(1) + CLEAR, DONE, \
        NOT_CAUGHT_UP + price(4, 2, 7, 1) + NOT_CHANGED
    yield "a child of the root beyond its bound", AUCTIONEER, hello() + bound(1, -3, 5) + bid(1, 2, 6, 0) + bid(1, 4, 5, -3) + CLEAR, DONE, \
        too_much(1, 2) + auctioneer_resume(1, {1: 4}) + price(1, 4, 1, 1)


def longest_rows():
    """The longest frames: those of 1000 steps. The sum is 500, 499, .., -499, and falls to 0 at step 500."""
    basis = (-999, 999, 1000)
    first, demands = hello(1000, -999, 999), range(500, -500, -1)
    data = first + bid(2, 2, *demands) + SEND + price(3, 1, 1, 999, basis)
    answers = relay_resume(1, 0, 0, {2: 2}, basis=basis) + bid(3, 1, *demands)
    answers += price(2, 2, 1, 999, basis) + relay_resume(1, 1, 1, {2: 2}, basis=basis)
    yield "1000 steps", RELAY, data, DONE, answers
    answers = auctioneer_resume(1, {2: 2}, basis) + price(2, 2, 1, 500, basis)
    yield "1000 steps", AUCTIONEER, first + bid(2, 2, *demands) + CLEAR, DONE, answers
    data = first + device_resume(4, 1, *demands, basis=basis) + price(2, 4, 2, 999, basis) + offer(*demands)
    answers = bid(2, 4, *demands) + setpoint(4, 2, 999, -499) + device_resume(4, 2, *demands, basis=basis)
    yield "1000 steps", DEVICE, data, DONE, answers + device_resume(6, 2, *demands, basis=basis) + bid(2, 6, *demands)


def rows():
    """Streams with the arguments before, and the status and the answers due, worked by hand."""
    for arguments, data, answers in EXAMPLES:
        yield f"the page's {arguments[0]}", arguments, from_hex(data), DONE, from_hex(answers)
    for made in (usage_rows, common_rows, relay_rows, auctioneer_rows, device_rows, control_rows, longest_rows):
        yield from made()
