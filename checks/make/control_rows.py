"""Streams of a device's control that offers points, or names its kind and says states, with the answers due, worked by hand."""

import struct

from checks.make.node_bytes import (
    DEVICE, LAST_NUMBER, LEAVE, MOST, OUT_OF_NUMBERS, WINDOW_FULL, bad_rows, bid, device_resume, fault, hello, offer, price, setpoint,
)
from checks.oracle.frames import DONE, REFUSED

FREEZER, HEAT_PUMP, COGENERATION, BATTERY, SOLAR, LOAD = range(6)
# The number of the last offer.
LAST_OFFER = LAST_NUMBER - 3


def points(*pairs):
    return bytes([128 + len(pairs)]) + b"".join(struct.pack(">ii", *pair) for pair in pairs)


def kind(number, *parameters):
    return struct.pack(">BB5i", 29, number, *parameters, *[0] * (5 - len(parameters)))


def state(number):
    return struct.pack(">Bi", 30, number)


# A kind, and of its states the demands in two steps.
KINDS = [
    ("a freezer", kind(FREEZER, -10, 10, 200, 1, 2), {10: (200, 200), 11: (200, 200), 9: (200, 0), 0: (200, 0), -9: (200, 0), -10: (0, 0), -11: (0, 0)}),
    ("a heat pump", kind(HEAT_PUMP, 10, 30, 500, 1, 2), {9: (500, 500), 10: (500, 500), 11: (500, 0), 29: (500, 0), 30: (0, 0), 31: (0, 0)}),
    ("a cogeneration unit", kind(COGENERATION, 50, 80, 900, 1, 2),
     {49: (-900, -900), 50: (-900, -900), 51: (0, -900), 79: (0, -900), 80: (0, 0), 81: (0, 0)}),
    ("a battery", kind(BATTERY, 1000, 300, 400, 0), {0: (300, 0), 1: (0, -400), 500: (0, -400), 1000: (0, -400)}),
    ("a battery that waits", kind(BATTERY, 1000, 300, 400, 1), {0: (0, 0), 1: (0, 0), 1000: (0, 0)}),
    ("a solar panel", kind(SOLAR), {0: (0, 0), 700: (-700, -700), MOST: (-MOST, -MOST)}),
    ("a load", kind(LOAD), {0: (0, 0), 650: (650, 650), MOST: (MOST, MOST)}),
]


def offered(number, index, *demands, basis=(0, 9, 2)):
    """The answers to the offer of this number, behind a price of this index."""
    return device_resume(number, index, *demands, basis=basis) + bid(2, number, *demands)


def control_rows():
    for name, pairs, demands in [
        ("one point", [(5, 7)], (7, 7)), ("points at the ends", [(0, 600), (9, -300)], (600, -300)),
        ("points within", [(3, 10), (6, -20)], (10, -20)), ("points at one price", [(0, 5), (0, 2), (9, 1), (9, -1)], (2, -1)),
        ("points as many as may be", [(0, 64 - number) for number in range(64)], (1, 1)),
        ("points of the greatest power", [(0, MOST), (9, -MOST)], (MOST, -MOST)),
    ]:
        yield name, DEVICE, hello() + points(*pairs), DONE, offered(2, 0, *demands)
    # Half of -3 W is rounded down.
    wide, basis = points((-10, 0), (10, -3)), (-10, 10, 3)
    yield "points between steps", DEVICE, hello(3, -10, 10) + wide, DONE, offered(2, 0, 0, -2, -3, basis=basis)
    for name, named, states in KINDS:
        data, answers = hello() + named, b""
        for number, (at, demands) in enumerate(states.items(), 1):
            data, answers = data + state(at), answers + offered(2 * number, 0, *demands)
        yield name, DEVICE, data, DONE, answers
    yield "a kind alone", DEVICE, hello() + KINDS[0][1], DONE, b""
    newer = hello() + kind(LOAD) + state(9) + kind(SOLAR) + state(9) + kind(SOLAR) + LEAVE + state(9)
    left = struct.pack(">BIIiiH", 26, 6, 0, 0, 9, 2) + struct.pack(">BHI", 3, 2, 6)
    yield "a newer kind", DEVICE, newer, DONE, offered(2, 0, 9, 9) + offered(4, 0, -9, -9) + left + offered(8, 0, -9, -9)
    mixed = hello() + kind(LOAD) + points((0, 4)) + state(5) + offer(6, 3) + price(2, 4, 1, 1) + price(2, 6, 2, 0)
    told = setpoint(4, 1, 1, 5) + device_resume(6, 1, 6, 3) + setpoint(6, 2, 0, 6) + device_resume(6, 2, 6, 3)
    yield "offers of each form", DEVICE, mixed, DONE, offered(2, 0, 4, 4) + offered(4, 0, 5, 5) + offered(6, 0, 6, 3) + told
    data, answers = hello() + kind(LOAD), b""
    for number in range(2, 18, 2):
        data, answers = data + state(number), answers + offered(number, 0, number, number)
    yield "a full window", DEVICE, data + state(1) + points((0, 1)), DONE, answers + WINDOW_FULL * 2
    stored = device_resume(LAST_OFFER - 2, 7, 3, 2)
    yield "a kind behind a resume", DEVICE, hello() + stored + kind(LOAD) + state(4) + state(4) + points((0, 1)), DONE, \
        bid(2, LAST_OFFER - 2, 3, 2) + offered(LAST_OFFER, 7, 4, 4) + OUT_OF_NUMBERS * 2
    yield "a resume behind a kind", DEVICE, hello() + kind(LOAD) + stored, REFUSED, fault(11 + 22)
    yield "a kind is not stored", DEVICE, hello() + stored + state(4), REFUSED, bid(2, LAST_OFFER - 2, 3, 2) + fault(11 + len(stored))
    yield "an end within points", DEVICE, hello() + points((0, 1), (9, 0))[:-1], REFUSED, fault(11)
    yield from bad_rows(DEVICE, hello(), [
        ("points of which a price falls", points((5, 1), (4, 0))), ("points of which a demand rises", points((4, 0), (5, 1))),
        ("a point too large", points((5, MOST + 1))), ("a point too small", points((5, 0), (6, -MOST - 1))),
        ("a point below the basis", points((-1, 1), (5, 0))), ("a point above the basis", points((5, 1), (10, 0))),
        ("no points", b"\x80"), ("65 points", points(*[(5, 1)] * 65)), ("a state of no kind", state(5)), ("kind 28", b"\x1c"), ("kind 31", b"\x1f"),
        ("a kind of number 6", kind(6)), ("a kind of number 255", kind(255)), ("a solar panel with a parameter", kind(SOLAR, 1)),
        ("a load with a last parameter", kind(LOAD, 0, 0, 0, 0, 1)), ("a battery with five", kind(BATTERY, 9, 1, 1, 1, 1)),
        ("a battery of no capacity", kind(BATTERY, 0, 1, 1, 1)), ("a battery too large", kind(BATTERY, MOST + 1, 1, 1, 1)),
        ("a charge below 0", kind(BATTERY, 9, -1, 1, 1)), ("a discharge too large", kind(BATTERY, 9, 1, MOST + 1, 1)),
        ("a spread too large", kind(BATTERY, 9, 1, 1, 1001)), ("a spread below 0", kind(BATTERY, 9, 1, 1, -1)),
        ("a band of nothing", kind(FREEZER, 5, 5, 1, 1, 1)), ("a band too low", kind(FREEZER, -1_000_001, 5, 1, 1, 1)),
        ("a band too high", kind(HEAT_PUMP, 5, 1_000_001, 1, 1, 1)), ("a power below 0", kind(HEAT_PUMP, 5, 6, -1, 1, 1)),
        ("a loss below 0", kind(COGENERATION, 5, 6, 1, -1, 1)), ("a gain too large", kind(COGENERATION, 5, 6, 1, 1, 1_000_001)),
    ])
    for name, named, wrong in [
        ("a freezer", KINDS[0][1], [-1_000_001, 1_000_001]), ("a heat pump", KINDS[1][1], [-1_000_001, 1_000_001]),
        ("a cogeneration unit", KINDS[2][1], [-1_000_001, 1_000_001]), ("a battery", KINDS[3][1], [-1, 1001]),
        ("a solar panel", kind(SOLAR), [-1, MOST + 1]), ("a load", kind(LOAD), [-1, MOST + 1]),
    ]:
        yield from bad_rows(DEVICE, hello() + named, [(f"state {wrong_state} of {name}", state(wrong_state)) for wrong_state in wrong])
    yield from bad_rows(DEVICE, hello() + KINDS[3][1] + kind(SOLAR) + KINDS[3][1], [("a state of the kind before", state(1001))])
