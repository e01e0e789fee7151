"""Streams of bids: rows worked by hand, random ones, and long ones."""

import struct

from checks.oracle import frames


def hello(steps=2, least=0, greatest=9):
    return struct.pack(">BiiH", frames.HELLO, least, greatest, steps)


def bid(child, number, *demands):
    return struct.pack(f">BHI{len(demands)}i", frames.BID, child, number, *demands)


def gone(child, number):
    return struct.pack(">BHI", frames.GONE, child, number)


CLEAR = bytes([frames.CLEAR])


def price(child, number, index, step):
    return struct.pack(">BHIIH", frames.PRICE, child, number, index, step)


def old(child, kept):
    return struct.pack(">BHI", frames.OLD, child, kept)


NOT_CHANGED = bytes([frames.NOT_CHANGED])


def rows():
    """Streams with the status and the answers due, worked by hand."""
    first = hello() + bid(1, 1, 5, -3)
    yield "two clearings", first + CLEAR * 2, frames.DONE, bytes.fromhex("050001000000010000000100 01 06".replace(" ", ""))
    yield "an end within a frame", hello() + b"\x02\x00", frames.REFUSED, bytes.fromhex("08000000000000000b")
    yield "no byte", b"", frames.DONE, b""
    yield "a hello alone", hello(), frames.DONE, b""
    yield "a clearing of nothing", hello() + CLEAR, frames.DONE, NOT_CHANGED
    yield "a clearing before a hello", CLEAR, frames.REFUSED, frames.fault_at(0)
    yield "a bid before a hello", bid(1, 1, 5, -3), frames.REFUSED, frames.fault_at(0)
    yield "a second hello", hello() + hello(), frames.REFUSED, frames.fault_at(11)
    yield "an unknown kind", first + b"\x00", frames.REFUSED, frames.fault_at(len(first))
    yield "an answer as a frame", first + NOT_CHANGED, frames.REFUSED, frames.fault_at(len(first))
    yield "an old bid", first + bid(1, 1, 9, 9) + CLEAR, frames.DONE, old(1, 1) + price(1, 1, 1, 1)
    again = first + CLEAR + bid(1, 1, 9, 9) + CLEAR
    yield "an old bid changes nothing", again, frames.DONE, price(1, 1, 1, 1) + old(1, 1) + NOT_CHANGED
    yield "an old leave", first + gone(1, 1) + CLEAR, frames.DONE, old(1, 1) + price(1, 1, 1, 1)
    yield "a bid after a leave of a greater number", hello() + gone(1, 5) + bid(1, 5, 5, -3), frames.DONE, old(1, 5)
    yield "all have left", first + CLEAR + gone(1, 2) + CLEAR + CLEAR, frames.DONE, price(1, 1, 1, 1) + NOT_CHANGED
    both = bid(256, 7, 3, -9) + bid(2, 4_294_967_295, 4, 2)
    yield "children in their order", hello() + both + CLEAR, frames.DONE, price(2, 4_294_967_295, 1, 1) + price(256, 7, 1, 1)
    again = first + CLEAR + bid(1, 2, 5, -3) + CLEAR
    yield "a same bid again is a change", again, frames.DONE, price(1, 1, 1, 1) + price(1, 2, 2, 1)
    yield "all positive", hello() + bid(1, 1, 5, 5) + CLEAR, frames.DONE, price(1, 1, 1, 1)
    yield "the first that is not positive", hello(4) + bid(1, 1, 5, 0, 0, -1) + CLEAR, frames.DONE, price(1, 1, 1, 1)
    most = frames.MOST
    yield "the greatest demands", hello() + bid(1, 1, most, -most) + CLEAR, frames.DONE, price(1, 1, 1, 1)
    for name, frame in [
        ("child 0", bid(0, 1, 5, -3)), ("child 257", bid(257, 1, 5, -3)), ("number 0", bid(1, 0, 5, -3)),
        ("a rising bid", bid(1, 1, 5, 6)), ("a demand too large", bid(1, 1, most + 1, 0)),
        ("a demand too small", bid(1, 1, 0, -most - 1)), ("a leave of child 0", gone(0, 1)),
        ("a leave of child 257", gone(257, 1)), ("a leave of number 0", gone(1, 0)),
    ]:
        yield name, first + frame + CLEAR, frames.REFUSED, frames.fault_at(len(first))
    for name, frame in [
        ("one step", hello(1)), ("1,001 steps", hello(1001, 0, 1000)), ("prices that do not fit", hello(10, 0, 10)),
        ("prices that fall", hello(2, 9, 0)), ("one price", hello(2, 9, 9)), ("a price too large", hello(2, 0, most + 1)),
        ("a price too small", hello(2, -most - 1, 0)),
    ]:
        yield name, frame, frames.REFUSED, frames.fault_at(0)
    yield "1000 steps", hello(1000, -999, 999) + bid(3, 1, *range(500, -500, -1)) + CLEAR, frames.DONE, price(3, 1, 1, 500)


def random_frame(chance, steps, numbers):
    """A frame, mostly a right one."""
    what = chance.random()
    if what < 0.2:
        return CLEAR
    child = chance.choice([1, 2, 3, 4, 255, 256, chance.randint(1, 256)])
    number = numbers.get(child, 0) + chance.choice([1, 1, 1, 1, 2, 1000, 0, -1])
    if number < 1:
        return CLEAR
    numbers[child] = max(number, numbers.get(child, 0))
    if what < 0.35:
        return gone(child, number)
    most = chance.choice([3, 100, frames.MOST])
    return bid(child, number, *sorted((chance.randint(-most, most) for _ in range(steps)), reverse=True))


def bad_frame(chance, steps):
    falling = sorted((chance.randint(-9, 9) for _ in range(steps)), reverse=True)
    return chance.choice([
        hello(), b"\x00", b"\x05", b"\xff", bid(0, 1, *falling), bid(257, 1, *falling), bid(1, 0, *falling),
        gone(0, 1), gone(1, 0), gone(65_535, 1), bid(9, 9, *falling[:-1], falling[0] + 1),
        bid(9, 9, *falling[:-1], -frames.MOST - 1), bid(9, 9, frames.MOST + 1, *falling[1:]),
    ])


def spoilt(chance, parts, bad):
    """The bytes of these frames. One time in four the bad one is among them, in seven they are cut, in seven a bit is turned."""
    what = chance.random()
    if what < 0.25:
        parts.insert(chance.randint(0, len(parts)), bad)
    data = b"".join(parts)
    if 0.25 <= what < 0.4:
        data = data[: chance.randint(0, len(data))]
    elif 0.4 <= what < 0.55:
        data = bytearray(data)
        data[chance.randrange(len(data))] ^= 1 << chance.randrange(8)
    return bytes(data)


def random_stream(chance):
    steps = chance.choice([2, 2, 3, 10, 100])
    width = chance.randint(1, 9)
    least = chance.choice([0, -100, 7, -frames.MOST])
    numbers = {}
    parts = [hello(steps, least, least + width * (steps - 1))]
    parts += [random_frame(chance, steps, numbers) for _ in range(chance.randint(0, 40))]
    return spoilt(chance, parts, bad_frame(chance, steps))


def random_pieces(data, chance):
    """The bytes, cut at random places."""
    most = chance.choice([1, 3, 20, 500, 100_000])
    at = 0
    while at < len(data):
        size = chance.randint(1, most)
        yield data[at : at + size]
        at += size


def small_stream():
    return hello() + bid(1, 1, 5, -3) + CLEAR + bid(2, 1, 5, 5) + bid(1, 1, 9, 9) + CLEAR + gone(1, 2) + CLEAR * 2


def many_frames(number, steps=100):
    """So many bids of all children, with a clearing behind every 256: pieces of bytes, and the length of the answers."""
    demands = struct.pack(f">{steps}i", *range(steps // 2, -steps // 2, -1))
    yield hello(steps, 0, steps - 1)
    for at in range(number):
        yield struct.pack(">BHI", frames.BID, at % 256 + 1, at // 256 + 1) + demands
        if at % 256 == 255:
            yield CLEAR
