"""Streams for a device's agent of docs/RELAY.md, with the answers due, worked by hand. Its numbers are 2, 4, 6, .."""

from checks.make.node_bytes import (
    CLEAR, DEVICE, LAST_NUMBER, LEAVE, MOST, OUT_OF_NUMBERS, SEND, WINDOW_FULL, bad_frames_of_parent, bad_rows, bid, bound, device_resume,
    dropped, expire, fault, gone, hello, limits, offer, old, other_basis, price, resume_gone, setpoint,
)
from checks.oracle.frames import DONE, REFUSED

# The number of the last offer, and of the last leaving.
LAST_OFFER, LAST_LEAVING = LAST_NUMBER - 3, LAST_NUMBER - 1


def device_rows():
    first = hello() + offer(500, -300)
    sent = device_resume(2, 0, 500, -300) + bid(2, 2, 500, -300)
    yield "offers and leaves", DEVICE, first + LEAVE + LEAVE + offer(0, 0), DONE, sent + resume_gone(4, 0) + gone(2, 4) \
        + resume_gone(6, 0) + gone(2, 6) + device_resume(8, 0, 0, 0) + bid(2, 8, 0, 0)
    yield "a leave at first", DEVICE, hello() + LEAVE, DONE, resume_gone(2, 0) + gone(2, 2)
    # Offer 4 is of 40 and 30 watts. Of offer 2 a price is taken twice, and no more once offer 4 was answered.
    two = first + price(2, 2, 4, 1) + offer(40, 30) + price(2, 2, 5, 0) + price(2, 4, 6, 1)
    told = sent + setpoint(2, 4, 1, -300) + device_resume(2, 4, 500, -300) + device_resume(4, 4, 40, 30) + bid(2, 4, 40, 30)
    told += setpoint(2, 5, 0, 500) + device_resume(4, 5, 40, 30) + setpoint(4, 6, 1, 30) + device_resume(4, 6, 40, 30)
    yield "setpoints", DEVICE, two, DONE, told
    late = price(2, 4, 6, 0) + price(2, 2, 7, 0) + price(2, 4, 7, 0) + price(2, 3, 8, 0) + price(2, 4, 9, 0)
    answers = dropped(4, 6) + dropped(2, 7) + dropped(4, 7) + dropped(3, 8) + setpoint(4, 9, 0, 40) + device_resume(4, 9, 40, 30)
    yield "a price that is dropped moves the index", DEVICE, two + late, DONE, told + answers
    gone_on = first + LEAVE + price(2, 2, 4, 1) + offer(7, 7) + price(2, 2, 5, 1) + price(2, 6, 6, 1)
    answers = sent + resume_gone(4, 0) + gone(2, 4) + dropped(2, 4) + device_resume(6, 4, 7, 7) + bid(2, 6, 7, 7) + dropped(2, 5)
    yield "prices behind a leave", DEVICE, gone_on, DONE, answers + setpoint(6, 6, 1, 7) + device_resume(6, 6, 7, 7)
    other = price(2, 2, 9, 2, (0, 18, 3)) + price(2, 2, 9, 1, (0, 18, 2)) + price(2, 2, 9, 1)
    answers = sent + other_basis(2, 9) * 2 + setpoint(2, 9, 1, -300) + device_resume(2, 9, 500, -300)
    yield "prices of another basis", DEVICE, first + other, DONE, answers
    for made in (let_go_rows, window_rows, restart_rows):
        yield from made()
    yield from bad_rows(DEVICE, hello(), bad_frames_of_parent(2))
    yield from bad_rows(DEVICE, hello(), [
        ("a rising offer", offer(5, 6)), ("an offer too large", offer(MOST + 1, 0)),
        ("an offer too small", offer(0, -MOST - 1)), ("a resume that rises", device_resume(2, 0, 5, 6)),
        ("a resume too large", device_resume(2, 0, MOST + 1, 6)), ("a bid", bid(2, 2, 5, -3)),
        ("a leave of a child", gone(2, 2)), ("a send", SEND), ("a clear", CLEAR), ("an expiry", expire(2)), ("limits", limits(2, -5, 5)),
        ("a bound", bound(2, -5, 5)), ("a resume of number 0", device_resume(0, 0, 5, -3)), ("an odd resume", device_resume(3, 0, 5, -3)),
        ("an odd leave resumed", resume_gone(3, 0)), ("a resume of another basis", device_resume(2, 0, 5, -3, basis=(0, 18, 2))),
        ("a leave resumed of another basis", resume_gone(2, 0, (-9, 9, 2))),
        ("a resume of the first form", bytes([12]) + device_resume(2, 0, 5, -3)[1:]),
        ("a leave resumed of the first form", bytes([16]) + resume_gone(2, 0)[1:]),
    ])
    stored, left = device_resume(2, 0, 500, -300), resume_gone(2, 0)
    yield "a resume behind a frame", DEVICE, first + stored, REFUSED, sent + fault(len(first))
    yield "a leave resumed behind a frame", DEVICE, first + left, REFUSED, sent + fault(len(first))
    yield "a second resume", DEVICE, hello() + stored + left, REFUSED, bid(2, 2, 500, -300) + fault(11 + len(stored))
    yield "an end within a resume", DEVICE, hello() + stored[:-1], REFUSED, fault(11)


def let_go_rows():
    """A device that its parent let go hears Old with a number above its last. It leaves, and makes its newest offer anew."""
    first, sent = hello() + offer(500, -300), device_resume(2, 0, 500, -300) + bid(2, 2, 500, -300)
    yield "an old of its own number", DEVICE, first + old(2, 0) + old(2, 1) + old(2, 2), DONE, sent
    anew = device_resume(6, 0, 500, -300) + bid(2, 6, 500, -300)
    yield "let go", DEVICE, first + old(2, 3), DONE, sent + anew
    yield "let go once", DEVICE, first + old(2, 3) * 3, DONE, sent + anew
    yield "an old far above", DEVICE, first + old(2, 9) * 3, DONE, sent + anew + device_resume(10, 0, 500, -300) + bid(2, 10, 500, -300)
    late = first + old(2, 3) + price(2, 2, 4, 0) + price(2, 6, 5, 1)
    yield "a price for an offer from before", DEVICE, late, DONE, \
        sent + anew + dropped(2, 4) + setpoint(6, 5, 1, -300) + device_resume(6, 5, 500, -300)
    yield "let go before an offer", DEVICE, hello() + old(2, 1), DONE, b""
    yield "let go after it left", DEVICE, first + LEAVE + old(2, 5), DONE, sent + resume_gone(4, 0) + gone(2, 4)
    yield "let go after a restart", DEVICE, hello() + device_resume(6, 3, 9, -9) + old(2, 7), DONE, \
        bid(2, 6, 9, -9) + device_resume(10, 3, 9, -9) + bid(2, 10, 9, -9)
    # Of two offers the newest is made anew, and a price for the one before gives nothing.
    two = first + offer(7, 7) + old(2, 5) + price(2, 4, 9, 1)
    answers = sent + device_resume(4, 0, 7, 7) + bid(2, 4, 7, 7) + device_resume(8, 0, 7, 7) + bid(2, 8, 7, 7) + dropped(4, 9)
    yield "let go with two offers", DEVICE, two, DONE, answers
    data, answers = hello(), b""
    for number in range(2, 18, 2):
        data, answers = data + offer(number, 0), answers + device_resume(number, 0, number, 0) + bid(2, number, number, 0)
    data, answers = data + old(2, 17), answers + device_resume(20, 0, 16, 0) + bid(2, 20, 16, 0)
    for number in range(22, 36, 2):
        data, answers = data + offer(number, 0), answers + device_resume(number, 0, number, 0) + bid(2, number, number, 0)
    yield "let go with a full window", DEVICE, data + offer(0, 0), DONE, answers + WINDOW_FULL
    last = hello() + device_resume(LAST_OFFER - 4, 7, 3, 2)
    answers = bid(2, LAST_OFFER - 4, 3, 2) + device_resume(LAST_OFFER, 7, 3, 2) + bid(2, LAST_OFFER, 3, 2)
    yield "the last number that is made anew", DEVICE, last + old(2, LAST_OFFER - 3), DONE, answers
    last = hello() + device_resume(LAST_OFFER - 2, 7, 3, 2) + old(2, LAST_OFFER - 1)
    yield "no number to make anew", DEVICE, last, DONE, bid(2, LAST_OFFER - 2, 3, 2)


def window_rows():
    data, answers = hello(), b""
    for number in range(2, 18, 2):
        data += offer(number, 0)
        answers += device_resume(number, 0, number, 0) + bid(2, number, number, 0)
    data, answers = data + offer(9, 0), answers + WINDOW_FULL
    yield "a device's full window", DEVICE, data, DONE, answers
    data += price(2, 4, 3, 0) + offer(9, 0) + offer(10, 0) + offer(11, 0)
    answers += setpoint(4, 3, 0, 4) + device_resume(16, 3, 16, 0) + device_resume(18, 3, 9, 0) + bid(2, 18, 9, 0)
    answers += device_resume(20, 3, 10, 0) + bid(2, 20, 10, 0) + WINDOW_FULL
    yield "a price makes room for two offers", DEVICE, data, DONE, answers
    answers += resume_gone(22, 3) + gone(2, 22) + device_resume(24, 3, 1, 1) + bid(2, 24, 1, 1)
    yield "a leave makes room for all", DEVICE, data + LEAVE + offer(1, 1), DONE, answers


def restart_rows():
    first, again = hello() + device_resume(10, 7, 500, -300), bid(2, 10, 500, -300)
    yield "the last offer again", DEVICE, first, DONE, again
    late = price(2, 10, 7, 1) + price(2, 8, 8, 1) + price(2, 10, 8, 1) + price(2, 10, 9, 1)
    told = dropped(10, 7) + dropped(8, 8) + dropped(10, 8) + setpoint(10, 9, 1, -300) + device_resume(10, 9, 500, -300)
    yield "only the last offer comes back", DEVICE, first + late, DONE, again + told
    yield "the next offer", DEVICE, first + offer(1, 0), DONE, again + device_resume(12, 7, 1, 0) + bid(2, 12, 1, 0)
    yield "the leave again", DEVICE, hello() + resume_gone(10, 7) + price(2, 8, 8, 1), DONE, gone(2, 10) + dropped(8, 8)
    yield "back from nothing", DEVICE, hello() + resume_gone(0, 0) + offer(1, 0), DONE, device_resume(2, 0, 1, 0) + bid(2, 2, 1, 0)
    # The offer that came back does not count as unanswered.
    data, answers = first, again
    for number in range(12, 28, 2):
        data += offer(number, 0)
        answers += device_resume(number, 7, number, 0) + bid(2, number, number, 0)
    yield "eight offers behind the last one", DEVICE, data + offer(0, 0), DONE, answers + WINDOW_FULL
    last = hello() + device_resume(LAST_OFFER - 2, 7, 3, 2) + offer(1, 0) + offer(0, 0) + LEAVE + LEAVE + offer(0, 0)
    answers = bid(2, LAST_OFFER - 2, 3, 2) + device_resume(LAST_OFFER, 7, 1, 0) + bid(2, LAST_OFFER, 1, 0)
    answers += OUT_OF_NUMBERS + resume_gone(LAST_LEAVING, 7) + gone(2, LAST_LEAVING) + OUT_OF_NUMBERS * 2
    yield "the last number is for leaving", DEVICE, last, DONE, answers
