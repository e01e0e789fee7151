"""A process of the service: its frames come in order, and its end is noticed. The programs here are pretended."""

from __future__ import annotations

import os
import queue
import signal
import sys
import time

import pytest
from brokers import SECONDS
from pretended import BASIS

from cogmaula.live.node.node_errors import LiveError
from cogmaula.live.messages.frames import Dropped, OutOfNumbers, WindowFull
from cogmaula.live.node.service import Came, Ended, Service


def started(code, resume=b"", sort="device"):
    """A service that is this code of Python, and the queue of what it does."""
    happened = queue.Queue()
    return Service([sys.executable, "-c", f"import os, sys, time\n{code}"], sort, BASIS, resume, happened.put), happened


def ended(happened, seconds=SECONDS):
    """The frames up to the end, and its words."""
    frames = []
    while True:
        event = happened.get(timeout=seconds)
        if isinstance(event, Ended):
            return frames, event.why
        frames += event.frames


def test_hello_and_the_resume_come_first_and_frames_in_order():
    code = """
data = os.read(0, 11 + 9)
os.write(1, b'\\x0a\\x12' if data[11:] == bytes(range(16, 25)) else b'\\xff')
os.read(0, 1)
os.write(1, b'\\x0b' + bytes(8))
"""
    service, happened = started(code, bytes(range(16, 25)))
    assert happened.get(timeout=SECONDS).frames == (WindowFull(), OutOfNumbers())
    service.feed(b"\x0e")
    assert ended(happened) == ([Dropped(0, 0)], "status 0: its input ended")


def test_what_it_reads_is_what_it_was_fed():
    code = """
data = b''
while len(data) < 11 + 100_000:
    data += os.read(0, 65_536)
os.write(1, b'\\x0a' * (1 + (data[11:] == b'\\x0e' * 100_000)))
"""
    service, happened = started(code)
    for _ in range(100):
        service.feed(b"\x0e" * 1_000)
    assert ended(happened)[0] == [WindowFull(), WindowFull()]


def test_a_killed_service_is_noticed():
    """It would have ended by itself after an hour."""
    service, happened = started("time.sleep(3600)")
    os.kill(service.pid, signal.SIGKILL)
    assert ended(happened) == ([], "a signal ended it: SIGKILL")


@pytest.mark.parametrize(
    ("status", "words"),
    [(4, "status 4: it has read all that it takes"), (7, "status 7: it lacked memory"), (99, "status 99: no status of live")],
)
def test_each_status_has_its_words(status, words):
    _, happened = started(f"sys.exit({status})")
    assert ended(happened)[1].startswith(words)


def test_what_is_no_frame_ends_it():
    _, happened = started("os.write(1, b'\\x0ahello')\ntime.sleep(60)")
    frames, why = ended(happened)
    assert frames == [WindowFull()]
    assert "the byte 104 begins no frame" in why


def test_a_program_that_is_not_there():
    with pytest.raises(LiveError, match="/nowhere/live cannot be started: No such file or directory. Give the program live by --live"):
        Service(["/nowhere/live", "auctioneer"], "auctioneer", BASIS, b"", lambda _: None)


def test_feeding_one_that_has_ended_does_no_harm():
    service, happened = started("sys.exit(3)")
    assert ended(happened)[1].startswith("status 3")
    for _ in range(3):
        service.feed(b"\x0e")
    service.kill()
    service.close()


def test_one_that_does_not_read_holds_nobody_up():
    service, happened = started(f"time.sleep({SECONDS})")
    begin = time.monotonic()
    for _ in range(1_000):
        service.feed(b"\x0e" * 1_000)
    assert time.monotonic() - begin < SECONDS / 2
    service.kill()
    assert ended(happened)[1] == "a signal ended it: SIGKILL"


def test_closing_lets_it_end_by_itself_or_kills_it():
    service, happened = started("while os.read(0, 4096):\n pass\nos.write(1, b'\\x0a')")
    service.close(SECONDS)
    assert ended(happened) == ([WindowFull()], "status 0: its input ended")
    service, happened = started(f"time.sleep({SECONDS})")
    begin = time.monotonic()
    service.close(0.2)
    assert time.monotonic() - begin < SECONDS / 2
    assert ended(happened)[1] == "a signal ended it: SIGKILL"


def test_events_name_their_service():
    service, happened = started("os.write(1, b'\\x0a')")
    came, end = happened.get(timeout=SECONDS), happened.get(timeout=SECONDS)
    assert came == Came(service, (WindowFull(),))
    assert end.service is service
