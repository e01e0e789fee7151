#!/usr/bin/env python3
"""A client of `market serve`: bids go out, and prices come in as they are cleared. docs/SERVE.md has the frames.

In a program of your own:

    child = subprocess.Popen(["./market", "serve"], stdin=subprocess.PIPE, stdout=subprocess.PIPE, bufsize=0)
    with Market(child.stdout, child.stdin, least=0, greatest=9, steps=10) as market:
        market.bid(1, [100] * 10)
        market.bid(2, [0] * 4 + [-150] * 6)
        for price in market.clear():
            print(price.child, market.price_at(price.step))

As a program it reads lines `bid CHILD DEMAND ..`, `gone CHILD` and `clear`, and prints each answer as a line:

    python3 client.py 0 9 10 -- ./market serve
    python3 client.py 0 9 10 127.0.0.1:4711
    python3 client.py 0 9 10 /run/market.socket
"""

import queue
import socket
import struct
import subprocess
import sys
import threading
from dataclasses import dataclass

HELLO, BID, GONE, CLEAR, PRICE, NOT_CHANGED, OLD, FAULT = range(1, 9)


@dataclass(frozen=True)
class Price:
    """The market cleared: the child's bid of this number takes what it says at this step."""

    child: int
    number: int
    index: int
    step: int


@dataclass(frozen=True)
class NotChanged:
    """A clearing was asked for, and no bid had changed since the last."""


@dataclass(frozen=True)
class Old:
    """A bid's number was not above the one that the market keeps of the child, which still counts."""

    child: int
    kept: int


@dataclass(frozen=True)
class Fault:
    """The bytes sent from this offset on are no frame; the market ends."""

    offset: int


ANSWERS = {PRICE: (">HIIH", Price), NOT_CHANGED: (">", NotChanged), OLD: (">HI", Old), FAULT: (">Q", Fault)}


class Refused(Exception):
    """The market found a bad frame."""


class Ended(Exception):
    """The market's answers ended, or what came is none of them."""


def read_exactly(reader, size):
    """So many bytes; fewer if the stream ends before."""
    data = b""
    while len(data) < size:
        piece = reader.read(size - len(data))
        if not piece:
            break
        data += piece
    return data


def read_answer(reader):
    """The next answer, or None if the stream ends before one."""
    kind = read_exactly(reader, 1)
    if not kind:
        return None
    if kind[0] not in ANSWERS:
        raise Ended(f"the answers have a byte {kind[0]}, which begins no answer")
    form, make = ANSWERS[kind[0]]
    fields = read_exactly(reader, struct.calcsize(form))
    if len(fields) < struct.calcsize(form):
        raise Ended("the stream of answers ended within an answer")
    return make(*struct.unpack(form, fields))


class Market:
    """A session with a market over two streams of bytes, with `read` and `write` as of files, sockets' files or pipes.

    Answers are read on a thread of their own as they come, so that bids may go out meanwhile without end. The session numbers
    each child's bids 1, 2, 3, .. if it is not told a number.
    """

    def __init__(self, reader, writer, least, greatest, steps):
        self.writer, self.steps = writer, steps
        self.least, self.width = least, (greatest - least) // (steps - 1)
        self.numbers = {}
        self.bidding = set()
        self.changed = False
        self.came = queue.SimpleQueue()
        self.reading = threading.Thread(target=self.read_all, args=(reader,), daemon=True)
        self.reading.start()
        self.send(struct.pack(">BiiH", HELLO, least, greatest, steps))

    def __enter__(self):
        return self

    def __exit__(self, *_):
        self.close()

    def read_all(self, reader):
        try:
            while (answer := read_answer(reader)) is not None:
                self.came.put(answer)
        except (OSError, ValueError, Ended) as why:
            self.came.put(Ended(str(why)))
        self.came.put(None)

    def send(self, frame):
        self.writer.write(frame)
        self.writer.flush()

    def number_for(self, child, number):
        return self.numbers.get(child, 0) + 1 if number is None else number

    def note(self, child, number, is_bid):
        """Notes what the market will make of a number: it counts if it is above the child's last."""
        if number > self.numbers.get(child, 0):
            self.numbers[child], self.changed = number, True
            (self.bidding.add if is_bid else self.bidding.discard)(child)

    def bid(self, child, demands, number=None):
        """Sends what a child takes at each step, and tells the bid's number."""
        if len(demands) != self.steps:
            raise ValueError(f"a bid has {self.steps} demands here, and not {len(demands)}")
        number = self.number_for(child, number)
        self.send(struct.pack(f">BHI{self.steps}i", BID, child, number, *demands))
        self.note(child, number, True)
        return number

    def gone(self, child, number=None):
        """Says that a child bids no more, and tells the number of that."""
        number = self.number_for(child, number)
        self.send(struct.pack(">BHI", GONE, child, number))
        self.note(child, number, False)
        return number

    def ask_to_clear(self):
        """Asks for a clearing, and tells how many answers will come to it: a price for each child that bids, or one that says that
        nothing has changed."""
        self.send(bytes([CLEAR]))
        answers = len(self.bidding) if self.changed else 1
        self.changed = False
        return answers

    def clear(self):
        """Clears the market and waits: the prices, in the order of the children; no price if no bid has changed."""
        prices, left = [], self.ask_to_clear()
        while left:
            answer = self.answer()
            if isinstance(answer, Old):
                continue
            left -= 1
            if isinstance(answer, Price):
                prices.append(answer)
        return prices

    def answer(self, timeout=None):
        """The next answer. It waits until one has come, and raises `queue.Empty` if none came in so many seconds."""
        answer = self.came.get(timeout=timeout)
        if answer is None:
            self.came.put(None)
            raise Ended("no more answers come: start the market again, and send all bids anew")
        if isinstance(answer, Ended):
            raise answer
        if isinstance(answer, Fault):
            raise Refused(f"the market found no frame at byte {answer.offset} of what was sent")
        return answer

    def price_at(self, step):
        return self.least + step * self.width

    def close(self):
        """Says that nothing more will be sent."""
        try:
            self.writer.close()
        except OSError:
            pass


def socket_files(address):
    """The two streams of a connection to HOST:PORT, or to the path of a socket."""
    if "/" in address:
        one = socket.socket(socket.AF_UNIX)
        one.connect(address)
    else:
        host, _, port = address.rpartition(":")
        one = socket.create_connection((host, int(port)))
        one.setsockopt(socket.IPPROTO_TCP, socket.TCP_NODELAY, 1)
    return one.makefile("rb", buffering=0), SocketWriter(one)


class SocketWriter:
    """The way out of a socket, of which the way in stays open when it is closed."""

    def __init__(self, one):
        self.one = one

    def write(self, data):
        self.one.sendall(data)

    def flush(self):
        pass

    def close(self):
        self.one.shutdown(socket.SHUT_WR)


def command_files(words):
    child = subprocess.Popen(words, stdin=subprocess.PIPE, stdout=subprocess.PIPE, bufsize=0)
    return child.stdout, child.stdin


def print_answers(market):
    """Prints each answer as it comes."""
    try:
        while True:
            answer = market.answer()
            if isinstance(answer, Price):
                price = market.price_at(answer.step)
                told = f"child {answer.child} bid {answer.number} clearing {answer.index}"
                print(f"price {price} step {answer.step} {told}", flush=True)
            elif isinstance(answer, Old):
                print(f"old child {answer.child} kept {answer.kept}", flush=True)
            else:
                print("not changed", flush=True)
    except (Ended, Refused) as why:
        print(why, file=sys.stderr)


def send_lines(market, lines):
    for line in lines:
        word, *numbers = line.split() or [""]
        numbers = [int(number) for number in numbers]
        if word == "bid":
            market.bid(numbers[0], numbers[1:])
        elif word == "gone":
            market.gone(numbers[0])
        elif word == "clear":
            market.ask_to_clear()
        elif word:
            raise ValueError(f"a line begins with bid, gone or clear, and not as this one: {line.strip()}")


def main(words):
    least, greatest, steps = map(int, words[:3])
    reader, writer = command_files(words[4:]) if words[3] == "--" else socket_files(words[3])
    market = Market(reader, writer, least, greatest, steps)
    printing = threading.Thread(target=print_answers, args=(market,))
    printing.start()
    try:
        send_lines(market, sys.stdin)
    except (BrokenPipeError, ConnectionError):
        pass
    market.close()
    printing.join()


if __name__ == "__main__":
    if len(sys.argv) < 5:
        sys.exit(__doc__)
    main(sys.argv[1:])
