#!/usr/bin/env python3
"""Lets devices bid over MQTT: turns messages into frames of `market serve`, and prices into messages.

    python3 bridge.py BROKER:PORT LEAST GREATEST STEPS SECONDS -- MARKET serve
    python3 bridge.py BROKER:PORT LEAST GREATEST STEPS SECONDS HOST:PORT
    python3 bridge.py BROKER:PORT LEAST GREATEST STEPS SECONDS /run/market.socket

A device of number CHILD, 1 to 256, publishes its bid under `market/bid/CHILD`: its demands in watts, one for each step, as a JSON
list. It publishes them retained, so that the broker hands them on again when the bridge starts anew; an empty message says that
the device bids no more. Every SECONDS the bridge asks for a clearing if a bid came, and publishes under `market/price/CHILD` an
object with the members `price`, `step`, `bid` (the number of the device's bid that the price answers) and `clearing`.

All devices share one session, which a bad frame would end. So a message that is no bid is dropped and told on standard error, and
never sent on. It needs the package python3-paho-mqtt of Debian, or paho-mqtt.
"""

import json
import queue
import sys
import time

import paho.mqtt.client as mqtt

from client import Ended, Market, Refused, command_files, socket_files

BIDS, PRICES = "market/bid/", "market/price/"
CHILDREN, MOST = 256, 1_000_000_000
# Messages that may wait; more are dropped, so that a flood takes no memory.
WAITING = 10_000
# A demand has at most eleven characters, and a list of them blanks between.
LONGEST = 16


class NoBid(Exception):
    """Why a message is no bid."""


def child_of(topic):
    name = topic.removeprefix(BIDS)
    if not (name.isascii() and name.isdigit() and name == str(int(name[:4])) and 1 <= int(name) <= CHILDREN):
        raise NoBid("the topic names no device from 1 to 256")
    return int(name)


def demands_of(payload, steps):
    """The demands of a message, or None if it is empty."""
    if not payload:
        return None
    if len(payload) > LONGEST * (steps + 1):
        raise NoBid("it is longer than a bid")
    try:
        demands = json.loads(payload)
    except (RecursionError, ValueError):
        raise NoBid("it is no JSON") from None
    if type(demands) is not list or any(type(demand) is not int or abs(demand) > MOST for demand in demands):
        raise NoBid("it is no list of whole numbers within the limits")
    if len(demands) != steps:
        raise NoBid(f"it has {len(demands)} demands, and {steps} are due")
    if any(a < b for a, b in zip(demands, demands[1:])):
        raise NoBid("a demand is above the one before")
    return demands


def mqtt_client():
    """A client of the one or the other version of the library."""
    if hasattr(mqtt, "CallbackAPIVersion"):
        return mqtt.Client(mqtt.CallbackAPIVersion.VERSION1)
    return mqtt.Client()


class Bridge:
    def __init__(self, market, broker):
        self.market = market
        self.waiting = queue.Queue(WAITING)
        self.client = mqtt_client()
        self.client.on_connect = lambda client, *_: client.subscribe(BIDS + "+")
        self.client.on_message = self.take
        host, _, port = broker.rpartition(":")
        self.client.connect(host, int(port))
        self.client.loop_start()

    def take(self, _client, _data, message):
        try:
            self.waiting.put_nowait((message.topic, message.payload))
        except queue.Full:
            print(f"{message.topic}: dropped, since {WAITING} messages wait", file=sys.stderr)

    def send_bids(self, seconds):
        """Sends the bids that come within so many seconds."""
        end = time.monotonic() + seconds
        while (left := end - time.monotonic()) > 0:
            try:
                self.send_bid(*self.waiting.get(timeout=left))
            except queue.Empty:
                return

    def send_bid(self, topic, payload):
        try:
            child, demands = child_of(topic), demands_of(payload, self.market.steps)
        except NoBid as why:
            print(f"{topic}: dropped, since {why}", file=sys.stderr, flush=True)
            return
        if demands is None:
            self.market.gone(child)
        else:
            self.market.bid(child, demands)

    def publish(self, price):
        told = {"price": self.market.price_at(price.step), "step": price.step, "bid": price.number, "clearing": price.index}
        self.client.publish(f"{PRICES}{price.child}", json.dumps(told), retain=True)

    def run(self, seconds):
        while True:
            self.send_bids(seconds)
            for price in self.market.clear() if self.market.changed else []:
                self.publish(price)


def main(words):
    broker, least, greatest, steps, seconds = words[0], *map(int, words[1:4]), float(words[4])
    reader, writer = command_files(words[6:]) if words[5] == "--" else socket_files(words[5])
    try:
        Bridge(Market(reader, writer, least, greatest, steps), broker).run(seconds)
    except (Ended, Refused, OSError) as why:
        # The service is started anew, and the retained bids come again.
        sys.exit(f"the market has ended: {why}")


if __name__ == "__main__":
    if len(sys.argv) < 7:
        sys.exit(__doc__)
    main(sys.argv[1:])
