#!/usr/bin/env python3
"""Simulates devices of a market over an MQTT broker, thousands in one process. live_scale.py starts it.

    live_devices.py SETTINGS

SETTINGS is JSON: the broker's `host` and `port`, the market's `prefix` and `steps`, a `seed`, and the `relays` that the devices are
below, each with the numbers of its first and its last child here. Lines at standard input say what to do:

    first RATE    each device bids once, so many bids a second
    rate RATE     one device after the other bids anew, by chance, so many a second; 0 ends that, and -1 is as fast as it goes
    figures       prints what came since the last time, in JSON
    state         prints what the devices hold, in JSON
    clear         clears the retained bids of the devices

Each device numbers its bids 2, 4, 6, .., and stores nothing. Its bids hold until it makes another. It knows the power of its bids that
are not answered, and so its setpoint.
"""

import json
import os
import random
import selectors
import struct
import sys
import time
from datetime import datetime, timezone

from live_mqtt import Connection, text, user_properties

BID, PRICE = 2, 23
PRICE_FORMAT = struct.Struct(">BHIIHiiH")
# The first byte of a table of prices, and what is before its numbers: the index, the step and the basis.
TABLE, TABLE_FORMAT = 31, struct.Struct(">BIHiiH")
# The version of the messages.
VERSION = "3"
# The most messages that the broker has not confirmed, and the greatest power of a device in watts.
UNCONFIRMED, MOST = 1_000, 5_000
# The seconds between looks at standard input, and those between looks at the keepalive of all connections.
LOOK, KEPT = 0.05, 1.0


class Device:
    """A device: its newest bid, those before it that may still be answered, and its setpoint."""

    __slots__ = ("answered", "bids", "child", "index", "link", "number", "power", "relay", "step", "topic")

    def __init__(self, prefix, relay, child):
        self.relay, self.child, self.topic = relay, child, text(f"{prefix}/{relay}/bid/{child}")
        self.link = None
        self.number = self.index = self.step = self.answered = 0
        self.power = None
        # By number: the step at which the demand falls, before and behind it, and when the bid was made.
        self.bids = {}

    def takes(self, number, index, step):
        """Takes a price. Gives when the bids that it answers were made, or None if it is older than one before, or of no bid."""
        if index < self.index or number not in self.bids:
            return None
        falls, before, behind, _ = self.bids[number]
        self.index, self.step, self.power = index, step, before if step < falls else behind
        made = [self.bids[earlier][3] for earlier in range(self.answered + 2, number + 1, 2)]
        for earlier in range(max(2, self.answered), number, 2):
            del self.bids[earlier]
        self.answered = number
        return made


class Devices:
    """All devices of the process, and their connection."""

    def __init__(self, told):
        self._steps, self._chance = told["steps"], random.Random(told["seed"])
        self._prefix = told["prefix"]
        self._below = {
            relay: [Device(self._prefix, relay, child) for child in range(first, last + 1)]
            for relay, (first, last) in told["relays"].items()
        }
        self._devices = [device for below in self._below.values() for device in below]
        self._by_topic = {self._topic(device.relay, f"price/{device.child}").encode(): device for device in self._devices}
        self._basis = f"{self._prefix}/basis".encode()
        self._session = ""
        # The connections, each with the devices that read a table there. Of them: those that may have something to write, those
        # whose socket did not take all, and those that have heard the basis.
        self._tables = self._connected(told)
        self._touched, self._full, self._begun = set(self._tables), set(), set()
        self._kept_at = time.monotonic()
        self._rate, self._due, self._waiting = 0.0, 0.0, []
        self._behind = self._foreign = 0
        self._published = self._confirmed = self._confirmed_before = 0
        self._format = struct.Struct(f">BHI{self._steps}i")
        self._begin()

    def _topic(self, relay, word):
        return f"{self._prefix}/{relay}/{word}"

    def _connected(self, told):
        """The connections of the devices: one for all, with the devices by the topic of their table."""
        link = Connection(told["host"], told["port"], f"devices.{told['seed']}")
        link.subscribe([self._basis.decode()])
        link.subscribe([self._topic(relay, "price/+") for relay in self._below])
        link.subscribe([self._topic(relay, "prices") for relay in self._below])
        for device in self._devices:
            device.link = link
        return {link: {self._topic(relay, "prices").encode(): below for relay, below in self._below.items()}}

    def _begin(self):
        self._began, self._made, self._prices, self._seconds = time.monotonic(), 0, 0, []
        self._confirmed_before = self._confirmed

    # Bids.

    def _drawn(self):
        """The step at which the demand of a bid falls, and the demand before and behind it: by chance."""
        return self._chance.randrange(self._steps + 1), self._chance.randrange(1, MOST), -self._chance.randrange(1, MOST)

    def _bid(self, at, now, properties):
        device = self._devices[at]
        device.number += 2
        falls, before, behind = self._drawn()
        device.bids[device.number] = falls, before, behind, now
        demands = [before] * falls + [behind] * (self._steps - falls)
        self._publish(device, self._format.pack(BID, device.child, device.number, *demands), properties)
        self._made += 1

    def _publish(self, device, payload, properties):
        device.link.publish(device.topic, payload, properties)
        self._touched.add(device.link)
        self._published += 1

    def _properties(self):
        """The properties of bids that are made now."""
        moment = datetime.now(timezone.utc).isoformat(timespec="milliseconds").replace("+00:00", "Z")
        return user_properties(time=moment, session=self._session, version=VERSION)

    def _bid_all_due(self):
        """Makes the bids that are due now, as far as the broker confirms them."""
        if not self._rate or len(self._begun) < len(self._tables):
            return
        now = time.monotonic()
        room = UNCONFIRMED - (self._published - self._confirmed)
        due = room if self._rate < 0 else min(room, int((now - self._due) * self._rate))
        if due <= 0:
            return
        self._due += 0 if self._rate < 0 else due / self._rate
        properties = self._properties()
        for _ in range(due):
            if self._waiting:
                at = self._waiting.pop()
                if not self._waiting:
                    self._rate = 0
                self._bid(at, now, properties)
            elif self._rate:
                self._bid(self._chance.randrange(len(self._devices)), now, properties)

    # Prices.

    def _take_all(self, link):
        now, confirmed, tables = time.monotonic(), link.confirmed, self._tables[link]
        for topic, payload in link.messages():
            device = self._by_topic.get(topic)
            if device is not None and len(payload) == PRICE_FORMAT.size and payload[0] == PRICE:
                _, _, number, index, step, *_ = PRICE_FORMAT.unpack(payload)
                self._take(device, number, index, step, now)
            elif topic in tables and payload and payload[0] == TABLE:
                self._take_table(tables[topic], payload, now)
            elif topic == self._basis and payload:
                self._session = json.loads(payload)["session"]
                self._begun.add(link)
        self._confirmed += link.confirmed - confirmed

    def _take_table(self, devices, payload, now):
        """Hands a table of prices to devices whose numbers follow each other. It ends with the last child that has a price."""
        _, index, step, *_ = TABLE_FORMAT.unpack_from(payload)
        begin = TABLE_FORMAT.size + 4 * (devices[0].child - 1)
        count = min(len(devices), max(0, len(payload) - begin) // 4)
        for device, number in zip(devices, struct.unpack_from(f">{count}I", payload, begin) if count else (), strict=False):
            # As a carrier does, a device leaves out what gives the same power as before.
            if number and not (device.index and (number, step) == (device.answered, device.step)):
                self._take(device, number, index, step, now)

    def _take(self, device, number, index, step, now):
        """Hands a price to a device."""
        self._prices += 1
        made = device.takes(number, index, step)
        if made is not None:
            self._seconds += [now - moment for moment in made]
        elif index < device.index:
            self._behind += 1
        else:
            self._foreign += 1

    # What is asked.

    def do(self, line):
        """Does what a line of standard input says. Gives the answer, or None."""
        word, _, rate = line.partition(" ")
        if word in ("first", "rate"):
            self._rate, self._due = float(rate), time.monotonic()
            self._waiting = list(range(len(self._devices)))[::-1] if word == "first" else []
            return None
        if word == "clear":
            for device in self._devices:
                self._publish(device, b"", user_properties())
            return None
        return self._figures() if word == "figures" else self._state()

    def _figures(self):
        told = {
            "seconds": time.monotonic() - self._began,
            "bids": self._made,
            "confirmed": self._confirmed - self._confirmed_before,
            "prices": self._prices,
            "waited": [round(seconds, 4) for seconds in self._seconds],
        }
        self._begin()
        return told

    def _state(self):
        sums = [0] * self._steps
        held = {}
        for device in self._devices:
            if device.number:
                falls, before, behind, _ = device.bids[device.number]
                for step in range(self._steps):
                    sums[step] += before if step < falls else behind
            key = str(device.step)
            held[key] = held.get(key, 0) + 1
        return {
            "devices": len(self._devices),
            "bids": sum(1 for device in self._devices if device.number),
            "unconfirmed": self._published - self._confirmed,
            "sums": sums,
            "held": held,
            "old": [device.topic[2:].decode() for device in self._devices if device.answered != device.number],
            "power": sum(device.power or 0 for device in self._devices),
            "behind": self._behind,
            "foreign": self._foreign,
        }

    # The work.

    def _write_all(self, selector):
        """Writes what waits, at all connections from time to time: then each keeps itself alive."""
        now, touched = time.monotonic(), self._touched
        if now > self._kept_at + KEPT:
            self._kept_at, touched = now, self._tables
        self._touched = set()
        for link in touched:
            link.write()
            if link.waits_to_write != (link in self._full):
                self._full ^= {link}
                selector.modify(link, selectors.EVENT_READ | (selectors.EVENT_WRITE if link.waits_to_write else 0))

    def work(self):
        """Works until standard input ends."""
        selector = selectors.DefaultSelector()
        selector.register(0, selectors.EVENT_READ)
        for link in self._tables:
            selector.register(link, selectors.EVENT_READ)
        kept = b""
        while True:
            self._bid_all_due()
            self._write_all(selector)
            wait = LOOK if self._rate <= 0 else min(LOOK, max(0.001, 1 / self._rate))
            for key, found in selector.select(wait):
                if key.fileobj != 0:
                    if found & selectors.EVENT_READ:
                        self._take_all(key.fileobj)
                    self._touched.add(key.fileobj)
                    continue
                piece = os.read(0, 4_096)
                if not piece:
                    return
                *lines, kept = (kept + piece).split(b"\n")
                for line in lines:
                    answer = self.do(line.decode())
                    if answer is not None:
                        print(json.dumps(answer), flush=True)


if __name__ == "__main__":
    Devices(json.loads(sys.argv[1])).work()
