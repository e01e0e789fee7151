#!/usr/bin/env python3
"""Simulates devices of a market that have a connection to the broker of their own each, thousands in one process. live_scale.py starts it.

    live_connections.py SETTINGS

SETTINGS and the lines at standard input are those of live_devices.py. With a `ca` the connections are over TLS, and the broker's certificate
is verified against that. Each device reads and writes the topics of the market that a real one does.
"""

import json
import ssl
import sys

from live_devices import Devices
from live_mqtt import Connection

# What a device reads of its own place below its parent, and of its parent.
OWN, PARENTS = ("bid", "price", "lapsed", "refused"), ("state", "heartbeat", "prices")


class Connections(Devices):
    """Devices with a connection each. One loop has them all."""

    def _connected(self, told):
        context = ssl.create_default_context(cafile=told["ca"]) if "ca" in told else None
        for device in self._devices:
            relay, child = device.relay, device.child
            device.link = Connection(told["host"], told["port"], f"device.{relay}.{child}", context)
            own = [self._topic(relay, f"{word}/{child}") for word in OWN]
            device.link.subscribe([self._basis.decode(), *own, *(self._topic(relay, word) for word in PARENTS)])
        return {device.link: {self._topic(device.relay, "prices").encode(): [device]} for device in self._devices}


if __name__ == "__main__":
    Connections(json.loads(sys.argv[1])).work()
