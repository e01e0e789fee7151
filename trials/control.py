#!/usr/bin/env python3
"""The control of a device, as a program of its own: it offers by the device's topic, and prints the setpoints of its topic.

    python3 -m trials.control HOST PORT DEVICE

Each line of standard input is an offer, which is published as it is. Each setpoint is a line of standard output. kills.py
starts it, and kills it.
"""

import sys

import paho.mqtt.client as mqtt

PREFIX = "market"


def main(host, port, device):
    first = (mqtt.CallbackAPIVersion.VERSION1,) if hasattr(mqtt, "CallbackAPIVersion") else ()
    client = mqtt.Client(*first, protocol=mqtt.MQTTv5)
    client.reconnect_delay_set(1, 1)
    client.on_connect = lambda client, *_: client.subscribe(f"{PREFIX}/{device}/setpoint", 1)
    client.on_message = lambda _it, _data, message: print(message.payload.decode(), flush=True)
    client.connect(host, int(port), 5)
    client.loop_start()
    for line in sys.stdin:
        client.publish(f"{PREFIX}/{device}/offer", line.strip(), 1, True)
    client.disconnect()


if __name__ == "__main__":
    main(*sys.argv[1:])
