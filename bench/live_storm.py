#!/usr/bin/env python3
"""Lets two thirds of many devices die at once, over a real broker: one third for good, and one that comes back.

    python3 bench/live_storm.py [DEVICES]       200 devices by default, at most 255

All nodes are threads of this process, each with its own process of `live`, as in python/tests/live/test_live_storm.py. It needs
mosquitto, paho, pytest, and the program `live`, which COGMAULA_LIVE names. A line for each step has the seconds, those that this process
had of a processor, and the load of the machine. It ends with status 1 if a sum is not that of the devices that live.
"""

import json
import os
import resource
import sys
import tempfile
import time
from pathlib import Path

TOP = Path(__file__).resolve().parent.parent
sys.path[:0] = [str(TOP / "python"), str(TOP / "python" / "tests"), str(TOP / "python" / "tests" / "live")]

from brokers import Mosquitto, Onlooker, live_program, wait_until
from markets import PLACES, STEPS, Market
from test_live_storm import Sums, kill

# Seconds: a quarter of the default times, with fewer heartbeats, and the default pause between clearings.
TIMES = {"validity": 30.0, "heartbeat": 10.0, "grace": 37.5, "pause": 1.0}
# By default mosquitto drops what is more than 1,000 messages behind, and the onlooker reads all of the market.
QUEUE = "max_queued_messages 1000000"
# How long each step may take, beside `grace`.
PATIENCE = 120


class Watch:
    """Prints how long each step took."""

    def __init__(self):
        self._begun, self._used = time.monotonic(), self._processor()

    @staticmethod
    def _processor():
        used = resource.getrusage(resource.RUSAGE_SELF)
        return used.ru_utime + used.ru_stime

    def tell(self, what):
        """Prints the seconds since the step before."""
        now, used = time.monotonic(), self._processor()
        print(f"{what}: {now - self._begun:.1f} s, {used - self._used:.1f} s of a processor, load {os.getloadavg()[0]:.0f}", flush=True)
        self._begun, self._used = now, used


def wait_for_sum(sums, due):
    """Waits until the newest clearing counts these powers alone. It looks once a second, since looking takes a processor too."""
    end = time.monotonic() + PATIENCE
    while (found := sums.newest()) != due:
        lacking, more = sorted(due.keys() - found.keys()), sorted(found.keys() - due.keys())
        assert time.monotonic() < end, f"children {lacking} are missing from the newest clearing, and {more} are counted"
        time.sleep(1)


def storm(market, onlooker, devices):
    """Starts the market, lets the storm pass, and looks at the auctioneer's sum each time."""
    numbers = {f"d{number}": number for number in range(1, devices + 1)}
    PLACES.update({name: ("device", "auctioneer", number) for name, number in numbers.items()})
    powers = {number: 100 + number for number in numbers.values()}
    names = list(numbers)
    dead, away = names[: devices // 3], names[devices // 3 : 2 * (devices // 3)]
    watch = Watch()
    market.start("auctioneer", **TIMES).start(*names)
    watch.tell(f"{devices} nodes are up")
    market.offers(**{name: [powers[number]] * STEPS for name, number in numbers.items()})
    wait_until(lambda: all(market.controls[name].has(power=powers[number]) for name, number in numbers.items()), "setpoints", PATIENCE)
    watch.tell("each control has the setpoint of its offer")
    for name in dead + away:
        kill(market, name)
    watch.tell(f"{len(dead)} are killed for good, and {len(away)} for a while")
    gone = [numbers[name] for name in dead + away]
    wait_until(lambda: all(onlooker.payload(f"market/auctioneer/lapsed/{number}") for number in gone), "all are let go", PATIENCE)
    living = {number: power for number, power in powers.items() if number not in gone}
    sums = Sums(onlooker, "auctioneer")
    wait_for_sum(sums, living)
    watch.tell(f"all {len(gone)} are let go, and the sum is that of the others (grace is {TIMES['grace']:g} s)")
    market.start(*away)
    due = living | {numbers[name]: powers[numbers[name]] for name in away}
    watch.tell(f"{len(away)} are started again")
    wait_for_sum(sums, due)
    watch.tell("they count")
    silent = [name for name in names if name not in dead + away and any(told.get("market") == "silent" for told in market.controls[name].setpoints)]
    print(f"controls that were told silence though their path was whole: {len(silent)}")
    lapses = [json.loads(onlooker.payload(f"market/auctioneer/lapsed/{numbers[name]}"))["why"] for name in dead]
    print(f"why the dead are let go, for one: {lapses[0]}")


def main():
    """Runs the storm."""
    devices = int(sys.argv[1]) if len(sys.argv) > 1 else 200
    with tempfile.TemporaryDirectory() as folder, Mosquitto(Path(folder) / "broker", QUEUE) as broker:
        with Onlooker(broker.port) as onlooker, Market(broker.port, live_program(), Path(folder), keepalive=30) as market:
            try:
                storm(market, onlooker, devices)
            except AssertionError as fault:
                print(f"failed: {str(fault)[:200]}")
                return 1
    return 0


if __name__ == "__main__":
    sys.exit(main())
