#!/usr/bin/env python3
"""Runs a small market over a wire that loses, repeats, delays and reorders frames, and looks at each setpoint.

    python3 -m trials.lossy_wire [--seconds 600] [--kill] [--forgets] [--record FOLDER] ..

The auctioneer, two relays, six devices and the broker are each in a network namespace of their own. The wire between them has
the faults that `tc netem` would give each interface. Offers flow by chance, a few a second. With --kill services, nodes and the
broker are killed in turn. In the end the wire is healed, and each device offers once more.

No setpoint of a device may be older than the one before, and each power has to be that of an offer of this device at that step.
In the end all devices have to hold the last clearing, at the step that adding up the offers gives. The status is 1 if not.

It needs root, iproute2, mosquitto and python3-paho-mqtt.
"""

import argparse
import os
import signal
import sys
import tempfile
import time
from pathlib import Path

from bench.live_parts import load, times_text

from .market import KEEPS, PLACES, RESTART, Market
from .wire import Faults, Wire

# The seconds within which the healed market has to settle.
REST = 180


def kills(market):
    """Kills a service, a node or the broker after the other, without end, and starts what does not start by itself."""
    while True:
        for name in PLACES:
            yield f"the service of {name}", market.nodes[name].kill_service, None
        for name in PLACES:
            yield f"the node {name}", market.nodes[name].kill, market.nodes[name].start
        yield "the broker", market.broker.kill, market.broker.start


def storm(market, arguments):
    """Lets offers flow, with kills in turn. Gives how many kills there were."""
    end, count = time.monotonic() + arguments.seconds, 0
    if not arguments.kill:
        market.flows(arguments.seconds, arguments.rate)
        return count
    for name, kill, start in kills(market):
        market.flows(min(arguments.between, max(0.0, end - time.monotonic())), arguments.rate)
        if time.monotonic() >= end:
            return count
        kill()
        count += 1
        market.flows(RESTART, arguments.rate)
        if start is not None:
            start()
    return count


def gaps(setpoints, began, ended):
    """The greatest time in seconds without a setpoint."""
    moments = [began, *(moment for moment, _ in setpoints), ended]
    return max(after - before for before, after in zip(moments, moments[1:], strict=False))


def measured(arguments, folder, log):
    """Runs the market under faults, and prints what came. Gives whether all was right."""
    wire = Wire(arguments.seed)
    record = None if arguments.record is None else Path(arguments.record)
    lines = () if arguments.forgets else KEEPS
    try:
        with Market(arguments.live, folder, log, wire, lines, record, arguments.seed, arguments.pause) as market:
            # What is started together begins over a wire without faults.
            wrong, took = market.settles(REST)
            if wrong:
                print("\n".join(["the market does not begin:", *wrong]))
                return False
            print(f"{len(PLACES)} nodes, {load()}; the first offers have setpoints after {took:.1f} s", flush=True)
            wire.begin(Faults(arguments.loss, arguments.duplicate, arguments.reorder, arguments.delay, arguments.jitter))
            before, began, index = {device.name: len(device.setpoints) for device in market.devices}, time.monotonic(), market.clearing()
            count = storm(market, arguments)
            ended, told = time.monotonic(), wire.counts()
            wire.faults = Faults()
            clearings = market.clearing() - index
            during = {device.name: [one for one in device.setpoints[before[device.name]:] if one[0] <= ended] for device in market.devices}
            wrong, took = market.settles(REST)
            print(f"{ended - began:.0f} s of faults: {told}; {count} kills; {clearings} clearings; {load()}")
            print("| Device | Offers | Setpoints | Longest without one s | From an offer to its setpoint |")
            print("|---|---|---|---|---|")
            for device in market.devices:
                longest = gaps(during[device.name], began, ended)
                print(f"| {device.name} | {len(device.offers)} | {len(device.setpoints)} | {longest:.1f} | {times_text(device.waited())} |")
            print(f"healed: all have the newest setpoint after {took:.1f} s; {len(wrong)} wrong", flush=True)
            for line in wrong[:20]:
                print(f"    {line}")
            return not wrong
    finally:
        wire.close()


def words():
    parser = argparse.ArgumentParser(description=__doc__.splitlines()[0])
    parser.add_argument("--seconds", type=float, default=600, help="how long offers flow over the faults")
    parser.add_argument("--rate", type=float, default=5, help="offers a second of all devices together")
    parser.add_argument("--pause", type=float, default=0.2, help="the pause of each node in seconds")
    parser.add_argument("--loss", type=float, default=0.2, help="the chance that a frame is lost")
    parser.add_argument("--duplicate", type=float, default=0.05, help="the chance that it comes twice")
    parser.add_argument("--reorder", type=float, default=0.25, help="the chance that it is not delayed, and so overtakes others")
    parser.add_argument("--delay", type=float, default=0.05, help="the delay of the others in seconds")
    parser.add_argument("--jitter", type=float, default=0.02, help="by how many seconds the delay varies, either way")
    parser.add_argument("--kill", action="store_true", help="kill services, nodes and the broker in turn")
    parser.add_argument("--between", type=float, default=8, help="the seconds between two kills")
    parser.add_argument("--forgets", action="store_true", help="the broker loses what it retains when it is killed")
    parser.add_argument("--record", metavar="FOLDER", help="let each node record into a folder of its name there")
    parser.add_argument("--seed", type=int, default=1, help="of the offers and the faults")
    parser.add_argument("--live", default=os.environ.get("COGMAULA_LIVE", "live"), help="the program live")
    parser.add_argument("--show", action="store_true", help="also print what the nodes say")
    return parser.parse_args()


def main():
    arguments = words()
    signal.signal(signal.SIGTERM, lambda *_: sys.exit(1))
    with tempfile.TemporaryDirectory(prefix="lossy_wire.") as folder:
        with open(Path(folder) / "log", "wb") as log:
            is_right = measured(arguments, folder, log)
        if arguments.show or not is_right:
            print((Path(folder) / "log").read_text(errors="replace"))
    return 0 if is_right else 1


if __name__ == "__main__":
    sys.exit(main())
