#!/usr/bin/env python3
"""Makes cluster files in the folder named: in `largest` those of 256 nodes, 1000 steps, 20,000 changes, up to 4 MB, and in
`compared` those on which the ways to run a cluster are compared."""

import json
import os
import sys

BASIS = {"min": 0, "max": 999, "steps": 1000}
LIMIT = 4_194_304


def concentrators(count, limited):
    """Concentrators c1, c2, .. under the auctioneer; if asked for, all of them limited."""
    for i in range(1, count + 1):
        node = {"name": f"c{i}", "kind": "concentrator", "parent": "auctioneer"}
        if limited:
            node |= {"kind": "limited", "floor": -1500, "ceiling": 1500}
        yield node


def chain(count):
    """Concentrators c1, c2, .. each under the one before."""
    for i in range(1, count + 1):
        yield {"name": f"c{i}", "kind": "concentrator", "parent": f"c{i - 1}" if i > 1 else "auctioneer"}


def devices(count, parents):
    """Devices of all kinds that tick, dealt out to the concentrators; without any, all under the auctioneer."""
    for i in range(1, count + 1):
        node = {"name": f"d{i}", "parent": f"c{1 + i % parents}" if parents else "auctioneer"}
        if i % 4 == 0:
            node |= {"kind": "freezer", "low": -2200, "high": -1800, "power": 100 + i, "warm": 20, "cool": 60,
                     "start": -2200 + 7 * i % 401}
        elif i % 4 == 1:
            node |= {"kind": "heat_pump", "low": 1900, "high": 2200, "power": 500 + i, "loss": 10, "gain": 30,
                     "start": 1900 + 5 * i % 301}
        elif i % 4 == 2:
            node |= {"kind": "cogeneration", "low": 5000, "high": 8000, "power": 800 + i, "loss": 100, "gain": 300,
                     "start": 5000 + 11 * i % 3001}
        else:
            node |= {"kind": "battery", "capacity": 1000, "charge": 300 + i, "discharge": 300 + i, "spread": 5,
                     "start": 13 * i % 1001}
        yield node


def toggles(phases, events, count):
    """Phases of events that let devices join and leave in turn."""
    joined = [False] * (count + 1)
    device = 0
    for _ in range(phases):
        phase = []
        for _ in range(events):
            device = device % count + 1
            phase.append({"leave" if joined[device] else "join": f"d{device}"})
            joined[device] = not joined[device]
        yield {"events": phase}


def joins(count):
    """A phase in which all devices join."""
    return {"events": [{"join": f"d{i}"} for i in range(1, count + 1)]}


def leaves(count):
    """A phase in which so many devices leave."""
    return {"events": [{"leave": f"d{i}"} for i in range(1, count + 1)]}


def ticks(count, changes):
    """All devices join, and then come as many ticks as make at most so many changes."""
    yield joins(count)
    for _ in range(changes // count - 1):
        yield {"tick": 15}


def arrays(count):
    """Manual devices with a demand for each step, as many bytes as a file may have."""
    for i in range(1, count + 1):
        demand = [1_000_000 - 2_000 * k - i for k in range(1000)]
        yield {"name": f"d{i}", "kind": "manual", "parent": "auctioneer", "demand": demand}


def demo_device(draw, kind, power):
    """A device of a drawn kind."""
    if kind == 0:
        return {"kind": "freezer", "low": -2200, "high": -1800, "power": power, "warm": 20, "cool": 60,
                "start": -2200 + draw(401)}
    if kind == 1:
        return {"kind": "heat_pump", "low": 1900, "high": 2200, "power": power, "loss": 10, "gain": 30,
                "start": 1900 + draw(301)}
    if kind == 2:
        return {"kind": "cogeneration", "low": 5000, "high": 8000, "power": power, "loss": 100, "gain": 300,
                "start": 5000 + draw(3001)}
    if kind == 3:
        return {"kind": "battery", "capacity": 1000, "charge": power, "discharge": power, "spread": 5,
                "start": draw(1001)}
    return {"kind": "solar" if kind == 4 else "load", "start": power}


def demo(size, number):
    """The demo cluster of the program, as docs/CLUSTER_FILE.md has its generator: nodes and phases."""
    seed = number % 65536

    def draw(choices):
        nonlocal seed
        seed = (75 * seed + 74) % 65537
        return seed % choices

    parents = (size + 19) // 20
    nodes = [{"name": f"c{i}", "kind": "concentrator", "parent": f"c{i // 2}" if i > 1 else "auctioneer"}
             for i in range(1, parents + 1)]
    for i in range(1, size + 1):
        kind, power = draw(6), 100 * (1 + draw(20))
        nodes.append({"name": f"d{i}", "parent": f"c{1 + (i - 1) % parents}"} | demo_device(draw, kind, power))
    phases = [joins(size)]
    joined = [True] * (size + 1)
    for _ in range(10):
        events = []
        for _ in range(size // 10 + 1):
            device = 1 + draw(size)
            events.append({"leave" if joined[device] else "join": f"d{device}"})
            joined[device] = not joined[device]
        phases += [{"tick": 15}, {"events": events}]
    return nodes, phases


def scene(version, nodes, phases, basis=BASIS):
    return {"version": version, "basis": basis, "nodes": list(nodes), "phases": list(phases)}


def largest():
    """The largest files, by their names."""
    side_by_side = [*concentrators(16, False), *devices(240, 16)]
    return {
        "1000_phases": scene(1, side_by_side, toggles(1000, 20, 240)),
        "5_phases": scene(1, side_by_side, toggles(5, 4000, 240)),
        "limited": scene(2, [*concentrators(128, True), *devices(128, 128)], toggles(1000, 20, 128)),
        "ticks": scene(1, [*concentrators(6, False), *devices(250, 6)], ticks(250, 20_000)),
        "arrays": scene(1, arrays(256), [joins(256)]),
    }


def compared():
    """The files on which the ways to run a cluster are compared, by their names; `few` for `load.py` alone."""
    return {
        "demo": scene(1, *demo(200, 7), {"min": 0, "max": 99, "steps": 100}),
        "wide": scene(1, [*concentrators(6, False), *devices(250, 6)], [*ticks(250, 19_750), leaves(150)]),
        "deep": scene(1, [*chain(6), *devices(240, 6)], toggles(1000, 16, 240)),
        "bursts": scene(1, [*chain(6), *devices(240, 6)], toggles(4, 4000, 240)),
        "chain": scene(1, [*chain(6), *devices(6, 6)], toggles(1000, 16, 6)),
        "calm": scene(1, devices(256, 0), [joins(256)] + [{"events": []}] * 999),
        "few": scene(1, [*chain(1), *devices(3, 1)], [joins(3)] + [{"tick": 15}] * 23),
    }


def write(folder, files):
    os.makedirs(folder, exist_ok=True)
    for name, file in files.items():
        text = json.dumps(file, separators=(",", ":"))
        assert len(text) <= LIMIT, name
        with open(os.path.join(folder, name + ".json"), "w", encoding="utf-8") as target:
            target.write(text.ljust(LIMIT if name == "arrays" else len(text)))


def main(folder):
    write(os.path.join(folder, "largest"), largest())
    write(os.path.join(folder, "compared"), compared())


if __name__ == "__main__":
    main(sys.argv[1])
