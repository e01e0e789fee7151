"""The bids, sums and prices of a cluster file, phase by phase, by the formulas of docs/CLUSTER_FILE.md."""

from dataclasses import dataclass
from itertools import zip_longest

from checks.facts import CONCENTRATORS, TICKING
from checks.facts import TEMPERATURE_LIMIT as TEMPERATURE


class Misfit(Exception):
    """Why a text does not fit a file."""


@dataclass
class Part:
    """The whole cluster, or what stands below a limited concentrator, at a phase's end."""

    # The sum of the bids at each step, with what limited concentrators announce in place of what stands below them.
    sums: list
    # The step that its devices take.
    step: int


@dataclass
class End:
    """The end of a phase."""

    tick: object
    # The power of each member, in the file's order, and the number of its bid.
    powers: dict
    numbers: dict
    # By the name of the limited concentrator; that of the whole cluster has the name None.
    parts: dict


def prices_of(file):
    basis = file["basis"]
    width = (basis["max"] - basis["min"]) // (basis["steps"] - 1)
    return [basis["min"] + k * width for k in range(basis["steps"])]


def part_of(file):
    """The limited concentrator above each node or at it, or None."""
    part = {"auctioneer": None}
    for node in file["nodes"]:
        above = part[node.get("parent", "auctioneer")]
        part[node["name"]] = node["name"] if node["kind"] == "limited" else above
    return part


def demand_at(points, price):
    before = [point for point in points if point[0] <= price]
    if not before:
        return points[0][1]
    if len(before) == len(points):
        return points[-1][1]
    (p1, d1), (p2, d2) = before[-1], points[len(before)]
    return d1 + (d2 - d1) * (price - p1) // (p2 - p1)


def state_of(given, prices):
    """The state that a node or an event gives: a number, or a demand for each step."""
    if "points" in given:
        return [demand_at(given["points"], price) for price in prices]
    return next(given[word] for word in ("demand", "value", "start") if word in given)


def bid_of(node, state, steps):
    """The demand of a device at each step."""
    last, kind = steps - 1, node["kind"]
    if kind == "manual":
        return state
    if kind in ("solar", "load", "objective"):
        return [state if kind == "load" else -state] * steps
    if kind == "battery":
        middle, spread = (node["capacity"] - state) * last // node["capacity"], node["spread"]
        charges = [node["charge"] * (k + spread < middle) for k in range(steps)]
        return [charge - node["discharge"] * (k > middle + spread) for k, charge in enumerate(charges)]
    low, high, power = node["low"], node["high"], node["power"]
    if kind == "cogeneration":
        first = 0 if state <= low else steps if state >= high else -((low - state) * last // (high - low))
        return [-power * (k >= first) for k in range(steps)]
    fullness = state - low if kind == "freezer" else high - state
    end = -1 if fullness <= 0 else last if fullness >= high - low else fullness * last // (high - low)
    return [power * (k <= end) for k in range(steps)]


def after_tick(node, state, power, minutes):
    kind = node["kind"]
    if kind == "battery":
        return min(max(state + power * minutes // 60, 0), node["capacity"])
    if kind == "freezer":
        state += node["warm"] - node["cool"] * (power > 0)
    else:
        state += node["gain"] * (power > 0 if kind == "heat_pump" else power < 0) - node["loss"]
    return min(max(state, -TEMPERATURE), TEMPERATURE)


def clearing_step(sums):
    return next((k for k, demand in enumerate(sums) if demand <= 0), len(sums) - 1)


def local_step(sums, floor, ceiling, step):
    if sums[step] > ceiling:
        return next((k for k, demand in enumerate(sums) if demand <= ceiling), len(sums) - 1)
    if sums[step] < floor:
        return next((k for k in reversed(range(len(sums))) if sums[k] >= floor), 0)
    return step


def parts_at(file, part, bids):
    """The whole cluster and its limited parts, where the members have these bids."""
    limited = [node for node in file["nodes"] if node["kind"] == "limited"]
    sums = {name: [0] * file["basis"]["steps"] for name in [None, *[group["name"] for group in limited]]}
    for name, bid in bids.items():
        sums[part[name]] = [a + b for a, b in zip(sums[part[name]], bid)]
    for group in limited:
        announced = [min(max(a, group["floor"]), group["ceiling"]) for a in sums[group["name"]]]
        sums[None] = [a + b for a, b in zip(sums[None], announced)]
    step = clearing_step(sums[None])
    steps = {group["name"]: local_step(sums[group["name"]], group["floor"], group["ceiling"], step) for group in limited}
    return {name: Part(sums[name], steps.get(name, step)) for name in sums}


def ends_of(file):
    """The end of each phase."""
    prices, part, ends = prices_of(file), part_of(file), []
    devices = {node["name"]: node for node in file["nodes"] if node["kind"] not in CONCENTRATORS}
    states = {name: state_of(device, prices) for name, device in devices.items()}
    numbers, joined = dict.fromkeys(devices, 0), set()
    for phase in file["phases"]:
        for event in phase.get("events", []):
            name = next(event[word] for word in ("join", "leave", "state") if word in event)
            numbers[name] += 1
            if "join" in event:
                joined.add(name)
            elif "leave" in event:
                joined.remove(name)
            else:
                states[name] = state_of(event, prices)
        if "tick" in phase:
            for name in [name for name in joined if devices[name]["kind"] in TICKING]:
                numbers[name] += 1
                states[name] = after_tick(devices[name], states[name], ends[-1].powers[name], phase["tick"])
        bids = {name: bid_of(device, states[name], len(prices)) for name, device in devices.items() if name in joined}
        parts = parts_at(file, part, bids)
        powers = {name: bid[parts[part[name]].step] for name, bid in bids.items()}
        ends.append(End(phase.get("tick"), powers, dict(numbers), parts))
    return ends


def lines_of(file, ends):
    """The lines of `run`."""
    prices = prices_of(file)
    for phase, end in enumerate(ends, 1):
        for name, part in end.parts.items():
            told = f"price {prices[part.step]} step {part.step} total {part.sums[part.step]}"
            if name is None:
                yield f"phase {phase} {told} members {len(end.powers)}"
                yield from (f"member {name} power {power} bid {end.numbers[name]}" for name, power in end.powers.items())
            else:
                yield f"limited {name} {told}"
    changes = sum(ends[-1].numbers.values()) if ends else 0
    yield f"end phases {len(ends)} changes {changes}"


def fitting_ends(file, text):
    """The ends of the phases that the text of `run` on the file tells."""
    try:
        ends = ends_of(file)
    except (ArithmeticError, AttributeError, LookupError, StopIteration, TypeError):
        raise Misfit("the file is no cluster file that runs: market run says why") from None
    for number, (due, found) in enumerate(zip_longest(lines_of(file, ends), text.splitlines()), 1):
        if found is None:
            raise Misfit(f"the text ends before line {number}, where the file gives '{due}'")
        if due is None:
            raise Misfit(f"the text goes on at line {number}, and the file's ends before it: '{found}'")
        if due != found:
            raise Misfit(f"line {number} of the text is '{found}', and the file gives '{due}'")
    return ends
