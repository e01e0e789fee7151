"""A tree in which bids go up and a price comes down: examples/street.json at the end of its third phase.

The numbers of the bids and of the clearing are those of the trace street.trace. The demands are those of checks/oracle/auction.py."""

import json
from collections.abc import Iterator
from typing import Any

from checks.oracle.auction import bid_of, ends_of, prices_of, state_of
from journals import HERE, TOP, last_of, moves_of, until_close
from strokes import DOWN, GREY, LIGHT, UP, arrow, box, card, text

PHASE = 3
WIDE, HIGH = 860, 524
CELL, BOX_WIDE, BOX_HIGH = 40, 258, 60
# The middle of each node's box, and its upper edge.
PLACES = {"auctioneer": (564, 96), "street": (426, 262), "supplier": (717, 262), "house": (149, 440), "roof": (426, 440),
          "battery": (703, 440)}


def bids_at(file: dict[str, Any], phase: int) -> dict[str, list[int]]:
    """The demands of each device's bid at the end of a phase, by the states that the events before gave it. No device here
    changes its state by a tick except the battery, which neither takes nor delivers before."""
    prices, states = prices_of(file), {}
    nodes = {node["name"]: node for node in file["nodes"] if node["kind"] != "concentrator"}
    for name, node in nodes.items():
        states[name] = state_of(node, prices)
    for phase_now in file["phases"][:phase]:
        for event in phase_now.get("events", []):
            if "state" in event:
                states[event["state"]] = state_of(event, prices)
    return {name: bid_of(node, states[name], len(prices)) for name, node in nodes.items()}


def cells(middle: float, y: float, numbers: list[int], step: int, *, colour: str = "#000000") -> Iterator[str]:
    """A number for each price, with the one at a step marked."""
    left = middle - CELL * len(numbers) / 2
    for at, number in enumerate(numbers):
        if at == step:
            yield box(left + CELL * at + 1, y - 12, CELL - 2, 16, fill="#FFFFFF", stroke=DOWN)
        word = str(number).replace("-", "\u2212")
        yield text(left + CELL * (at + 0.5), y, word, anchor="middle", size=11, bold=at == step, colour=colour)


def node(name: str, told: str, numbers: list[int], step: int) -> Iterator[str]:
    """The box of a node: its name, what is told of it, and its demands."""
    middle, top = PLACES[name]
    yield box(middle - BOX_WIDE / 2, top, BOX_WIDE, BOX_HIGH, fill=LIGHT)
    yield text(middle - BOX_WIDE / 2 + 10, top + 22, name, bold=True)
    yield text(middle + BOX_WIDE / 2 - 10, top + 22, told, anchor="end", size=12)
    yield from cells(middle, top + 46, numbers, step)


def link(child: str, parent: str, bid: str, price: str) -> Iterator[str]:
    """The two ways between a child and its parent: the bid up on the left, the price down on the right."""
    (x, y), (above, top) = PLACES[child], PLACES[parent]
    y, top = y - 3, top + BOX_HIGH + 3
    # Of several children each has its own place at the parent's lower edge.
    end = above + (x - above) * 0.32
    slope = abs(end - x) / (y - top)
    apart = 9 * (1 + slope * slope) ** 0.5
    yield arrow(x - apart, y, end - apart, top, colour=UP)
    yield arrow(end + apart, top, x + apart, y, colour=DOWN)
    for part, side, words, anchor, colour in ((0.62, -1, bid, "end", UP), (0.3, 1, price, "start", DOWN)):
        place = x + (end - x) * part + side * (apart + 6 + 7 * slope), y + (top - y) * part + 4
        yield text(*place, words, anchor=anchor, colour=colour, bold=True, size=12, halo=True)


def power_told(power: int) -> str:
    """What a device takes or delivers."""
    return f"delivers {-power} W" if power < 0 else f"takes {power} W"


def drawn() -> Iterator[str]:
    """The parts of the diagram."""
    file = json.loads((TOP / "examples" / "street.json").read_text())
    moves = until_close(moves_of((HERE / "street.trace").read_text()), PHASE)
    end, prices, bids = ends_of(file)[PHASE - 1], prices_of(file), bids_at(file, PHASE)
    step, total = end.parts[None].step, end.parts[None].sums
    parent = {node["name"]: node["parent"] for node in file["nodes"]}
    bids["street"] = [sum(demands) for demands in zip(*(bids[name] for name in bids if parent[name] == "street"))]
    if [sum(demands) for demands in zip(bids["street"], bids["supplier"])] != total:
        raise ValueError("the bids of street.json do not add up to the total of its report")
    clearing = last_of(moves, "clear")[1]
    number = {name: last_of(moves, "pass", name, clearing)[6] for name in bids if name != "street"}
    number["street"] = last_of(moves, "publish", "street")[2]
    yield text(24, 30, "A bid goes up, a price comes down, and each price names the bid that it answers", bold=True, size=15)
    told = f"examples/street.json at the end of phase {PHASE}, at night: a bid has a demand in watts at each of {len(prices)} prices"
    yield text(24, 50, told, size=12, colour=GREY)
    middle, top = PLACES["auctioneer"]
    yield text(middle - BOX_WIDE / 2 - 14, top + 46, "total in watts", anchor="end", size=12)
    yield text(middle - BOX_WIDE / 2 - 14, top - 10, "price", anchor="end", size=12)
    yield from cells(middle, top - 10, prices, step, colour=GREY)
    yield from node("auctioneer", f"clearing {clearing}", total, step)
    for name in parent:
        yield from link(name, parent[name], f"bid {number[name]}", f"price {prices[step]}, for your {number[name]}")
    for name in parent:
        told = f"concentrator, record {number[name]}" if name == "street" else power_told(end.powers[name])
        yield from node(name, told, bids[name], step)


def picture() -> str:
    """The diagram."""
    return card(WIDE, HIGH, "Bids go up the tree of examples/street.json, and the price comes down", drawn())
