"""Whether the diagrams of the pages are those that pictures/diagrams draws today, and the journals in them are legal.

The layers are drawn from crates.txt, the others from files of examples/ and from traces that `market trace` wrote. Each is drawn
again and compared. The traces, and the journal of the network, are judged by checks/oracle/judge.py, which knows the protocol
alone: a trace by its report, its moves and its end, and the journal of the network move by move.
"""

import json
import sys
from collections.abc import Iterator

from checks import TOP
from checks.oracle import judge

HERE = TOP / "pictures" / "diagrams"
sys.path.insert(0, str(HERE))

import draw_all
import interleaving
import network

# The file that the traces are of, and the traces' own file.
TRACES = {"street.trace": "street.json", "two_orders.trace": "balance.json"}

# A device d below a concentrator c, whose four changes are those of the network that is drawn.
CHAIN = {
    "version": 1,
    "basis": {"min": 0, "max": 1, "steps": 2},
    "nodes": [
        {"name": "c", "kind": "concentrator", "parent": "auctioneer"},
        {"name": "d", "kind": "load", "parent": "c", "start": 1},
    ],
    "phases": [{"events": [{"join": "d"}, *({"state": "d", "value": value} for value in (2, 3, 4))]}],
}


def stale_diagrams() -> Iterator[str]:
    """The diagrams that differ from what is drawn today, and files that nothing draws."""
    for name, module in draw_all.DIAGRAMS.items():
        file = HERE / f"{name}.svg"
        try:
            due = module.picture()
        except ValueError as why:
            yield f"pictures/diagrams/{name}.py draws nothing: {why}"
            continue
        if not file.is_file() or file.read_text() != due:
            yield f"pictures/diagrams/{name}.svg is not what is drawn today: run pictures/diagrams/draw_all.py"
    for file in sorted(HERE.glob("*.svg")):
        if file.stem not in draw_all.DIAGRAMS:
            yield f"pictures/diagrams/{file.name}: draw_all.py draws no such diagram: remove it"


def outside_fonts() -> Iterator[str]:
    """The diagrams that need something from outside: a font, an image, a style or a script."""
    for file in sorted(HERE.glob("*.svg")):
        text = file.read_text().replace('xmlns="http://www.w3.org/2000/svg"', "")
        if any(word in text for word in ("http", "url(", "@import", "<image", "<script", "<style", "href")):
            yield f"pictures/diagrams/{file.name} needs something from outside: draw it with strokes.py alone"


def wrong_traces() -> Iterator[str]:
    """The traces that a judge does not find valid."""
    for name, file in TRACES.items():
        plan = judge.plan_of((TOP / "examples" / file).read_bytes())
        for trace in interleaving.traces_of((HERE / name).read_text()):
            moves, bad = judge.judged(plan, trace.encode())
            if moves is None:
                yield f"pictures/diagrams/{name}: line {bad} of a trace is wrong: take a new one from market trace"


def wrong_network() -> Iterator[str]:
    """The first move of the network's journal that the market does not allow, or that it is not at rest at the end."""
    market = judge.Market(judge.plan_of(json.dumps(CHAIN).encode()))
    try:
        journal = network.journal()
    except ValueError as why:
        yield f"pictures/diagrams/network.py tells no run: {why}"
        return
    for line in journal:
        move = judge.move_of(line.encode())
        if move is None or not market.is_legal(move):
            yield f"pictures/diagrams/network_run.py: the move '{line}' is not legal"
            return
        market.make(move)
    if not market.may_close(1):
        yield "pictures/diagrams/network.py: the run that is drawn leaves something pending"


def findings() -> Iterator[list[str]]:
    """What each of the checks finds."""
    for check in (stale_diagrams, outside_fonts, wrong_traces, wrong_network):
        yield list(check())
