"""Two runs of examples/balance.json, move by move: the threads' orders differ, and both journals come to one report.

The journals are those of two_orders.trace: two traces that `market trace` wrote, one behind the other."""

from collections.abc import Iterator

from journals import HERE, moves_of, report_of
from strokes import DOWN, GREY, LIGHT, OTHER, UP, box, card, dot, line, text

LANES = {"roof": UP, "boiler": DOWN, "auctioneer": OTHER}
WIDE, TOP_OF_ROWS, ROW, LANE = 860, 118, 26, 62


def traces_of(text_of_both: str) -> list[str]:
    """The traces in a text of several."""
    found, lines = [], []
    for line in text_of_both.splitlines():
        lines.append(line)
        if line.startswith("moves "):
            found.append("\n".join(lines) + "\n")
            lines = []
    return found


def maker_of(move: str) -> str:
    """The node whose thread makes a move: the device of a change, the parent of a learn, the node itself of a pass. Whichever
    thread finds that nothing is left closes the phase."""
    word, *rest = move.split()
    return {"clear": "auctioneer", "close": ""}.get(word, rest[0])


def run(x: float, heading: str, moves: list[str]) -> Iterator[str]:
    """One run: a lane for each thread, a row for each move, and the journal beside them."""
    bottom = TOP_OF_ROWS + ROW * len(moves)
    yield text(x, 74, heading, bold=True)
    for at, (name, colour) in enumerate(LANES.items()):
        middle = x + LANE * (at + 0.5)
        yield text(middle, TOP_OF_ROWS - 20, name, anchor="middle", size=11, colour=colour, bold=True)
        yield line(middle, TOP_OF_ROWS - 12, middle, bottom - 6, colour="#CCCCCC", wide=2)
    journal = x + LANE * len(LANES) + 14
    yield text(journal, TOP_OF_ROWS - 20, "journal", size=11, bold=True)
    names = list(LANES)
    for at, move in enumerate(moves):
        y, maker = TOP_OF_ROWS + ROW * (at + 0.5) - 6, maker_of(move)
        if maker:
            middle = x + LANE * (names.index(maker) + 0.5)
            yield line(middle, y, journal - 6, y, colour="#CCCCCC")
            yield dot(middle, y, colour=LANES[maker])
        yield text(journal, y + 4, move, size=12, code=True, colour=LANES.get(maker, "#000000"))


def drawn(both: list[str]) -> Iterator[str]:
    """The parts of the diagram, and last how high it is."""
    journals, report = [moves_of(run) for run in both], report_of(both[0])
    if report_of(both[1]) != report or journals[0] == journals[1]:
        raise ValueError("two_orders.trace has not two orders of one report")
    yield text(24, 30, "Two interleavings, one report", bold=True, size=15)
    told = "examples/balance.json, run twice: each thread makes its node's moves, one at a time under one lock"
    yield text(24, 50, told, size=12, colour=GREY)
    for at, moves in enumerate(journals):
        yield from run(24 + 425 * at, f"Run {at + 1}", moves)
    y = TOP_OF_ROWS + ROW * max(map(len, journals)) + 6
    yield box(24, y, WIDE - 48, 14 + 18 * len(report), fill=LIGHT, stroke="#CCCCCC")
    yield text(36, y + 20, "the report of both", size=12, bold=True)
    yield from (text(190, y + 20 + 18 * at, line, size=12, code=True) for at, line in enumerate(report))
    yield str(y + 14 + 18 * len(report) + 14)


def picture() -> str:
    """The diagram."""
    *parts, high = drawn(traces_of((HERE / "two_orders.trace").read_text()))
    return card(WIDE, int(high), "Two runs of examples/balance.json whose threads moved in different orders", parts)
