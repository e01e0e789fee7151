"""The rounds in which a market settles, at the latest: bids go up, a clearing is made, and prices come down, level by level."""

from collections.abc import Iterator

from strokes import DOWN, GREY, LIGHT, OTHER, UP, arrow, box, card, dot, text

# How many relays stand one below another in the diagram.
DEPTH = 2
LEFT, TOP, COLUMN, ROW = 130, 74, 66, 58
NAMES = ["auctioneer", *(f"relay {number + 1}" for number in range(DEPTH)), "device"]
ROUNDS = 3 * DEPTH + 3
WIDE, HIGH = LEFT + COLUMN * ROUNDS + 20, TOP + ROW * (len(NAMES) - 1) + 84


def middle_of(turn: int) -> float:
    """Where a round has its middle."""
    return LEFT + COLUMN * (turn - 0.5)


def height_of(node: int) -> float:
    """At which height a node stands: the auctioneer, number 0, highest."""
    return TOP + ROW * node


def message(turn: int, sender: int, receiver: int) -> str:
    """A message that arrives in a round."""
    up = receiver < sender
    x, colour = middle_of(turn), UP if up else DOWN
    gap = 8 if up else -8
    return arrow(x - 18, height_of(sender) - gap, x + 18, height_of(receiver) + gap, colour=colour)


def asked(turn: int, node: int, *, colour: str) -> str:
    """A node that does what it is asked for, in a round."""
    return dot(middle_of(turn), height_of(node), colour=colour)


def drawn() -> Iterator[str]:
    """The parts of the diagram. Each relay sends in the round after a bid came, which arrives in the next."""
    yield text(20, 28, f"A market with {DEPTH} relays one below another: what has happened after each round, at the latest", bold=True, size=14)
    for turn in range(1, ROUNDS + 1):
        yield box(middle_of(turn) - COLUMN / 2 + 3, 42, COLUMN - 6, HIGH - 94, fill=LIGHT if turn % 2 else "#FFFFFF", stroke="#FFFFFF")
        yield text(middle_of(turn), 57, str(turn), anchor="middle", size=12, bold=True)
    for node, name in enumerate(NAMES):
        yield text(LEFT - 14, height_of(node) + 4, name, anchor="end")
    for level in range(DEPTH + 1):
        node = DEPTH - level
        yield message(2 * level + 1, node + 1, node)
        yield asked(2 * level + 2, node, colour=UP if node else DOWN)
        yield message(2 * DEPTH + 3 + level, level, level + 1)
        if node:
            yield asked(2 * DEPTH + 2, node, colour=OTHER)
    y = HIGH - 22
    for x, words, colour in [
        (26, "a bid arrives; a relay sends its own", UP),
        (266, "the auctioneer clears; the price arrives", DOWN),
        (532, "each relay has its record", OTHER),
    ]:
        yield dot(x, y - 4, colour=colour)
        yield text(x + 12, y, words, size=12, colour=GREY)


def picture() -> str:
    """The diagram."""
    return card(WIDE, HIGH, f"The rounds in which a market with {DEPTH} relays settles: bids go up in rounds 1, 3 and 5, the auctioneer clears in "
                f"round 6, and the price reaches the device in round {ROUNDS}", drawn())
