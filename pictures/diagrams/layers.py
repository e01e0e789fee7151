"""The layers of crates, bottom up, as crates.txt lists them."""

import re
from collections.abc import Iterator
from dataclasses import dataclass, field
from pathlib import Path

from strokes import GREY, LIGHT, UP, box, card, text

TOP = Path(__file__).resolve().parents[2]
WIDE, LEFT, RIGHT, ROW, PAD = 860, 250, 730, 26, 12
# A letter of the crates' names, and what stands around and between the names.
LETTER, EDGE, GAP = 7.3, 14, 8


@dataclass
class Layer:
    """A layer: its name, what it knows, and its crates with what each stands on."""

    name: str
    knows: str
    crates: dict[str, list[str]] = field(default_factory=dict)


def layers_of(lines: list[str]) -> list[Layer]:
    """The layers that crates.txt has, the lowest first."""
    found: list[Layer] = []
    for line in lines:
        heading = re.fullmatch(r"# ([A-Z][\w ]+?)(?: \((.*)\))?", line)
        if heading:
            found.append(Layer(heading.group(1), heading.group(2) or ""))
        elif re.match(r"\w+:", line):
            name, _, stands_on = line.partition(":")
            found[-1].crates[name] = stands_on.split()
    return found


def numbers_below(layers: list[Layer]) -> list[list[int]]:
    """Of each layer the numbers of the other layers that its crates name. A layer that names a higher one is an error."""
    place = {name: at for at, layer in enumerate(layers, 1) for name in layer.crates}
    found = []
    for at, layer in enumerate(layers, 1):
        named = {place[crate] for stands_on in layer.crates.values() for crate in stands_on if crate in place}
        if any(layer > at for layer in named):
            raise ValueError(f"crates.txt: the layer '{layer.name}' stands on a layer above it")
        found.append(sorted(named - {at}))
    return found


def rows_of(names: list[str]) -> list[list[tuple[float, float, str]]]:
    """The names in rows, each with its place and its width."""
    rows: list[list[tuple[float, float, str]]] = [[]]
    x = float(LEFT)
    for name in names:
        wide = LETTER * len(name) + EDGE
        if x + wide > RIGHT:
            rows.append([])
            x = LEFT
        rows[-1].append((x, wide, name))
        x += wide + GAP
    return rows


def words_in_lines(words: str, most: int) -> list[str]:
    """The words in lines of at most so many letters."""
    lines = [""]
    for word in words.split():
        if lines[-1] and len(lines[-1]) + len(word) + 1 > most:
            lines.append("")
        lines[-1] = f"{lines[-1]} {word}".strip()
    return lines


def band(y: float, number: int, layer: Layer, below: list[int]) -> tuple[float, list[str]]:
    """A layer drawn at a height, and its own height."""
    rows, knows = rows_of(list(layer.crates)), words_in_lines(layer.knows, 34)
    high = max(len(rows) * ROW + 2 * PAD - 6, 22 + 15 * len(knows) + PAD)
    parts = [box(14, y, WIDE - 28, high, fill=LIGHT, stroke="#CCCCCC")]
    parts.append(text(26, y + 20, f"{number}  {layer.name}", bold=True))
    parts += [text(26, y + 37 + 15 * at, line, size=11, colour=GREY) for at, line in enumerate(knows) if line]
    for at, row in enumerate(rows):
        for x, wide, name in row:
            parts.append(box(x, y + PAD + ROW * at, wide, ROW - 6, stroke=UP))
            parts.append(text(x + wide / 2, y + PAD + ROW * at + 14, name, anchor="middle", size=12, code=True))
    told = " ".join(map(str, below)) if below else "nothing"
    parts.append(text(RIGHT + 14, y + high / 2 + 4, told, size=12))
    return high, parts


def drawn() -> Iterator[str]:
    """The parts of the diagram, the highest layer first, and last how high it is."""
    layers = layers_of((TOP / "crates.txt").read_text().splitlines())
    below = numbers_below(layers)
    y = 44.0
    yield text(26, 28, "The layers of crates: each stands on its own layer and on lower ones", bold=True, size=14)
    yield text(RIGHT + 14, 28, "uses layers", size=12, bold=True)
    for at in reversed(range(len(layers))):
        high, parts = band(y, at + 1, layers[at], below[at])
        yield from parts
        y += high + 6
    yield str(round(y + 8))


def picture() -> str:
    """The diagram."""
    *parts, high = drawn()
    return card(WIDE, int(high), "The layers of crates, from the base up to the programs and the tests", parts)
