"""The strokes of the diagrams: texts, boxes and arrows as lines of SVG, on a white card that a dark page also shows."""

from collections.abc import Iterable
from html import escape

# Okabe and Ito's colours, which colour-blind readers tell apart: what goes up, what comes down, and a third.
UP, DOWN, OTHER = "#0072B2", "#B04A00", "#00734F"
INK, GREY, LIGHT = "#000000", "#666666", "#F2F2F2"


def text(x: float, y: float, words: str, *, anchor: str = "start", colour: str = INK, size: int = 13, bold: bool = False,
         code: bool = False, halo: bool = False) -> str:
    """Words that begin, end or have their middle at a place; with a halo, lines behind them do not touch them."""
    around = ' stroke="#FFFFFF" stroke-width="5" stroke-linejoin="round" paint-order="stroke"' if halo else ""
    weight = ' font-weight="bold"' if bold else ""
    family = ' font-family="monospace"' if code else ""
    return (f'<text x="{x:.0f}" y="{y:.0f}" text-anchor="{anchor}" fill="{colour}" font-size="{size}"{weight}{family}'
            f'{around} xml:space="preserve">{escape(words)}</text>')


def box(x: float, y: float, wide: float, high: float, *, fill: str = "#FFFFFF", stroke: str = GREY, dashed: bool = False) -> str:
    """A box with round corners."""
    dashes = ' stroke-dasharray="5 4"' if dashed else ""
    return (f'<rect x="{x:.0f}" y="{y:.0f}" width="{wide:.0f}" height="{high:.0f}" rx="6" fill="{fill}"'
            f' stroke="{stroke}"{dashes}/>')


def line(x1: float, y1: float, x2: float, y2: float, *, colour: str = GREY, wide: float = 1, dashed: bool = False) -> str:
    """A straight line."""
    dashes = ' stroke-dasharray="5 4"' if dashed else ""
    return (f'<line x1="{x1:.0f}" y1="{y1:.0f}" x2="{x2:.0f}" y2="{y2:.0f}" stroke="{colour}"'
            f' stroke-width="{wide:g}"{dashes}/>')


def arrow(x1: float, y1: float, x2: float, y2: float, *, colour: str, dashed: bool = False) -> str:
    """An arrow that ends at the second place."""
    length = ((x2 - x1) ** 2 + (y2 - y1) ** 2) ** 0.5
    along, across = ((x2 - x1) / length, (y2 - y1) / length)
    back, side = (x2 - 9 * along, y2 - 9 * across), (-4 * across, 4 * along)
    head = f"{x2:.1f},{y2:.1f} {back[0] + side[0]:.1f},{back[1] + side[1]:.1f} {back[0] - side[0]:.1f},{back[1] - side[1]:.1f}"
    return line(x1, y1, back[0], back[1], colour=colour, wide=2, dashed=dashed) + f'<polygon points="{head}" fill="{colour}"/>'


def cross(x: float, y: float, *, colour: str) -> str:
    """A small cross: what goes no further."""
    return line(x - 5, y - 5, x + 5, y + 5, colour=colour, wide=2) + line(x - 5, y + 5, x + 5, y - 5, colour=colour, wide=2)


def dot(x: float, y: float, *, colour: str) -> str:
    """A round mark."""
    return f'<circle cx="{x:.0f}" cy="{y:.0f}" r="5" fill="{colour}"/>'


def card(wide: int, high: int, title: str, parts: Iterable[str]) -> str:
    """The whole diagram. The title is for readers who cannot see it."""
    return "\n".join([
        f'<svg xmlns="http://www.w3.org/2000/svg" width="{wide}" height="{high}" viewBox="0 0 {wide} {high}" role="img"'
        f' font-family="sans-serif">',
        f"<title>{escape(title)}</title>",
        f'<rect x="0.5" y="0.5" width="{wide - 1}" height="{high - 1}" rx="8" fill="#FFFFFF" stroke="#CCCCCC"/>',
        *parts,
        "</svg>",
        "",
    ])
