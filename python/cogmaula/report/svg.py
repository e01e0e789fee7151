"""Figures as text of a page: SVG that is the same each time, and names no address."""

import io
import re
from typing import Any

import matplotlib
from matplotlib.backends.backend_svg import FigureCanvasSVG
from matplotlib.figure import Figure

# What makes the text of a figure the same each time, and readable on a phone: letters stay letters.
SETTINGS: dict[str, Any] = {
    "svg.hashsalt": "cogmaula",
    "svg.fonttype": "none",
    "font.family": "DejaVu Sans",
    "font.size": 11,
    "axes.titlesize": 11,
    "axes.spines.top": False,
    "axes.spines.right": False,
    "hatch.linewidth": 0.5,
}
NO_METADATA = {"Date": None, "Creator": None, "Format": None, "Type": None}

# Okabe and Ito's colours, which colour-blind readers tell apart.
COLOURS = ["#0072B2", "#E69F00", "#009E73", "#D55E00", "#56B4E9", "#CC79A7", "#F0E442", "#999999"]
LIMIT, LINE = "#D55E00", "#000000"


def new_figure(wide: float = 6.0, high: float = 3.2, **edges: float) -> Figure:
    """An empty figure of so many inches, whose axes keep these edges, each a share of it."""
    with matplotlib.rc_context(SETTINGS):
        figure = Figure(figsize=(wide, high))
    figure.subplots_adjust(**{"left": 0.13, "right": 0.955, "bottom": 0.14, "top": 0.95, **edges})
    return figure


def svg_of(figure: Figure, name: str) -> str:
    """The figure as an element `svg` that a page holds; `name` sets its identifiers apart from those of other figures."""
    text = io.StringIO()
    with matplotlib.rc_context(SETTINGS):
        FigureCanvasSVG(figure).print_svg(text, metadata=NO_METADATA)
    return inline(text.getvalue(), name)


def inline(text: str, name: str) -> str:
    """The element `svg` of a file, without what only a file needs: its head, its metadata and the names of name spaces."""
    text = text[text.index("<svg ") :]
    text = re.sub(r"<metadata>.*?</metadata>\s*", "", text, flags=re.S)
    # A page shows a hundredth of a point at most, and long numbers are half of its bytes.
    text = re.sub(r'(?<= d=")[^"]*', lambda match: re.sub(r"(?<=\.\d\d)\d+", "", match[0]), text)
    # Ink, paper and the first colour are those of the page, which may be dark.
    text = re.sub(r"#000000\b", "currentColor", text).replace("#ffffff", "var(--paper)").replace(COLOURS[0].lower(), "var(--blue)")
    text = re.sub(r' xmlns(:\w+)?="[^"]*"', "", text)
    text = re.sub(r'<svg ([^>]*?)width="[^"]*" height="[^"]*"|<svg height="[^"]*" ([^>]*?)width="[^"]*"', r"<svg \1\2", text, count=1)
    text = re.sub(r'(<svg [^>]*?) (?:width|height)="[\d.]+pt"', r"\1", text)
    text = re.sub(r'\bid="', f'id="{name}-', text)
    return re.sub(r'(url\(#|xlink:href="#)', rf"\g<1>{name}-", text).strip()
