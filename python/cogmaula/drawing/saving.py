"""Writes pictures that are the same each time."""

from __future__ import annotations

import os
from pathlib import Path

import matplotlib
from matplotlib.figure import Figure

from ..report.svg import NO_METADATA, SETTINGS


def settle(figure: Figure) -> None:
    """Lays a figure out once and rounds where its axes are: the layout's solver differs in the last digits from run to run."""
    figure.draw_without_rendering()
    figure.set_layout_engine("none")
    for axes in figure.axes:
        place = axes.get_position()
        axes.set_position([round(measure, 4) for measure in (place.x0, place.y0, place.width, place.height)])


def save(figure: Figure, path: str | os.PathLike[str]) -> None:
    """Writes a figure as SVG or PNG, by the ending of the path. Raises ValueError if it has another, and OSError."""
    ending = Path(path).suffix
    if ending not in (".svg", ".png"):
        raise ValueError(f"{os.fspath(path)}: a picture ends in .svg or .png")
    with matplotlib.rc_context(SETTINGS):
        settle(figure)
        if ending == ".svg":
            figure.savefig(path, metadata=NO_METADATA)
        else:
            figure.savefig(path, dpi=90, metadata={"Software": None})
