"""The table of a study as CSV: rows that are appended as they come, so that an interrupted study keeps them and is resumed later."""

from __future__ import annotations

import csv
import io
import os
from collections.abc import Iterable, Iterator
from dataclasses import astuple, fields
from pathlib import Path

from .errors import Unreadable
from .study import Outcome, Summary

NAMES = [field.name for field in fields(Summary)]
HEAD = ["name", "sha256", "fault", *NAMES]


def row_of(outcome: Outcome[Summary]) -> list[str]:
    """The cells of an outcome."""
    return [outcome.name, outcome.digest, outcome.fault, *(map(str, astuple(outcome.result)) if outcome.result else [""] * len(NAMES))]


def line_of(cells: Iterable[str]) -> str:
    """The cells as a line of CSV."""
    text = io.StringIO()
    csv.writer(text, lineterminator="\n").writerow(cells)
    return text.getvalue()


def write_table(outcomes: Iterable[Outcome[Summary]], path: str | os.PathLike[str]) -> None:
    """Writes a study: a row for each cluster with its name, its digest, its fault, and the numbers of its summary. Raises OSError."""
    for _ in written(outcomes, path):
        pass


def written(outcomes: Iterable[Outcome[Summary]], path: str | os.PathLike[str]) -> Iterator[Outcome[Summary]]:
    """The outcomes, each as soon as its row is in the file at `path`, which is made anew. Raises OSError."""
    with open(path, "w", encoding="utf-8", newline="") as text:
        text.write(line_of(HEAD))
        for outcome in outcomes:
            text.write(line_of(row_of(outcome)))
            text.flush()
            yield outcome


def read_table(path: str | os.PathLike[str]) -> list[Outcome[Summary]]:
    """The outcomes of a table; a last row that was not written to its end is left out.

    Raises Unreadable if it is no table of a study, and OSError.
    """
    # What is behind the last line's end was cut off in the writing.
    whole, end, _ = Path(path).read_text(encoding="utf-8").rpartition("\n")
    head, *rows = list(csv.reader(io.StringIO(whole + end))) or [[]]
    if head != HEAD:
        raise Unreadable(os.fspath(path), "this is no table of a study: its first line has other names")
    found = []
    for at, row in enumerate(rows, 2):
        try:
            numbers = [int(text) for text in row[3:]] if row[3:] != [""] * len(NAMES) else None
            found.append(Outcome(row[0], row[1], None if numbers is None else Summary(*numbers), row[2]))
        except (ValueError, TypeError, IndexError):
            raise Unreadable(os.fspath(path), f"line {at} is no row of a study") from None
    return found


def known_of(path: str | os.PathLike[str]) -> dict[str, Summary]:
    """The summaries of a table by the SHA-256 of their files; none if there is no such table. Raises Unreadable and OSError."""
    if not Path(path).exists():
        return {}
    return {outcome.digest: outcome.result for outcome in read_table(path) if outcome.result is not None}
