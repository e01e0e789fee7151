"""Reads the moves of a trace: the lines behind the report, without the last."""

from pathlib import Path

HERE = Path(__file__).resolve().parent
TOP = HERE.parents[1]


def moves_of(trace: str) -> list[str]:
    """The lines of the moves."""
    lines = trace.splitlines()
    first = next(at for at, line in enumerate(lines) if line.startswith("end phases ")) + 1
    return lines[first:-1]


def report_of(trace: str) -> list[str]:
    """The lines of the report."""
    return trace.splitlines()[: -len(moves_of(trace)) - 1]


def until_close(moves: list[str], phase: int) -> list[str]:
    """The moves up to the close of a phase."""
    return moves[: moves.index(f"close {phase}") + 1]


def last_of(moves: list[str], *words: str) -> list[str]:
    """The words of the last move that begins with these."""
    return next(move.split() for move in reversed(moves) if move.split()[: len(words)] == list(words))
