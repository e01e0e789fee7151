"""docs/DEVICES.md: its code is that of the example, and the example prints what the page says."""

from __future__ import annotations

import os
import re
import subprocess
import sys
from pathlib import Path

import pytest

from cogmaula import Program

TOP = Path(__file__).resolve().parents[2]
PAGE = (TOP / "docs" / "DEVICES.md").read_text()
EXAMPLE = TOP / "examples" / "devices" / "pool_pump.py"


def block_with(words: str) -> str:
    """The indented block of the page that has these words, without its indent."""
    (found,) = [block for block in re.findall(r"(?:^(?:    .*)?\n)+", PAGE, re.M) if words in block]
    return "\n".join(line[4:] for line in found.strip("\n").splitlines())


def test_the_strategy_of_the_page_is_the_example() -> None:
    code = block_with("class PoolPump:")
    assert code in EXAMPLE.read_text()
    assert len(code.splitlines()) < 30


def test_the_example_prints_what_the_page_says(program: Program) -> None:
    """By hand: the pump and the house take 1,500 W, and the roof has 1,600 W or more from 10 to 15. The sixth hour is bought at 23:00."""
    pytest.importorskip("pandas")
    environment = {**os.environ, "PYTHONPATH": str(TOP / "python"), "COGMAULA_MARKET": program.path}
    done = subprocess.run([sys.executable, str(EXAMPLE)], env=environment, capture_output=True, text=True, check=True)
    assert [line.rstrip() for line in done.stdout.splitlines()] == [line.rstrip() for line in block_with("price  pump").splitlines()]
