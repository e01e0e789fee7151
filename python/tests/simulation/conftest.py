"""What the tests of models share with those of the nodes: the program `live`, and helpers that wait."""

from __future__ import annotations

import sys
from pathlib import Path

import pytest

sys.path.append(str(Path(__file__).resolve().parents[1] / "live"))


@pytest.fixture(scope="session")
def live():
    """The program `live`. Without one, the tests that run it are skipped."""
    from brokers import live_program

    return live_program()
