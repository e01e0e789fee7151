"""What the tests of agents share with those of the hub and of the nodes."""

from __future__ import annotations

import sys
from pathlib import Path

import pytest

sys.path += [str(Path(__file__).resolve().parents[1] / folder) for folder in ("live", "hub")]


@pytest.fixture
def live():
    """The program `live`. Without one, the tests that run it are skipped."""
    from brokers import live_program

    return live_program()
