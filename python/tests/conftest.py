"""What the tests share: the proved program, and the cluster files of the repository.

The program is the one that COGMAULA_MARKET names, or that of the checkout.
"""

from __future__ import annotations

import os
import sys
from pathlib import Path

import pytest
from hypothesis import Phase, settings

TOP = Path(__file__).resolve().parents[2]
CASES = TOP / "checks" / "cases"
EXAMPLES = TOP / "examples"
NAMED = os.environ.get("COGMAULA_MARKET") or str(TOP)

# The package of this checkout, and the plain auction by which texts are worked out without the program.
FOLDERS = ("python", "", "python/tests")
sys.path[:0] = [str(TOP / folder) for folder in FOLDERS]

# Nothing is aimed at, which would take half of the time, and nothing is kept beside the tests. The same cases are drawn each time, so
# that a gate says the same of one tree twice. With COGMAULA_SEARCH set, new ones are drawn.
DRAWN = [Phase.explicit, Phase.generate, Phase.shrink]
IS_SEARCH = bool(os.environ.get("COGMAULA_SEARCH"))
settings.register_profile("market", phases=DRAWN, database=None, derandomize=not IS_SEARCH, deadline=None, print_blob=True)
settings.load_profile("market")


# A node refuses folders of state and passwords that others may read: what tests make is of their user alone.
os.umask(0o077)


@pytest.fixture(scope="session")
def program():
    """The proved program. Without one, the tests that run it are skipped."""
    return found_or_skipped(NAMED)


@pytest.fixture(scope="session")
def checkout():
    """The proved program of the checkout. Without one, the tests of how it is found are skipped."""
    return found_or_skipped(TOP)


def found_or_skipped(path):
    from cogmaula import NoProgram, Program

    try:
        return Program.find(path)
    except NoProgram as error:
        pytest.skip(str(error))


@pytest.fixture(scope="session", autouse=True)
def named_program():
    """Calls without a program find the same one."""
    with pytest.MonkeyPatch.context() as patch:
        patch.setenv("COGMAULA_MARKET", NAMED)
        yield
