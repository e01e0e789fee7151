"""Moments of a run, and the words of refusals: by hand, and by the words of the program's script."""

from __future__ import annotations

import subprocess
from datetime import UTC, date, datetime, timedelta, timezone
from pathlib import Path
from typing import Any
from zoneinfo import ZoneInfo

import pytest

from cogmaula import Basis, Cluster, Place, Program, Refused, ask, chain, run
from cogmaula.moments import later, moment_of, read_moment, written
from cogmaula.refusals import WORDS

TOP = Path(__file__).resolve().parents[2]
BERLIN = ZoneInfo("Europe/Berlin")
NOTHING = Cluster(Basis(0, 9, 10))


@pytest.mark.parametrize(
    ("start", "due"),
    [
        # The second 02:00 of October comes an hour behind the first; in March 03:00 comes behind 01:00, once.
        (datetime(2026, 10, 25, 1, tzinfo=BERLIN), ["01:00+0200", "02:00+0200", "02:00+0100", "03:00+0100"]),
        (datetime(2026, 3, 29, 0, tzinfo=BERLIN), ["00:00+0100", "01:00+0100", "03:00+0200", "04:00+0200"]),
        (datetime(2026, 3, 29, 1), ["01:00", "02:00", "03:00", "04:00"]),
    ],
)
def test_hours_pass_as_on_the_clock_of_the_zone(start: datetime, due: list[str]) -> None:
    """In UTC, and shown in the zone; without a zone no clock is changed."""
    assert [later(start, 60 * at).strftime("%H:%M%z") for at in range(4)] == due


def test_a_date_is_its_midnight() -> None:
    """And all but dates and moments is told at once."""
    assert moment_of(date(2026, 3, 1), datetime(2000, 1, 1)) == datetime(2026, 3, 1)
    assert moment_of(None, datetime(2000, 1, 1)) == datetime(2000, 1, 1)
    with pytest.raises(TypeError, match="start is '2026-03-01': a datetime or a date is due"):
        moment_of("2026-03-01", datetime(2000, 1, 1))  # type: ignore[arg-type]


@pytest.mark.parametrize(
    ("text", "due"),
    [
        ("2026-01-31", datetime(2026, 1, 31)),
        ("2026-01-31T06:30+02:00", datetime(2026, 1, 31, 6, 30, tzinfo=timezone(timedelta(hours=2)))),
        ("2026-06-21T00:00[Europe/Berlin]", datetime(2026, 6, 21, tzinfo=BERLIN)),
        ("2026-10-25T02:00+01:00[Europe/Berlin]", datetime(2026, 10, 25, 2, tzinfo=BERLIN, fold=1)),
    ],
)
def test_a_moment_is_read_as_it_is_written(text: str, due: datetime) -> None:
    """Also the second of two equal times of a clock."""
    found = read_moment(text)
    assert found == due and found.utcoffset() == due.utcoffset()
    assert read_moment(written(found)).astimezone(UTC) == found.astimezone(UTC)


@pytest.mark.parametrize("text", ["noon", "2026-13-01", "2026-01-01[Nowhere]", "2026-01-01[../zone]", "[Europe/Berlin]"])
def test_what_is_no_moment_is_refused(text: str) -> None:
    """Each is a ValueError."""
    with pytest.raises(ValueError):
        read_moment(text)


@pytest.mark.parametrize(
    "wrong",
    [
        lambda: run(NOTHING, start="2026-03-01"),  # type: ignore[arg-type]
        lambda: chain(NOTHING, start="2026-03-01"),  # type: ignore[arg-type]
        lambda: run(NOTHING, program="market"),  # type: ignore[arg-type]
        lambda: ask(NOTHING, [1.5]),  # type: ignore[list-item]
        lambda: ask(NOTHING, ["5"]),  # type: ignore[list-item]
    ],
)
def test_a_wrong_type_is_told_before_anything_is_run(wrong: Any, program: Program) -> None:
    """By the name of the argument."""
    with pytest.raises(TypeError, match="start is|program is 'market': write Program.find|a target is"):
        wrong()


def test_a_refusal_has_the_words_of_the_program_s_help() -> None:
    """Code by code the words of script/words.sh; and the message has the answer before them."""
    told = subprocess.run(["bash", "-c", "source script/words.sh; refusals"], cwd=TOP, capture_output=True, text=True, check=True)
    rows = [line.split("|") for line in told.stdout.splitlines()]
    assert {int(code): (meaning, remedy) for code, meaning, remedy in rows if code != "21"} == WORDS
    refused = Refused(12, Place("node", (4,)))
    assert str(refused) == "refused 12 node 4: the kind is not known; use a kind that the pages list; limited needs version 2"
    assert Refused(17, Place("node", (4,)), 3).answer == "refused 17 node 4 item 3"
    assert str(Refused(99, Place("basis"))) == "refused 99 basis"
