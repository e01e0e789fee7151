"""docs/PYTHON.md: its examples run, and what it shows is what comes."""

from __future__ import annotations

import re

import pytest
from conftest import TOP

import cogmaula
from cogmaula.cli import main
from cogmaula.runs import TABLES

pytestmark = pytest.mark.usefixtures("program")
PAGE = (TOP / "docs" / "PYTHON.md").read_text()


def blocks():
    """The indented blocks of the page, without their indentation."""
    found = re.findall(r"(?:^    .*\n|^\n(?=    ))+", PAGE, re.M)
    return [re.sub(r"(?m)^    ", "", block).strip("\n") for block in found]


def block_with(words):
    """The block that has these words."""
    (found,) = [block for block in blocks() if words in block]
    return found


@pytest.fixture
def street(tmp_path, monkeypatch):
    """The folder with the file that the page's example writes."""
    monkeypatch.chdir(tmp_path)
    exec(block_with("street = Cluster("), {})
    return tmp_path / "street.json"


def test_a_cluster_is_built(street):
    cogmaula.Cluster.load(street).check()


def test_a_run_is_looked_at(monkeypatch, capsys):
    pytest.importorskip("pandas")
    monkeypatch.chdir(TOP)
    exec(block_with('day = run("examples'), {})
    written = [line.split() for line in capsys.readouterr().out.splitlines()]
    assert written == [line.split() for line in block_with("2000 Wh are left").splitlines()]


def test_a_refused_file_is_explained(street, capsys):
    street.write_text(street.read_text().replace('"charge"', '"chrage"'))
    assert main(["explain", "street.json"]) == 5
    told = block_with("$ cogmaula explain street.json").split("\n", 1)[1]
    assert capsys.readouterr().out.strip() == told


def test_each_frame_has_its_row():
    assert re.findall(r"^\| `(\w+)` \| (?:phases|those|devices)", PAGE, re.M) == list(TABLES)


def test_each_error_has_its_row():
    errors = {name for name in cogmaula.__all__ if isinstance(value := getattr(cogmaula, name), type) and issubclass(value, cogmaula.MarketError)}
    rows = PAGE[PAGE.index("## Errors") :]
    assert {name for name in errors if f"`{name}`" in rows} == errors


def test_each_command_of_the_page_is_one():
    from cogmaula.cli import command_names

    named = set(re.findall(r"(?:^    (?:\$ |python3 -m )?|`)cogmaula ([a-z][a-z-]*)", PAGE, re.M))
    assert named <= command_names().keys() and {"run", "explain", "continue", "chain"} <= named
