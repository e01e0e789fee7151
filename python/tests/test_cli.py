"""The command line: each command with its help, what it writes, its statuses, and progress."""

from __future__ import annotations

import gc
import io
import json
import os
import re
import subprocess
import sys
import time

import pytest
from conftest import EXAMPLES, TOP

import cogmaula
from cogmaula import Cluster, Events, Join, run, version
from cogmaula.cli import command_names, command_of, main
from cogmaula.progress import Progress, tracked

pytestmark = pytest.mark.usefixtures("program")
VILLAGE = str(EXAMPLES / "village.json")


@pytest.mark.parametrize("name", command_names())
def test_help_of_each_command(name, capsys):
    with pytest.raises(SystemExit) as ended:
        main([name, "--help"])
    assert ended.value.code == 0
    text = " ".join(capsys.readouterr().out.split())
    assert text.startswith(f"usage: cogmaula {name}")
    assert command_of(command_names()[name]).HELP[1:] in text


def test_a_command_loads_no_other():
    """To load the modules of a live market takes longer than a run."""
    told = "import sys; from cogmaula.cli import main; main(['run', sys.argv[1]]); print([word for word in sys.modules if '.live' in word or '.hub' in word])"
    done = subprocess.run([sys.executable, "-c", told, VILLAGE], cwd=TOP / "python", capture_output=True, text=True, check=True)
    assert done.stdout == (EXAMPLES / "village.txt").read_text() + "[]\n"


def test_a_command_leaves_the_collection_as_it_was(capsys):
    before = gc.get_threshold(), gc.get_freeze_count()
    assert main(["run", VILLAGE]) == 0
    assert main(["run", "/nowhere"]) == 1
    assert (gc.get_threshold(), gc.get_freeze_count()) == before


def test_the_commands_are_listed(capsys):
    with pytest.raises(SystemExit):
        main(["--help"])
    text = capsys.readouterr().out
    assert {"run", "explain", "continue", "chain"} <= command_names().keys()
    assert all(name in text for name in command_names())


def test_no_command(capsys):
    with pytest.raises(SystemExit) as ended:
        main([])
    assert ended.value.code == 2


def test_as_a_module():
    words = [sys.executable, "-m", "cogmaula", "run", VILLAGE]
    done = subprocess.run(words, cwd=TOP / "python", capture_output=True, text=True, check=True)
    assert done.stdout == (EXAMPLES / "village.txt").read_text()


def test_a_reader_that_has_gone():
    words = f"'{sys.executable}' -m cogmaula run '{VILLAGE}' | true"
    done = subprocess.run(["bash", "-c", f"set -o pipefail; {words}"], cwd=TOP / "python", capture_output=True, text=True, check=False)
    assert "Traceback" not in done.stderr


def test_run_writes_the_report(capsys):
    assert main(["run", VILLAGE]) == 0
    assert capsys.readouterr().out == (EXAMPLES / "village.txt").read_text()


def test_run_writes_tables(tmp_path):
    pytest.importorskip("pandas")
    assert main(["run", VILLAGE, "-o", str(tmp_path / "tables"), "--start", "2026-03-01T06:30"]) == 0
    assert (tmp_path / "tables/prices.csv").read_text().splitlines()[1].startswith("2026-03-01 06:30:00,1,40,")


def test_run_writes_json_lines(tmp_path):
    assert main(["run", VILLAGE, "-o", str(tmp_path / "run.jsonl"), "--format", "json-lines"]) == 0
    rows = [json.loads(line) for line in (tmp_path / "run.jsonl").read_text().splitlines()]
    assert [row["phase"] for row in rows] == [1, 2, 3, 4, 5]


def test_run_without_pandas(tmp_path, monkeypatch, capsys):
    monkeypatch.setitem(sys.modules, "pandas", None)
    assert main(["run", VILLAGE, "-o", str(tmp_path)]) == 1
    assert "apt-get install python3-pandas" in capsys.readouterr().err


def slip(tmp_path):
    """A file with a slip in it."""
    file = tmp_path / "slip.json"
    file.write_text((EXAMPLES / "balance.json").read_text().replace('"kind"', '"knid"', 1))
    return file


def test_a_refused_file(tmp_path, capsys):
    file = slip(tmp_path)
    assert main(["run", str(file)]) == 5
    told = capsys.readouterr().err
    assert told.startswith("cogmaula: refused 3 node 1")
    assert f"cogmaula explain {file}" in told


def test_a_script_that_is_too_long(tmp_path, capsys):
    """`run` runs it in parts, as the report does; a phase that is too large alone is refused, and so is a file that is none."""
    file = tmp_path / "long.json"
    cluster = Cluster.load(VILLAGE)
    cluster.with_script([Events()] * 1_001).save(file)
    assert main(["run", str(file)]) == 0
    assert capsys.readouterr().out.splitlines()[-1] == "end phases 1001 changes 0"
    cluster.with_script([Events([Join(cluster.devices[0].name)] * 4_097)]).save(file)
    assert main(["run", str(file)]) == 5
    assert "refused 20 phase 1: too many phases, events or changes" in capsys.readouterr().err
    file.write_bytes(b" " * 4_194_305)
    assert main(["run", str(file)]) == 5
    assert "no JSON" in capsys.readouterr().err
    assert main(["continue", str(file)]) == 5
    assert f"cogmaula chain {file} runs a script that is too long for one run" in capsys.readouterr().err


def test_run_reads_standard_input(monkeypatch, capsys):
    monkeypatch.setattr(sys, "stdin", io.TextIOWrapper(io.BytesIO((EXAMPLES / "village.json").read_bytes())))
    assert main(["run", "-"]) == 0
    assert capsys.readouterr().out == (EXAMPLES / "village.txt").read_text()


def test_the_version_is_that_of_the_market(capsys):
    with pytest.raises(SystemExit) as ended:
        main(["--version"])
    assert ended.value.code == 0
    due = (TOP / "VERSION").read_text().strip()
    told = capsys.readouterr().out
    assert re.fullmatch(rf"cogmaula {re.escape(due)} \(([0-9a-f]{{7,40}}(-modified)?|no commit known)\)\n", told), told
    assert cogmaula.__version__ == due


@pytest.mark.parametrize(
    ("given", "due"), [("1a2b3c4", "1a2b3c4"), ("1a2b3c4-modified", "1a2b3c4-modified"), ("unknown", None), ("x y", None)]
)
def test_an_install_says_its_commit_by_its_command(monkeypatch, given, due):
    monkeypatch.setenv("COGMAULA_COMMIT", given)
    monkeypatch.setattr(version, "__file__", "/nowhere/python/cogmaula/version.py")
    version.commit.cache_clear()
    assert version.build() == f"{version.__version__} ({due or 'no commit known'})"
    version.commit.cache_clear()


def test_a_command_that_the_user_ends(monkeypatch, capsys):
    """Ctrl-C is a line and the status 130."""

    def ended(*_words, **_named):
        raise KeyboardInterrupt

    monkeypatch.setattr("cogmaula.commands.run.whole_run", ended)
    assert main(["run", VILLAGE]) == 130
    assert capsys.readouterr().err == "cogmaula: interrupted\n"


@pytest.mark.parametrize(
    "words",
    [
        ["chain", VILLAGE, "--minutes", "-5"],
        ["chain", VILLAGE, "--minutes", "0"],
        ["run", VILLAGE, "--start", "yesterday"],
        ["run", VILLAGE, "--start", "2026-06-21[Europe/Nowhere]"],
        ["report", VILLAGE, "-o", "page.html", "--span", "-60"],
    ],
)
def test_wrong_words(words, capsys):
    """Each is told in the usage, before anything is run."""
    with pytest.raises(SystemExit) as ended:
        main(words)
    assert ended.value.code == 2
    assert words[-1] in capsys.readouterr().err


def test_completion_of_the_commands(tmp_path):
    """A shell that asks for the words behind `cogmaula fr` gets `from-csv`."""
    pytest.importorskip("argcomplete")
    line = "cogmaula fr"
    asked = {"_ARGCOMPLETE": "1", "COMP_LINE": line, "COMP_POINT": str(len(line)), "_ARGCOMPLETE_COMP_WORDBREAKS": " \t\n"}
    code = "import os, sys; os.dup2(os.open(sys.argv[1], os.O_CREAT | os.O_WRONLY), 8); from cogmaula.cli import main; main([])"
    words = [sys.executable, "-c", code, str(tmp_path / "told")]
    subprocess.run(words, cwd=TOP / "python", env={**os.environ, **asked}, capture_output=True, check=False)
    assert (tmp_path / "told").read_text().strip() == "from-csv"


def test_explain(tmp_path, capsys):
    file = slip(tmp_path)
    assert main(["explain", str(file)]) == 5
    told = capsys.readouterr().out
    assert told.startswith(f"{file}:")
    assert 'likely:  "kind" for "knid"' in told
    assert main(["explain", VILLAGE]) == 0
    assert "market run takes it" in capsys.readouterr().out


def test_a_file_that_is_not_there(capsys):
    assert main(["run", "/nowhere/file.json"]) == 1
    assert "/nowhere/file.json" in capsys.readouterr().err


def test_no_program(capsys):
    assert main(["run", VILLAGE, "--program", "/nowhere/market"]) == 1
    assert capsys.readouterr().err == "cogmaula: /nowhere/market does not exist\n"


def test_continue(tmp_path, capsys):
    assert main(["continue", VILLAGE]) == 0
    written = Cluster.from_json(capsys.readouterr().out)
    done = run(VILLAGE)
    assert {event.device for event in written.phases[0].events} == done.snapshot.members
    assert run(written).ends[0].powers == done.ends[-1].powers


def test_continue_then(tmp_path):
    cluster = Cluster.load(VILLAGE)
    following = cluster.with_script([*cluster.phases[1:2], *cluster.phases[1:2]])
    following.save(tmp_path / "next.json")
    words = ["continue", VILLAGE, "--then", str(tmp_path / "next.json"), "-o", str(tmp_path / "day2.json")]
    assert main(words) == 0
    both = run(cluster.with_phases(*following.phases))
    two = run(tmp_path / "day2.json")
    assert [end.powers for end in two.ends] == [end.powers for end in both.ends[len(cluster.phases) - 1 :]]


def test_chain(tmp_path, capsys):
    assert main(["chain", VILLAGE, "--minutes", "15", "--parts", str(tmp_path / "parts")]) == 0
    assert capsys.readouterr().out == (EXAMPLES / "village.txt").read_text()
    parts = sorted((tmp_path / "parts").iterdir())
    assert [part.name for part in parts][:2] == ["part_0001.json", "part_0002.json"]
    for part in parts:
        run(part)


def test_chain_of_days(tmp_path, capsys):
    cluster = Cluster.load(VILLAGE)
    days = [cluster.with_script(cluster.phases[:3]), cluster.with_script(cluster.phases[3:])]
    for at, day in enumerate(days):
        day.save(tmp_path / f"{at}.json")
    assert main(["chain", str(tmp_path / "0.json"), str(tmp_path / "1.json")]) == 0
    assert capsys.readouterr().out == (EXAMPLES / "village.txt").read_text()


def test_chain_writes_tables(tmp_path):
    pytest.importorskip("pandas")
    assert main(["chain", VILLAGE, "--minutes", "15", "-o", str(tmp_path / "one")]) == 0
    assert main(["run", VILLAGE, "-o", str(tmp_path / "two")]) == 0
    for file in (tmp_path / "two").iterdir():
        assert (tmp_path / "one" / file.name).read_text() == file.read_text()


def test_a_day_of_another_tree(tmp_path, capsys):
    cluster = Cluster.load(VILLAGE)
    Cluster(cluster.basis, cluster.nodes[:1], [Events([Join("nobody")])]).save(tmp_path / "other.json")
    assert main(["chain", VILLAGE, str(tmp_path / "other.json")]) == 1
    assert "other nodes" in capsys.readouterr().err


def test_what_is_no_cluster(tmp_path, capsys):
    (tmp_path / "list.json").write_text("[]")
    assert main(["chain", str(tmp_path / "list.json")]) == 5
    assert "an object is due" in capsys.readouterr().err


# Progress.


class Terminal(io.StringIO):
    """A stream that says that it is a terminal."""

    def isatty(self):
        return True


def test_progress_on_a_terminal(monkeypatch):
    stream, now = Terminal(), iter([0.0, 0.05, 5.0, 6.0])
    monkeypatch.setattr(time, "monotonic", lambda: next(now))
    with Progress("work", 4, stream=stream) as progress:
        progress.step()
        assert stream.getvalue() == ""
        progress.step()
        assert stream.getvalue() == "\rwork: 2 of 4, 50%, about 5 s to go\x1b[K"
    assert stream.getvalue().endswith("\r\x1b[K")


def test_progress_elsewhere(monkeypatch):
    stream, now = io.StringIO(), iter([0.0, 5.0, 20.0])
    monkeypatch.setattr(time, "monotonic", lambda: next(now))
    with Progress("work", 4, stream=stream) as progress:
        progress.step()
        progress.step()
    assert stream.getvalue() == "work: 2 of 4, 50%, about 20 s to go\n"


def test_no_progress_where_none_is_wanted(monkeypatch):
    stream, now = io.StringIO(), iter([0.0, 50.0])
    monkeypatch.setattr(time, "monotonic", lambda: next(now))
    with Progress("work", 4, stream=stream, quiet=True) as progress:
        progress.step()
    assert stream.getvalue() == ""


def test_progress_of_nothing(monkeypatch):
    stream, now = io.StringIO(), iter([0.0, 50.0])
    monkeypatch.setattr(time, "monotonic", lambda: next(now))
    with Progress("work", 0, stream=stream) as progress:
        progress.step(0)
    assert stream.getvalue() == "work: 0 of 0, 100%, about 0 s to go\n"


def test_tracked_parts():
    assert list(tracked([1, 2, 3], "work", 3)) == [1, 2, 3]


def test_the_calls_of_the_page_are_exported():
    """What the first table of docs/PYTHON.md names as a call is one of the package, and not a module of the same name."""
    page = (TOP / "docs" / "PYTHON.md").read_text()
    table = page[page.index("| You want to |") : page.index("`cogmaula COMMAND --help`")]
    names = {word for row in table.splitlines()[2:] if row for word in re.findall(r"`(\w+)`", row.split("|")[2])}
    assert {"run", "explain", "chain", "report", "from_csv", "study", "bill", "ask"} <= names
    assert all(callable(getattr(cogmaula, name)) for name in names - {"drawing"})
