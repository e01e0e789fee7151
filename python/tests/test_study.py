"""Studies: outcomes exact and in order, whoever does the work."""

from __future__ import annotations

import csv
import hashlib
import json
import os
import subprocess
import sys
import textwrap
import time
from collections.abc import Callable, Iterator
from dataclasses import astuple, fields
from pathlib import Path
from typing import Any

import pytest
from hypothesis import given, settings

from clusters import clusters
from cogmaula import Basis, Cluster, Load, NoPackage, Program, Tick, Unreadable, cli, run, vary
from cogmaula.commands import study as command
from cogmaula.study import Outcome, Summary, figures, frame_of, outcomes_of, study, summary
from cogmaula.study_table import HEAD, known_of, read_table, write_table, written

TOP = Path(__file__).resolve().parents[2]
from checks.oracle.accounts import bill_of
from checks.oracle.auction import ends_of, prices_of


def house(power: int) -> Cluster:
    """A house that takes so many watts for an hour."""
    one = Cluster(Basis(0, 9, 10), [Load("house", start=power)])
    return one.with_phases(one.join_all(), Tick(60))


def written_files(folder: Path, many: int) -> list[Path]:
    """So many files, each with another load; and one that is refused in the middle."""
    paths = [folder / f"{at:03}.json" for at in range(many)]
    for at, path in enumerate(paths):
        house(at * 100).save(path)
    paths[many // 2].write_text('{"version": 1}')
    return paths


def text_of(file: bytes, program: Program) -> bytes:
    """Work that another process finds: the report of a file."""
    return program.answer("run", file)


def test_outcomes_are_exact_and_in_order(tmp_path: Path, program: Program) -> None:
    """However many processes share the work: the load of file `n` is 100 n watts over an hour, at price 9."""
    paths = written_files(tmp_path, 41)
    alone = study(paths, processes=1, program=program)
    assert [outcome.name for outcome in alone] == [str(path) for path in paths]
    for at, outcome in enumerate(alone):
        assert outcome.digest == hashlib.sha256(paths[at].read_bytes()).hexdigest()
        if at == 20:
            assert outcome.result is None and outcome.fault.startswith("Unreadable: ")
        else:
            assert outcome.result == Summary(2, 1, 60, *(9 if at else 0,) * 2, (9 if at else 0) * 60, at * 6000, 0, at * 6000 * 9, 0, at * 6000, 0, 0)
    for processes in (2, 3, 4):
        assert study(paths, processes=processes, program=program) == alone


def test_clusters_bytes_and_lost_files_have_outcomes(tmp_path: Path, program: Program) -> None:
    """What is no path is named by its place; a file that is not there and one that is refused end nothing."""
    refused = Cluster(Basis(0, 9, 7))
    outcomes = study([house(5), house(6).to_bytes(), tmp_path / "none.json", refused], text_of, processes=2, program=program)
    assert [outcome.name for outcome in outcomes] == ["1", "2", str(tmp_path / "none.json"), "4"]
    assert [outcome.result for outcome in outcomes[:2]] == [run(house(power), program=program).text for power in (5, 6)]
    assert outcomes[2].fault.startswith("FileNotFoundError: ") and outcomes[2].digest == ""
    assert outcomes[3].fault.startswith("Refused: refused 6 basis: ")
    assert study([], processes=4, program=program) == []


def test_a_job_finds_the_program_that_it_is_told(tmp_path: Path, program: Program) -> None:
    """By a path too; and a path that is none is a fault of each cluster."""
    assert study([house(1)], text_of, program=program.path)[0].result == run(house(1), program=program).text
    assert study([house(1)], program=str(tmp_path / "no"))[0].fault.startswith("NoProgram: ")


@settings(max_examples=60, deadline=None)
@given(clusters())
def test_a_summary_is_what_an_independent_auction_gives(program: Program, cluster: Cluster) -> None:
    """Of any cluster: prices, accounts and limits by the formulas of the pages."""
    found = summary(cluster.to_bytes(), program)
    scene = json.loads(cluster.to_json())
    ends, prices = ends_of(scene), prices_of(scene)
    ticks = [phase.get("tick", 0) for phase in scene["phases"]][1:] + [0]
    paid = [prices[end.parts[None].step] for end in ends]
    assert (found.phases, found.minutes) == (len(ends), cluster.minutes)
    assert (found.lowest_price, found.highest_price) == (min(paid, default=0), max(paid, default=0))
    assert found.price_minutes == sum(price * length for price, length in zip(paid, ticks))
    assert found.changes == (sum(ends[-1].numbers.values()) if ends else 0)
    accounts = [list(map(int, line.split()[-5::2])) for line in bill_of(cluster.to_json(), run(cluster, program=program).text.decode()).splitlines()[:-1]]
    assert [found.amount, found.taken_Wmin, found.given_Wmin] == [sum(account[at] for account in accounts[:-1]) for at in range(3)]
    assert [found.grid_taken_Wmin, found.grid_given_Wmin] == accounts[-1][1:]
    limited = [node for node in scene["nodes"] if node["kind"] == "limited"]
    outside = [
        minutes
        for end, minutes in zip(ends, ticks)
        for node in limited
        if not node["floor"] <= end.parts[node["name"]].sums[end.parts[node["name"]].step] <= node["ceiling"]
    ]
    assert (found.ends_outside, found.minutes_outside) == (len(outside), sum(outside))


def test_the_example_of_the_page_runs(tmp_path: Path, program: Program) -> None:
    """The code of docs/REPORTS.md, as a script of its own: the highest price of a file is that of its report."""
    page = (TOP / "docs" / "REPORTS.md").read_text()
    begin = page.index("    from cogmaula import run\n    from cogmaula.study")
    code = page[begin : page.index("\n\nEach outcome", begin)]
    for name, power in (("a", 0), ("b", 100)):
        house(power).save(tmp_path / f"{name}.json")
    (tmp_path / "script.py").write_text(textwrap.dedent(code) + "\nprint([outcome.result for outcome in outcomes])\n")
    environment = {**os.environ, "PYTHONPATH": str(TOP / "python"), "COGMAULA_MARKET": program.path}
    told = subprocess.run([sys.executable, "script.py"], cwd=tmp_path, env=environment, capture_output=True, text=True, check=False)
    assert told.stdout == "[0, 9]\n", told.stderr


def test_the_variants_of_the_page_run(
    tmp_path: Path, program: Program, monkeypatch: pytest.MonkeyPatch, capsys: pytest.CaptureFixture[str]
) -> None:
    """The code of docs/REPORTS.md, on three hours of test_figures.py: each capacity with each power has a row, and none a fault."""
    from test_figures import sunny

    page = (TOP / "docs" / "REPORTS.md").read_text()
    begin = page.index("    from functools import partial\n")
    (tmp_path / "house.json").write_text(sunny(3).to_json().replace('"supplier"', '"connection"'))
    monkeypatch.chdir(tmp_path)
    names: dict[str, Any] = {}
    exec(textwrap.dedent(page[begin : page.index("\n\n[`sweep`]", begin)]), names)
    assert list(names["costs"].index) == [f"capacity={capacity} charge={power}" for capacity in (5000, 10000) for power in (1000, 2500)]
    assert not any(names["costs"]["fault"]) and "self_sufficiency" in capsys.readouterr().out


def test_a_table_has_a_row_for_each_outcome(tmp_path: Path, program: Program) -> None:
    """Whole numbers as they are, and a fault in words."""
    outcomes: list[Outcome[Summary]] = study(written_files(tmp_path, 4), program=program)
    write_table(outcomes, tmp_path / "table.csv")
    with open(tmp_path / "table.csv", newline="") as text:
        head, *rows = list(csv.reader(text))
    assert head == ["name", "sha256", "fault", *(field.name for field in fields(Summary))]
    for row, outcome in zip(rows, outcomes, strict=True):
        assert row == [outcome.name, outcome.digest, outcome.fault, *(map(str, astuple(outcome.result)) if outcome.result else [""] * 13)]


def test_the_command_writes_the_table_and_tells_faults(tmp_path: Path, program: Program, capsys: pytest.CaptureFixture[str]) -> None:
    """The status is 0 if all files ran, and 1 if one has a fault."""
    paths = [str(file) for file in written_files(tmp_path, 5)]
    words = ["study", "-o", str(tmp_path / "table.csv"), "--program", program.path, "--processes", "2", "--quiet"]
    assert cli.main([*words, *paths]) == 1
    told = capsys.readouterr().err
    assert paths[2] in told and "1 of 5 files have a fault" in told
    assert cli.main([*words, *paths[:2]]) == 0
    assert len((tmp_path / "table.csv").read_text().splitlines()) == 3


def fails(file: bytes, program: Program) -> int:
    """Work that raises an error of its own for each second file."""
    power = Cluster.from_json(file).nodes[0].members()["start"]
    if power % 200:
        raise KeyError(f"no {power}")
    return int(power)


def test_an_exception_of_the_work_is_a_fault_or_ends_the_study(program: Program) -> None:
    """KeyError of the second of four; with `raise` nothing else comes."""
    them = [house(at * 100) for at in range(4)]
    for processes in (1, 2):
        found = study(them, fails, processes=processes, program=program)
        assert [outcome.result for outcome in found] == [0, None, 200, None]
        assert found[1].fault == "KeyError: 'no 100'"
        with pytest.raises(KeyError, match="no 100"):
            study(them, fails, processes=processes, program=program, on_error="raise")


def test_an_interrupted_study_keeps_its_rows(tmp_path: Path, program: Program) -> None:
    """Two rows are in the file when the third is interrupted, and a row that is cut off in the middle is left out."""
    table = tmp_path / "table.csv"

    def until_interrupted() -> Iterator[Outcome[Summary]]:
        for at, outcome in enumerate(outcomes_of([house(100), house(200), house(300)], processes=1, program=program)):
            if at == 2:
                raise KeyboardInterrupt
            yield outcome

    with pytest.raises(KeyboardInterrupt):
        list(written(until_interrupted(), table))
    assert [outcome.result.taken_Wmin for outcome in read_table(table) if outcome.result] == [6000, 12000]
    table.write_text(table.read_text() + "3,abc")
    assert len(read_table(table)) == 2
    table.write_text("a,b\n")
    with pytest.raises(Unreadable, match="no table of a study"):
        read_table(table)
    table.write_text(",".join(HEAD) + "\na,b,c,1\n")
    with pytest.raises(Unreadable, match="line 2 is no row"):
        read_table(table)
    assert known_of(tmp_path / "none.csv") == {}


def test_a_study_is_resumed_by_the_digests(tmp_path: Path, program: Program) -> None:
    """A known row is taken as it is, which a number shows that no run gives; a changed file, a refused one and a new one run."""
    paths = [str(file) for file in written_files(tmp_path, 5)]
    table = tmp_path / "table.csv"
    words = ["study", "-o", str(table), "--program", program.path, "--processes", "1", "--quiet"]
    assert cli.main([*words, *paths[:4]]) == 1
    house(900).save(paths[1])
    table.write_text(table.read_text().replace(",18000,", ",777,"))
    assert cli.main([*words, "--resume", *paths]) == 1
    rows = read_table(table)
    assert [outcome.name for outcome in rows] == paths
    assert [outcome.result.taken_Wmin if outcome.result else outcome.fault[:10] for outcome in rows] == [0, 54000, "Unreadable", 777, 24000]
    assert cli.main([*words, "--on-error", "raise", *paths]) == 5


def test_variants_and_their_figures(program: Program) -> None:
    """A mapping names its clusters, and figures are a table: 1 and 2 kW over an hour at price 9."""
    variants = vary(house(0), start=[1000, 2000])
    found = study(variants, figures, processes=1, program=program)
    table = frame_of(found)
    assert list(table.index) == ["start=1000", "start=2000"] and table["cost"].tolist() == [9, 18]
    assert frame_of([]).empty and frame_of(study([house(5)], text_of, program=program))["result"].iloc[0].startswith(b"phase 1 ")


@pytest.mark.skipif(not sys.platform.startswith("linux"), reason="Linux alone ends a process with the one that started it")
def test_a_killed_study_leaves_no_workers(tmp_path: Path) -> None:
    """Each of two workers writes its number, and then works for a minute. The study is killed, and they are gone within seconds."""
    (tmp_path / "waiting.py").write_text(
        "import os, time\n"
        "def wait(file, program):\n"
        "    open(f'worker.{os.getpid()}', 'w').close()\n"
        "    time.sleep(60)\n"
    )
    script = "from cogmaula.study import study; import waiting; study([b'a', b'b'] * 2, waiting.wait, processes=2)"
    environment = {**os.environ, "PYTHONPATH": f"{TOP / 'python'}:{tmp_path}"}
    killed = subprocess.Popen([sys.executable, "-c", script], cwd=tmp_path, env=environment)
    try:
        assert waits(lambda: len(list(tmp_path.glob("worker.*"))) == 2)
    finally:
        killed.kill()
        killed.wait()
    workers = [int(path.suffix[1:]) for path in tmp_path.glob("worker.*")]
    assert waits(lambda: not any(is_running(worker) for worker in workers))


def waits(is_so: Callable[[], bool], seconds: float = 20) -> bool:
    """Whether something becomes so within some seconds."""
    end = time.monotonic() + seconds
    while not is_so() and time.monotonic() < end:
        time.sleep(0.02)
    return is_so()


def is_running(process: int) -> bool:
    """Whether a process runs, and does not only wait to be taken note of."""
    try:
        return Path(f"/proc/{process}/stat").read_text().rpartition(")")[2].split()[0] != "Z"
    except OSError:
        return False


def test_a_scheduler_needs_dask(monkeypatch: pytest.MonkeyPatch) -> None:
    """Without the package the error names it."""
    monkeypatch.setitem(sys.modules, "distributed", None)
    with pytest.raises(NoPackage, match="python3-distributed"):
        command.client_of("tcp://127.0.0.1:1")


@pytest.fixture(scope="module")
def scheduler() -> Iterator[Any]:
    """A Dask cluster of two workers of this machine, each a process of its own."""
    distributed = pytest.importorskip("distributed")
    with distributed.LocalCluster(n_workers=2, threads_per_worker=1, dashboard_address=None) as workers:
        yield workers


def test_dask_gives_the_outcomes_of_one_process(tmp_path: Path, program: Program, scheduler: Any) -> None:
    """The workers are sent the bytes, so they need no file; and the command takes a scheduler's address."""
    from distributed import Client

    paths = written_files(tmp_path, 21)
    alone = study(paths, processes=1, program=program)
    with Client(scheduler) as client:
        assert study(paths, client=client, program=program) == alone
        assert study([tmp_path / "none.json"], client=client, program=program)[0].fault.startswith("FileNotFoundError: ")
    table = tmp_path / "table.csv"
    words = ["study", "-o", str(table), "--scheduler", scheduler.scheduler_address, "--program", program.path]
    assert cli.main([*words, *map(str, paths)]) == 1
    assert [line.split(",")[0] for line in table.read_text().splitlines()[1:]] == [str(path) for path in paths]
