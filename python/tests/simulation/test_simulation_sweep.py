"""Sweeps of simulations: by one process, two and Dask the same; what is kept is not done again."""

from __future__ import annotations

import os
import subprocess
import sys
import textwrap
from dataclasses import dataclass
from datetime import datetime
from pathlib import Path

import pytest

pytest.importorskip("pandas")

from cogmaula import Basis
from cogmaula.simulation import Load, Manual, simulate, sweep
from cogmaula.simulation.sweep import outcomes_in
from cogmaula.study import frame_of

TOP = Path(__file__).resolve().parents[3]


@dataclass(frozen=True)
class Cost:
    """What a scenario cost."""

    cost: float


def cost_of(scenario, program):
    """Two hours of a load at a price, by hand its kilowatts times 2 hours times the price. It notes that it was called."""
    if "log" in scenario:
        with open(scenario["log"], "a") as file:
            file.write(f"{os.getpid()}\n")
    price = scenario["price"]
    devices = [Load(name="house", power=scenario["power"]), Manual("grid", [(price - 1, 9000), (price, -9000)])]
    done = simulate(devices, Basis(0, 40, 41), ticks=2, minutes=60, start=datetime(2026, 6, 1), program=program)
    return Cost(done.figures("grid").cost_at_connection)


def scenarios(log=None):
    more = {} if log is None else {"log": str(log)}
    return {f"{power} W at {price}": {"power": power, "price": price, **more} for power in (500, 1000) for price in (5, 30)}


DUE = [5, 30, 10, 60]


def test_outcomes_are_those_of_the_hand_in_order_by_one_process_and_by_two(program):
    alone = sweep(cost_of, scenarios(), processes=1, program=program)
    assert [outcome.result.cost for outcome in alone] == DUE and [outcome.name for outcome in alone] == list(scenarios())
    assert sweep(cost_of, scenarios(), processes=2, program=program) == alone
    assert frame_of(alone)["cost"].tolist() == DUE


def test_a_sweep_goes_on_where_it_was_left(program, tmp_path):
    """The second has one scenario more, the third the same; a file that ends in the middle of an outcome lacks that one."""
    log, kept = tmp_path / "log", tmp_path / "kept"

    def calls():
        return len(log.read_text().splitlines())

    all_of_them = scenarios(log)
    first = dict(list(all_of_them.items())[:3])
    assert [outcome.result.cost for outcome in sweep(cost_of, first, processes=1, program=program, kept=kept)] == DUE[:3]
    assert [outcome.result.cost for outcome in sweep(cost_of, all_of_them, processes=1, program=program, kept=kept)] == DUE
    assert calls() == 4
    kept.write_bytes(kept.read_bytes()[:-5])
    assert len(list(outcomes_in(kept))) == 3
    assert [outcome.result.cost for outcome in sweep(cost_of, all_of_them, processes=1, program=program, kept=kept)] == DUE
    assert calls() == 5


def test_faults_are_kept_or_end_a_sweep_and_are_done_again(program, tmp_path):
    wrong = {"good": {"power": 500, "price": 5}, "bad": {"power": float("nan"), "price": 5}}
    found = sweep(cost_of, wrong, processes=1, program=program, kept=tmp_path / "kept")
    assert [bool(outcome.fault) for outcome in found] == [False, True] and found[1].fault.startswith("BadBid: house makes no bid at")
    with pytest.raises(Exception, match="house makes no bid"):
        sweep(cost_of, wrong, processes=1, program=program, on_error="raise", kept=tmp_path / "kept")


def test_dask_gives_the_outcomes_of_one_process(program):
    distributed = pytest.importorskip("distributed")
    with distributed.LocalCluster(n_workers=1, threads_per_worker=1, processes=False, dashboard_address=None) as workers:
        with distributed.Client(workers) as client:
            assert [outcome.result.cost for outcome in sweep(cost_of, scenarios(), client=client, program=program)] == DUE


def test_the_code_of_the_page_runs(program, tmp_path):
    """As a script: each of eight capacities has its figures, and none a fault."""
    page = (TOP / "docs" / "REPORTS.md").read_text()
    begin = page.index("    from cogmaula import Basis\n    from cogmaula.simulation import")
    more = "\nprint(len(outcomes), {outcome.fault for outcome in outcomes}, outcomes[0].result.batteries['store'].most > 0)\n"
    (tmp_path / "script.py").write_text(textwrap.dedent(page[begin : page.index("\n\nEach outcome", begin)]) + more)
    environment = {**os.environ, "PYTHONPATH": str(TOP / "python"), "COGMAULA_MARKET": program.path}
    told = subprocess.run([sys.executable, "script.py"], cwd=tmp_path, env=environment, capture_output=True, text=True, check=False)
    assert told.stdout == "8 {''} True\n", told.stderr
    assert len(list(outcomes_in(tmp_path / "sweep.pickle"))) == 8


def test_the_file_of_a_sweep_may_not_be_there(tmp_path):
    assert list(outcomes_in(Path(tmp_path / "none"))) == []
