"""A cluster file that lives: its devices by the clock alone, and in a market of nodes with the real `live`."""

from __future__ import annotations

import json
import re
import threading

import pytest
from brokers import TOP, wait_until
from logged import QUIET, log_to
from looking import get, require_page

from cogmaula import Basis, Battery, Cluster, Concentrator, Limited, Load, Solar, run
from cogmaula.cli import main
from cogmaula.live.messages.frames import Offer, Stated
from cogmaula.live.device.device_kinds import DeviceKind
from cogmaula.live.messages.messages import BackMessage, SetpointMessage, SilentMessage
from cogmaula.live.page.page_settings import PageSettings
from cogmaula.simulation import BidMaker
from cogmaula.simulation.life import Life
from cogmaula.simulation.living import LivingCluster, ModelControl


EXAMPLES = TOP / "examples"


@pytest.mark.parametrize("name", ["village", "battery_day", "street"])
def test_life_by_the_powers_of_a_run_has_its_states_and_its_bids(program, live, name):
    """At the end of each tick, however the time before it was cut."""
    done = run(EXAMPLES / f"{name}.json", program=program)
    with BidMaker(done.cluster.basis, live) as maker:
        _live_by(done, maker)


def _live_by(done, maker):
    life, minute = Life(done.cluster), 0
    life.advance(0)
    for phase, end, snapshot in zip(done.cluster.phases, done.ends, _snapshots(done), strict=True):
        minutes = getattr(phase, "minutes", 0)
        for part in range(1, 4):
            life.advance(minute + minutes * part / 3)
        minute += minutes
        if not _is_before_events(done.cluster, end.phase):
            assert life.members == snapshot.members
            found = {name: round(life.devices[name].state, 3) for name, state in snapshot.states.items() if isinstance(state, int)}
            assert found == {name: state for name, state in snapshot.states.items() if isinstance(state, int)}
            bids = maker.demands({name: offer for name, offer in life.offers().items() if offer is not None})
            groups = {group.name: group.step for group in end.groups}
            steps = {name: end.step if group is None else groups[group] for name, group in done.cluster.groups().items()}
            assert {name: bid[steps[name]] for name, bid in bids.items()} == end.powers
            life.powers.update(end.powers)


def _snapshots(done):
    from cogmaula.states import snapshots

    return snapshots(done.cluster, done.ends)


def _is_before_events(cluster, phase):
    """Whether the phase behind this one comes at the same minute: then its events have happened too."""
    return phase < len(cluster.phases) and not hasattr(cluster.phases[phase], "minutes")


def test_the_village_lives_and_its_page_says_that_its_devices_are_models(program, live):
    """Its first price is that of docs/CLUSTER_FILE.md, worked out there by hand: 40. Its phases of events come by the clock."""
    require_page()
    cluster, told, said = Cluster.load(EXAMPLES / "village.json"), [], []
    living = LivingCluster(cluster, live, speed=600, page=PageSettings("127.0.0.1:0"), tell=told.append, log=log_to(said.append))
    thread = threading.Thread(target=living.run)
    thread.start()
    try:
        wait_until(lambda: told, "the page is told")
        port = int(re.fullmatch(r"page: http://127\.0\.0\.1:(\d+)/", told[0])[1])
        wait_until(lambda: any("phase 5" in line for line in told), f"the phases come: {told} {said}")
        wait_until(lambda: living.life.minute >= 50, "it lives on")
        view = json.loads(get(port, "/view")[2])
    finally:
        living.stop()
        thread.join(20)
    assert not thread.is_alive()
    assert told[1] == "00:00 phase 1: freezer1 joins, heat1 joins, bat1 joins, chp1 joins, solar1 joins, load1 joins, flex joins"
    assert "00:00 price 40: 7 devices take 2800 W and give 2800 W" in told
    assert any(line.startswith("00:15 phase 3: solar1 has 300, goal joins") for line in told)
    assert any(line.startswith("00:45 phase 5: load1 leaves, goal leaves, flex has another bid") for line in told)
    assert "models" in view["note"] and "no part of the market" in view["note"]
    nodes = {node["name"]: node for node in view["nodes"]}
    assert nodes["c2"]["parent"] == "c1" and set(nodes) == {"auctioneer", *(node.name for node in cluster.nodes)}
    assert nodes["freezer1"]["setpoint"]["power"] in (0, 200)
    assert nodes["load1"]["bid"]["is_gone"] and living.life.powers["load1"] == 0
    assert [line for line in said if "session" not in line] == []


def test_limits_hold_in_a_living_cluster(program, live):
    """A roof of 3 kW beside a battery that takes 5 kW whole or not at all, below a ceiling of 1 kW: it never charges."""
    nodes = [
        Limited("feeder", floor=-1000, ceiling=1000),
        Concentrator("row", parent="feeder"),
        Battery("store", parent="row", capacity=10_000, charge=5000, discharge=0, spread=0, start=0),
        Load("house", parent="row", start=500),
        Solar("roof", start=3000),
    ]
    cluster = Cluster(Basis(0, 9, 10), nodes)
    told = []
    cluster = cluster.with_phases(cluster.join_all())
    living = LivingCluster(cluster, live, tell=told.append, log=QUIET)
    living.run(1)
    assert living.life.minute == 1 and living.life.devices["store"].state == 0
    assert told[-1] == "00:01 price 0: 3 devices take 500 W and give 3000 W" or told[-1].startswith("00:00 price 0: 3 devices take 500 W")


def test_a_control_offers_what_is_new_and_keeps_what_it_is_told():
    control, offered = ModelControl(), []
    control.offer(None, 1)
    control.offer(Offer((3, 2)), 1)
    control.start(offered.append, QUIET)
    control.offer(Offer((3, 2)), 1)
    for second, state in ((1, 7), (1.5, 8), (2.9, 9), (3, 10)):
        control.offer(Stated(DeviceKind("load"), state), second)
    control.offer(None, 3)
    control.write(SetpointMessage(-150, 1, 1, 2, 3, "2026-06-01T00:00:00Z"))
    assert control.power == -150
    control.write(BackMessage("2026-06-01T00:00:00Z"))
    assert control.power == -150
    control.write(SilentMessage("2026-06-01T00:00:00Z", 0, "no heartbeat"))
    assert control.power == 0
    assert [json.loads(message) for message in offered] == [{"power": [3, 2]}, {"kind": "load", "state": 7}, {"kind": "load", "state": 10}, {"leave": True}]


def test_the_command(program, live, capsys, tmp_path):
    path = str(EXAMPLES / "balance.json")
    assert main(["simulate", path, "--minutes", "0.5"]) == 0
    said = capsys.readouterr()
    assert "00:00 price 2: 2 devices take 300 W and give 300 W" in said.out and "prices may differ" not in said.err
    assert main(["simulate", path, "--page", "0.0.0.0:80"]) == 2
    assert "no login" in capsys.readouterr().err
    wide = Cluster(Basis(0, 9, 10), [Limited("feeder", floor=0, ceiling=2_000_000_000)])
    wide.save(tmp_path / "wide.json")
    assert main(["simulate", str(tmp_path / "wide.json")]) == 2
    said = capsys.readouterr().err
    assert "0 to 1000000000 watts" in said and "feeder announce what their devices take" in said
    (tmp_path / "wrong.json").write_text("{}")
    assert main(["simulate", str(tmp_path / "wrong.json")]) == 5
    with pytest.raises(SystemExit) as ended:
        main(["simulate", path, "--minutes", "0"])
    assert ended.value.code == 2
    assert main(["simulate", path, "--live", str(tmp_path / "none")]) == 1
