"""Markets over a real broker record while services, nodes and the broker are killed. What they recorded is a run of the network."""

from __future__ import annotations

import time

import pytest
from brokers import Mosquitto, live_program, require_broker
from markets import PLACES, Process
from recorded import Lines
from test_live_market import Storm

from cogmaula.judge import judge


@pytest.fixture
def live():
    require_broker()
    return live_program()


@pytest.mark.parametrize("keeps", [False, True], ids=["forgets", "keeps"])
def test_a_storm_is_a_run(live, tmp_path, keeps):
    """Over a broker that loses all that it retains when it is killed, and over one that keeps it."""
    kept = ["persistence true", f"persistence_location {tmp_path}/", "autosave_on_changes true", "autosave_interval 10"]
    lines = kept if keeps else []
    folder = tmp_path / "recordings"
    with Mosquitto(tmp_path / "broker", *lines) as broker:
        options = {"record": folder, "record_size": 32_768}
        nodes = {name: Process(broker.port, live, tmp_path, name, **options).start() for name in PLACES}
        storm = Storm(nodes)
        try:
            storm.flows_to_all()
            for name in PLACES:
                nodes[name].kill_service()
                storm.flows(0.2)
            for name in PLACES:
                nodes[name].kill()
                storm.flows(0.2)
                nodes[name].start()
            storm.flows_to_all()
            broker.kill()
            storm.flows(0.5)
            nodes["street"].kill_service()
            broker.start()
            storm.flows_to_all()
            storm.settles()
        finally:
            for one in nodes.values():
                one.stop()
    begin = time.monotonic()
    verdict = judge(folder, live)
    assert verdict.verdict == "valid", verdict
    assert (verdict.sessions, verdict.nodes, verdict.unmatched) == (1, 5, 0)
    assert verdict.lives > 2 * len(PLACES)
    assert verdict.clearings > 10 and verdict.setpoints > 30
    told = Lines(folder)
    assert len(told.files) > 2 * len(PLACES), "files ended at their size"
    assert sum(len(told.of(name, "start")) for name in PLACES) == verdict.lives
    setpoints = {device.name: len(told.of(device.name, "out", "Setpoint")) for device in storm.devices}
    assert sum(setpoints.values()) == verdict.setpoints
    assert time.monotonic() - begin < 300
