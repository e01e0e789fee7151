"""A broker whose database is lost, cut or zeroed starts, and its market is back from the disks of its nodes."""

from __future__ import annotations

import subprocess

import pytest
from brokers import MOSQUITTO, Mosquitto, Onlooker, live_program, require_broker, wait_until
from made import MadeMarket
from markets import STEPS, falls_at

from cogmaula.deploy.files import text_of

# How a database is spoilt, and whether mosquitto 2.0.11 starts with it, as it was seen to.
SPOILT = {
    "whole": (lambda data: data, True),
    "empty": (lambda data: b"", True),
    "cut in its head": (lambda data: data[:10], False),
    "cut in the middle": (lambda data: data[: len(data) // 2], False),
    "cut at its end": (lambda data: data[:-1], False),
    "zeroed": (lambda data: bytes(len(data)), False),
}


def check(path, script):
    """Runs the script that the unit runs before mosquitto. Gives what it said."""
    done = subprocess.run(["sh", str(script), str(path)], capture_output=True, text=True, timeout=60, check=True)
    return done.stderr


@pytest.fixture(scope="module")
def database(tmp_path_factory):
    """A database that mosquitto wrote, with retained messages."""
    require_broker()
    folder = tmp_path_factory.mktemp("kept")
    with Mosquitto(folder, "persistence true", f"persistence_location {folder}/") as broker, Onlooker(broker.port) as looks:
        for number in range(9):
            looks.publish(f"market/{number}", b"x" * 50)
    return (folder / "mosquitto.db").read_bytes()


@pytest.mark.parametrize("how", SPOILT)
def test_a_database_that_mosquitto_cannot_read_is_moved_aside(tmp_path, database, how):
    spoil, is_read = SPOILT[how]
    path, script = tmp_path / "mosquitto.db", tmp_path / "check.sh"
    script.write_text(text_of("check_database.sh"))
    path.write_bytes(spoil(database))
    said = check(path, script)
    aside = list(tmp_path.glob("mosquitto.db.bad.*"))
    assert (path.exists(), [one.read_bytes() for one in aside]) == (is_read, [] if is_read else [spoil(database)])
    assert ("the broker starts empty" in said) == (not is_read)
    assert check(path, script) == ""


def test_a_market_is_back_after_its_broker_lost_all(tmp_path):
    """The broker is killed and its database zeroed: without the script it does not start, and with it all go on in the same session."""
    require_broker()
    live = live_program()
    with MadeMarket(tmp_path) as made:
        for name in ("auctioneer", "street", "house", "store"):
            made.start(name, live)
        made.controls["house"].offers([100] * STEPS)
        made.controls["store"].offers(falls_at(4, 0, -150))
        wait_until(lambda: made.controls["house"].has(step=4, power=100), "a setpoint")
        session, path = made.nodes["auctioneer"].session.id, made.out / "state" / "broker" / "mosquitto.db"
        made.process.terminate()
        made.process.wait()
        path.write_bytes(bytes(len(path.read_bytes())))
        words = [MOSQUITTO, "-v", "-c", str(made.out / "broker" / "mosquitto.conf")]
        refused = subprocess.run(words, capture_output=True, timeout=30, check=False)
        assert refused.returncode != 0, "what the script is for"
        assert "the broker starts empty" in check(path, made.out / "broker" / "check_database.sh")
        with open(made.out / "said", "ab") as said:
            made.process = subprocess.Popen(words, stdout=said, stderr=said)
        made.controls["house"].offers([120] * STEPS)
        wait_until(lambda: made.controls["house"].has(step=4, power=120), "the next setpoint")
        assert made.nodes["auctioneer"].session.id == session
