"""What a node records: each frame in and out in lines, in an order that holds over a crash, in files that end and begin anew."""

from __future__ import annotations

import errno
import gzip
import json
import os
import re
import shutil

import pytest
from markets import falls_at
from pretended import BASIS_TOPIC, LATER, OF_RELAY, SESSION, VERSION, auctioneer_resume, basis_payload, bid, numbers, price, relay_resume, saved
from recorded import Lines, RecordedMarket, contents_of, files_of

from cogmaula.judge import judge
from cogmaula.live import BadSettings
from cogmaula.live.node import compressing
from cogmaula.live.node import recording
from cogmaula.live.messages.frames import Clear, Old, Send
from cogmaula.live.node.node_settings import settings_of

FIRST = relay_resume(1, 0, 0, numbers((1, 1)))


def told_in(folder):
    """All lines of a folder's recordings, without their times."""
    found = [json.loads(line) for data in contents_of(folder).values() for line in data.splitlines()]
    for entry in found:
        assert re.fullmatch(r"\d{4}-\d\d-\d\dT\d\d:\d\d:\d\d\.\d{6}Z", entry.pop("at"))
    return found


def frames_in(folder, *words):
    lines = [line for line in told_in(folder) if line["what"] in (words or ("in", "out"))]
    return [(line["what"], frame) for line in lines for frame in line.get("frames", [line.get("frame")])]


def test_a_node_records_its_start_and_each_frame(joined, tmp_path):
    folder = tmp_path / "recordings"
    one = joined("relay", record=str(folder)).begun(("market/street/bid/1", bid(1, 1, 5, -3).to_bytes(), OF_RELAY))
    sent = bid(3, 1, 5, -3)
    one.writes(FIRST, sent)
    one.link.comes("market/auctioneer/price/3", price(3, 1, 7, 1).to_bytes())
    one.turned()
    one.node.serving.end("stopped")
    assert [path.name for path in folder.iterdir()] == [f"street.{SESSION.id}.000001.frames"]
    place = {"node": "street", "sort": "relay", "arguments": ["relay", "3", "-1000", "1000"], "parent": "auctioneer", "child": 3}
    basis = {"min": 0, "max": 9, "steps": 2}
    assert told_in(folder) == [
        {"what": "start", **place, **basis, "session": SESSION.id, "begun": SESSION.begun, "resume": None},
        {"what": "in", "frame": bid(1, 1, 5, -3).to_bytes().hex()},
        {"what": "in", "frame": Send().to_bytes().hex()},
        {"what": "out", "frames": [FIRST.to_bytes().hex(), sent.to_bytes().hex()]},
        {"what": "stored"},
        {"what": "in", "frame": price(3, 1, 7, 1).to_bytes().hex()},
        {"what": "end", "why": "stopped"},
    ]
    lines = next(folder.iterdir()).read_text().splitlines()
    assert list(json.loads(lines[0]))[:4] == ["at", "what", "node", "sort"]


def test_the_prices_of_a_clearing_are_one_line(joined, tmp_path):
    """What comes behind them has a line of its own, and so has a Price alone."""
    folder = tmp_path / "recordings"
    one = joined("auctioneer", record=str(folder)).begun()
    frames = [price(1, 2, 1, 1), price(2, 4, 1, 1), price(3, 6, 1, 1), Old(2, 5), price(2, 6, 1, 1)]
    one.writes(*frames)
    told = [{name: value for name, value in line.items() if name != "what"} for line in told_in(folder) if line["what"] == "out"]
    first, second, third, old, last = (frame.to_bytes().hex() for frame in frames)
    assert told == [{"frames": [first, second, third]}, {"frame": old}, {"frame": last}]


def test_a_judge_reads_both_forms_alike(recorded, live, tmp_path):
    """The recordings of a market with lines of several prices, and the same with a line for each."""
    whole = b"".join(contents_of(recorded).values())
    assert b'"what": "out", "frames": [' in whole
    folder = shutil.copytree(recorded, tmp_path / "single")
    Lines(folder).write()
    assert b'"frames"' not in b"".join(contents_of(folder).values())
    verdict = judge(recorded, live)
    assert verdict.verdict == "valid"
    assert judge(folder, live) == verdict


def test_a_node_without_a_folder_records_nothing(joined, tmp_path):
    one = joined("relay").begun(("market/street/bid/1", bid(1, 1, 5, -3).to_bytes(), OF_RELAY))
    one.writes(FIRST)
    one.node.serving.end("stopped")
    assert sorted(path.name for path in tmp_path.iterdir()) == ["relay"]


def test_a_start_has_the_resume_that_it_goes_on_from(joined, tmp_path):
    # A device gives even numbers: an odd one would have to be let go again.
    kept = relay_resume(1, 0, 0, numbers((1, 2)))
    saved(tmp_path, "relay", "street", kept)
    joined("relay", record=str(tmp_path / "recordings")).begun()
    assert [line["resume"] for line in told_in(tmp_path / "recordings")] == [kept.to_bytes().hex()]


def test_a_service_that_ends_and_comes_back_is_recorded_in_one_file(joined, tmp_path, monkeypatch):
    folder = tmp_path / "recordings"
    one = joined("auctioneer", record=str(folder)).begun()
    one.service.ends("status 4")
    one.turned()
    monkeypatch.setattr(one.node.serving, "_restart_at", 0)
    one.turned()
    assert [line["what"] for line in told_in(folder)] == ["start", "end", "start"]
    assert told_in(folder)[1]["why"] == "status 4"
    assert len(list(folder.iterdir())) == 1


# The order of what is done.


class Noted:
    """Notes in their order: what is written and made safe of the recording, what is stored, published, and fed."""

    def __init__(self, one, monkeypatch):
        self.done, self.one = [], one
        serving = one.node.serving
        write, fsync, save, publish, feed = os.write, os.fsync, one.node._store.save, one.link.publish, one.service.feed
        files = lambda: serving._recording._file  # noqa: E731
        monkeypatch.setattr(recording.os, "write", lambda file, data: (file == files() and self.note(data), write(file, data))[1])
        monkeypatch.setattr(recording.os, "fsync", lambda file: (file == files() and self.done.append("safe"), fsync(file))[1])
        monkeypatch.setattr(one.node._store, "save", lambda stored: (self.done.append("store"), save(stored))[1])
        published = lambda publication: self.done.append(f"publish {publication.topic.rpartition('market/')[2]}")  # noqa: E731
        monkeypatch.setattr(one.link, "publish", lambda publication: (published(publication), publish(publication))[1])
        monkeypatch.setattr(one.service, "feed", lambda data: (data and self.done.append("feed"), feed(data))[1])

    def note(self, data):
        told = json.loads(data)
        self.done.append(f"{told['what']} {told.get('frame', '')[:2]}".strip())


def test_all_is_safe_before_a_resume_is_stored_and_recorded_before_it_is_published(joined, tmp_path, monkeypatch):
    one = joined("auctioneer", record=str(tmp_path / "recordings")).begun()
    noted = Noted(one, monkeypatch)
    one.link.comes("market/auctioneer/bid/3", bid(3, 2, 21, -3).to_bytes(), [("session", one.node.session.id), ("version", VERSION)])
    one.turned()
    one.writes(auctioneer_resume(1, numbers((3, 2))), price(3, 2, 1, 1))
    assert noted.done == [
        "in 02", "feed", "in 04", "feed",
        "out 19", "safe", "store", "stored", "publish auctioneer/resume",
        "out 17", "publish auctioneer/prices",
    ]  # fmt: skip
    assert one.service.read[-1] == Clear().to_bytes()


def test_a_resume_that_waits_for_the_broker_is_not_yet_recorded(joined, tmp_path):
    folder = tmp_path / "recordings"
    saved(tmp_path, "relay", "street", FIRST)
    one = joined("relay", record=str(folder)).begun(("market/street/bid/1", bid(1, 1, 5, -3).to_bytes(), OF_RELAY))
    told, resume = price(1, 1, 7, 1), relay_resume(1, 1, 7, numbers((1, 1)))
    one.writes(told, resume)
    assert frames_in(folder, "out") == [("out", told.to_bytes().hex())]
    one.link.confirm()
    one.turned()
    assert frames_in(folder, "out") == [("out", frame.to_bytes().hex()) for frame in (told, resume)]


# A disk that takes no more.


def fails_at(monkeypatch, name, count):
    """Lets a call of the system on a recording fail from a count on: of a write a part may have been made."""
    call, left = getattr(os, name), [count]

    def failing(file, *data):
        if "recordings" not in os.readlink(f"/proc/self/fd/{file}"):
            return call(file, *data)
        left[0] -= 1
        if left[0] > 0:
            return call(file, *data)
        if name == "write" and left[0] == 0:
            return call(file, data[0][:10])
        raise OSError(errno.ENOSPC, os.strerror(errno.ENOSPC))

    monkeypatch.setattr(recording.os, name, failing)


def test_a_full_disk_ends_the_node_before_anything_is_sent(joined, tmp_path, monkeypatch):
    folder = tmp_path / "recordings"
    one = joined("auctioneer", record=str(folder)).begun()
    one.link.comes("market/auctioneer/bid/3", bid(3, 1, 21, -3).to_bytes(), [("session", one.node.session.id), ("version", VERSION), ("sort", "relay")])
    one.turned()
    count = len(one.link.sent)
    fails_at(monkeypatch, "write", 1)
    with pytest.raises(OSError, match="No space left"):
        one.writes(auctioneer_resume(1, numbers((3, 1))), price(3, 1, 1, 1))
    assert one.stored(one.node.session) == b"", "the Resume is not stored"
    assert len(one.link.sent) == count
    monkeypatch.undo()
    one.node.serving.end("No space left on device")
    data = next(folder.iterdir()).read_bytes()
    assert data.endswith(b'{"at": "20'), "behind a part of a line nothing is written"


def test_a_recording_that_is_not_safe_stores_no_resume(joined, tmp_path, monkeypatch):
    one = joined("auctioneer", record=str(tmp_path / "recordings")).begun()
    fails_at(monkeypatch, "fsync", 1)
    with pytest.raises(OSError, match="No space left"):
        one.writes(auctioneer_resume(1, numbers((3, 1))))
    assert one.stored(one.node.session) == b""
    monkeypatch.undo()
    one.node.serving.end("No space left on device")


def test_a_run_over_a_full_disk_ends_with_the_error_and_lets_go(tmp_path, live, monkeypatch):
    market = RecordedMarket(tmp_path, live).start("auctioneer")
    node = market.nodes["auctioneer"]
    fails_at(monkeypatch, "write", 1)
    node.stop()
    with pytest.raises(OSError, match="No space left"):
        node.run()
    monkeypatch.undo()
    market.nodes.clear()
    market.start("auctioneer").stop()


# Files.


def test_a_file_ends_at_its_size_and_the_next_begins(tmp_path, live):
    market = RecordedMarket(tmp_path, live)
    market.start("auctioneer", "street", record_size=4_096).start("house", "store", record_size=1_024)
    market.offers(house=[100] * 10)
    for step in range(1, 9):
        market.offers(store=falls_at(step, 0, -150))
        market.settles_at(step, house=100, store=-150)
    market.stop()
    for name in ("auctioneer", "street", "house", "store"):
        files = files_of(market.recordings, name)
        assert len(files) > 1
        assert [file.split(".")[2] for file in files] == [f"{number:06}" for number in range(1, len(files) + 1)]
        assert all(len(contents_of(market.recordings)[file]) <= 4_096 for file in files)
    verdict = judge(market.recordings, live)
    assert (verdict.verdict, verdict.lives) == ("valid", 4)
    lines = Lines(market.recordings)
    middle = files_of(market.recordings, "street")[2]
    del lines.files[middle]
    verdict = judge(lines.write(), live)
    assert verdict.missing == ("street: its file 000003 is not there",)


def test_files_that_have_ended_are_compressed_and_judged(tmp_path, live):
    """All but the newest of each node. What was written stays in them, line by line, and one that is damaged is named."""
    market = RecordedMarket(tmp_path, live)
    market.start("auctioneer", "street", "house", "store", record_size=4_096)
    market.offers(house=[100] * 10)
    for step in range(1, 9):
        market.offers(store=falls_at(step, 0, -150))
        market.settles_at(step, house=100, store=-150)
    market.stop()
    names = list(contents_of(market.recordings))
    packed = sorted(market.recordings.glob("*.gz"))
    assert len(packed) == len(names) - 4
    for path in packed:
        assert path.stat().st_mode & 0o777 == 0o600
        assert path.stat().st_size < len(gzip.decompress(path.read_bytes())) / 3
    assert judge(market.recordings, live).verdict == "valid"
    # A process that ended between the two leaves both, and each is whole.
    one = next(path for path in packed if path.name.startswith("street"))
    (market.recordings / one.stem).write_bytes(gzip.decompress(one.read_bytes()))
    assert judge(market.recordings, live).verdict == "valid"
    (market.recordings / one.stem).unlink()
    for damaged in (one.read_bytes()[:-20], one.read_bytes()[:100] + b"x" * 40 + one.read_bytes()[140:]):
        one.write_bytes(damaged)
        fault = judge(market.recordings, live).fault
        assert (fault.node, fault.file) == ("street", one.name)


def test_a_file_that_cannot_be_compressed_stays_as_it_is(tmp_path, monkeypatch):
    path = tmp_path / "a.frames"
    path.write_bytes(b"line\n" * 1_000)

    def fails(_):
        raise OSError(errno.ENOSPC, os.strerror(errno.ENOSPC))

    monkeypatch.setattr(compressing.os, "fsync", fails)
    with pytest.raises(OSError, match="No space left"):
        compressing.compress(path)
    assert [path.name for path in tmp_path.iterdir()] == ["a.frames"]
    monkeypatch.undo()
    compressing.compress(path)
    assert [path.name for path in tmp_path.iterdir()] == ["a.frames.gz"]
    with pytest.raises(OSError, match="No such file"):
        compressing.compress(path)
    assert [path.name for path in tmp_path.iterdir()] == ["a.frames.gz"]


def test_only_the_newest_files_are_kept(tmp_path, live):
    market = RecordedMarket(tmp_path, live)
    market.start("auctioneer", "house", "store").start("street", record_size=4_096, record_files=2)
    market.offers(house=[100] * 10)
    for step in range(1, 9):
        market.offers(store=falls_at(step, 0, -150))
        market.settles_at(step, house=100, store=-150)
    market.stop()
    first, second = (int(file.split(".")[2]) for file in files_of(market.recordings, "street"))
    assert second == first + 1 > 4
    verdict = judge(market.recordings, live)
    assert verdict.verdict == "incomplete"
    assert verdict.missing == (f"street: its file {first - 1:06} is not there", "child 1 of auctioneer has no recording")


def test_a_new_process_begins_a_new_file_behind_those_there(joined, tmp_path):
    folder = tmp_path / "recordings"
    folder.mkdir()
    for name in (f"street.{SESSION.id}.000007.frames.gz", "street.frames", "street.x.y.frames", f"house.{SESSION.id}.000009.frames"):
        (folder / name).touch()
    joined("relay", record=str(folder)).begun()
    assert (folder / f"street.{SESSION.id}.000008.frames").stat().st_size > 0


def test_a_session_has_files_of_its_own(joined, tmp_path):
    folder = tmp_path / "recordings"
    one = joined("relay", record=str(folder)).begun()
    one.link.comes(BASIS_TOPIC, basis_payload(LATER))
    one.turned()
    assert list(contents_of(folder)) == [f"street.{SESSION.id}.000001.frames", f"street.{LATER.id}.000002.frames"]
    assert [line["what"] for line in told_in(folder)] == ["start", "end", "start"]


def test_a_recording_can_only_be_read_by_its_owner(joined, tmp_path):
    folder = tmp_path / "recordings"
    joined("relay", record=str(folder)).begun()
    assert folder.stat().st_mode & 0o777 == 0o700
    assert next(folder.iterdir()).stat().st_mode & 0o777 == 0o600


# Settings.

NODE = {"name": "auctioneer", "state": "state", "record": "recordings"}
TABLES = {"basis": {"min": 0, "max": 9, "steps": 10}}


def test_the_settings_of_a_recording():
    told = settings_of("auctioneer", {**TABLES, "node": NODE})
    assert (told.record, told.record_size, told.record_files) == ("recordings", 67_108_864, None)
    told = settings_of("auctioneer", {**TABLES, "node": {**NODE, "record_size": 1024, "record_files": 1}})
    assert (told.record_size, told.record_files) == (1024, 1)


@pytest.mark.parametrize(
    ("member", "value", "why"),
    [
        ("record", 5, "node.record is 5: give a text"),
        ("record_size", 1023, "record_size is 1023: give 1024 bytes or more"),
        ("record_size", "64M", "node.record_size is '64M': give a whole number"),
        ("record_files", 0, "record_files is 0: give 1 or more"),
    ],
)
def test_wrong_settings_of_a_recording_are_told(member, value, why):
    with pytest.raises(BadSettings, match=why):
        settings_of("auctioneer", {**TABLES, "node": {**NODE, member: value}})


def test_a_node_whose_service_never_started_has_no_recording(joined, tmp_path):
    one = joined("relay", record=str(tmp_path / "recordings"))
    one.node.serving.end("stopped")
    assert not (tmp_path / "recordings").exists()
