"""The Resume on disk: what was saved is read again, and damage of any byte is found."""

from __future__ import annotations

import os

import pytest
from hypothesis import given
from hypothesis import strategies as st
from pretended import BASIS, LATER, MOMENT, SESSION

from cogmaula.cluster import Basis
from cogmaula.live.node.node_errors import BadStore
from cogmaula.live.children.kept_bids import BidLog
from cogmaula.live.messages.messages import SetpointMessage
from cogmaula.live.node.node_settings import BrokerSettings
from cogmaula.live.node.store import Store, Stored

FRAME = bytes.fromhex("0C 00000001 00000007 000001F4 FFFFFED4")
STORED = Stored(SESSION, BASIS, FRAME, MOMENT, SetpointMessage(-300, 1, 9, 2, 7, MOMENT, reference=5))


@pytest.fixture
def store(tmp_path):
    one = Store(tmp_path / "below" / "house", "house", "device")
    yield one
    one.close()


def test_what_was_saved_is_read(store):
    assert store.load(SESSION) is None
    assert store.newest() is None
    store.save(STORED)
    assert store.load(SESSION) == STORED
    newer = Stored(SESSION, BASIS, FRAME[:-1] + b"\x00", MOMENT)
    store.save(newer)
    assert store.load(SESSION) == newer
    assert store.load(LATER) is None


def test_the_newest_session_counts_whatever_its_name(store):
    later = Stored(LATER, Basis(0, 99, 100), b"", MOMENT)
    for one in (later, STORED):
        store.save(one)
    assert store.newest() == later
    assert store.load(SESSION) == STORED


def test_the_folder_is_of_its_owner_alone(store):
    assert os.stat(store.folder).st_mode & 0o777 == 0o700


def test_each_changed_byte_is_found(store):
    store.save(STORED)
    path = store.path(SESSION)
    data = path.read_bytes()
    for at in range(len(data)):
        path.write_bytes(data[:at] + bytes([data[at] ^ 1]) + data[at + 1 :])
        with pytest.raises(BadStore, match="is damaged: bring it back as it was, or move it away"):
            store.newest()


@given(st.data())
def test_each_shorter_or_longer_file_is_found(data):
    import tempfile

    with tempfile.TemporaryDirectory() as folder:
        store = Store(folder, "house", "device")
        store.save(STORED)
        path = store.path(SESSION)
        whole = path.read_bytes()
        cut = data.draw(st.integers(0, len(whole) - 1))
        more = data.draw(st.binary(min_size=1, max_size=20))
        for wrong in (whole[:cut], whole + more):
            path.write_bytes(wrong)
            with pytest.raises(BadStore):
                store.load(SESSION)
        store.close()


@pytest.mark.parametrize("line", [b"{}", b"[]", b"no JSON", b'{"session": "x", "begun": "y"}'])
def test_a_right_checksum_over_wrong_members(store, line):
    import hashlib

    behind = line + b"\n" + FRAME
    store.path(SESSION).write_bytes(b"cogmaula resume 1\n" + hashlib.sha256(behind).hexdigest().encode() + b"\n" + behind)
    with pytest.raises(BadStore, match="is damaged"):
        store.newest()


def test_a_length_that_is_not_the_frames(store):
    import hashlib
    import json

    store.save(STORED)
    path = store.path(SESSION)
    told = json.loads(path.read_bytes().split(b"\n")[2]) | {"length": 3}
    behind = json.dumps(told).encode() + b"\n" + FRAME
    path.write_bytes(b"cogmaula resume 1\n" + hashlib.sha256(behind).hexdigest().encode() + b"\n" + behind)
    with pytest.raises(BadStore, match="is damaged"):
        store.newest()


def test_a_folder_of_another_node(store):
    store.save(STORED)
    store.close()
    for name, sort in (("store", "device"), ("house", "relay")):
        other = Store(store.folder, name, sort)
        with pytest.raises(BadStore, match=f"is of the device house, and this is the {sort} {name}"):
            other.newest()
        other.close()
    store._lock = os.open(os.devnull, os.O_RDONLY)


def test_one_process_alone_has_the_folder(store):
    with pytest.raises(BadStore, match="in use by another process"):
        Store(store.folder, "house", "device")


def test_a_file_half_written_before_a_crash_is_no_resume(store):
    store.save(STORED)
    (store.folder / "fresh").write_bytes(b"cogmaula")
    assert store.newest() == STORED


def test_the_file_is_on_the_disk_before_it_has_its_name_and_the_folder_after(store, monkeypatch):
    done = []
    fsync, replace = os.fsync, os.replace

    def noted_fsync(number):
        done.append(os.path.basename(os.readlink(f"/proc/self/fd/{number}")))
        fsync(number)

    def noted_replace(one, other, **folders):
        done.append("replace")
        replace(one, other, **folders)

    monkeypatch.setattr(os, "fsync", noted_fsync)
    monkeypatch.setattr(os, "replace", noted_replace)
    store.save(STORED)
    assert done == ["fresh", "replace", "house"]


def test_a_disk_that_is_full_is_told(store, monkeypatch):
    def full(_):
        raise OSError(28, "No space left on device")

    store.save(STORED)
    monkeypatch.setattr(os, "fsync", full)
    with pytest.raises(OSError, match="No space left"):
        store.save(Stored(SESSION, BASIS, b"newer", MOMENT))
    assert store.load(SESSION) == STORED


# Files that are their owner's alone.


@pytest.mark.parametrize("mode", [0o750, 0o705, 0o720, 0o701])
def test_a_folder_that_others_may_enter_is_refused_with_the_cure(tmp_path, mode):
    folder = tmp_path / "state"
    folder.mkdir(mode=0o700)
    folder.chmod(mode)
    with pytest.raises(BadStore, match=f"chmod 700 {folder}"):
        Store(folder, "house", "device")
    folder.chmod(0o700)
    Store(folder, "house", "device").close()


@pytest.mark.parametrize("name", ["lock", "starts", f"{SESSION.id}.resume", f"{SESSION.id}.bids", "fresh"])
def test_no_link_in_a_folder_is_followed(tmp_path, name):
    """What the link is to is not read, written, or made."""
    other, folder = tmp_path / "other", tmp_path / "state"
    other.write_bytes(b"7")
    folder.mkdir(mode=0o700)
    (folder / name).symlink_to(other)

    def works():
        store = Store(folder, "street", "relay")
        try:
            store.next_start()
            store.load(SESSION)
            store.save(Stored(SESSION, BASIS, b"x", MOMENT))
            BidLog(store.files, BASIS.steps).begin(SESSION)
        finally:
            store.close()

    if name == "fresh":
        works()
    else:
        with pytest.raises(BadStore, match=f"{name} is a symbolic link, and none is followed"):
            works()
    assert other.read_bytes() == b"7"


def test_a_folder_is_one_though_its_path_is_given_to_another(tmp_path):
    """The store goes by the folder that it opened."""
    folder = tmp_path / "state"
    store = Store(folder, "street", "relay")
    folder.rename(tmp_path / "moved")
    folder.mkdir()
    store.save(Stored(SESSION, BASIS, b"x", MOMENT))
    store.close()
    assert [path.name for path in folder.iterdir()] == []
    assert (tmp_path / "moved" / f"{SESSION.id}.resume").exists()


@pytest.mark.parametrize(("mode", "is_link", "why"), [
    (0o640, False, "others may read or write it: chmod 600"), (0o604, False, "others may"), (0o622, False, "others may"),
    (0o600, True, "it is a symbolic link"), (0o600, False, None), (0o400, False, None),
])
def test_a_password_that_others_may_read_is_refused_with_the_cure(tmp_path, monkeypatch, mode, is_link, why):
    path = tmp_path / "password"
    path.write_text("word\nmore\n")
    path.chmod(mode)
    if is_link:
        path = path.rename(tmp_path / "other") and path
        path.symlink_to(tmp_path / "other")
    broker = BrokerSettings(user="house", password_file=str(path))
    if why is None:
        assert broker.password() == "word"
        return
    with pytest.raises(OSError, match=why):
        broker.password()
    if not is_link:
        monkeypatch.setenv("CREDENTIALS_DIRECTORY", str(tmp_path))
        assert broker.password() == "word", "systemd gives the user of a unit a right beside that of the owner"
