"""The file of tokens: its lines, new tokens, changes, and how often a login may fail."""

from __future__ import annotations

import hashlib
import os
import stat
import threading

import pytest

from cogmaula.hub.tokens import FAILED, Entry, FailedLogins, TokenFile, children_in, entries_of, hash_of, write_token
from cogmaula.live import BadSettings

HASH = "0" * 64


def test_the_entries_of_a_file():
    text = f"# agents of the street\n\nhouse-17 1 {hash_of('word')}\n  store  256   {HASH}  \n"
    found = entries_of(text, "agents")
    assert found == {"house-17": Entry("house-17", 1, hash_of("word")), "store": Entry("store", 256, HASH)}
    assert found["house-17"].takes("word")
    assert not found["house-17"].takes("Word")
    assert not found["house-17"].takes("\ud800")
    assert hash_of("word") == hashlib.sha256(b"word").hexdigest()


@pytest.mark.parametrize(
    ("text", "why"),
    [
        ("house 1\n", "agents line 1 has 2 words"),
        (f"\nhouse 1 {HASH} x\n", "agents line 2 has 4 words"),
        (f"ho/use 1 {HASH}\n", "line 1: the agent is 'ho/use'"),
        (f"basis 1 {HASH}\n", "line 1: the agent is 'basis'"),
        (f"house 0 {HASH}\n", "the child is '0': give 1 to 256"),
        (f"house 257 {HASH}\n", "the child is '257'"),
        (f"house 01 {HASH}\n", "the child is '01'"),
        ("house 1 word\n", "no SHA-256"),
        (f"house 1 {'A' * 64}\n", "no SHA-256"),
        (f"house 1 {HASH}\nhouse 2 {HASH}\n", "line 2: house has a line already"),
        (f"house 1 {HASH}\nstore 1 {HASH}\n", "line 2: child 1 is house's already"),
    ],
)
def test_a_line_that_is_none(text, why):
    with pytest.raises(BadSettings, match=why):
        entries_of(text, "agents")


@pytest.fixture
def file(tmp_path):
    return TokenFile(tmp_path / "agents")


def test_a_new_token_is_of_256_bits_and_is_not_in_the_file(file):
    token, other = file.add("house", 1), file.add("store", 2)
    assert token != other
    assert len(token) == 43
    entries = file.read()
    assert entries["house"].takes(token) and entries["store"].takes(other)
    assert not entries["house"].takes(other)
    assert token not in file.path.read_text()


def test_a_token_is_drawn_again_in_place_of_the_one_before(file):
    file.path.write_text(f"# mine\nhouse 1 {HASH}\nstore 2 {HASH}")
    os.chmod(file.path, 0o640)
    token = file.add("house", 1)
    lines = file.path.read_text().splitlines()
    assert (lines[0], lines[2]) == ("# mine", f"store 2 {HASH}")
    assert file.read()["house"].takes(token)
    file.add("mill", 3)
    assert list(file.read()) == ["house", "store", "mill"]
    assert stat.S_IMODE(file.path.stat().st_mode) == 0o640


def test_a_child_number_is_of_one_agent(file):
    file.add("house", 1)
    before = file.path.read_text()
    with pytest.raises(BadSettings, match="child 1 is house's"):
        file.add("store", 1)
    with pytest.raises(BadSettings, match="house is child 1"):
        file.add("house", 2)
    assert file.path.read_text() == before


@pytest.mark.parametrize("mask", [0o022, 0o077, 0])
def test_the_owner_of_the_folder_alone_can_read_the_file(tmp_path, mask):
    """So a hub that runs as a user of its own can read the file in its own folder, whoever drew the tokens, and by which umask."""
    folder = tmp_path / "state"
    before = os.umask(mask)
    try:
        TokenFile(folder / "tokens").add("house", 1)
        if os.geteuid() == 0:
            os.chown(folder, 12_345, 12_345)
            (folder / "tokens").unlink()
            TokenFile(folder / "tokens").add("house", 1)
            assert (folder / "tokens").stat().st_uid == 12_345
            TokenFile(folder / "tokens").add("store", 2)
        found = (folder / "tokens").stat()
        assert stat.S_IMODE(found.st_mode) == 0o600
        assert found.st_uid == folder.stat().st_uid
        path = write_token(tmp_path / "out", "house", "word")
        assert (path.read_text(), stat.S_IMODE(path.stat().st_mode)) == ("word\n", 0o600)
    finally:
        os.umask(before)


def test_no_token_counts_if_they_cannot_be_kept(file):
    file.add("house", 1)
    before = file.path.read_text()

    def fails(_):
        raise OSError("No space left on device")

    with pytest.raises(OSError, match="No space left"):
        file.draw({"house": 1, "store": 2}, fails)
    assert file.path.read_text() == before


@pytest.mark.parametrize(
    ("text", "why"),
    [("house\n", "list line 1 has 1 words"), ("\nhouse 0\n", "list line 2: the child is '0'"), ("house 1\nhouse 2\n", "list line 2: house has a line")],
)
def test_a_list_of_agents_that_is_none(text, why):
    with pytest.raises(BadSettings, match=why):
        children_in(text, "list")


def test_tokens_that_are_drawn_at_once_are_all_there(file):
    threads = [threading.Thread(target=file.add, args=(f"agent{child}", child)) for child in range(1, 17)]
    for thread in threads:
        thread.start()
    for thread in threads:
        thread.join()
    assert len(file.read()) == 16


def test_a_file_is_read_again_when_it_changes(file):
    file.path.write_text(f"house 1 {HASH}\n")
    assert list(file.changed()) == ["house"]
    assert file.changed() is None
    file.add("store", 2)
    assert list(file.changed()) == ["house", "store"]
    file.path.write_text("garbage\n")
    with pytest.raises(BadSettings):
        file.changed()
    assert file.changed() is None
    file.path.write_bytes(b"\xff\n")
    with pytest.raises(BadSettings, match="no text"):
        file.changed()


def test_eight_logins_may_fail_in_a_second():
    failed = FailedLogins()
    for second in range(FAILED):
        assert not failed.are_too_many("1.2.3.4", 10 + second / 100)
        failed.note("1.2.3.4", 10 + second / 100)
    assert failed.are_too_many("1.2.3.4", 10.99)
    assert not failed.are_too_many("1.2.3.5", 10.99)
    assert not failed.are_too_many("1.2.3.4", 11.0)
    failed.note("1.2.3.4", 11.0)
    assert failed.are_too_many("1.2.3.4", 11.005)
    assert not failed.are_too_many("1.2.3.4", 11.015)


def test_addresses_are_not_remembered_for_ever():
    failed = FailedLogins()
    for number in range(10_000):
        failed.note(f"address {number}", number / 1_000)
    assert len(failed._times) < 5_200
