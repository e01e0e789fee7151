"""The hub's certificate: what is refused, and that another one counts as soon as it is there."""

from __future__ import annotations

import os
import shutil

import pytest
from brokers import Certificates

from cogmaula.hub.server import Certificate
from cogmaula.live import LiveError


@pytest.fixture
def files(tmp_path):
    """A certificate and its key under names of their own, and two pairs to copy there."""
    authority = Certificates(tmp_path / "keys")
    pairs = [authority.make(name, "127.0.0.1") for name in ("one", "other")]
    paths = (str(tmp_path / "hub.crt"), str(tmp_path / "hub.key"))
    return paths, pairs


def put(paths, certificate, key, moment):
    for source, path in zip((certificate, key), paths, strict=True):
        shutil.copy(source, path)
        os.utime(path, (moment, moment))


def test_a_certificate_that_changes_is_read_again(files):
    paths, (one, other) = files
    put(paths, *one, 1)
    found = Certificate(*paths)
    assert not found.look()
    put(paths, *other, 2)
    assert found.look()
    assert not found.look()


def test_a_wrong_pair_is_told_once_and_not_taken(files):
    paths, (one, other) = files
    put(paths, *one, 1)
    found = Certificate(*paths)
    put(paths, one[0], other[1], 2)
    with pytest.raises(LiveError, match="cannot be used: KEY_VALUES_MISMATCH"):
        found.look()
    assert not found.look()
    put(paths, *one, 3)
    assert found.look()


def test_files_that_cannot_be_read(files, tmp_path):
    paths, (one, other) = files
    with pytest.raises(LiveError, match="cannot be used: No such file"):
        Certificate(*paths)
    with pytest.raises(LiveError, match="KEY_VALUES_MISMATCH"):
        Certificate(one[0], other[1])
