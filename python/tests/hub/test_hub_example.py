"""What a user reads if a package is missing: which Python lacks it, and that an example which cannot go on ends at once."""

from __future__ import annotations

import os
import subprocess
import sys
import time

import pytest
from brokers import TOP
from logged import QUIET

from cogmaula.cluster import Basis
from cogmaula.errors import NoPackage
from cogmaula.hub import Hub, HubSettings

# A command line of the package whose Python lacks what a hub needs. It draws tokens.
LACKING = """#!/usr/bin/env bash
case "$*" in *--new-token*) cat >/dev/null; exit 0 ;; esac
echo "cogmaula: a package is lacking" >&2
exit 1
"""


def test_the_example_ends_once_a_part_has_ended(tmp_path):
    command = tmp_path / "cogmaula"
    command.write_text(LACKING)
    command.chmod(0o755)
    begin = time.monotonic()
    words = ["bash", str(TOP / "examples" / "hub" / "try.sh"), str(command)]
    told = {"stdin": subprocess.DEVNULL, "env": {**os.environ, "TMPDIR": str(tmp_path)}}
    done = subprocess.run(words, capture_output=True, text=True, timeout=40, check=False, **told)
    assert done.returncode == 1
    assert "cogmaula: a package is lacking" in done.stderr
    assert time.monotonic() - begin < 30


def test_a_package_that_is_missing_is_told_with_the_python_that_lacks_it(monkeypatch, tmp_path):
    monkeypatch.setitem(sys.modules, "websockets", None)
    told = {"state": str(tmp_path), "agents": str(tmp_path / "tokens"), "basis": Basis(0, 9, 10)}
    Hub(HubSettings(**told, listen_tcp=("127.0.0.1:0",)), QUIET)
    with pytest.raises(NoPackage) as found:
        Hub(HubSettings(**told, listen=("127.0.0.1:0",)), QUIET)
    lacks = f"the package websockets, which {sys.executable} does not have. Debian's python3-websockets is for /usr/bin/python3"
    assert str(found.value) == f"listen, other than listen_tcp, needs {lacks}"
