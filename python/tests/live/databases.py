"""Databases that tests of a history keep it in: a file of SQLite, and a server of PostgreSQL at loopback."""

from __future__ import annotations

import os
import random
import shutil
import subprocess
import tempfile
from pathlib import Path

import pytest
from brokers import free_port

POSTGRES = Path("/usr/lib/postgresql/15/bin")


@pytest.fixture(scope="session")
def postgres():
    """The URL of a server of PostgreSQL at loopback, by a folder of its own."""
    pytest.importorskip("psycopg", reason="apt-get install python3-psycopg")
    if not (POSTGRES / "initdb").exists() or os.getuid() != 0:
        pytest.skip("PostgreSQL is not installed, or this is not root: apt-get install postgresql")
    # Not below a folder of pytest, which root alone may enter.
    folder, port = Path(tempfile.mkdtemp(prefix="market-")), free_port()
    shutil.chown(folder, "postgres")

    def run(*words):
        subprocess.run(["runuser", "-u", "postgres", "--", *map(str, words)], check=True, capture_output=True, cwd="/", timeout=60)

    run(POSTGRES / "initdb", "-D", folder / "data", "--auth=trust", "--no-sync")
    more = f"-c listen_addresses=127.0.0.1 -p {port} -c unix_socket_directories={folder} -c fsync=off"
    run(POSTGRES / "pg_ctl", "-D", folder / "data", "-w", "-o", more, "-l", folder / "log", "start")
    yield f"postgresql://postgres@127.0.0.1:{port}/"
    run(POSTGRES / "pg_ctl", "-D", folder / "data", "-w", "-m", "immediate", "stop")
    shutil.rmtree(folder)


@pytest.fixture(params=["sqlite", "postgresql"])
def url(request, tmp_path):
    """The URL of an empty database."""
    if request.param == "sqlite":
        return f"sqlite:///{tmp_path}/market.db"
    server = request.getfixturevalue("postgres")
    import psycopg

    name = f"market{random.randrange(10**9)}"
    with psycopg.connect(f"{server}postgres", autocommit=True) as connection:
        connection.execute(f"CREATE DATABASE {name}")
    return server + name
