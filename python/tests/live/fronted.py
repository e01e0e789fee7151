"""A market that `cogmaula market init` made for this machine, with haproxy before its broker."""

from __future__ import annotations

import shutil
import socket
import ssl
import subprocess
import tempfile
from pathlib import Path

import pytest
from brokers import free_port, wait_until
from made import TREE, MadeMarket

HAPROXY = shutil.which("haproxy") or shutil.which("haproxy", path="/usr/sbin")


def require_front():
    """Skips the test without haproxy."""
    if HAPROXY is None:
        pytest.skip("haproxy is not installed: apt-get install haproxy")


class FrontedMarket(MadeMarket):
    """A market whose broker is behind haproxy, in a folder whose sockets have short names."""

    def __init__(self, path=TREE, **broker):
        self._folder = Path(tempfile.mkdtemp(prefix="m"))
        self.control_port = free_port()
        super().__init__(self._folder, path, front=True, control_port=self.control_port, **broker)

    def __enter__(self):
        super().__enter__()
        words = [HAPROXY, "-db", "-f", str(self.out / "broker" / "haproxy.cfg")]
        with open(self.out / "front", "wb") as log:
            self.front = subprocess.Popen(words, stdout=log, stderr=log)
        wait_until(lambda: self._listens(self.control_port), f"haproxy listens: {self.front_log}")
        return self

    def __exit__(self, *words):
        super().__exit__(*words)
        self.front.kill()
        self.front.wait()
        shutil.rmtree(self._folder)

    @property
    def front_log(self):
        return (self.out / "front").read_text()

    @staticmethod
    def _listens(port):
        with socket.socket() as one:
            return one.connect_ex(("127.0.0.1", port)) == 0

    def silent(self, source, port=None, tls=False):
        """A connection from an address of this machine that says nothing; with TLS, if asked for. None if it was refused."""
        one = socket.socket()
        one.bind((source, 0))
        one.settimeout(10)
        try:
            one.connect(("127.0.0.1", port or self.port))
            if tls:
                context = ssl.create_default_context(cafile=str(self.out / "broker" / "ca.crt"))
                one = context.wrap_socket(one, server_hostname="127.0.0.1")
        except OSError:
            one.close()
            return None
        return one


def has_ended(one):
    """Whether the other side has ended a connection."""
    one.setblocking(False)
    try:
        return one.recv(1) == b""
    except (BlockingIOError, ssl.SSLWantReadError):
        return False
    except OSError:
        return True
