"""A real mosquitto that a test starts on a free port of this machine, with logins, rights or TLS, and clients that look on.

Certificates are made by openssl, anew in each run. Without mosquitto, paho or the program `live` the tests are skipped.
"""

from __future__ import annotations

import os
import random
import shutil
import socket
import subprocess
import time
from pathlib import Path

import pytest

from cogmaula.program import live_command

TOP = Path(__file__).resolve().parents[3]
MOSQUITTO = shutil.which("mosquitto") or shutil.which("mosquitto", path="/usr/sbin")
SECONDS = int(os.environ.get("TEST_SECONDS", "60"))
# The ports that this process gave, and how many processes share all ports.
GIVEN: set[int] = set()
PROCESSES = 16


def require_broker():
    """Skips the test if no broker or no client is installed."""
    if MOSQUITTO is None:
        pytest.skip("mosquitto is not installed: apt-get install mosquitto")
    pytest.importorskip("paho.mqtt.client", reason="paho is not installed: apt-get install python3-paho-mqtt")


def live_program():
    """The path of the program `live`. Skips the test if there is none."""
    path = shutil.which(live_command())
    if path is None:
        pytest.skip("no program live of these sources is at hand: ./market prove live makes it")
    return path


def free_port():
    """A port at which nobody listens, and which no other test was given.

    It is below those that connections get, so a server that comes back has it again. While it is down nobody else may take it:
    this process gives no port twice, and processes of tests that run beside each other have different ports, by their numbers.
    """
    own = range(10_000 + os.getpid() % PROCESSES, 32_768, PROCESSES)
    for port in random.sample(own, len(own)):
        if port in GIVEN:
            continue
        with socket.socket() as one:
            try:
                one.bind(("127.0.0.1", port))
            except OSError:
                continue
            GIVEN.add(port)
            return port
    raise OSError("no free port was found")


def wait_until(holds, what, seconds=SECONDS):
    """Waits until a condition holds."""
    end = time.monotonic() + seconds
    while not holds():
        assert time.monotonic() < end, f"after {seconds} s: {what}"
        time.sleep(0.02)


class Mosquitto:
    """A broker of a test. It may be ended and started again, with what it keeps or without."""

    def __init__(self, folder, *lines, port=None):
        self.folder, self.port = Path(folder), port or free_port()
        self.folder.mkdir(parents=True, exist_ok=True)
        # The broker keeps its user: it must read the keys of the test, which are of the one who runs it.
        first = [f"listener {self.port} 127.0.0.1", "user root"]
        if not any(line.startswith(("password_file", "allow_anonymous")) for line in lines):
            first.append("allow_anonymous true")
        (self.folder / "mosquitto.conf").write_text("\n".join([*first, *lines]) + "\n")
        self.process = None

    def start(self):
        with open(self.folder / "log", "ab") as log:
            self.process = subprocess.Popen([MOSQUITTO, "-c", str(self.folder / "mosquitto.conf")], stdout=log, stderr=log)
        wait_until(self._listens, "mosquitto does not listen")
        return self

    def _listens(self):
        with socket.socket() as one:
            return one.connect_ex(("127.0.0.1", self.port)) == 0

    def kill(self):
        self.process.kill()
        self.process.wait()

    def stop(self):
        if self.process is not None and self.process.poll() is None:
            self.process.terminate()
            self.process.wait()

    __enter__ = start

    def __exit__(self, *_):
        self.stop()


def passwords(folder, **users):
    """A file of logins, each with its password."""
    path = Path(folder) / "passwords"
    path.touch(mode=0o600)
    for user, password in users.items():
        subprocess.run(["mosquitto_passwd", "-b", str(path), user, password], check=True, capture_output=True)
    return path


class Certificates:
    """A CA, and certificates that it signed, in a folder."""

    def __init__(self, folder, name="ca"):
        self.folder, self.name = Path(folder), name
        self.folder.mkdir(parents=True, exist_ok=True)
        words = ["req", "-x509", "-newkey", "ec", "-pkeyopt", "ec_paramgen_curve:P-256", "-nodes", "-days", "2", "-subj", f"/CN={name}"]
        self._openssl(*words, "-keyout", self.path(name, "key"), "-out", self.path(name, "crt"))

    @property
    def ca(self):
        return self.path(self.name, "crt")

    def path(self, name, kind):
        return str(self.folder / f"{name}.{kind}")

    def make(self, name, host=None):
        """Signs a certificate, of a host if one is given, and gives its file and that of its key."""
        words = ["req", "-new", "-newkey", "ec", "-pkeyopt", "ec_paramgen_curve:P-256", "-nodes", "-subj", f"/CN={name}"]
        self._openssl(*words, "-keyout", self.path(name, "key"), "-out", self.path(name, "csr"))
        more = []
        if host is not None:
            kind = "IP" if host[0].isdigit() else "DNS"
            Path(self.path(name, "ext")).write_text(f"subjectAltName={kind}:{host}\n")
            more = ["-extfile", self.path(name, "ext")]
        signed = ["-CA", self.ca, "-CAkey", self.path(self.name, "key"), "-CAcreateserial", "-days", "2", *more]
        self._openssl("x509", "-req", "-in", self.path(name, "csr"), *signed, "-out", self.path(name, "crt"))
        return self.path(name, "crt"), self.path(name, "key")

    @staticmethod
    def _openssl(*words):
        subprocess.run(["openssl", *words], check=True, capture_output=True)


class Onlooker:
    """A client that keeps all messages of some topics: the newest payload and properties of each, and all payloads in order."""

    def __init__(self, port, *topics, prefix="market"):
        import paho.mqtt.client as mqtt

        self.newest, self.all = {}, []
        first = (mqtt.CallbackAPIVersion.VERSION1,) if hasattr(mqtt, "CallbackAPIVersion") else ()
        self.client = mqtt.Client(*first, protocol=mqtt.MQTTv5)
        self.client.reconnect_delay_set(0.1, 0.2)
        self.client.on_connect = lambda client, *_: client.subscribe([(topic, 1) for topic in topics or [f"{prefix}/#"]])
        self.client.on_message = self._take
        self.client.connect("127.0.0.1", port)
        self.client.loop_start()

    def _take(self, _client, _data, message):
        properties = dict(getattr(message.properties, "UserProperty", []))
        self.newest[message.topic] = (message.payload, properties)
        self.all.append((message.topic, message.payload, properties))

    def payload(self, topic):
        return self.newest.get(topic, (b"", {}))[0]

    def publish(self, topic, payload, retain=True, **properties):
        from paho.mqtt.packettypes import PacketTypes
        from paho.mqtt.properties import Properties

        told = Properties(PacketTypes.PUBLISH)
        for name, value in properties.items():
            setattr(told, name, value)
        self.client.publish(topic, payload, 1, retain, told).wait_for_publish(SECONDS)

    def __enter__(self):
        return self

    def __exit__(self, *_):
        self.client.disconnect()
        self.client.loop_stop()
