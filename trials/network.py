"""A network of this machine alone: a namespace for each part of a market, joined by a bridge, or by a wire that fails.

It needs root and iproute2. A namespace has the number of the process that made it in its name. So a run removes what a killed
one has left.
"""

import os
import re
import signal
import subprocess
import time
from pathlib import Path

SPACES = Path("/run/netns")
NAME = re.compile(r"cogmaula-([0-9]+)-.*")
LAST_SECONDS = 10
PORT, TLS_PORT = 1883, 8883


def ip(*words):
    """Runs `ip`. Its own line of an error is the one that is raised."""
    done = subprocess.run(["ip", *words], capture_output=True, text=True, check=False)
    if done.returncode != 0:
        raise OSError(f"ip {' '.join(words)}: {done.stderr.strip()}")
    return done.stdout


def remove_leftovers():
    """Removes the namespaces of runs that live no more, with what runs in them."""
    for space in sorted(path.name for path in SPACES.iterdir()) if SPACES.exists() else []:
        found = NAME.fullmatch(space)
        if found and not os.path.exists(f"/proc/{found[1]}"):
            remove(space)


def remove(space):
    """Ends what runs in a namespace, and removes it."""
    for number in ip("netns", "pids", space).split():
        try:
            os.kill(int(number), signal.SIGKILL)
        except ProcessLookupError:
            pass
    ip("netns", "del", space)


class Network:
    """Namespaces with an address each. Without a wire a bridge of the kernel joins them."""

    def __init__(self, wire=None):
        remove_leftovers()
        self.wire = wire
        self.addresses, self.processes = {}, []
        self._hub = self._made("hub")
        ip("-n", self._hub, "link", "add", "bridge", "type", "bridge")
        ip("-n", self._hub, "link", "set", "bridge", "up")

    @staticmethod
    def _space(name):
        return f"cogmaula-{os.getpid()}-{name}"

    def _made(self, name):
        space = self._space(name)
        ip("netns", "add", space)
        ip("-n", space, "link", "set", "lo", "up")
        return space

    def add(self, name):
        """Makes the namespace of a part."""
        number = len(self.addresses) + 1
        space = self._made(name)
        if self.wire is None:
            ip("-n", space, "link", "add", "eth0", "type", "veth", "peer", "name", f"to{number}", "netns", self._hub)
            ip("-n", self._hub, "link", "set", f"to{number}", "master", "bridge", "up")
        else:
            ip("link", "set", self.wire.add(name), "netns", space, "name", "eth0")
        self.addresses[name] = f"10.77.{number // 250}.{number % 250 + 1}"
        ip("-n", space, "address", "add", f"{self.addresses[name]}/16", "dev", "eth0")
        ip("-n", space, "link", "set", "eth0", "up")

    def start(self, name, command, **more):
        """Starts a process in a namespace. The number is that of the command itself."""
        found = subprocess.Popen(["ip", "netns", "exec", self._space(name), *command], **more)
        self.processes.append(found)
        return found

    def __enter__(self):
        return self

    def __exit__(self, *_):
        """Ends what runs in the namespaces, and removes them."""
        for process in self.processes:
            if process.stdin is not None:
                try:
                    process.stdin.close()
                except OSError:
                    pass
        end = time.monotonic() + LAST_SECONDS
        for process in reversed(self.processes):
            if process.poll() is None:
                process.terminate()
        for process in self.processes:
            try:
                process.wait(max(0.1, end - time.monotonic()))
            except subprocess.TimeoutExpired:
                process.kill()
                process.wait()
        for name in [*self.addresses, "hub"]:
            remove(self._space(name))


class Mosquitto:
    """A mosquitto in a namespace of its own, which may be killed and started again.

    With `certify`, which puts broker.crt and broker.key for an address into a folder, it also listens with TLS.
    """

    def __init__(self, network, folder, *lines, name="broker", certify=None):
        self._network, self._folder, self._name = network, Path(folder), name
        self._folder.mkdir(parents=True)
        network.add(name)
        self.address = network.addresses[name]
        first = [f"listener {PORT} 0.0.0.0", "allow_anonymous true", "user root", "log_dest file " + str(self._log)]
        if certify is not None:
            certify(self._folder, self.address)
            files = [f"{word}file {self._folder}/broker.{ending}" for word, ending in (("cert", "crt"), ("key", "key"))]
            first = [f"listener {TLS_PORT} 0.0.0.0", *files, *first]
        (self._folder / "mosquitto.conf").write_text("\n".join([*first, *lines]) + "\n")
        self.process = None

    @property
    def _log(self):
        return self._folder / "log"

    def start(self):
        """Starts it, and waits until it listens."""
        before = self._starts()
        command = ["mosquitto", "-c", str(self._folder / "mosquitto.conf")]
        self.process = self._network.start(self._name, command, stderr=subprocess.DEVNULL)
        while self._starts() == before:
            if self.process.poll() is not None:
                raise OSError(f"mosquitto has ended with status {self.process.returncode}: look at {self._log}")
            time.sleep(0.02)
        return self

    def _starts(self):
        return self._log.read_text().count(" running\n") if self._log.exists() else 0

    def kill(self):
        """Ends it at once."""
        self.process.kill()
        self.process.wait()
