#!/usr/bin/env python3
"""Builds the images of the example, and tries the market of its compose.yaml in containers, by the words of docs/OPERATE.md.

    python3 -m trials.containers PACKAGE [--root FOLDER] [--without-kills]

PACKAGE is what `make deb` makes. Podman takes the place of Docker, with a storage of its own in a temporary folder, removed in
the end. The base image debian:bookworm-slim is made by debootstrap, so no registry is asked. With --root it is made from that
folder, which has the root of a Debian 12. With --without-kills no container is killed.

Each line is what was tried, and what was seen. The status is 1 if something failed. It needs root, podman, podman-compose,
debootstrap, iptables and openssl, mosquitto_passwd of mosquitto, a way by which containers find each other by name
(golang-github-containernetworking-plugin-dnsname), and runc if the system has cgroups of version 1. It takes about five minutes.
"""

import argparse
import contextlib
import json
import os
import re
import resource
import shutil
import signal
import subprocess
import sys
import tempfile
import time
from pathlib import Path

from .found import Failed, Found, need, require, steps_of, wait_for
from .machine import CGROUPS, make_root
from .site import NODES as NODES_OF_SITE
from .site import POWER, SITE, TEXT, is_up

TOP = Path(__file__).resolve().parent.parent
BASE = "docker.io/library/debian:bookworm-slim"
ALONE = ["auctioneer", "street", "house", "store"]
NODES = [*ALONE, *NODES_OF_SITE]
# What lets containers find each other by name: one of these files.
NAMES = [Path("/usr/lib/cni/dnsname"), Path("/usr/lib/podman/aardvark-dns")]
PARTS = ["broker.example", *ALONE, SITE, "history"]
# The seconds within which anything has to come: on a machine with much else to do a command of podman-compose takes half a minute.
PATIENCE = 300
# What the official image has beyond debootstrap: no package's pages are kept, and no downloaded package.
SLIM = {
    "etc/dpkg/dpkg.cfg.d/docker": "".join(f"path-exclude /usr/share/{folder}/*\n" for folder in ("doc", "man", "locale")),
    "etc/apt/apt.conf.d/docker-clean": 'Dir::Cache::pkgcache "";\nDir::Cache::srcpkgcache "";\n'
    'DPkg::Post-Invoke { "rm -f /var/cache/apt/archives/*.deb || true"; };\n',
}
LEFT_OUT = ["usr/share/doc", "usr/share/man", "usr/share/locale", "var/lib/apt/lists", "var/cache/apt", "proc", "sys", "dev"]


class Containers:
    """The market of the example in containers, below a folder."""

    def __init__(self, folder, package):
        self.folder, self._serial = Path(folder) / "market", 0
        tree = self.folder.with_name("TREE.toml")
        tree.write_text((TOP / "examples/live/TREE.toml").read_text() + TEXT)
        words = [sys.executable, "-B", "-m", "cogmaula", "market", "init", tree, "--out", self.folder]
        subprocess.run(words, env={**os.environ, "PYTHONPATH": str(TOP / "python")}, check=True, stdout=subprocess.DEVNULL)
        shutil.copy(package, self.folder / "market.deb")
        self.steps = steps_of((TOP / "docs/OPERATE.md").read_text(), "Run it in containers")
        (self.folder.parent / "storage.conf").write_text(
            f'[storage]\ndriver = "overlay"\ngraphroot = "{folder}/storage"\nrunroot = "{folder}/run"\n'
        )
        (self.folder.parent / "containers.conf").write_text(limits_text())
        told = {"CONTAINERS_STORAGE_CONF": "storage.conf", "CONTAINERS_CONF": "containers.conf"}
        self._environment = {**os.environ, **{name: f"{folder}/{path}" for name, path in told.items()}}
        # Nothing but the file system is to be apart while an image is built.
        self._environment["BUILDAH_ISOLATION"] = "chroot"

    def run(self, command, check=True):
        """Runs a command line in the folder of the market."""
        command = command.replace("docker compose run", "podman-compose run --no-deps").replace("docker compose", "podman-compose")
        words = ["bash", "-e", "-c", command]
        done = subprocess.run(
            words, cwd=self.folder, env=self._environment, capture_output=True, text=True, check=False, stdin=subprocess.DEVNULL
        )
        if check and done.returncode != 0:
            raise Failed(f"{command}: status {done.returncode}\n{(done.stderr.strip() or done.stdout.strip())[-2000:]}")
        return done.stdout

    def make_base(self, root):
        """Makes the base image from the root of a Debian."""
        without = " ".join(f"--exclude=./{folder}/*" for folder in LEFT_OUT)
        more = self.folder.parent / "slim"
        for name, text in SLIM.items():
            (more / name).parent.mkdir(parents=True)
            (more / name).write_text(text)
        self.run(f"tar -C {root} {without} -cf ../base.tar .")
        self.run(f"tar -C {more} -rf ../base.tar {' '.join(SLIM)}")
        self.run(f"podman import -q ../base.tar {BASE}")
        (self.folder.parent / "base.tar").unlink()
        return f"{BASE} by debootstrap, {self.size(BASE)}"

    def size(self, image):
        """The size of an image, in words."""
        return f"{int(self.run(f'podman image inspect -f {{{{.Size}}}} {image}')) / 1e6:.0f} MB"

    def build(self):
        """Does the steps of the page up to the start. Gives the sizes."""
        self.run(self.steps[1])
        began = time.monotonic()
        self.run("podman-compose build")
        took = time.monotonic() - began
        return f"after {took:.0f} s: market-node {self.size('market-node')}, market-broker {self.size('market-broker')}"

    def start(self):
        """Starts the market by the word of the page, and waits until all are up."""
        began = time.monotonic()
        self.run(self.steps[2])
        self.wait_for_all()
        return f"all states are up {time.monotonic() - began:.1f} s after the command"

    def told(self):
        """The newest state and setpoint of each node, and the state of the site, by topic."""
        words = self.steps[4].replace("-v ", "-v --retained-only -W 2 -t 'market/+/site' ")
        found = {}
        for line in self.run(words, False).splitlines():
            topic, _, text = line.partition(" ")
            with contextlib.suppress(ValueError):
                found[topic.removeprefix("market/")] = json.loads(text)
        return found

    def wait_for_all(self):
        """Waits until all nodes say that they are up. Who does not is told with the last lines of all containers."""
        try:
            wait_for(lambda: not self._lacking(), PATIENCE, "not all are up")
        except Failed as error:
            lines = self.run("podman-compose logs 2>&1 | tail -40", False)
            raise Failed(f"{error}: {', '.join(self._lacking())}\n{lines}") from None

    def _lacking(self):
        """The nodes that do not say that they are up."""
        told = self.told()
        return [name for name in NODES if not is_up(told.get(f"{name}/state", {}), told.get(f"{SITE}/site", {}))]

    def offer(self):
        """Lets the store offer another power by the word of the page, and waits until it is told that."""
        self._serial += 1
        power = -150 - len(NODES_OF_SITE) * POWER - self._serial
        began = time.monotonic()
        self.run(self.steps[3].replace("-150", str(power)))
        for name, watts in {"house": 100, **dict.fromkeys(NODES_OF_SITE, POWER)}.items():
            words = self.steps[3].replace("store.control", f"{name}.control").replace("store/", f"{name}/")
            self.run(re.sub(r"\[.*?\]", str([watts] * 10), words).replace('"power"', f'"reference": {self._serial}, "power"'))
        told = wait_for(lambda: self._setpoint(power), PATIENCE, f"the store is not told {power} W")
        for name in NODES_OF_SITE:
            has_heard = lambda name=name: self.told().get(f"{name}/setpoint", {}).get("reference") == self._serial  # noqa: E731
            wait_for(has_heard, PATIENCE, f"{name} is not told its setpoint")
        return f"told {json.dumps(told)} after {time.monotonic() - began:.1f} s"

    def _setpoint(self, power):
        told = self.told().get("store/setpoint", {})
        return told if told.get("power") == power else None

    def container(self, part):
        """The name of a part's container."""
        return self.run(f"podman ps -a --format '{{{{.Names}}}}' | grep _{part}_").strip()

    def process(self, part):
        """The number of a container's first process, 0 if it does not run."""
        return int(self.run(f"podman inspect -f '{{{{.State.Pid}}}}' {self.container(part)}"))

    def killed(self, part):
        """Kills a container's first process, and with it the container, as a crash does."""
        old = self.process(part)
        began = time.monotonic()
        os.kill(old, signal.SIGKILL)
        wait_for(lambda: self.process(part) not in (0, old), PATIENCE, "it is not started again")
        took = time.monotonic() - began
        self.wait_for_all()
        return f"started again after {took:.1f} s; the store is {self.offer()}"

    def goes_on(self):
        """Ends all containers and starts them again, with what their volumes keep."""
        before = self.told()["store/setpoint"]
        self.run("podman-compose down")
        self.run(self.steps[2])
        self.wait_for_all()
        told = self.offer()
        after = self.told()["store/setpoint"]
        was, now = ([setpoint["clearing"], setpoint["bid"]] for setpoint in (before, after))
        require(now[0] > was[0] and now[1] > was[1], f"{after} is not behind {before}")
        return f"clearing {now[0]} and bid {now[1]} after {was[0]} and {was[1]}; the store is {told}"

    def stopped(self):
        """Stops a node's container."""
        name = self.container("house")
        began = time.monotonic()
        self.run(f"podman stop -t 10 {name}")
        took = time.monotonic() - began
        told = wait_for(lambda: (state := self.told()["house/state"])["state"] == "down" and state, 5, "the broker does not say down")
        status = self.run(f"podman inspect -f '{{{{.State.ExitCode}}}}' {name}").strip()
        require((told["why"], status) == ("stopped", "0"), f"status {status}, {told}")
        return f"status 0 and down after {took:.1f} s"

    def keeps_history(self):
        """That the history has what the store was told today."""
        words = f"cogmaula history --to sqlite:////var/lib/market/market.db --day {time.strftime('%Y-%m-%d')}"
        told = wait_for(lambda: "store," in (rows := self.run(f"podman exec {self.container('history')} {words}", False)) and rows, PATIENCE, "no row")
        return " ".join(told.split())

    def secrets_are_apart(self):
        """That a node has no password but its own, no right to write, and no privilege."""
        words = "id -u; cd /etc/market; echo *; grep CapEff /proc/self/status; ! touch /x"
        seen = self.run(f"podman exec {self.container('street')} sh -c '{words}'")
        require("house.password" not in seen and "CapEff:\t0000000000000000" in seen and "1883" in seen, seen)
        return " ".join(seen.split())

    def end(self):
        """Removes all containers, volumes, images and networks of the trial."""
        self.run("podman-compose down --volumes; podman rm -fa -t 1; podman rmi -fa", False)
        self.run("podman network rm -f market_default", False)


def try_containers(found, containers, killed):
    """The containers that run. Those of the parts `killed` are killed."""
    found.part("offers", containers.offer)
    found.part("the history keeps it", containers.keeps_history)
    found.part("secrets are apart", containers.secrets_are_apart)
    for part in killed:
        found.part(f"the container of {part} is killed", lambda part_name=part: containers.killed(part_name))
    found.part("all containers are made anew", containers.goes_on)
    found.part("a container is stopped", containers.stopped)


def limits_text():
    """The settings of podman for this system: no limit is raised, and crun takes no cgroups of two versions."""
    nofile, nproc = (min(4096, resource.getrlimit(limit)[1]) for limit in (resource.RLIMIT_NOFILE, resource.RLIMIT_NPROC))
    text = f'[containers]\ndefault_ulimits = ["nofile={nofile}:{nofile}", "nproc={nproc}:{nproc}"]\n'
    text += '[engine]\ncgroup_manager = "cgroupfs"\n'
    return text if (CGROUPS / "cgroup.procs").exists() else text + 'runtime = "runc"\n'


def main():
    parser = argparse.ArgumentParser(description=__doc__.splitlines()[0])
    parser.add_argument("package", help="the Debian package of make deb")
    parser.add_argument("--root", help="a folder with the root of a Debian 12, for the base image")
    parser.add_argument("--without-kills", action="store_true", help="kill no container")
    arguments = parser.parse_args()
    os.environ["PATH"] += ":/usr/sbin"
    tools = ["podman", "podman-compose", "debootstrap", "iptables", "openssl", "mosquitto_passwd"]
    tools += [] if (CGROUPS / "cgroup.procs").exists() else ["runc"]
    need(
        (os.getuid() == 0, "root: run it as root"),
        (Path(arguments.package).is_file(), f"{arguments.package}: make deb makes it"),
        *((shutil.which(tool), f"{tool}: install its package") for tool in tools),
        (any(path.exists() for path in NAMES), "names of containers: install golang-github-containernetworking-plugin-dnsname"),
    )
    signal.signal(signal.SIGTERM, lambda *_: sys.exit(1))
    found = Found()
    with tempfile.TemporaryDirectory(prefix="containers.") as folder:
        containers = Containers(folder, arguments.package)
        try:
            if arguments.root is None:
                make_root(Path(folder) / "root", "ca-certificates")
            if (
                found.part("the base image", lambda: containers.make_base(arguments.root or f"{folder}/root"))
                and found.part("the images, by the words of OPERATE.md", containers.build)
                and found.part("the market of compose.yaml", containers.start)
            ):
                try_containers(found, containers, [] if arguments.without_kills else PARTS)
        finally:
            containers.end()
    return min(found.failed, 1)


if __name__ == "__main__":
    sys.exit(main())
