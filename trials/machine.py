"""A machine of Debian 12 with systemd of its own, for trials: a folder with a root, booted by systemd-nspawn, on loopback alone.

It needs root, debootstrap and systemd-container, and systemd need not run outside. If the system outside has cgroups of version
1, systemd-nspawn hands them in read-only. They are made writable then, so that systemd can keep the limits of memory and tasks.
"""

import contextlib
import os
import signal
import subprocess
from pathlib import Path

from bench.live_parts import children_of

from .found import Failed, wait_for

MIRROR = "http://deb.debian.org/debian"
CGROUPS = Path("/sys/fs/cgroup")
# Without systemd outside there is no unit to make, and cgroups are made here.
ALONE = [] if Path("/run/systemd/system").exists() else ["--keep-unit"]
# Limits that are writable within, if they are of version 1.
WRITABLE = "for it in memory pids devices; do mount -o remount,bind,rw /sys/fs/cgroup/$it; done; systemctl daemon-reexec"


def make_root(root, *packages):
    """Makes the root of a Debian 12 with these packages."""
    told = ["--variant=minbase", f"--include={','.join(packages)}", "bookworm", str(root), MIRROR]
    subprocess.run(["debootstrap", *told], check=True, stdout=subprocess.DEVNULL)


class Machine:
    """A machine that is booted and stopped, with its root in a folder."""

    def __init__(self, root):
        self.root = Path(root)
        self._nspawn = self._init = None
        self._started = []
        tops = [CGROUPS] if (CGROUPS / "cgroup.procs").exists() else sorted(CGROUPS.iterdir())
        self._groups = [top / f"cogmaula-{os.getpid()}" for top in tops] if ALONE else []

    def boot(self, seconds=120):
        """Boots it, and waits until systemd says that all has started."""
        words = ["systemd-nspawn", "--boot", "--quiet", "--register=no", "--private-network", "--console=pipe", *ALONE]
        with open(f"{self.root}.console", "ab") as console:
            told = {"stdin": subprocess.DEVNULL, "stdout": console, "stderr": console}
            told |= {"preexec_fn": self._enter, "start_new_session": True}
            self._nspawn = subprocess.Popen([*words, "-D", str(self.root)], **told)
        wait_for(self._has_booted, seconds, f"no boot: look at {self.root}.console")
        self._let_limit()

    def _let_limit(self):
        if not (self._init_root / "sys/fs/cgroup/cgroup.controllers").exists():
            self.run(WRITABLE)

    def _enter(self):
        """Takes the process to cgroups of its own, that are removed in the end."""
        for group in self._groups:
            with contextlib.suppress(OSError):
                group.mkdir(exist_ok=True)
                (group / "cgroup.procs").write_text(str(os.getpid()))

    @property
    def _init_root(self):
        return Path(f"/proc/{self._init}/root")

    def _has_booted(self):
        self._init = next(iter(children_of(self._nspawn.pid)), None) if self._nspawn.poll() is None else None
        if self._init is None or not (self._init_root / "run/systemd/private").exists():
            return False
        return self.run("systemctl is-system-running", check=False).stdout.strip() in ("running", "degraded")

    def _words(self, command):
        return ["nsenter", "--target", str(self._init), "--all", "--root", "--wd", "bash", "-c", command]

    def run(self, command, check=True, **more):
        """Runs a command line of bash within."""
        done = subprocess.run(self._words(command), capture_output=True, text=True, check=False, stdin=subprocess.DEVNULL, **more)
        if check and done.returncode != 0:
            raise Failed(f"{command}: status {done.returncode}\n{done.stderr.strip() or done.stdout.strip()}")
        return done

    def start(self, name, command, **more):
        """Starts a command line of bash within. `end` ends it by its name."""
        self._started.append(name)
        return subprocess.Popen(self._words(f"echo $$ >/run/{name}.started; {command}"), text=True, **more)

    def end(self, name):
        """Ends what `start` has started, if it still runs."""
        self.run(f"kill $(cat /run/{name}.started)", check=False)

    def stop(self, seconds=60):
        """Stops the machine as its operator would, and ends it if it does not stop."""
        if self._nspawn is None:
            return
        # The machine would wait for what has come from outside.
        while self._started:
            self.end(self._started.pop())
        with contextlib.suppress(Failed):
            self.run("systemctl poweroff --no-block")
        try:
            self._nspawn.wait(seconds)
        except subprocess.TimeoutExpired:
            for number in (self._nspawn.pid, self._init):
                with contextlib.suppress(ProcessLookupError):
                    os.kill(number, signal.SIGKILL)
            self._nspawn.wait()
        self._nspawn = None
        wait_for(lambda: not any(self._is_left(group) for group in self._groups), seconds, "its cgroups cannot be removed")

    @staticmethod
    def _is_left(group):
        """Removes a cgroup with those below it. One whose processes have just ended may be left."""
        for folder, _, _ in os.walk(group, topdown=False):
            with contextlib.suppress(OSError):
                os.rmdir(folder)
        return group.exists()
