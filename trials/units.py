#!/usr/bin/env python3
"""Tries the units of the nodes and of the hub under systemd, in a machine of its own, by the words of the installed pages.

    python3 -m trials.units PACKAGE [--root FOLDER] [--only nodes|hub]

PACKAGE is what `make deb` makes. The machine is a Debian 12 in a temporary folder, booted by systemd-nspawn, and removed in
the end. With --root its files are copied from that folder, which is made first if it is missing, and kept. All nodes of the
example are on this one machine, and a site of two further devices.

Each line is what was tried, and what was seen. The settings that pages print are tried under the units, and the hub with umask
077. The status is 1 if something failed. It needs root, debootstrap and systemd-container, and takes about five minutes.
"""

import argparse
import json
import os
import re
import shutil
import signal
import subprocess
import sys
import tempfile
import threading
import time
from pathlib import Path

from .found import Failed, Found, block_of, need, require, steps_of, wait_for, with_settings
from .machine import Machine, make_root
from .site import NODES as NODES_OF_SITE
from .site import POWER, SITE, TEXT, is_up

PACKAGES = ["systemd-sysv", "dbus", "python3", "python3-paho-mqtt", "python3-websockets"]
PACKAGES += ["mosquitto", "mosquitto-clients", "haproxy", "openssl", "socat", "postgresql", "python3-psycopg", "libnss-systemd"]
DOCS = "/usr/share/doc/market"
NODES = {"auctioneer": "auctioneer", "street": "relay", "house": "device", "store": "device"}
# What has a unit, by the page's way to make it.
WITH_UNIT = [*NODES, SITE]
# Where a Resume has the index of the newest clearing.
INDEX = {"auctioneer": 1, "relay": 9, "device": 5}
PATIENCE = 60
LOGIN = "XDG_CONFIG_HOME=/etc/market/{0}"
# The login that keeps the history in PostgreSQL, where the user of its unit logs in by the socket, and the server on Debian 12.
SERVED, SERVER = "served", "postgresql@15-main"
SERVED_UNIT = f"market-history-{SERVED}"
SERVED_LOGIN = f"""
[logins.{SERVED}]
role = "reader"
database = "postgresql://{SERVED_UNIT}@/market?host=/run/postgresql"
"""


class Market:
    """The market of the example on one machine, and what an operator hears at its broker."""

    def __init__(self, machine):
        self.machine, self.heard, self._serial = machine, {}, 0

    def set_up(self):
        """Does what the page says. All nodes are on this machine."""
        steps = steps_of(self.machine.run(f"cat {DOCS}/OPERATE.md").stdout, "Deploy it on three machines")
        self.run(f"cp {DOCS}/examples/live/* .")
        # The packages are there.
        self.run("sed -i 's/^.auctioneer.$/&\\npage = \"127.0.0.1:8080\"/' TREE.toml")
        self.run(f"cat >>TREE.toml <<'end'{SERVED_LOGIN}{TEXT}end")
        self.run(steps[2])
        controls = [f"{name}.control" for name in ("house", "store", *NODES_OF_SITE)]
        for name in ("broker", *WITH_UNIT, "operator", *controls, "history"):
            self.run(f"cd market; {steps[3].replace('street', name)}")
        self._steps = steps
        self.listen()
        self.all_are_up()
        took = self._since_start()
        told = self.run(steps[5]).strip()
        return f"all states are up {took:.1f} s after the first unit began; the store is told {told}"

    def run(self, command):
        """Runs a command line in the operator's folder."""
        return self.machine.run(f"set -e; mkdir -p /root/market && cd /root/market\n{command}").stdout

    def install(self, name):
        """Does what the page says with the folder of one more login."""
        self.run(f"cd market; {self._steps[3].replace('street', name)}")

    def _since_start(self):
        began = self.machine.run(f"systemctl show -P ActiveEnterTimestampMonotonic {unit_of('auctioneer')}").stdout
        return time.clock_gettime(time.CLOCK_MONOTONIC) - int(began) / 1e6

    def listen(self):
        """Hears all topics from now on."""
        self.heard = {}
        words = f"{LOGIN.format('operator')} exec mosquitto_sub -F '%t %x' -t 'market/#'"
        process = self.machine.start("operator", words, stdout=-1)
        threading.Thread(target=self._read, args=(process.stdout,), daemon=True).start()

    def _read(self, lines):
        for line in lines:
            topic, _, payload = line.strip().partition(" ")
            self.heard[topic] = bytes.fromhex(payload)

    def told(self, topic):
        """The newest JSON of a topic, {} without one."""
        return json.loads(self.heard.get(f"market/{topic}") or b"{}")

    def state(self, name):
        """What a node or the site says of itself."""
        return self.told(f"{name}/site" if name == SITE else f"{name}/state")

    def is_up(self, name, other=""):
        """Whether a node is up, or the site with all of its nodes, in another process than that of the run."""
        told, site = self.state(name), self.state(SITE)
        if name == SITE and not all(is_up(self.state(node), site) for node in NODES_OF_SITE):
            return False
        return is_up(told, site) and told["run"] != other

    def all_are_up(self):
        """Waits until all are up."""
        for name in WITH_UNIT:
            wait_for(lambda unit=name: self.is_up(unit), PATIENCE, f"{name} is not up")

    def index(self, name):
        """The index of the newest clearing that a node's Resume has; of the site, that of its first node."""
        name = next(iter(NODES_OF_SITE)) if name == SITE else name
        at = INDEX[{**NODES, **NODES_OF_SITE}[name]]
        return int.from_bytes(self.heard.get(f"market/{name}/resume", b"")[at : at + 4], "big")

    def offer(self):
        """Lets the store offer another power, and waits until it is told that. Gives the setpoint."""
        self._serial += 1
        power = -100 - len(NODES_OF_SITE) * POWER - self._serial
        others = {"house": 100, **dict.fromkeys(NODES_OF_SITE, POWER)}
        before = {name: self.told(f"{name}/setpoint").get("clearing", 0) for name in others}
        for name, demands in {**{name: [watts] * 10 for name, watts in others.items()}, "store": [0] * 4 + [power] * 6}.items():
            text = json.dumps({"power": demands, "reference": self._serial})
            self.run(f"{LOGIN.format(f'{name}.control')} mosquitto_pub -r -t market/{name}/offer -m '{text}'")
        wait_for(lambda: self.told("store/setpoint").get("power") == power, PATIENCE, f"the store is not told {power} W")
        told = self.told("store/setpoint")
        for name, clearing in before.items():
            heard = lambda name=name, clearing=clearing: self.told(f"{name}/setpoint").get("clearing", 0) > clearing  # noqa: E731
            wait_for(heard, PATIENCE, f"{name} is told nothing")
        require(told["step"] == 4, f"the clearing is not at step 4: {told}")
        return told


def unit_of(name):
    """The unit of a node, of the site or of the hub."""
    return {"hub": "market-hub", SITE: f"market-site-{SITE}"}.get(name, f"market-node-{name}")


class Units:
    """What systemd says of the units, and does with them."""

    def __init__(self, machine):
        self._machine = machine

    def do(self, command, name, check=True):
        """Lets systemctl do something with a unit, and gives what it says."""
        return self._machine.run(f"systemctl {command} {unit_of(name)}", check).stdout.strip()

    def show(self, name, what):
        """A property of a unit."""
        return self.do(f"show -P {what}", name)

    def services_of(self, name):
        """The numbers of the processes of live, below that of the unit."""
        return self._machine.run(f"cat /proc/{self.show(name, 'MainPID')}/task/*/children", False).stdout.split()

    def journal(self, name):
        """The lines of a unit in the journal."""
        return self._machine.run(f"journalctl --no-pager -o cat -u {unit_of(name)}").stdout

    def cgroup(self, name, *files):
        """The words of those of these files that a unit's cgroup has."""
        group = self.show(name, "ControlGroup")
        paths = " ".join(f"'/sys/fs/cgroup/{file[0]}{group}/{file[1]}'" for file in files)
        return self._machine.run(f"cat {paths} 2>/dev/null", False).stdout.split()


def killed(market, units, name):
    """Kills all of a unit."""
    run, index, restarts = market.state(name)["run"], market.index(name), int(units.show(name, "NRestarts"))
    began = time.monotonic()
    units.do("kill -s KILL", name)
    wait_for(lambda: not market.is_up(name), 2, "its last will does not say down")
    wait_for(lambda: market.is_up(name, run), PATIENCE, "it is not up again")
    took = time.monotonic() - began
    require(int(units.show(name, "NRestarts")) == restarts + 1, "systemd did not start it once")
    return f"up again after {took:.1f} s; {goes_on(market, name, index)}"


def service_killed(market, units, name):
    """Kills the service of a node alone, or of the first node of the site."""
    main, before, index = units.show(name, "MainPID"), units.services_of(name), market.index(name)
    began = time.monotonic()
    market.machine.run(f"kill -9 {before[0]}")

    def is_back():
        now = units.services_of(name)
        return before[0] not in now and len(now) == len(before) and market.is_up(name)

    wait_for(is_back, PATIENCE, "it is not up again")
    took = time.monotonic() - began
    require(units.show(name, "MainPID") == main, "the node was started anew too")
    require("a signal ended it" in units.journal(name), "the journal has no line")
    return f"a new one answers after {took:.1f} s; {goes_on(market, name, index)}"


def goes_on(market, name, index):
    """That a node goes on from its Resume, in words."""
    market.all_are_up()
    before = market.index(name)
    require(before >= index, f"its index fell from {index} to {before}")
    return f"it goes on from index {before}, and the next clearing is {market.offer()['clearing']}"


def stopped(market, units, name):
    """Stops a node, and starts it again."""
    run, index = market.state(name)["run"], market.index(name)
    began = time.monotonic()
    units.do("stop", name)
    took = time.monotonic() - began
    wait_for(lambda: market.state(name)["state"] == "down", 1, "the broker does not say down")
    told = market.state(name)
    require(told["why"] == "stopped" and units.show(name, "Result") == "success", f"{told['why']}, {units.show(name, 'Result')}")
    began = time.monotonic()
    units.do("start", name)
    wait_for(lambda: market.is_up(name, run), PATIENCE, "it is not up again")
    again = time.monotonic() - began
    require("is newer than the one on disk" not in units.journal(name), "it went on from the broker's Resume")
    return f"down after {took:.1f} s, and up {again:.1f} s after the start; {goes_on(market, name, index)}"


def stands_still(market, units, name):
    """Lets all of a node's process stand still, as a fault of its loop would, until systemd starts it anew."""
    run, index, restarts = market.state(name)["run"], market.index(name), int(units.show(name, "NRestarts"))
    began = time.monotonic()
    units.do("kill -s STOP", name)
    wait_for(lambda: int(units.show(name, "NRestarts")) > restarts, 120, "systemd does not start it anew")
    took = time.monotonic() - began
    wait_for(lambda: market.is_up(name, run), PATIENCE, "it is not up again")
    return f"started anew after {took:.0f} s; {goes_on(market, name, index)}"


def password_wrong(market, units, name):
    """Gives a node a wrong password, and then the right one."""
    market.run(f"echo wrong >/etc/market/{name}.password")
    units.do("restart", name)
    wait_for(lambda: f"refuses the login of {name}" in units.journal(name), PATIENCE, "the journal has no line")
    require(units.show(name, "ActiveState") == "active", "it does not go on trying")
    market.run(f"cp market/{name}/{name}.password /etc/market")
    units.do("restart", name)
    market.all_are_up()
    return "it says so and tries on, and is up after a restart with the right one"


def refused(market, units, name, edit, status):
    """Gives a node wrong settings, and then the right ones."""
    market.run(f"sed -i '{edit}' /etc/market/{name}.toml")
    units.do("restart", name, False)
    wait_for(lambda: units.show(name, "ActiveState") == "failed", PATIENCE, "it does not fail")
    ended, restarts = units.show(name, "ExecMainStatus"), units.show(name, "NRestarts")
    time.sleep(6)
    is_left = units.show(name, "ActiveState") == "failed" and units.show(name, "NRestarts") == restarts
    line = units.journal(name).strip().splitlines()
    market.run(f"cp market/{name}/{name}.toml /etc/market")
    units.do("restart", name)
    market.all_are_up()
    require(is_left and ended == str(status), f"it ended with {ended}, and was started again")
    return next(word for word in reversed(line) if word.startswith("cogmaula"))


def set_as_in(machine, file, page, first):
    """Adds a block of settings of a page to a file of /etc/market."""
    path = machine.root / "etc/market" / file
    path.write_text(with_settings(path.read_text(), block_of(machine.run(f"cat {DOCS}/{page}").stdout, first)))


def view_of(machine):
    """What the page of the machine shows, once it shows a clearing."""

    def shown():
        code = "import urllib.request; print(urllib.request.urlopen('http://127.0.0.1:8080/view', timeout=5).read().decode())"
        told = json.loads(machine.run(f'/usr/bin/python3 -c "{code}"', False).stdout or "{}")
        return told if told.get("clearing") else None

    return wait_for(shown, PATIENCE, "the page shows no clearing")


def recorded(machine, folder):
    """How many files of recordings a folder has, which has some."""
    found = machine.run(f"ls {folder}").stdout.split()
    require(found, f"{folder} has no recording")
    return len(found)


def recording_on(market, units):
    """Lets the street record as JUDGE.md has it."""
    set_as_in(market.machine, "street.toml", "JUDGE.md", "[node]")
    units.do("restart", "street")
    market.all_are_up()
    index = market.offer()["clearing"]
    return f"{recorded(market.machine, '/var/lib/market/street/recordings')} file, and the next clearing is {index}"


def page_on(market, units):
    """That the auctioneer serves a page, by the login that the file of the market made."""
    index = market.offer()["clearing"]
    wait_for(lambda: view_of(market.machine)["clearing"] >= index, PATIENCE, f"the page does not show clearing {index}")
    return f"the page shows clearing {index} and {len(view_of(market.machine)['nodes'])} nodes"


def verified(machine, *units):
    """That systemd-analyze finds no fault in units."""
    said = machine.run(f"systemd-analyze verify --man=no {' '.join(f'{unit}.service' for unit in units)}", False)
    require(said.returncode == 0 and not said.stderr.strip(), said.stderr.strip())
    return f"no fault in {', '.join(units)}"


def booted_again(market, units):
    """Stops the machine, and boots it again."""
    session, before = market.told("basis")["session"], {name: market.index(name) for name in WITH_UNIT}
    began = time.monotonic()
    market.machine.stop()
    market.machine.boot()
    market.listen()
    market.all_are_up()
    took = time.monotonic() - began
    require(market.told("basis")["session"] == session, "another session has begun")
    fallen = [name for name in WITH_UNIT if market.index(name) < before[name]]
    require(not fallen, f"the index fell at {fallen}")
    lines = [line for name in WITH_UNIT for line in units.journal(name).splitlines() if "is newer than the one on disk" in line]
    require(not lines, f"a Resume on disk was lost: {lines}")
    return f"all are up {took:.1f} s after the order, in the same session; the next clearing is {market.offer()['clearing']}"


# The least power that the history has of the store's setpoints.
LEAST_KEPT = """python3 -c "import sqlite3; one = sqlite3.connect('file:/var/lib/market/history/market.db?mode=ro', uri=True)
print(one.execute('SELECT min(power) FROM setpoints WHERE device = ?', ('store',)).fetchone()[0])" || true"""


def history_kept(market):
    """That the unit of the history runs, is started again after a kill, and has what the store was told since."""
    unit = "market-history-history"

    def process():
        return market.run(f"systemctl show -P MainPID {unit}").strip()

    wait_for(lambda: market.run(LEAST_KEPT).strip().startswith("-"), PATIENCE, "the history has no setpoint of the store")
    before = process()
    market.run(f"systemctl kill -s KILL {unit}")
    wait_for(lambda: process() not in ("0", before), PATIENCE, "it is not started again")
    power = market.offer()["power"]
    wait_for(lambda: market.run(LEAST_KEPT).strip() == str(power), PATIENCE, f"the history does not have {power} W")
    exposed = market.run(f"systemd-analyze security --no-pager {unit}").strip().splitlines()[-1].strip("→ ")
    return f"killed and started again, it has the {power} W since; {exposed}"


# The newest setpoints that a history has of the store: all from a clearing on, a line for each, in their order.
NEWEST = "SELECT session, clearing, number, step, price, power, at FROM setpoints WHERE device = 'store' AND clearing >= {0} ORDER BY clearing, number"


def kept_in_sqlite(market, clearing):
    """The setpoints of the store that the history in SQLite has from a clearing on."""
    code = "import json, sqlite3, sys; one = sqlite3.connect('file:/var/lib/market/history/market.db?mode=ro', uri=True)"
    return json.loads(market.run(f'python3 -c "{code}; print(json.dumps(one.execute(sys.argv[1]).fetchall()))" "{NEWEST.format(clearing)}"'))


def kept_in_postgres(market, clearing):
    """The same of the history in PostgreSQL; none while it is away."""
    query = f"SELECT coalesce(json_agg(json_build_array(session, clearing, number, step, price, power, at)), '[]') FROM ({NEWEST.format(clearing)}) AS them"
    told = market.machine.run(f'runuser -u postgres -- psql -qAt market -c "{query}"', False).stdout
    return json.loads(told or "[]")


def served_begins(market):
    """That the unit of a history in PostgreSQL logs in by the socket, as the user that systemd made for it."""
    market.run(f"cd /; runuser -u postgres -- createuser {SERVED_UNIT}; runuser -u postgres -- createdb -O {SERVED_UNIT} market")
    market.install(SERVED)
    told = market.offer()
    wait_for(lambda: powers_of(kept_in_postgres(market, told["clearing"])) == [told["power"]], PATIENCE, f"it does not have {told['power']} W")
    exposed = market.run(f"systemd-analyze security --no-pager {SERVED_UNIT}").strip().splitlines()[-1].strip("→ ")
    return f"it has the {told['power']} W that came since; {exposed}"


def powers_of(rows):
    """The power of each setpoint."""
    return [row[5] for row in rows]


def served_goes_on(market):
    """That the unit goes on after it was killed, and after the server was, and then has each setpoint once, as the other history."""
    def process():
        return market.run(f"systemctl show -P MainPID {SERVED_UNIT}").strip()

    first, before = market.offer(), process()
    market.run(f"systemctl kill -s KILL {SERVED_UNIT}")
    powers = [first["power"], market.offer()["power"]]
    wait_for(lambda: process() not in ("0", before), PATIENCE, "it is not started again")
    market.run(f"systemctl kill -s KILL {SERVER}")
    powers += [market.offer()["power"], market.offer()["power"]]
    lines = f"journalctl --no-pager -o cat -u {SERVED_UNIT}"
    wait_for(lambda: "PostgreSQL/market: " in market.run(lines), PATIENCE, "the journal has no line of the lost database")
    at, after = time.monotonic(), process()
    market.run(f"systemctl reset-failed {SERVER}; systemctl start {SERVER}")
    # It tries again a minute after its last try at the latest.
    wait_for(lambda: powers_of(kept_in_postgres(market, first["clearing"])) == powers, 2 * PATIENCE, f"it does not have {powers}")
    took = time.monotonic() - at
    require(process() == after, "it was started anew when the server was away")
    require(kept_in_postgres(market, first["clearing"]) == kept_in_sqlite(market, first["clearing"]), "the histories differ")
    return f"{len(powers)} setpoints, each once, as in SQLite; those of while the server was away {took:.1f} s after its start"


def served_boots(market):
    """That the unit began after the server when the machine booted, and has what came since."""
    told = market.offer()
    wait_for(lambda: powers_of(kept_in_postgres(market, told["clearing"])) == [told["power"]], PATIENCE, f"it does not have {told['power']} W")
    restarts = market.run(f"systemctl show -P NRestarts {SERVED_UNIT}").strip()
    require(restarts == "0", f"it was started {restarts} times more")
    return f"started once, it has the {told['power']} W since"


def limits(units, name):
    """Whether a unit came to its limits."""
    peak = units.cgroup(name, ("memory", "memory.max_usage_in_bytes"), ("", "memory.peak"))
    files = [("memory", "memory.failcnt"), ("pids", "pids.events"), ("", "memory.events"), ("", "pids.events")]
    refusals = units.cgroup(name, *files)
    require(peak and refusals, "there is no controller of memory and of tasks")
    most = int(units.show(name, "MemoryMax")), int(units.show(name, "TasksMax"))
    require(not any(int(refusal) for refusal in refusals if refusal.isdigit()), f"it was refused memory or tasks: {refusals}")
    tasks = units.show(name, "TasksCurrent")
    return f"{int(peak[0]) / 2**20:.0f} MB at most of {most[0] / 2**20:.0f}, and {tasks} tasks now of {most[1]}"


def exposure(machine, name):
    """What systemd-analyze says."""
    return machine.run(f"systemd-analyze security --no-pager {unit_of(name)}").stdout.strip().splitlines()[-1].strip("→ ")


def hides(machine, units):
    """That a node and a site see neither the password nor the folder of another of the same machine."""
    users = {name: machine.run(f"stat -c %u /proc/{units.show(name, 'MainPID')}").stdout.strip() for name in WITH_UNIT}
    words = []
    for name in ("house", SITE):
        main = units.show(name, "MainPID")
        seen = machine.run(f"nsenter --target {main} --mount ls /var/lib/private/market /run/credentials").stdout
        others = [other for other in WITH_UNIT if other != name and other in seen]
        require(name in seen and not others, f"{name} sees {seen.split()}")
        words.append(f"{name} sees {', '.join(sorted(word for word in seen.split() if ':' not in word))}")
    require("0" not in users.values() and len(set(users.values())) == len(users), f"one runs as root or as another: {users}")
    return f"{'; '.join(words)}; users are {users}"


def try_nodes(found, machine):
    """The units of nodes, and of a site of two."""
    market, units = Market(machine), Units(machine)
    found.part("the market, by the words of OPERATE.md", market.set_up)
    found.part("offers", lambda: f"told {json.dumps(market.offer())}")
    found.part("the unit of the history", lambda: history_kept(market))
    found.part("the unit of a history in PostgreSQL", lambda: served_begins(market))
    found.part("the history and its server are killed", lambda: served_goes_on(market))
    found.part("a node does not see what is another's", lambda: hides(machine, units))
    for name in WITH_UNIT:
        found.part(f"{unit_of(name)} is killed", lambda unit=name: killed(market, units, unit))
    for name in WITH_UNIT:
        found.part(f"the service of {name} is killed", lambda unit=name: service_killed(market, units, unit))
    for name in WITH_UNIT:
        found.part(f"{unit_of(name)} is stopped and started", lambda unit=name: stopped(market, units, unit))
    found.part("a recording by the words of JUDGE.md", lambda: recording_on(market, units))
    found.part("a page by the words of OPERATE.md", lambda: page_on(market, units))
    found.part("systemd-analyze verify", lambda: verified(machine, *map(unit_of, WITH_UNIT)))
    for name in ("street", SITE):
        found.part(f"{unit_of(name)} stands still", lambda unit=name: stands_still(market, units, unit))
    for name in ("house", SITE):
        found.part(f"a wrong password of {name}", lambda unit=name: password_wrong(market, units, unit))
        found.part(f"status 2 of {name} is for good", lambda unit=name: refused(market, units, unit, "s/^child.*/child = 0/", 2))
    found.part("status 5 is for good", lambda: refused(market, units, "house", "s/^max.*/max = 18/", 5))
    for name in ("auctioneer", "street", "house", SITE):
        found.part(f"limits of {unit_of(name)}", lambda unit=name: limits(units, unit))
        found.part(f"exposure of {unit_of(name)}", lambda unit=name: exposure(machine, unit))
    found.part("the machine is stopped and booted", lambda: booted_again(market, units))
    found.part("the history in PostgreSQL after the boot", lambda: served_boots(market))
    for name in WITH_UNIT:
        units.do("disable --now", name)


class Hub:
    """The hub of the example, and its two agents: one by WebSocket, and one by lines over TCP."""

    def __init__(self, machine, units):
        self.machine, self._units, self.lines, self.agents, self._number = machine, units, {}, {}, 0

    def set_up(self):
        """Does what the page says."""
        steps = steps_of(self.machine.run(f"cat {DOCS}/HUB.md").stdout, "Start one in five minutes")
        self.run(f"cp {DOCS}/examples/hub/* .")
        for number in (1, 2, 3, 4):
            self.run(steps[number])
        self._commands = steps[5].splitlines()
        return self.begin(0)

    def run(self, command):
        """Runs a command line in the operator's folder, by whose umask nobody else can read what is made."""
        return self.machine.run(f"set -e; umask 077; mkdir -p /root/hub && cd /root/hub\n{command}").stdout

    def starts(self):
        """How often the hub has begun to listen."""
        return self._units.journal("hub").count("for TCP")

    def begin(self, starts):
        """Waits until the hub listens once more, starts the agents, and lets them bid. Gives what they are told."""
        began = time.monotonic()
        wait_for(lambda: self.starts() > starts, PATIENCE, "the hub does not listen")
        took = time.monotonic() - began
        for name in self.agents:
            self.machine.end(name)
        for command in self._commands:
            name = re.search("house|store", command)[0]
            self.lines[name] = []
            self.agents[name] = self.machine.start(name, f"cd /root/hub; exec {command}", stdin=-1, stdout=-1, stderr=-2)
            threading.Thread(target=self._read, args=(self.lines[name], self.agents[name].stdout), daemon=True).start()
        for name in self.agents:
            wait_for(lambda unit=name: self.lines[unit], PATIENCE, f"{name} is told nothing")
        clearing = self.bid()
        return f"listens after {took:.1f} s; the next clearing is {clearing}; house is told {self.lines['house'][-1]}"

    @staticmethod
    def _read(lines, pipe):
        for line in pipe:
            lines.append(line.strip())

    def bid(self):
        """Lets the store bid another power by TCP, and waits until it is told that. Gives the index of the clearing."""
        self._number += 1
        power = -200 - self._number
        points = [{"price": 3, "demand": 0}, {"price": 4, "demand": power}]
        pipe = self.agents["store"].stdin
        pipe.write(json.dumps({"bidUpdate": {"bidNumber": self._number, "pricePoints": points}}) + "\n")
        pipe.flush()
        wait_for(lambda: f'"power": {power},' in self.lines["store"][-1], PATIENCE, f"no {power} W: {self.lines}")
        return json.loads(self.lines["store"][-1])["priceUpdate"]["clearing"]

    def has_tokens_of_its_own(self):
        """Whether the tokens are for the hub and their agents alone, and one is added while the hub runs."""
        modes = self.run("stat -L -c '%a' /var/lib/market-hub/tokens house.token store.token").split()
        require(modes == ["600"] * 3, f"their modes are {modes}")
        self.run("cogmaula hub --config /etc/market/hub.toml --new-token mill 3 --into .")
        wait_for(lambda: "3 agents may log in" in self._units.journal("hub"), 10, "the third agent may not log in")
        return "all have the mode 600, and the hub has read that of a third agent"

    def set_further(self):
        """Lets the hub record and serve a page as HUB.md has it."""
        starts = self.starts()
        set_as_in(self.machine, "hub.toml", "HUB.md", "[hub]")
        self._units.do("restart", "hub")
        told = self.begin(starts)
        nodes = len(view_of(self.machine)["nodes"])
        return f"{recorded(self.machine, '/var/lib/market-hub/recordings')} files, and the page shows {nodes} nodes; {told}"

    def killed(self):
        """Kills all of the unit."""
        before, starts = self.bid(), self.starts()
        self._units.do("kill -s KILL", "hub")
        told = self.begin(starts)
        require(self.bid() > before, "the index fell")
        return told

    def stopped(self):
        """Stops the unit, and starts it again."""
        before, starts = self.bid(), self.starts()
        began = time.monotonic()
        self._units.do("stop", "hub")
        took = time.monotonic() - began
        require(self._units.show("hub", "Result") == "success", f"it ended by {self._units.show('hub', 'Result')}")
        last = wait_for(lambda: "error" in self.lines["store"][-1] and self.lines["store"][-1], 5, "the store is told nothing")
        self._units.do("start", "hub")
        told = self.begin(starts)
        require(self.bid() > before, "the index fell")
        return f"ended after {took:.1f} s, and the store was told {last}; {told}"

    def booted_again(self):
        """Stops the machine, and boots it again."""
        before, starts = self.bid(), self.starts()
        self.machine.stop()
        self.machine.boot()
        told = self.begin(starts)
        require(self.bid() > before, "the index fell")
        return told


def try_hub(found, machine):
    """The unit of the hub."""
    units = Units(machine)
    hub = Hub(machine, units)
    found.part("the hub, by the words of HUB.md", hub.set_up)
    found.part("the tokens of the hub", hub.has_tokens_of_its_own)
    found.part("a recording and a page by the words of HUB.md", hub.set_further)
    found.part("systemd-analyze verify", lambda: verified(machine, "market-hub"))
    found.part("market-hub is killed", hub.killed)
    found.part("market-hub is stopped and started", hub.stopped)
    found.part("limits of market-hub", lambda: limits(units, "hub"))
    found.part("exposure of market-hub", lambda: exposure(machine, "hub"))
    found.part("the machine of the hub is stopped and booted", hub.booted_again)


def main():
    parser = argparse.ArgumentParser(description=__doc__.splitlines()[0])
    parser.add_argument("package", help="the Debian package of make deb")
    parser.add_argument("--only", choices=["nodes", "hub"], help="these units alone")
    parser.add_argument("--root", help="a folder with the root of the machine, made if it is missing, and kept")
    arguments = parser.parse_args()
    need(
        (os.getuid() == 0, "root: run it as root"),
        (Path(arguments.package).is_file(), f"{arguments.package}: make deb makes it"),
        (shutil.which("debootstrap"), "debootstrap: install the package debootstrap"),
        (shutil.which("systemd-nspawn"), "systemd-nspawn: install the package systemd-container"),
    )
    signal.signal(signal.SIGTERM, lambda *_: sys.exit(1))
    found = Found()
    with tempfile.TemporaryDirectory(prefix="units.") as folder:
        root = Path(arguments.root or Path(folder) / "made")
        if not root.exists():
            make_root(root, *PACKAGES)
        machine = Machine(Path(folder) / "machine")
        subprocess.run(["cp", "-a", str(root), str(machine.root)], check=True)
        shutil.copy(arguments.package, machine.root / "root/market.deb")
        try:
            machine.boot()
            machine.run("dpkg -i /root/market.deb && echo 127.0.0.1 broker.example market.example >>/etc/hosts")
            if arguments.only != "hub":
                try_nodes(found, machine)
            if arguments.only != "nodes":
                try_hub(found, machine)
        except Failed as error:
            found("the machine", False, str(error))
        finally:
            machine.stop()
    return min(found.failed, 1)


if __name__ == "__main__":
    sys.exit(main())
