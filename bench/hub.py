#!/usr/bin/env python3
"""Measures a hub with the program `live`: at rest, from a bid to its price, and how it comes back from each failure.

    /usr/bin/python3 bench/hub.py rest [AGENTS [SECONDS]]   processor time and memory at rest, and the time from bid to price
    /usr/bin/python3 bench/hub.py failures [TIMES]          ends each part so many times while bids flow, and prints a row of each
    /usr/bin/python3 bench/hub.py records [AGENTS [TIMES]]  the bytes that a clearing for all agents is recorded in, and compressed
    /usr/bin/python3 bench/hub.py silent [COUNT]            the memory and the files of connections by TLS that say nothing, or little
    /usr/bin/python3 bench/hub.py flood [COUNT [FILES]]     whether agents go on beside silent connections and beside wrong logins

The program is the one that COGMAULA_LIVE names, or that of the checkout. Agents connect by lines over TCP on this machine.
"""

import os
import signal
import statistics
import subprocess
import sys
import tempfile
import threading
import time
from pathlib import Path

TOP = Path(__file__).resolve().parents[1]
sys.path[:0] = [str(TOP / folder) for folder in ("python", "python/tests/hub", "python/tests/live")]

from brokers import Certificates, live_program, wait_until  # noqa: E402
from hubs import STEPS, HubProcess, TcpAgent, silent_connections, tokens_in  # noqa: E402

from cogmaula.live.node.service_runner import LIVED  # noqa: E402

PROCESSOR_TICKS = os.sysconf("SC_CLK_TCK")


def services_of(hub):
    """The processes of the hub's services, by their arguments."""
    found = subprocess.run(["ps", "-o", "pid=,args=", "--ppid", str(hub.process.pid)], capture_output=True, text=True, check=True)
    words = [line.split() for line in found.stdout.splitlines()]
    return {" ".join(word[2:]): int(word[0]) for word in words}


def processor_seconds(pid):
    """The processor time that a process has used, in seconds."""
    fields = Path(f"/proc/{pid}/stat").read_text().rpartition(")")[2].split()
    return (int(fields[11]) + int(fields[12])) / PROCESSOR_TICKS


def megabytes(pid):
    """The memory of a process that no other shares, in megabytes."""
    lines = Path(f"/proc/{pid}/smaps_rollup").read_text().splitlines()
    return sum(int(line.split()[1]) for line in lines if line.startswith("Private")) / 1024


def rest(folder, agents=256, seconds=60):
    tokens = tokens_in(folder, {f"agent{number}": number for number in range(1, agents + 1)})
    hub = HubProcess(folder, live_program(), tokens=tokens, pause=0.2)
    begin = time.monotonic()
    with hub:
        connected = []
        for number, name in enumerate(tokens, 1):
            connected.append(hub.agent(name).bids([number] * STEPS, 1))
        wait_until(lambda: all(agent.prices for agent in connected), "each agent has a price", 600)
        print(f"{agents} agents connected, bid and had a price within {time.monotonic() - begin:.1f} s")
        time.sleep(5)
        every = [hub.process.pid, *services_of(hub).values()]
        before = {process: processor_seconds(process) for process in every}
        time.sleep(seconds)
        used = {process: (processor_seconds(process) - before[process]) / seconds for process in every}
        own = used.pop(every[0])
        print(f"at rest for {seconds} s: the hub uses {own:.2%} of a processor, its services {sum(used.values()):.2%}")
        services = sum(map(megabytes, every[1:]))
        print(f"memory: the hub {megabytes(every[0]):.0f} MB, its {len(every) - 1} services {services:.0f} MB")
        took, begun = [], sum(map(processor_seconds, every))
        for number in range(2, 12):
            step = 3 + number % 2
            begin = time.monotonic()
            connected[0].bids([10_000_000] * step + [-10_000_000] * (STEPS - step), number)
            wait_until(lambda step=step: all(agent.has(step=step) for agent in connected), "all have the price", 120)
            took.append(time.monotonic() - begin)
            time.sleep(0.5)
        median = statistics.median(took)
        print(f"from a bid to its price at all {agents}: median {median:.2f} s, greatest {max(took):.2f} s, pause 0.2 s")
        print(f"processor time of a clearing for all: {(sum(map(processor_seconds, every)) - begun) / len(took):.2f} s")


def records(folder, agents=256, times=20):
    """Each clearing moves the step, so all agents are told a price."""
    from cogmaula.live.node.compressing import compress

    recordings = folder / "recorded"
    tokens = tokens_in(folder, {f"agent{number}": number for number in range(1, agents + 1)})
    hub = HubProcess(folder, live_program(), tokens=tokens, pause=0.2, record=str(recordings))

    def size():
        return sum(path.stat().st_size for path in recordings.iterdir())

    with hub:
        connected = [hub.agent(name).bids([number] * STEPS, 1) for number, name in enumerate(tokens, 1)]
        wait_until(lambda: all(agent.prices for agent in connected), "each agent has a price", 600)
        time.sleep(2)
        begin, first = size(), connected[0].prices[-1]["clearing"]
        for number in range(2, times + 2):
            step = 3 + number % 2
            connected[0].bids([10_000_000] * step + [-10_000_000] * (STEPS - step), number)
            wait_until(lambda step=step: all(agent.has(step=step) for agent in connected), "all have the price", 120)
        time.sleep(1)
        clearings = connected[0].prices[-1]["clearing"] - first
        made = (size() - begin) / clearings
    plain = size()
    for path in recordings.glob("*.frames"):
        compress(path)
    share = size() / plain
    day = made * 86_400 / 1e9
    print(f"{agents} agents, {clearings} clearings: {made:,.0f} bytes a clearing, compressed {made * share:,.0f}")
    print(f"at one clearing a second: {day:.2f} GB a day, compressed {day * share:.2f} GB")


def silent(folder, count=200):
    certificate, key = Certificates(folder / "keys").make("server", "127.0.0.1")
    with HubProcess(folder, live_program(), certificate=certificate, key=key) as hub:
        files = Path(f"/proc/{hub.process.pid}/fd")
        hub.agent("house", ca=str(folder / "keys" / "ca.crt")).bids([1] * STEPS, 1).waits_for(power=1)
        before = hub.megabytes
        for what, data in (("say nothing", b""), ("begin a handshake of TLS", b"\x16\x03\x01\x02\x00")):
            with silent_connections(hub.port, count, data):
                time.sleep(3)
                grown = hub.megabytes - before
                print(f"{count} connections that {what}: {grown:.1f} MB, {grown / count:.3f} MB each, {len(list(files.iterdir()))} files open")
            time.sleep(12)
            print(f"after them: {hub.megabytes - before:.1f} MB, {len(list(files.iterdir()))} files open")
        print(f"lines of the log: {len(hub.lines)}")


def flood(folder, count=600, files=300):
    """The hub may open so many files. Each of 20 right logins comes behind three wrong ones of the same address."""
    with HubProcess(folder, live_program(), files=files) as hub:
        house = hub.agent("house").bids([1] * STEPS, 1).waits_for(power=1)
        priced = 0
        with silent_connections(hub.port, count):
            for number in range(2, 12):
                house.bids([number] * STEPS, number)
                time.sleep(1)
                priced += house.has(power=number)
            lines = len(hub.lines)
        print(f"beside {count} silent connections: {priced} of 10 bids have a price within 1 s, {lines} lines of the log")
    with HubProcess(folder, live_program()) as hub:
        right = 0
        for _ in range(20):
            for _ in range(3):
                TcpAgent(hub.port).login("house", "wrong")
            agent = hub.agent("store")
            right += "agentId" in agent.welcome
            agent.close()
        print(f"beside 60 wrong logins of one address: {right} of 20 right ones are let in")


class Flow:
    """A store that bids anew all the time, and a house. The house's setpoint says which of the store's bids it answers."""

    def __init__(self, hub):
        self.hub, self.number, self.is_over, self.wrong = hub, 0, False, 0
        self.last, self.seen = {"house": 0, "store": 0}, []
        self.agents = {}
        threading.Thread(target=self._work, daemon=True).start()

    def _work(self):
        while not self.is_over:
            for name in ("house", "store"):
                agent = self.agents.get(name)
                if agent is None or agent.is_over:
                    self._connect(name)
            self._look()
            self.number += 1
            step = 1 + self.number % (STEPS - 1)
            store = self.agents.get("store")
            if store is not None:
                store.bids([0] * step + [-1_000 - self.number] * (STEPS - step), self.number)
            time.sleep(0.03)

    def _connect(self, name):
        try:
            agent = self.hub.agent(name)
        except OSError:
            return
        agent.taken = 0
        self.agents[name] = agent
        if name == "house":
            agent.bids([500] * STEPS, 1)

    def _look(self):
        """Looks at what was told: no older clearing, and the power of just the bid that is named."""
        for name, agent in self.agents.items():
            for price in agent.prices[agent.taken :]:
                agent.taken += 1
                self.wrong += price["clearing"] < self.last[name]
                self.last[name] = price["clearing"]
                if name == "store":
                    self.wrong += price["power"] not in (0, -1_000 - price["bidNumber"])
                    self.seen.append((time.monotonic(), price["bidNumber"]))

    def recovers(self):
        """The seconds until a bid that is made from now on has its price."""
        begin, number = time.monotonic(), self.number
        wait_until(lambda: any(price[1] > number + 1 for price in self.seen[-50:]), "it comes back", 120)
        return time.monotonic() - begin


def failures(folder, times=20):
    """A service that ended soon is started anew after a pause, so each is let live before it is killed."""
    hub = HubProcess(folder, live_program(), gone=600)

    def kill_service(words):
        os.kill(services_of(hub)[words], signal.SIGKILL)

    def restart(end):
        end()
        hub.start()

    def cut():
        flow.agents["store"].close()

    cases = {
        "nothing (a bid to its price)": lambda: None,
        "the auctioneer's service": lambda: kill_service("auctioneer"),
        "an agent's service": lambda: kill_service("device 2"),
        "an agent's connection": cut,
        "the hub, by SIGTERM": lambda: restart(hub.stop),
        "the hub, by SIGKILL": lambda: restart(hub.kill),
    }
    with hub:
        flow = Flow(hub)
        wait_until(lambda: flow.seen, "the first price", 120)
        for name, fail in cases.items():
            took = []
            for _ in range(times):
                time.sleep(LIVED + 1 if "service" in name else 0.5)
                begin = time.monotonic()
                fail()
                # What the failure itself takes counts too, as the start of another hub.
                flow.recovers()
                took.append(time.monotonic() - begin)
            median = statistics.median(took)
            print(f"{name}: {times} times, median {median:.2f} s, greatest {max(took):.2f} s; wrong: {flow.wrong}", flush=True)
        flow.is_over = True


WHAT = {"rest": rest, "failures": failures, "records": records, "silent": silent, "flood": flood}


def main(words):
    with tempfile.TemporaryDirectory() as folder:
        WHAT[words[0]](Path(folder), *map(int, words[1:]))


if __name__ == "__main__":
    if len(sys.argv) < 2 or sys.argv[1] not in WHAT:
        sys.exit(__doc__)
    main(sys.argv[1:])
