"""An agent whose market and device are pretended: all that it offers and writes is kept in one list, in the order in which it came."""

from __future__ import annotations

import threading
from pathlib import Path

from brokers import SECONDS, wait_until
from logged import log_to

from cogmaula.agent import Agent, AgentSettings, agent_settings_of
from cogmaula.agent.device_values import NoReading, NotWritten
from cogmaula.agent.links import Setpoint
from cogmaula.cluster import Basis

BATTERY = {"model": "battery", "capacity": 1000, "charge": 2000, "discharge": 2000, "prices": [0, 9]}


class PretendedMarket:
    """A link to a market, which numbers offers from 1."""

    def __init__(self, events):
        self.events, self.number = events, 0

    def start(self, take, _log):
        self.take = take
        take(Basis(0, 9, 10))

    def offer(self, offer):
        self.number += 1
        self.events.append(("offer", offer))
        return self.number

    def repeat(self):
        self.events.append(("repeat", None))

    def measure(self, watts):
        self.events.append(("measured", watts))

    def close(self):
        self.events.append(("closed", None))


class PretendedDevice:
    """A device's state and power. It answers nothing if it is told so."""

    def __init__(self, events, state):
        self.events, self.state, self.is_deaf = events, state, False

    def read(self):
        if self.state is None:
            raise NoReading("the sensor is broken")
        return self.state

    def write(self, number):
        if self.is_deaf:
            raise NotWritten("no answer")
        self.events.append(("write", number))

    def close(self):
        pass


class PretendedAgent:
    """An agent at work in a thread of the test. What it did is in `events`, and what it said in `said`."""

    def __init__(self, monkeypatch, state=500.0, device=BATTERY, times=(), folder=Path(), tables=None, turns=lambda: None, **limits):
        self.events, self.said = [], []
        self.market, self.device = PretendedMarket(self.events), PretendedDevice(self.events, state)
        monkeypatch.setattr(AgentSettings, "link", lambda _: self.market)
        monkeypatch.setattr(AgentSettings, "access", lambda _settings, _place: self.device)
        file = {"by": "csv", "file": "none"}
        told = {
            "agent": {"every": 0.02, "stale": 0.2, **dict(times)},
            "market": {"hub": "127.0.0.1:1", "agent": "a", "token_file": "none"},
            "device": device,
            "limits": {"least": -2000, "greatest": 2000, "pace": 0, "silence": 30, **limits},
            "state": {**file, "unit": "Wh"},
            "setpoint": file,
            **(tables or {}),
        }
        self.agent = Agent(agent_settings_of(told, folder), log_to(self.said.append), turns)
        self.thread = threading.Thread(target=self.agent.run)

    def __enter__(self):
        self.thread.start()
        return self

    def __exit__(self, *_):
        self.agent.stop()
        self.thread.join(SECONDS)
        assert not self.thread.is_alive()

    def waits_for(self, *event):
        wait_until(lambda: event in self.events, f"{event} in {self.events}, {self.said}")
        return self

    def offers(self, check=lambda offer: offer is not None):
        wait_until(lambda: any(kind == "offer" and check(told) for kind, told in self.events), f"an offer in {self.events}, {self.said}")
        return self

    def told(self, power, **more):
        """Tells a setpoint, and waits until the device has it."""
        self.market.take(Setpoint(power, 4, **more))
        return self.waits_for("write", power)
