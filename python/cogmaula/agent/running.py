"""An agent at work: it reads its device's state, offers what the model bids, and writes the powers that the market tells."""

from __future__ import annotations

import logging
import queue
import re
import threading
import time
from collections.abc import Callable
from dataclasses import dataclass
from datetime import datetime

from .. import clock
from ..cluster import Basis
from ..live.messages.frames import AnyOffer, Offer
from ..logs import NodeLog
from ..simulation.device import BadBid, offer_of
from .guard import Guard
from .homeassistant import HomeAssistant, Shown
from .links import Setpoint, Silent, Standing, Word
from .agent_settings import Access, AgentSettings
from .device_values import NoReading, NotWritten

# The least and the greatest seconds between looks at the clock, and between tries to write what was not written.
LEAST_LOOK, MOST_LOOK, AGAIN = 0.02, 0.5, 1.0
# The seconds in which an agent that ends tries to give its device the fallback, and those after which it says the same offer again.
LAST_SECONDS, REPEATED = 3.0, 60.0


# A number in a text.
_NUMBER = re.compile(r"-?\d+(?:\.\d+)?")


@dataclass(frozen=True)
class TakesPart:
    """The user's word, by a switch, whether the device takes part in the market."""

    is_on: bool


class Agent:
    """An agent, from its start to its end. `run` does the work, and `stop` ends it from anywhere."""

    def __init__(self, settings: AgentSettings, log: NodeLog | None = None, turns: Callable[[], None] = lambda: None) -> None:
        """Takes the settings, and a log, by default that of this module. Raises NoPackage, and OSError if a password cannot be read.

        turns: is called each time that the agent's loop turns
        """
        self._turns = turns
        self._settings = settings
        self._log = log or NodeLog(logging.getLogger(__name__))
        self._source: Access | None = None if settings.state is None else settings.access(settings.state)
        self._sink: Access = settings.access(settings.setpoint)
        self._time_out: Access | None = None if settings.time_out is None else settings.access(settings.time_out.place)
        self._meter: Access | None = None if settings.measured is None else settings.access(settings.measured)
        self._link = settings.link()
        self._begun = clock.now()
        self._guard = Guard(settings.limits, self._log, self._begun)
        self._words: queue.SimpleQueue[Word | TakesPart | None] = queue.SimpleQueue()
        self._is_over = threading.Event()
        self._said: dict[str, str] = {}
        # Of the thread that reads, and of the one that works: the newest value and when it was read.
        self._lock = threading.Lock()
        self._reading: tuple[float, float] | None = None
        self._basis: Basis | None = None
        self._setpoint: Setpoint | None = None
        self._price: int | None = None
        self._standing: Standing | None = None
        self._takes_part = True
        # What keeps the device out of the market, "" while it takes part; and whether the market knows.
        self._keeps_out = ""
        self._has_left = False
        # What it would offer, what the market was told last, and the number of the first offer since it left.
        self._wanted: AnyOffer | None = None
        self._first: int | None = None
        self._said_at = self._begun
        # Whether it has said that all is well.
        self._is_healthy = False
        self._home = None if settings.entities is None else HomeAssistant(settings.entities, lambda is_on: self._words.put(TakesPart(is_on)))
        self._offered: AnyOffer | None = None
        self._tried, self._stepped = -float("inf"), self._begun

    def run(self) -> None:
        """Works until `stop` is called. At the end the device takes its fallback, and leaves the market."""
        self._link.start(self._words.put, self._log)
        reads = [threading.Thread(target=read, daemon=True) for read in (self._read_all, self._measure_all)]
        for thread in reads:
            thread.start()
        look = min(max(self._settings.times.every / 10, LEAST_LOOK), MOST_LOOK)
        try:
            while not self._is_over.is_set():
                self._turns()
                self._take_words(look)
                self._decide(clock.now())
                self._write(clock.now())
                self._offer()
                self._show()
        finally:
            self._is_over.set()
            self._end()
            for thread in reads:
                thread.join(MOST_LOOK)
            for access in (self._source, self._sink, self._meter, self._time_out):
                if access is not None:
                    access.close()

    def stop(self) -> None:
        """Ends `run`, from any thread or from the handler of a signal."""
        self._is_over.set()
        self._words.put(None)

    def _end(self) -> None:
        """Gives the device its fallback, and then leaves the market. A device that cannot be told goes on with what it has."""
        self._go_out("end", "the agent ends")
        end = clock.now() + LAST_SECONDS
        while not self._guard.has_fallen_back and clock.now() < end:
            self._tried = -float("inf")
            self._write(clock.now())
            if not self._guard.has_fallen_back:
                time.sleep(LEAST_LOOK)
        self._offer()
        self._link.close()
        if self._home is not None:
            self._home.close()

    # The device's state.

    def _measure_all(self) -> None:
        """Reads again and again what the device takes, and tells the market."""
        meter, place = self._meter, self._settings.measured
        while meter is not None and not self._is_over.is_set():
            begun = clock.now()
            try:
                self._link.measure(round(place.value_of(meter.read())))
                self._log_change("measured", "")
            except NoReading as error:
                self._log_change("measured", f"the power is not measured: {error}")
            self._is_over.wait(max(0.0, begun + self._settings.times.every - clock.now()))

    def _read_all(self) -> None:
        """Reads again and again, so that a device that does not answer holds up nothing else."""
        source = self._source
        while source is not None and not self._is_over.is_set():
            begun = clock.now()
            try:
                found = self._settings.bounds.state_of(source.read(), self._settings.state, self._settings.capacity)
                with self._lock:
                    self._reading = found, begun
                self._log_change("state", "")
            except NoReading as error:
                self._log_change("state", f"the state is not read: {error}")
            self._is_over.wait(max(0.0, begun + self._settings.times.every - clock.now()))

    def _state(self, now: float) -> float | None:
        """The newest state, None if it is missing or too old. If none is read, it is the model's own."""
        if self._source is None:
            self._settings.device.step(self._guard.written or 0, (now - self._stepped) / 60)
            self._stepped = now
            return float(self._settings.device.state)
        with self._lock:
            reading = self._reading
        return None if reading is None or now - reading[1] >= self._settings.times.stale else reading[0]

    # The market.

    def _take_words(self, seconds: float) -> None:
        """Takes what the market says, and waits for it so long."""
        try:
            word = self._words.get(timeout=seconds)
            while word is not None:
                self._take(word)
                word = self._words.get_nowait()
        except queue.Empty:
            pass

    def _take(self, word: Word | TakesPart) -> None:
        match word:
            case Basis():
                self._basis, self._offered = word, None
            case Setpoint():
                self._price = word.price
                if self._counts(word):
                    self._setpoint = word
                    self._guard.hear(word.power, clock.now(), word.holds)
            case Silent(why=why):
                self._setpoint = None
                self._guard.fall_back(why)
            case Standing():
                self._standing = word
            case TakesPart(is_on=is_on):
                if is_on and not self._takes_part:
                    self._log.info("it takes part in the market again")
                self._takes_part = is_on

    def _counts(self, setpoint: Setpoint) -> bool:
        """Whether a setpoint counts: the device takes part, and it answers no offer of before it left."""
        if self._keeps_out or self._first is None:
            return False
        return setpoint.reference is None or setpoint.reference >= self._first

    def _decide(self, now: float) -> None:
        """Decides whether the device takes part in the market, and by which bid."""
        state = self._state(now)
        if not self._takes_part:
            self._go_out("switch", "it is switched off, and takes no part in the market")
        elif self._guard.is_lost and self._guard.written is None:
            self._go_out("write", "the device cannot be told a power")
        elif state is not None:
            self._bid(state, now)
        elif now - self._begun >= self._settings.times.stale:
            if self._keeps_out != "state":
                # What was written may be lost: the device may have been without power.
                self._guard.lose()
            self._go_out("state", "the state is too old")

    def _go_out(self, what: str, why: str) -> None:
        """Lets the device take its fallback. Once it has it, it leaves the market."""
        if what == self._keeps_out:
            return
        if self._guard.is_silent:
            self._log.warning(f"{why}: the device has its fallback")
        self._keeps_out, self._setpoint = what, None
        self._guard.fall_back(why)

    def _offer(self) -> None:
        """Tells the market what the device offers, if that is new.

        A device leaves only once it has its fallback. One that cannot be told takes what it was told last: it offers that power at
        every price, so that the market counts it.
        """
        guard = self._guard
        if guard.is_lost and guard.written is not None:
            if self._basis is not None:
                self._tell(Offer((guard.written,) * self._basis.steps))
        elif self._keeps_out:
            if guard.has_fallen_back or guard.written is None:
                self._leave()
        elif self._wanted is not None:
            self._tell(self._wanted)

    def _tell(self, offer: AnyOffer) -> None:
        """Offers this, if it is new, or again after a while: a market lets go of what hangs."""
        now = clock.now()
        if offer == self._offered:
            if now >= self._said_at + REPEATED:
                self._said_at = now
                self._link.repeat()
            return
        number = self._link.offer(offer)
        self._offered, self._has_left, self._said_at = offer, False, now
        if self._first is None:
            self._first = number

    def _leave(self) -> None:
        """Takes back what it offers, also what an earlier run of the agent offered."""
        self._offered = self._wanted = self._first = None
        if not self._has_left:
            self._has_left = True
            self._link.offer(None)

    def _bid(self, state: float, now: float) -> None:
        """Makes the bid for a state. A device whose bid cannot be made leaves the market."""
        settings, device = self._settings, self._settings.device
        if self._basis is None:
            return
        if self._source is not None:
            setattr(device, settings.member, state)
        fixed = self._guard.fixed(now)
        told = "" if fixed is None else f"it may not yet {'stop' if fixed else 'start'}: it offers {fixed} W at every price until then"
        self._log_change("fixed", told)
        try:
            own = device.bid(datetime.now().astimezone())
            self._wanted = self._guard.bounded(offer_of(own if fixed is None else fixed, self._basis, device.name))
        except BadBid as error:
            self._go_out("bid", f"the bid is not offered: {error}")
            return
        self._keeps_out = ""

    # What Home Assistant shows.

    def _show(self) -> None:
        if self._home is None:
            return
        power = None if self._setpoint is None or self._guard.is_silent else self._setpoint.power
        standing = (None, "") if self._standing is None else (self._standing.state, self._standing.why)
        self._home.show(Shown(self._price, power, self._guard.written, self._offered, *standing, self._takes_part))

    # The device's power.

    def _write(self, now: float) -> None:
        """Writes what is due. What could not be written is tried again."""
        power = self._guard.due(now)
        if power is None or now - self._tried < AGAIN and not self._is_over.is_set():
            return
        time_out = self._settings.time_out
        try:
            if time_out is not None and self._time_out is not None:
                # The device may have forgotten it, so it comes before each power.
                self._time_out.write(time_out.number)
            self._sink.write(self._settings.setpoint.to_write(power))
        except NotWritten as error:
            self._tried = now
            self._guard.lose()
            self._log_change("write", f"{power} W are not written: {error}. It is tried again each {AGAIN:g} s")
            return
        self._tried = -float("inf")
        self._guard.wrote(power, now)
        self._log_change("write", "")
        if not self._is_healthy and self._setpoint is not None and not self._guard.is_silent:
            self._is_healthy = True
            self._log.info(f"all is well: the device's state is read, the market has its offer, and it got its first setpoint, {power} W")

    def _log_change(self, subject: str, text: str) -> None:
        """Warns of what is wrong with a subject, once for each cause until it is over, and says that. A number in it is no other cause."""
        if text and _cause(text) != _cause(self._said.get(subject, "")):
            self._log.warning(text)
        elif not text and self._said.get(subject):
            if subject != "fixed":
                self._log.info(f"{'the state is read' if subject == 'state' else 'it works'} again")
        self._said[subject] = text


def _cause(text: str) -> str:
    """A text without its numbers."""
    return _NUMBER.sub("0", text)
