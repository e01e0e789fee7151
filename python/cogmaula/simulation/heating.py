"""What makes heat by electricity, or electricity with heat: a heat pump of a house, a boiler, and a unit of cogeneration.

Each warms one body of heat, whose temperature is worked out exactly for a power that holds: it moves towards the temperature at which
it would lose as much as it gets.
"""

from __future__ import annotations

from dataclasses import dataclass
from datetime import datetime

from .clocked import WATER, Clocked, temperature_after
from .device import Bid, between, from_on, require_prices, up_to
from .profiles import Profile


def _require_band(name: str, low: float, high: float, prices: tuple[int, int]) -> None:
    require_prices(name, prices)
    if not low < high:
        raise ValueError(f"{name}: low is {low} and high {high}: give a low below it")


def _coldness(temperature: float, low: float, high: float) -> float:
    """How far a temperature is below `high`: 0 there, 1 at `low`."""
    return (high - temperature) / (high - low)


def _heating_bid(power: float, coldness: float, prices: tuple[int, int]) -> Bid:
    """All the power up to a price that is higher the colder it is: at every price from `low` down, at none from `high` up."""
    if coldness >= 1:
        return int(power)
    return 0 if coldness <= 0 else up_to(between(prices, coldness), int(power))


@dataclass(kw_only=True)
class HeatPump(Clocked):
    """A heat pump that warms a house, on or off.

    power:       what it takes if it runs, in watts
    cop:         how much heat it makes of each watt
    loss:        what the house loses for each degree between inside and outside, in watts
    constant:    the house's time constant in hours: its heat capacity divided by `loss`
    outdoor:     the temperature outside
    low, high:   the band of temperatures inside: it runs at every price at `low`, and at none at `high`
    prices:      what it pays at most just below `high`, and just above `low`
    temperature: inside, at the start: its state
    """

    name: str
    power: float
    loss: float
    constant: float
    outdoor: Profile
    low: float
    high: float
    prices: tuple[int, int]
    temperature: float
    cop: float = 3.0

    def __post_init__(self) -> None:
        """Raises ValueError for what no house has."""
        _require_band(self.name, self.low, self.high, self.prices)
        if not (self.loss > 0 and self.constant > 0 and self.power >= 0 and self.cop > 0):
            raise ValueError(f"{self.name}: loss, constant and cop above 0 and a power of 0 or more are due")

    @property
    def state(self) -> float:
        """The temperature inside."""
        return self.temperature

    def bid(self, now: datetime) -> Bid:
        """See Device."""
        self._is_at(now)
        return _heating_bid(self.power, _coldness(self.temperature, self.low, self.high), self.prices)

    def step(self, power: int, minutes: float) -> None:
        """See Device. The temperature outside holds over the step."""
        towards = self._given(self.outdoor) + self.cop * power / self.loss
        self.temperature = temperature_after(self.temperature, towards, self.constant, minutes)
        self._passes(minutes)


@dataclass(kw_only=True)
class Tank(Clocked):
    """A tank of water that loses heat to its room, and from which heat is drawn.

    litres:      how much water it holds
    loss:        what it loses for each degree between the water and the room, in watts
    drawn:       the heat that is drawn from it, in watts
    low, high:   the band of the water's temperatures
    prices:      the cheap and the dear end of the prices by which it trades
    temperature: of the water, at the start: its state
    room:        the temperature of the room
    """

    name: str
    power: float
    litres: float
    drawn: Profile
    low: float
    high: float
    prices: tuple[int, int]
    temperature: float
    loss: float = 2.0
    room: float = 20.0

    def __post_init__(self) -> None:
        """Raises ValueError for what no tank has."""
        _require_band(self.name, self.low, self.high, self.prices)
        if not (self.loss > 0 and self.litres > 0 and self.power >= 0):
            raise ValueError(f"{self.name}: loss and litres above 0 and a power of 0 or more are due")

    @property
    def state(self) -> float:
        """The temperature of the water."""
        return self.temperature

    def _warms(self, heat: float, minutes: float) -> None:
        """Lets so many minutes pass with so many watts of heat going in."""
        towards = self.room + (heat - self._given(self.drawn)) / self.loss
        self.temperature = temperature_after(self.temperature, towards, self.litres * WATER / self.loss, minutes)
        self._passes(minutes)


@dataclass(kw_only=True)
class Boiler(Tank):
    """A boiler for hot water: a tank with a heating rod that takes `power` watts, on or off.

    It heats at every price at `low`, and at none at `high`.
    """

    def bid(self, now: datetime) -> Bid:
        """See Device."""
        self._is_at(now)
        return _heating_bid(self.power, _coldness(self.temperature, self.low, self.high), self.prices)

    def step(self, power: int, minutes: float) -> None:
        """See Device. What is drawn holds over the step."""
        self._warms(power, minutes)


@dataclass(kw_only=True)
class Cogeneration(Tank):
    """A unit that gives `power` watts of electricity and warms a buffer with `heat` watts meanwhile, on or off.

    It runs from a price on that is lower the colder the buffer is: at every price at `low`, and at none at `high`.
    """

    heat: float

    def bid(self, now: datetime) -> Bid:
        """See Device."""
        self._is_at(now)
        coldness = _coldness(self.temperature, self.low, self.high)
        if coldness >= 1:
            return -int(self.power)
        return 0 if coldness <= 0 else from_on(between(self.prices, 1 - coldness), int(self.power))

    def step(self, power: int, minutes: float) -> None:
        """See Device. The heat is in proportion to the power that it gives."""
        self._warms(self.heat * -power / self.power if self.power else 0.0, minutes)
