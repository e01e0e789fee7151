"""The course of a simulation: a tick of all its devices, and what is noted of each. It needs numpy."""

from __future__ import annotations

import inspect
import struct
from collections.abc import Callable, Sequence
from datetime import datetime
from typing import Any

import numpy

from ..cluster import Basis
from ..live.messages.frame import MOST
from .demands import BidMaker
from .device import BadBid, Device
from .fleet import Fleet
from .given_devices import Manual
from .markets import Group, Market

# What a bid is as the bytes of a frame.
WATTS = numpy.dtype(">i4")
DEMAND = struct.Struct(">i")


class Noted:
    """What a simulation notes. Arrays have a row for each tick.

    steps:  the step of the market
    groups: that of each group
    powers: the power of each device in watts, and `states` its state when it bid
    bids:   of each tick the bid of each device as bytes, if all are kept; else of suppliers alone
    last_bids, last_states: the bids of the last tick, and the states behind it
    """

    def __init__(self, ticks: int, names: Sequence[str], groups: Sequence[Group], keeps_bids: bool, suppliers: Sequence[int]) -> None:
        """Takes how much there will be."""
        self.steps = numpy.zeros(ticks, dtype=numpy.int32)
        self.groups = numpy.zeros((ticks, len(groups)), dtype=numpy.int32)
        self.powers = numpy.zeros((ticks, len(names)), dtype=numpy.int32)
        self.states = numpy.zeros((ticks, len(names)))
        self.kept = tuple(range(len(names))) if keeps_bids else tuple(suppliers)
        self.has_all_bids = keeps_bids
        self.bids: list[tuple[bytes, ...]] = []
        self.last_bids: Sequence[bytes] = ()
        self.last_states: Any = None


class Crew:
    """The devices of a simulation, single ones and fleets, in the order of their names."""

    def __init__(self, devices: Sequence[Device | Fleet], basis: Basis, minutes: int) -> None:
        """Takes them with the minutes of a tick."""
        self._single = [device for device in devices if not isinstance(device, Fleet)]
        self._fleets = [device for device in devices if isinstance(device, Fleet)]
        self._fleet_states = [numpy.array(fleet.states, dtype=float) for fleet in self._fleets]
        self._single_names = [device.name for device in self._single]
        self.names = (*self._single_names, *(name for fleet in self._fleets for name in fleet.names))
        self.suppliers = [at for at, device in enumerate(self._single) if isinstance(device, Manual)]
        self._steppers = [stepper_of(device) for device in self._single]
        self._basis, self._minutes = basis, minutes
        self._prices = numpy.array(basis.prices)

    def states(self) -> Any:
        """The state of each device now."""
        return numpy.concatenate([[device.state for device in self._single], *self._fleet_states])

    def tick(self, tick: int, now: datetime, market: Market, maker: BidMaker, noted: Noted) -> None:
        """Lets all bid, the market clear, and all step. Raises BadBid and ProgramFault."""
        basis, bid = self._basis, market.bid
        bids = maker.bids([bid_of(device, now) for device in self._single], self._single_names)
        noted.states[tick] = self.states()
        for name, data in zip(self._single_names, bids, strict=True):
            bid(name, data)
        arrays = [self._bids_of_fleet(fleet, states, now, market) for fleet, states in zip(self._fleets, self._fleet_states, strict=True)]
        cleared = market.clear()
        noted.steps[tick] = cleared.step
        noted.groups[tick] = list(cleared.groups.values())
        places = cleared.devices
        powers, at = noted.powers[tick], len(bids)
        told = [DEMAND.unpack_from(data, 4 * places[name])[0] for name, data in zip(self._single_names, bids, strict=True)]
        powers[:at] = told
        for step, power, name in zip(self._steppers, told, self._single_names, strict=True):
            step(power, self._minutes, basis, places[name])
        for number, (fleet, array) in enumerate(zip(self._fleets, arrays, strict=True)):
            taken = array[numpy.arange(len(array)), [places[name] for name in fleet.names]]
            powers[at : at + len(array)] = taken
            self._fleet_states[number] = numpy.asarray(fleet.step(now, self._fleet_states[number], taken, self._minutes), dtype=float)
            at += len(array)
        if noted.kept or tick == len(noted.steps) - 1:
            every = [*bids, *(row.astype(WATTS).tobytes() for array in arrays for row in array)]
            noted.last_bids = every
            if noted.kept:
                noted.bids.append(tuple(every[at] for at in noted.kept))

    def _bids_of_fleet(self, fleet: Fleet, states: Any, now: datetime, market: Market) -> Any:
        """What a fleet bids, which the market is told. Raises BadBid."""
        array = numpy.asarray(fleet.bids(now, states, self._prices))
        require_bids(fleet.names, array, len(self._prices), now)
        data, width = array.astype(WATTS).tobytes(), 4 * len(self._prices)
        for at, name in enumerate(fleet.names):
            market.bid(name, data[at * width : (at + 1) * width])
        return array


def require_bids(names: Sequence[str], array: Any, steps: int, now: datetime) -> None:
    """Raises BadBid, with the first device and the moment, if these are not bids of a market of so many steps."""
    if array.shape != (len(names), steps):
        raise BadBid(f"{names[0] if names else 'a fleet'} and its fleet bid an array of {array.shape} at {now.isoformat()}: {(len(names), steps)} is due")
    for told, wrong in (
        ("watts that are no whole numbers", ~numpy.isfinite(array) | (array != numpy.round(array)) if array.dtype.kind == "f" else numpy.zeros_like(array, dtype=bool)),
        (f"watts outside \\u00b1{MOST}", numpy.abs(array) > MOST),
        ("more at a price than at the one before", numpy.diff(array, axis=1, prepend=array[:, :1]) > 0),
    ):
        if wrong.any():
            row, step = numpy.argwhere(wrong)[0]
            raise BadBid(f"{names[row]} bids what no market takes at {now.isoformat()}: {told}, at step {step}")


def bid_of(device: Device, now: datetime) -> Any:
    """The bid of a device. An error that it raises says of which device and of what moment."""
    try:
        return device.bid(now)
    except (ArithmeticError, TypeError, ValueError) as error:
        raise BadBid(f"{device.name} makes no bid at {now.isoformat()}: {type(error).__name__}: {error}") from error


def stepper_of(device: Device) -> Callable[[int, float, Basis, int], None]:
    """What lets a device step by its power and the minutes; if its `step` has a `price`, by that of the clearing too, which is below its group."""
    step: Callable[..., None] = device.step
    if "price" in inspect.signature(step).parameters:
        return lambda power, minutes, basis, place: step(power, minutes, price=basis.price(place))
    return lambda power, minutes, basis, place: step(power, minutes)
