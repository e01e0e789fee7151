"""A simulation: devices that bid and step, tick by tick, in the proved market."""

from __future__ import annotations

from collections.abc import Sequence
from datetime import date, datetime

from .. import data_frames
from ..cluster import Basis
from ..moments import later, moment_of
from ..program import Program
from ..progress import Progress
from .demands import BidMaker
from .device import Device
from .fleet import Fleet
from .given_devices import Load, Solar
from .markets import Group, Market
from .outcome import BidsNotKept, Simulation
from .profiles import fault_in, kilowatts_in

__all__ = ["BidsNotKept", "Simulation", "simulate"]


def simulate(
    devices: Sequence[Device | Fleet],
    basis: Basis,
    *,
    ticks: int,
    minutes: int = 15,
    start: date | None = None,
    groups: Sequence[Group] = (),
    keep_bids: bool = False,
    program: Program | None = None,
    live: str | None = None,
    quiet: bool = True,
) -> Simulation:
    """Lets devices bid and step, so many times. The devices keep the states that they have at the end. It needs numpy.

    At each tick all devices bid, the market clears, and each takes for `minutes` the power that its own bid names.

    devices:   devices, and fleets of many at once
    basis:     the prices of the market
    start:     when the first tick begins, or a date for its midnight; 2000-01-01 00:00 if it is not given
    groups:    devices that are held within limits together
    keep_bids: whether `cluster` of the result has what was bid, which takes much memory
    program:   the proved program, by default the one that `Program.find()` finds
    live:      the proved program of the groups' relays and of bids by points or by a state, by default the one beside the program of the market
    quiet:     whether no progress is told on standard error

    Raises BadBid if a device bids what no market takes, ValueError for names, groups and counts that do not fit and for a table with a gap,
    NoProgram, ProgramFault, and NoPackage without numpy.
    """
    if ticks < 1 or minutes < 1:
        raise ValueError(f"{ticks} ticks of {minutes} minutes: give 1 or more of each")
    data_frames.arrays()
    from .course import Crew, Noted

    begin = moment_of(start, data_frames.START)
    for device in devices:
        _require_numbers(device, begin, later(begin, (ticks - 1) * minutes))
    crew = Crew(devices, basis, minutes)
    noted = Noted(ticks, crew.names, groups, keep_bids, crew.suppliers)
    with Market(basis, crew.names, groups, program=program, live=live) as market, BidMaker(basis, live, program) as maker:
        with Progress("simulate", ticks, quiet=quiet) as progress:
            for tick in range(ticks):
                crew.tick(tick, later(begin, tick * minutes), market, maker, noted)
                progress.step(1)
    noted.last_states = crew.states()
    return Simulation(tuple(devices), basis, begin, minutes, tuple(groups), noted)


def _require_numbers(device: Device | Fleet, begin: datetime, end: datetime) -> None:
    """Raises ValueError, before anything is simulated, if a table that a device is given has no number at some time."""
    for word, profile in vars(device).items() if hasattr(device, "__dict__") else ():
        if (fault := fault_in(profile, begin, end)) is not None:
            raise ValueError(f"{getattr(device, 'name', 'a fleet')}: its {word} has {fault}: mend the table, or begin elsewhere")
    if isinstance(device, Load | Solar) and (fault := kilowatts_in(device.power)) is not None:
        raise ValueError(f"{device.name}: its power has {fault}")
