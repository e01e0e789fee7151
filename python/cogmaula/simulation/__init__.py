"""Models of devices, which a simulation, a live market and a study share; and a simulation in the proved market.

    from cogmaula import Basis
    from cogmaula.simulation import Battery, Load, Solar, simulate

    done = simulate([Load(name="house", power=400), Solar(name="roof", power=900), Battery("store", 5000, 2000, 2000, (10, 90), 500)],
                    Basis(0, 99, 100), ticks=96)
    print(done.prices)

A device is a class with a name, a state, `bid` and `step`: see `Device`. The models are models, and no part of the proved market. What a
bid by points is at each price, and the prices, come from the proved programs. docs/DEVICES.md says how to write a device of your own.
"""

from ..live.messages.frames import Stated
from ..live.device.device_kinds import DeviceKind
from .battery import Battery
from .device import BadBid, Bid, Demands, Device
from .fleet import Fleet
from .given_devices import Load, Manual, Solar
from .heating import Boiler, Cogeneration, HeatPump
from .demands import BidMaker
from .markets import Group, Market
from .profiles import Held, Profile
from .simulating import BidsNotKept, Simulation, simulate
from .sweep import sweep
from .vehicle import Vehicle

__all__ = [
    "BadBid",
    "Battery",
    "Bid",
    "BidMaker",
    "BidsNotKept",
    "Boiler",
    "Cogeneration",
    "Demands",
    "Device",
    "DeviceKind",
    "Fleet",
    "Group",
    "HeatPump",
    "Held",
    "Load",
    "Manual",
    "Market",
    "Profile",
    "Simulation",
    "Solar",
    "Stated",
    "Vehicle",
    "simulate",
    "sweep",
]
