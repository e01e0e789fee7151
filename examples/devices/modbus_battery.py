#!/usr/bin/env python3
"""A battery that is a model, behind registers of Modbus over TCP: to try an agent without a device. docs/DEVICES.md says how.

    python3 modbus_battery.py 5020 --capacity 4000 --power 2000 --speed 60

| Holding register | Has |
|---|---|
| 0 | the power that it is told, in watts, i16; above 0 it charges |
| 1 | its charge in tenths of a percent, u16 |
| 2, 3 | its charge in watt-hours, f32, the most significant register first |
| 4, 5 | not a number, f32: a sensor that is broken |

At its end, by SIGTERM, it prints what happened. It needs Debian's python3-pymodbus and python3-serial-asyncio.
"""

from __future__ import annotations

import argparse
import asyncio
import math
import signal
import struct
import time

from cogmaula.simulation import Battery
from pymodbus.datastore import ModbusSequentialDataBlock, ModbusServerContext, ModbusSlaveContext
from pymodbus.server import StartAsyncTcpServer

# The seconds between two steps of the model, and the function code of holding registers.
EVERY, HOLDING = 0.01, 3
REGISTERS = 6


def words_of(number: float) -> list[int]:
    """The two registers of a number."""
    return list(struct.unpack(">2H", struct.pack(">f", number)))


async def live(battery: Battery, device: ModbusSlaveContext, speed: float) -> None:
    """Lets the battery follow its register until the end, and prints what happened."""
    least = greatest = battery.energy
    refused, changes, before = 0.0, 0, 0
    stopping = asyncio.Event()
    for number in (signal.SIGTERM, signal.SIGINT):
        asyncio.get_running_loop().add_signal_handler(number, stopping.set)
    passed = time.monotonic()
    while not stopping.is_set():
        (told,) = struct.unpack(">h", struct.pack(">H", device.getValues(HOLDING, 0, 1)[0]))
        now = time.monotonic()
        minutes, passed = (now - passed) * speed / 60, now
        due = battery.energy + told * minutes / 60
        battery.step(told, minutes)
        refused += abs(due - battery.energy)
        changes, before = changes + (told != before), told
        least, greatest = min(least, battery.energy), max(greatest, battery.energy)
        device.setValues(HOLDING, 1, [round(1000 * battery.energy / battery.capacity), *words_of(battery.energy)])
        await asyncio.sleep(EVERY)
    print(f"charge {least:.0f} to {greatest:.0f} of {battery.capacity:.0f} Wh, {changes} setpoints, {refused:.1f} Wh refused", flush=True)


async def main() -> None:
    """Serves until a signal."""
    parser = argparse.ArgumentParser(description="a battery behind registers of Modbus over TCP")
    parser.add_argument("port", type=int)
    parser.add_argument("--capacity", type=float, default=4000, help="in watt-hours")
    parser.add_argument("--power", type=float, default=2000, help="in watts")
    parser.add_argument("--speed", type=float, default=1, help="seconds of the battery in a second")
    given = parser.parse_args()
    battery = Battery("battery", given.capacity, given.power, given.power, (0, 1), given.capacity / 2)
    device = ModbusSlaveContext(hr=ModbusSequentialDataBlock(0, [0] * REGISTERS), zero_mode=True)
    device.setValues(HOLDING, 4, words_of(math.nan))
    context = ModbusServerContext(slaves={1: device}, single=False)
    server = asyncio.create_task(StartAsyncTcpServer(context, address=("127.0.0.1", given.port)))
    await live(battery, device, given.speed)
    server.cancel()


if __name__ == "__main__":
    asyncio.run(main())
