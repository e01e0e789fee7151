#!/usr/bin/env python3
"""A heat pump with SG Ready and an inverter that are models, behind registers of Modbus over TCP. docs/DEVICES.md says how to use them.

    python3 modbus_devices.py 5021 --sun 3000 --speed 60

| Device | Register | Has |
|---|---|---|
| 1, the heat pump | holding 0 | the state of SG Ready, 1 to 4, u16; it runs in 3 and 4 |
| | input 0 | the temperature of its water in tenths of a degree, i16 |
| | input 1 | the power that it takes, in watts, u16 |
| 2, the inverter | holding 0 | the limit in tenths of a percent of 5000 W, u16 |
| | input 0, 1 | what the sun allows, in watts, i32, the most significant register first |
| | input 2, 3 | the power that it gives, in watts, i32, likewise |

It needs Debian's python3-pymodbus and python3-serial-asyncio.
"""

from __future__ import annotations

import argparse
import asyncio
import signal
import struct
import time

from cogmaula.simulation import Boiler
from pymodbus.datastore import ModbusSequentialDataBlock, ModbusServerContext, ModbusSlaveContext
from pymodbus.server import StartAsyncTcpServer

# The seconds between two steps of the models, the function codes of holding and input registers, and the greatest powers in watts.
EVERY, HOLDING, INPUT = 0.01, 3, 4
HEAT_PUMP, INVERTER = 2_500, 5_000
# The states of SG Ready: the usual rule, and that the heat pump is asked to run.
USUAL, ASKED = 2, 3


def registers(number: int) -> list[int]:
    """The two registers of a number."""
    return list(struct.unpack(">2H", struct.pack(">i", number)))


def device_of(first: int) -> ModbusSlaveContext:
    """A device whose first holding register has this value."""
    blocks = {"hr": ModbusSequentialDataBlock(0, [first, 0]), "ir": ModbusSequentialDataBlock(0, [0] * 4)}
    return ModbusSlaveContext(**blocks, zero_mode=True)


async def live(heat_pump: ModbusSlaveContext, inverter: ModbusSlaveContext, sun: int, speed: float) -> None:
    """Lets both follow their registers until a signal."""
    water = Boiler(name="water", power=HEAT_PUMP, litres=300, drawn=800, low=40, high=50, prices=(0, 1), temperature=43.0)
    stopping, passed = asyncio.Event(), time.monotonic()
    for number in (signal.SIGTERM, signal.SIGINT):
        asyncio.get_running_loop().add_signal_handler(number, stopping.set)
    while not stopping.is_set():
        now = time.monotonic()
        minutes, passed = (now - passed) * speed / 60, now
        takes = HEAT_PUMP if heat_pump.getValues(HOLDING, 0, 1)[0] >= ASKED else 0
        water.step(takes, minutes)
        heat_pump.setValues(INPUT, 0, [round(10 * water.temperature), takes])
        gives = min(sun, INVERTER * inverter.getValues(HOLDING, 0, 1)[0] // 1_000)
        inverter.setValues(INPUT, 0, [*registers(sun), *registers(gives)])
        await asyncio.sleep(EVERY)


async def main() -> None:
    """Serves until a signal."""
    parser = argparse.ArgumentParser(description="a heat pump and an inverter behind registers of Modbus over TCP")
    parser.add_argument("port", type=int)
    parser.add_argument("--sun", type=int, default=3000, help="what the sun allows, in watts")
    parser.add_argument("--speed", type=float, default=1, help="seconds of the devices in a second")
    given = parser.parse_args()
    heat_pump, inverter = device_of(USUAL), device_of(1_000)
    context = ModbusServerContext(slaves={1: heat_pump, 2: inverter}, single=False)
    server = asyncio.create_task(StartAsyncTcpServer(context, address=("127.0.0.1", given.port)))
    await live(heat_pump, inverter, given.sun, given.speed)
    server.cancel()


if __name__ == "__main__":
    asyncio.run(main())
