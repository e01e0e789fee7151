"""Values in the registers of a device, by Modbus over TCP or a serial line (RTU). It needs Debian's python3-pymodbus and python3-serial-asyncio.

Many devices take one connection at a time, and a serial line has one master. So all places of one device share one connection.
"""

from __future__ import annotations

import logging
import struct
import termios
import threading
from collections.abc import Callable
from dataclasses import dataclass
from typing import Any

from ..errors import NoPackage
from ..live.node.node_errors import BadSettings
from .device_values import NoReading, NotWritten, Place

# The formats of the types of values, most significant byte first.
TYPES = {"u16": "H", "i16": "h", "u32": "I", "i32": "i", "f32": "f", "u64": "Q", "i64": "q", "f64": "d"}


@dataclass(frozen=True, kw_only=True)
class ModbusPlace(Place):
    """One or more registers.

    host, port: of a device over TCP
    serial:     the serial line of a device in place of a host, such as /dev/ttyUSB0, with `baudrate`, `parity` (N, E, O) and `stopbits`
    device:     the number of the device behind the address, which Modbus calls unit or slave
    table:      `holding` or `input` registers; only the first can be written
    register:   the number of the first register, from 0
    also:       further registers of the same type, as of a second battery; the number is then the sum of all, or their `mean`
    function:   16 writes all registers of the number in one piece; 6 writes one register, as some devices need it
    type:       u16, i16, u32, i32, f32, u64, i64 or f64
    word_order: `big` if the first register is the most significant one, or `little`
    timeout:    seconds within which the device has to answer
    """

    register: int
    host: str = ""
    port: int = 502
    serial: str = ""
    baudrate: int = 9_600
    parity: str = "N"
    stopbits: int = 1
    also: tuple[int, ...] = ()
    mean: bool = False
    function: int = 16
    device: int = 1
    table: str = "holding"
    type: str = "i16"
    word_order: str = "big"
    timeout: float = 2.0

    def __post_init__(self) -> None:
        """Raises BadSettings."""
        super().__post_init__()
        if self.type not in TYPES or self.table not in ("holding", "input") or self.word_order not in ("big", "little"):
            raise BadSettings(f"type is {self.type!r}, table {self.table!r} and word_order {self.word_order!r}: {', '.join(TYPES)}, holding or input, big or little are known")
        object.__setattr__(self, "also", tuple(self.also))
        if bool(self.host) == bool(self.serial):
            raise BadSettings("give a host of Modbus over TCP, or a serial line, and not both")
        if self.baudrate <= 0 or self.parity not in ("N", "E", "O") or self.stopbits not in (1, 2):
            raise BadSettings(f"baudrate is {self.baudrate}, parity {self.parity!r} and stopbits {self.stopbits}: N, E and O, 1 and 2 are known")
        if self.function not in (6, 16) or (self.function == 6 and struct.calcsize(TYPES[self.type]) != 2):
            raise BadSettings(f"function is {self.function} and type {self.type}: give 16, or 6 for a number of one register")
        if not all(0 <= register <= 65_535 for register in (self.register, *self.also)) or not (0 <= self.device <= 255 and 0 < self.timeout <= 60):
            raise BadSettings("give a register from 0 to 65535, a device from 0 to 255 and a timeout of up to 60 seconds")

    @property
    def name(self) -> str:
        """The place as lines name it."""
        return f"register {self.register} of {self.serial or f'{self.host}:{self.port}'}"

    def registers_of(self, number: float) -> list[int]:
        """The registers that hold a number. Raises NotWritten if it does not fit."""
        form = TYPES[self.type]
        try:
            data = struct.pack(f">{form}", number if form in "fd" else round(number))
        except (struct.error, OverflowError):
            raise NotWritten(f"{number} does not fit into {self.type} at {self.name}") from None
        words = list(struct.unpack(f">{len(data) // 2}H", data))
        return words if self.word_order == "big" else words[::-1]

    def number_of(self, registers: list[int]) -> float:
        """The number that registers hold."""
        words = registers if self.word_order == "big" else registers[::-1]
        return float(struct.unpack(f">{TYPES[self.type]}", struct.pack(f">{len(words)}H", *words))[0])


class Line:
    """The one connection to a device over TCP, or the master of one serial line. Each question waits for the answer to the one before."""

    _lines: dict[tuple[object, ...], Line] = {}
    _all = threading.Lock()

    @classmethod
    def of(cls, place: ModbusPlace) -> Line:
        """The connection of a place, which all places of the same device share. Raises NoPackage."""
        key = (place.serial, place.baudrate, place.parity, place.stopbits) if place.serial else (place.host, place.port)
        with cls._all:
            line = cls._lines.get(key)
            if line is None:
                line = cls._lines[key] = cls(place, key)
            line.users += 1
            return line

    def __init__(self, place: ModbusPlace, key: tuple[object, ...]) -> None:
        """Takes a place of the device. Nothing is opened yet. Raises NoPackage."""
        try:
            from pymodbus.client import ModbusSerialClient, ModbusTcpClient
            from pymodbus.exceptions import ModbusException
        except ImportError:
            raise NoPackage("Modbus needs pymodbus (Debian: python3-pymodbus and python3-serial-asyncio)") from None
        # It says itself what fails, again and again; the agent does, once.
        logging.getLogger("pymodbus").setLevel(logging.CRITICAL)
        self.users, self._key = 0, key
        self._lock = threading.Lock()
        self._faults: tuple[type[Exception], ...] = (ModbusException, OSError, struct.error, termios.error)
        self._client: Any
        if place.serial:
            more = {"baudrate": place.baudrate, "parity": place.parity, "stopbits": place.stopbits}
            self._client = ModbusSerialClient(place.serial, timeout=place.timeout, retries=0, **more)
        else:
            self._client = ModbusTcpClient(place.host, port=place.port, timeout=place.timeout, retries=0)

    def ask(self, place: ModbusPlace, ask: Callable[[Any], Any], fault: type[NoReading] | type[NotWritten]) -> Any:
        """The answer of the device. Raises the fault if there is none, or the device refuses."""
        with self._lock:
            try:
                if not self._client.connect():
                    raise fault(f"{place.name}: there is no connection")
                answer = ask(self._client)
            except self._faults as error:
                self._client.close()
                raise fault(f"{place.name}: {error}") from None
            if answer.isError():
                code = getattr(answer, "exception_code", None)
                if code is None:
                    self._client.close()
                raise fault(f"{place.name}: {'no answer' if code is None else f'the device refuses it by exception {code}'}")
            return answer

    def leave(self) -> None:
        """Ends the connection once no place needs it."""
        with self._all:
            self.users -= 1
            if self.users:
                return
            self._lines.pop(self._key, None)
        with self._lock:
            self._client.close()


class Modbus:
    """Values in registers of a device. Its connection is opened when it is needed, and anew after a fault."""

    def __init__(self, place: ModbusPlace) -> None:
        """Takes the place. Raises NoPackage."""
        self.place = place
        self._line = Line.of(place)

    def read(self) -> float:
        """What the registers hold. Raises NoReading."""
        numbers = [self._read(register) for register in (self.place.register, *self.place.also)]
        return sum(numbers) / (len(numbers) if self.place.mean else 1)

    def _read(self, register: int) -> float:
        """The number that begins at a register. Raises NoReading."""
        place = self.place
        count = struct.calcsize(TYPES[place.type]) // 2

        def read(client: Any) -> Any:
            table = client.read_holding_registers if place.table == "holding" else client.read_input_registers
            return table(register, count, slave=place.device)

        answer = self._line.ask(place, read, NoReading)
        if len(answer.registers) != count:
            raise NoReading(f"{place.name}: {len(answer.registers)} registers came, and {count} are due")
        return place.number_of(answer.registers)

    def write(self, number: float) -> None:
        """Writes the number. Raises NotWritten."""
        place = self.place
        if place.table != "holding":
            raise NotWritten(f"{place.name}: input registers cannot be written")
        registers = place.registers_of(number)

        def write(client: Any) -> Any:
            if place.function == 6:
                return client.write_register(place.register, registers[0], slave=place.device)
            return client.write_registers(place.register, registers, slave=place.device)

        self._line.ask(place, write, NotWritten)

    def close(self) -> None:
        """Ends the connection, if no other place of the device needs it."""
        self._line.leave()
