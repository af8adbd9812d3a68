"""Registers of Modbus TCP devices as a source of readings, by pymodbus: each device is polled by a thread of its own.

A poll that fails is a bad value of each of its names: the last one stays in the plant, and the watching alarm comes.
"""
import logging
import random
import sys
import threading
import time
from collections import defaultdict
from inspect import signature
from typing import Iterator

from .ending import Fault

try:
    from pymodbus.client import ModbusTcpClient
    from pymodbus.exceptions import ModbusException
except ImportError:
    raise Fault(
        f"Modbus needs pymodbus, Debian's python3-pymodbus and python3-serial-asyncio, which {sys.executable} hasn't"
    ) from None

from .feed_reading import Reading
from .inbox import Inbox
from .modbus_point import OF_BITS, Device, Point

# Seconds to wait for a device, and registers and bits that one request reads.
PATIENCE, MOST_REGISTERS, MOST_BITS = 2, 125, 2_000
# What the library calls the number of a unit: releases before 3.10 have another word.
UNIT = "device_id" if "device_id" in signature(ModbusTcpClient.read_coils).parameters else "slave"
# What a device's refusal means, by its number.
EXCEPTIONS = {
    1: "illegal function",
    2: "illegal address",
    3: "illegal value",
    4: "device failure",
    6: "device busy",
    10: "no path at the gateway",
    11: "no answer at the gateway",
}
logging.getLogger("pymodbus").setLevel(logging.CRITICAL)


class Unread(Exception):
    """The registers of a device weren't read."""


def blocks_of(points: dict[str, Point]) -> Iterator[list[tuple[str, Point]]]:
    """The points that one request reads: those of a table whose registers follow one another."""
    block: list[tuple[str, Point]] = []
    end = 0
    for name, point in sorted(points.items(), key=lambda one: (one[1].table, one[1].address)):
        most = MOST_BITS if point.table in OF_BITS else MOST_REGISTERS
        last = point.address + point.length
        if block and (point.table != block[0][1].table or point.address > end or last - block[0][1].address > most):
            yield block
            block = []
        end = max(end, last) if block else last
        block.append((name, point))
    if block:
        yield block


class ModbusSource(threading.Thread):
    """A device's values, on their way to an inbox. `every` is in seconds."""

    def __init__(self, device: Device, points: dict[str, Point], inbox: Inbox, every: float):
        super().__init__(daemon=True)
        self.device, self.inbox, self.every = device, inbox, every
        self.blocks = list(blocks_of(points))
        self.client = ModbusTcpClient(device.host, port=device.port, timeout=PATIENCE, retries=1)
        inbox.begin()

    def run(self) -> None:
        try:
            time.sleep(random.uniform(0, min(self.every, 0.5)))
            due = time.monotonic()
            while True:
                self.inbox.put(self.poll())
                due = max(due + self.every, time.monotonic())
                time.sleep(max(0.0, due - time.monotonic()))
        except BaseException as fault:  # whoever takes the readings gets it
            self.inbox.end(fault)

    def poll(self) -> list[Reading]:
        """A reading of each name. Once the device doesn't answer the others aren't asked for."""
        found: list[Reading] = []
        silent = ""
        for block in self.blocks:
            try:
                found += self.read(block) if not silent else bad(block, silent)
            except Unread as no:
                silent = str(no)
                found += bad(block, silent)
        return found

    def read(self, block: list[tuple[str, Point]]) -> list[Reading]:
        """A reading of each name of a block. Where the device refuses it, each is read by itself: one that isn't there
        harms no other.
        """
        first, end = block[0][1].address, max(point.address + point.length for _, point in block)
        values, refusal = self.ask(block[0][1].table, first, end - first)
        if refusal and len(block) > 1:
            return [reading for one in block for reading in self.read([one])]
        if refusal:
            return bad(block, refusal)
        now = time.monotonic()
        return [
            Reading(name, point.text(values[point.address - first :][: point.length]), now) for name, point in block
        ]

    def ask(self, table: str, address: int, count: int) -> tuple[list[int], str]:
        """What the device has, or why it refuses. Behind any other fault the connection is closed: a late answer would
        be taken for the next one.
        """
        asking = {
            "coil": self.client.read_coils,
            "contact": self.client.read_discrete_inputs,
            "input": self.client.read_input_registers,
            "holding": self.client.read_holding_registers,
        }[table]
        try:
            answer = asking(address, count=count, **{UNIT: self.device.unit})
        except (ModbusException, OSError):
            self.client.close()
            raise Unread(f"{self.device} doesn't answer") from None
        if isinstance(answer, Exception):
            self.client.close()
            raise Unread(f"{self.device} doesn't answer")
        if answer.isError():
            return [], f"{self.device} refuses: {EXCEPTIONS.get(answer.exception_code, answer.exception_code)}"
        values = answer.bits if table in OF_BITS else answer.registers
        if len(values) < count:
            self.client.close()
            raise Unread(f"{self.device} answers with too few values")
        return list(values[:count]), ""


def bad(block: list[tuple[str, Point]], why: str) -> list[Reading]:
    """Readings without a value."""
    now = time.monotonic()
    return [Reading(name, None, now, why=why) for name, _ in block]


def start_devices(points: dict[str, Point], inbox: Inbox, every: float) -> None:
    """Starts to poll each device."""
    by_device: dict[Device, dict[str, Point]] = defaultdict(dict)
    for name, point in points.items():
        by_device[point.device][name] = point
    for device, its in by_device.items():
        ModbusSource(device, its, inbox, every).start()
