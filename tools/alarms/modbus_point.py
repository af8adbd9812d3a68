"""A value in the registers of a Modbus device: where it is, and how it is read."""
import re
import struct
from dataclasses import dataclass
from decimal import Decimal
from typing import Optional
from urllib.parse import urlsplit

PORT, UNIT = 502, 1
# The tables of a device by the digit of a data sheet's number, and by their words.
TABLES = {"0": "coil", "1": "contact", "3": "input", "4": "holding"}
OF_BITS = ("coil", "contact")
SHEET_NUMBER = re.compile(r"([0134])([0-9]{4,5})")
BY_ADDRESS = re.compile(rf"({'|'.join(TABLES.values())})\s+([0-9]+)")
# The letters of `struct` by the types, and their lengths in registers.
TYPES = {
    "uint16": "H",
    "int16": "h",
    "uint32": "I",
    "int32": "i",
    "uint64": "Q",
    "int64": "q",
    "float32": "f",
    "float64": "d",
}
ORDERS = ("ABCD", "CDAB", "BADC", "DCBA")
MOST_ADDRESS = 65_535


@dataclass(frozen=True, order=True)
class Device:
    """A device, at a port of a host, with the number of its unit."""

    host: str
    port: int
    unit: int

    def __str__(self) -> str:
        return f"{self.host}:{self.port}/{self.unit}"


@dataclass(frozen=True)
class Point:
    """A value in the registers of a device: `address` counts from 0, as the protocol does."""

    device: Device
    table: str
    address: int
    kind: str = "uint16"
    order: str = "ABCD"
    bit: Optional[int] = None

    @property
    def length(self) -> int:
        """How many registers, or bits, it takes."""
        return 1 if self.table in OF_BITS else struct.calcsize(TYPES[self.kind]) // 2

    def text(self, found: list[int]) -> str:
        """Its value, exactly, in what was read of it."""
        if self.table in OF_BITS:
            return str(int(found[0]))
        if self.bit is not None:
            return str(found[0] >> self.bit & 1)
        words = found if self.order in ("ABCD", "BADC") else found[::-1]
        inside = ">" if self.order in ("ABCD", "CDAB") else "<"
        packed = b"".join(struct.pack(inside + "H", word) for word in words)
        (value,) = struct.unpack(">" + TYPES[self.kind], packed)
        return str(Decimal(value))


def read_device(text: str) -> Device:
    """A device as HOST, HOST:PORT or HOST:PORT/UNIT."""
    parts = urlsplit(f"//{text}")
    unit = parts.path.removeprefix("/") or str(UNIT)
    port = parts.port or PORT  # which raises a ValueError of its own
    if (
        not parts.hostname
        or not re.fullmatch("[0-9]{1,3}", unit)
        or int(unit) > 255
        or parts.query
        or parts.fragment
        or parts.username
    ):
        raise ValueError(f"modbus is {text}: a device is HOST, HOST:PORT or HOST:PORT/UNIT")
    return Device(parts.hostname, port, int(unit))


def read_register(text: str) -> tuple[str, int]:
    """The table and the address of a register."""
    if found := SHEET_NUMBER.fullmatch(text):
        table, address = TABLES[found[1]], int(found[2]) - 1
    elif found := BY_ADDRESS.fullmatch(text.lower()):
        table, address = found[1], int(found[2])
    else:
        raise ValueError(f"register is {text}: 40101 as in data sheets, or holding 100 by the address")
    if not 0 <= address <= MOST_ADDRESS:
        raise ValueError(f"register is {text}: there are {MOST_ADDRESS + 1}")
    return table, address


def read_bit(text: str) -> Optional[int]:
    if text and (not re.fullmatch("[0-9]{1,2}", text) or int(text) > 15):
        raise ValueError(f"bit is {text}: a register has 0 to 15")
    return int(text) if text else None


def read_point(modbus: str, register: str, kind: str, order: str, bit: str) -> Optional[Point]:
    """The value that the cells of a row name; none where they name no device."""
    if not modbus:
        if register or kind or order or bit:
            raise ValueError("register, type, order and bit go with modbus")
        return None
    if not register:
        raise ValueError("modbus and register go together")
    table, address = read_register(register)
    kind, order, place = kind.lower() or "uint16", order.upper() or "ABCD", read_bit(bit)
    if kind not in TYPES:
        raise ValueError(f"type is {kind}; there are {', '.join(TYPES)}")
    if order not in ORDERS:
        raise ValueError(f"order is {order}; there are {', '.join(ORDERS)}")
    point = Point(read_device(modbus), table, address, kind, order, place)
    if place is not None and (table in OF_BITS or point.length > 1):
        raise ValueError("a bit is one of a single register")
    if address + point.length > MOST_ADDRESS + 1:
        raise ValueError(f"register is {register}: the value ends behind the last one")
    return point
