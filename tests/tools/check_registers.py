"""Registers of Modbus devices, and exact numbers. tests/tools/field.py runs these checks."""
import contextlib
import struct
from decimal import Decimal

from fed_plant import ALARMS, Plant, ended
from lib.tools import Yard

from alarms.modbus_point import read_point
from alarms.table_file import Alarm
from alarms.value_map import Row
from lib.program import check
from modbus_device import Device

TYPES = {
    "uint16": "H",
    "int16": "h",
    "uint32": "I",
    "int32": "i",
    "uint64": "Q",
    "int64": "q",
    "float32": "f",
    "float64": "d",
}


# Registers, and the table and address that each is; cells that name none, and why.
REGISTERS = {
    "40001": ("holding", 0),
    "30101": ("input", 100),
    "400101": ("holding", 100),
    "10001": ("contact", 0),
    "00017": ("coil", 16),
    "Holding 7": ("holding", 7),
}
REFUSED = {
    ("plc:x", "40001", "", "", ""): "",
    ("plc", "40000", "", "", ""): "register is 40000",
    ("plc", "50001", "", "", ""): "register is 50001",
    ("plc", "", "", "", ""): "go together",
    ("", "40001", "", "", ""): "go with modbus",
    ("plc", "40001", "real", "", ""): "type is real",
    ("plc", "40001", "", "AB", ""): "order is AB",
    ("plc", "40001", "int32", "", "3"): "single register",
    ("plc", "40001", "", "", "16"): "bit is 16",
    ("plc", "holding 65535", "int32", "", ""): "behind the last",
    ("plc/256", "40001", "", "", ""): "a device is HOST",
}


def points(_yard: Yard, _: int) -> str:
    """Each type in each order is read as the value that its bytes are, and a register by its number in a data sheet."""
    values = {
        "uint16": 65_535,
        "int16": -2,
        "uint32": 4_000_000_000,
        "int32": -70_000,
        "uint64": 2**63 + 5,
        "int64": -(2**40),
        "float32": 380.5,
        "float64": -0.001,
    }
    for kind, value in values.items():
        packed = struct.pack(">" + TYPES[kind], value)
        words = [packed[at : at + 2] for at in range(0, len(packed), 2)]
        for order, placed in (
            ("ABCD", words),
            ("CDAB", words[::-1]),
            ("BADC", [word[::-1] for word in words]),
            ("DCBA", [word[::-1] for word in words[::-1]]),
        ):
            found = read_point("plc", "40001", kind, order, "")
            check(
                found and found.text([int.from_bytes(word, "big") for word in placed]) == str(Decimal(value)),
                kind,
                order,
            )
    return f"{len(values)} types of registers"


def places(_yard: Yard, _: int) -> str:
    """A register is named by its number in a data sheet or by its address, and what is none is refused with its
    reason.
    """
    for register, wanted in REGISTERS.items():
        point = read_point("plc", register, "", "", "")
        check(point and (point.table, point.address) == wanted, register, point)
    for cells, why in REFUSED.items():
        with contextlib.suppress(ValueError):
            check(False, cells, "is taken as", read_point(*cells))
        try:
            read_point(*cells)
        except ValueError as error:
            check(why in str(error), cells, error)
    return f"{len(REGISTERS) + len(REFUSED)} names of registers"


def registers(yard: Yard, _: int) -> str:
    """A device is polled: several registers, a bit, one that isn't there and harms no other; one that is gone is a
    watching alarm, and comes back.
    """
    device = Device(40)
    at = f"127.0.0.1:{device.port}/1"
    alarms = [
        *ALARMS,
        *(Alarm("discrete", 1, 2, 0, f"B-{bit}") for bit in range(4)),
        Alarm("high", 5, 1, 0, "NO-1"),
        Alarm("discrete", 1, 1, 0, "XS-2"),
    ]
    rows = f"t,TI-1,10,20,XS-1,,,{at},40011,float32,CDAB,\nl,LI-2,,20,XS-1,,,{at},input 12,int16,,\n"
    rows += f"n,NO-1,,20,XS-2,,,{at},40014,float64,,\n"
    rows += (
        "".join(f"b{bit},B-{bit},,,,,,{at},holding 13,,,{bit}\n" for bit in range(3)) + f"c,B-3,,,,,,{at},coil 20,,,\n"
    )
    device.words = device.words[:16]
    plant = Plant(yard, rows, alarms)
    device.words[10:12] = struct.unpack(">HH", struct.pack(">f", 380.0))[::-1]
    device.words[12], device.words[13] = 500, 0b101
    feed = plant.feed("--poll", "0.2")
    plant.becomes("the registers", True, True, False, False, True, False, True, False, False, True)
    check(plant.said().count("illegal address") == 2, plant.said())
    device.words += [0] * 24
    device.words[20], device.words[13], device.words[12] = 1, 0, 65_535
    plant.becomes("the device's further registers", True, True, False, False, False, False, False, True, False, False)
    device.kill()
    plant.becomes("the watching alarms", True, True, True, False, False, False, False, True, False, True)
    check("doesn't answer" in plant.said() and plant.said().count("\n") < 30, plant.said())
    device.words[12] = 600
    device.begin()
    plant.becomes("the device again", True, False, False, False, False, False, False, True, False, False)
    ended(feed)
    device.kill()
    plant.server.end()
    return "registers"


def exact(_yard: Yard, _: int) -> str:
    """A product is exact, and is rounded once: half a unit goes to the even one, and the least bit more goes up."""
    for scale, text, value in (
        ("1", "2.5", 2),
        ("1", "3.5", 4),
        ("1", "2.5" + "0" * 40 + "1", 3),
        ("0.1", "25." + "0" * 60 + "1", 3),
        ("10", "0.25", 2),
        ("100", "38.005", 3800),
        ("1e-400", "1e12", 0),
        ("3", "0." + "3" * 60, 1),
        ("-1", "2.5", -2),
    ):
        check(Row("a", "T", scale=Decimal(scale)).read(text) == value, text, "by", scale, "isn't", value)
    return "exact products"


CHECKS = {one.__name__: one for one in (points, places, registers, exact)}
