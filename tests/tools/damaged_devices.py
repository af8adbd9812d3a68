"""Devices whose bits are flipped, and how they are read."""
import struct
from dataclasses import dataclass
from typing import Optional
from lib.tools import Yard
from alarms.device_file import NoDevice
from alarms.judging import Reading, read_once
from lib.places import EXAMPLES
from alarms.table_file import LEAST_SEGMENT, Alarm, Table, device_size


EARLIER = EXAMPLES / "earlier_release" / "plant.device"


OPEN = 0xA5


CUTS = ["kill", "old", "new", "00", "alternating", "a5", "5a", "ff", "any", "mixed", "sectors"]


FLIPS, IMAGES = 2_000, 800


# Tables: the worked plant, with areas whose images take several pieces of a checkpoint, and the refinery's size.
WIDE = Table(
    device_size(4, 64, LEAST_SEGMENT),
    64,
    [Alarm("high", 800, 1, area, f"TI-{area}", 10, 3600) for area in (0, 1, 2, 63)],
)


@dataclass(frozen=True)
class Place:
    """Where the parts of a device stand, counted here from its header."""

    areas: int
    rows: int
    segment: int

    @staticmethod
    def of(device: bytes) -> "Place":
        rows, areas, segment = struct.unpack(">IHQ", device[9:23])
        return Place(areas, rows, segment)

    @property
    def image(self) -> int:
        return 16 + 4801 * self.areas + 182 * self.rows

    def half(self, half: int) -> int:
        return 23 + half * (25 + self.image + self.segment)

    def frames(self, half: int) -> int:
        return self.half(half) + 25 + self.image


def standing(device: bytes) -> int:
    """The half of the greater epoch among those whose gates are open."""
    place = Place.of(device)
    return max(
        (half for half in (0, 1) if device[place.half(half)] == OPEN),
        key=lambda half: device[place.half(half) + 1 : place.half(half) + 9],
    )


def gates(device: bytes) -> list[tuple[int, int]]:
    """The open gates of the standing journal, and the number of the first action of each; last its end."""
    half, place = standing(device), Place.of(device)
    at, found = place.frames(half), []
    number = int.from_bytes(device[place.half(half) + 10 : place.half(half) + 17], "big") + 1
    while device[at] == OPEN:
        found.append((at, number))
        count = int.from_bytes(device[at + 17 : at + 19], "big")
        at, number = at + 19 + 16 * count, number + count
    return [*found, (at, number)]


def written(yard: Yard, name: str, content: bytes) -> str:
    with open(yard.path(name), "wb") as file:
        file.write(content)
    return yard.path(name)


def content_of(path: str) -> bytes:
    with open(path, "rb") as file:
        return file.read()


def flipped(device: bytes, at: int, bit: int) -> bytes:
    changed = bytearray(device)
    changed[at] ^= 1 << bit
    return bytes(changed)


def fault_of(reading: Reading) -> str:
    """The fault line that a reading asks of the program."""
    return f"fault damaged {reading.damage.half} {reading.damage.at}\n" if reading.damage else ""


def read(path: str) -> Optional[Reading]:
    """A reading, none of what isn't formatted."""
    try:
        return read_once(path)
    except NoDevice:
        return None
