"""The rules of a device's fields, after docs/develop/FORMAT.md and in its order: which field of some bytes is the first
that breaks its rule.

Whether the plant admits an action is no rule of bytes: judging.py asks that.
"""
import itertools
import re
import struct
from typing import Iterator, NamedTuple, Optional

from .table_file import (
    ALARM_LIMIT,
    AREA_LIMIT,
    GREATEST_SEGMENT,
    LEAST_SEGMENT,
    READING_LIMIT,
    SHELVE_LIMIT,
    device_size,
    image_length,
)

GATE_OPEN = 0xA5
HEADER, HEAD, FRAME_HEAD, ACTION = 23, 25, 19, 16
AREA_IMAGE, ALARM_IMAGE = 4801, 182
# The number that stands for the header where a half is named.
OF_HEADER = 2
# The marks that a half may have, by the name in the header.
MARKS = {b"ALMSRV01": (0, 2), b"ALMSRV02": (2,), b"ALMSRV03": (253,)}
MOMENTS, COUNTS = 2**40, 2**48
WINDOW, FLOOD_BELOW, FLOOD_ABOVE = 600, 5, 10
FRAME_ACTIONS = 256
KINDS = {1: "high", 2: "low", 3: "discrete"}
ACTIONS = {
    1: "CLOCK",
    2: "VAL",
    3: "ACK",
    4: "RESET",
    5: "SHELVE",
    6: "UNSHELVE",
    7: "OOS",
    8: "DESIGN",
    9: "PRIO",
    10: "SETP",
}
# The last kind of action in a half, by its mark.
LAST_KIND = {0: 8, 2: 10, 253: 10}
# How a text says which slot asked, by the mark of its half: by its number and one. 0 says nothing.
LAST_ASKER = {0: 0, 2: 0, 253: 18}
# The argument of each kind, from the least to the greatest.
VALUES, NUMBERS, SWITCH = (-READING_LIMIT, READING_LIMIT), (0, 2**32 - 1), (0, 1)
ARGUMENTS = {1: (0, MOMENTS - 1), 2: VALUES, 5: NUMBERS, 7: SWITCH, 8: SWITCH, 9: NUMBERS, 10: VALUES}
TAG, TEXT = re.compile(rb"[\x21-\x7e]*"), re.compile(rb"[\x20-\x7e]*")
SHELVED, ALL_FLAGS = 1, 7
ACTIVE_CORES, GONE_CORES, LATCHED_CORES = (1, 2), (3,), (4, 5)
# Places in an alarm's image.
FLAGS_AT, MOMENTS_AT = 140, 158


class Broken(NamedTuple):
    """A field that breaks its rule: its place, and its name on the page."""

    at: int
    field: str


# A field in its order: its place, its name, and whether it keeps its rule.
Field = tuple[int, str, bool]


def first_broken(fields: Iterator[Field], start: int = 0) -> Optional[Broken]:
    """The first field that breaks its rule."""
    return next((Broken(start + at, field) for at, field, holds in fields if not holds), None)


def header_fault(header: bytes, size: int) -> Optional[Broken]:
    """What is wrong with a header whose gate is open, on a device of this size."""
    name, rows, areas, segment = struct.unpack(">8sIHQ", header[1:])
    fits = LEAST_SEGMENT <= segment <= GREATEST_SEGMENT and device_size(rows, areas, segment) <= size
    return first_broken(
        iter(
            [
                (1, "name", name in MARKS),
                (9, "rows", 1 <= rows <= ALARM_LIMIT),
                (13, "areas", 1 <= areas <= AREA_LIMIT),
                (15, "L", fits),
            ]
        )
    )


def text_fault(text: bytes, mark: int) -> Optional[Broken]:
    """Whether 16 bytes are no text of an action in a half of this mark."""
    kind, asker, zeros, alarm, argument = struct.unpack(">BBHIq", text)
    least, greatest = ARGUMENTS.get(kind, (0, 0))
    is_text = (
        1 <= kind <= LAST_KIND.get(mark, 0)
        and asker <= LAST_ASKER.get(mark, 0)
        and not zeros
        and (kind != 1 or alarm == 0)
        and least <= argument <= greatest
    )
    return None if is_text else Broken(0, "text of an action")


def image_fault(image: bytes, rows: int, areas: int, count: int) -> Optional[Broken]:
    """What is wrong with an image of a plant that so many actions made."""
    clock, next_stamp = struct.unpack(">QQ", image[:16])
    begin = iter([(0, "clock", clock < MOMENTS), (8, "next stamp", 1 <= next_stamp <= 1 + ALARM_LIMIT * count)])
    alarms = image_length(0, areas)
    return (
        first_broken(begin)
        or areas_fault(image[:alarms], areas, clock, next_stamp)
        or alarms_fault(image[alarms:], rows, areas, clock, next_stamp)
    )


def areas_fault(image: bytes, areas: int, clock: int, next_stamp: int) -> Optional[Broken]:
    """What is wrong with the areas of an image."""
    total = 0
    for area in range(areas):
        start = image_length(0, area)
        ages = struct.unpack(f">{WINDOW}Q", image[start + 1 : start + AREA_IMAGE])
        total += sum(ages)
        broken = first_broken(area_fields(image[start], ages, clock, area < areas - 1 or total < next_stamp), start)
        if broken:
            return Broken(broken.at, f"{broken.field} of area {area}")
    return None


def area_fields(flag: int, ages: tuple[int, ...], clock: int, is_sum_below: bool) -> Iterator[Field]:
    yield 0, "flood flag", flag in (0, 1)
    above = next((age for age in range(min(clock + 1, WINDOW), WINDOW) if ages[age]), None)
    if above is not None:
        yield 1 + 8 * above, f"age {above}", False
    counted = sum(ages)
    yield 1 + 8 * (WINDOW - 1), f"age {WINDOW - 1}", (
        counted >= FLOOD_BELOW if flag else counted <= FLOOD_ABOVE
    ) and is_sum_below


def alarms_fault(image: bytes, rows: int, areas: int, clock: int, next_stamp: int) -> Optional[Broken]:
    """What is wrong with the alarms of an image."""
    stamps: set[int] = set()
    for number in range(rows):
        start = ALARM_IMAGE * number
        alarm = image[start : start + ALARM_IMAGE]
        broken = first_broken(
            itertools.chain(attribute_fields(alarm, areas), state_fields(alarm, clock, next_stamp, stamps)),
            image_length(0, areas) + start,
        )
        if broken:
            return Broken(broken.at, f"{broken.field} of alarm {number}")
    return None


def attribute_fields(alarm: bytes, areas: int) -> Iterator[Field]:
    """The fields of an alarm's attributes, each with its rule."""
    kind, priority, area, latching, setpoint, deadband, max_shelve = struct.unpack(">BBBBqQI", alarm[:24])
    yield 0, "kind", kind in KINDS
    yield 1, "priority", 1 <= priority <= 4
    yield 2, "area", area < areas
    yield 3, "latching", latching in (0, 1)
    yield 4, "setpoint", -READING_LIMIT <= setpoint <= READING_LIMIT
    yield 12, "deadband", deadband <= (0 if KINDS[kind] == "discrete" else READING_LIMIT)
    yield 20, "longest shelving", max_shelve <= SHELVE_LIMIT
    yield 24, "length of the tag", 1 <= alarm[24] <= 32
    yield 25, "tag", is_padded(alarm[25:57], alarm[24], TAG)
    yield 57, "length of the text", alarm[57] <= 80
    yield 58, "text", is_padded(alarm[58:138], alarm[57], TEXT)


def is_padded(field: bytes, length: int, letters: re.Pattern[bytes]) -> bool:
    """Whether a field has so many letters, and zeros behind them."""
    return bool(letters.fullmatch(field[:length])) and not any(field[length:])


def state_fields(alarm: bytes, clock: int, next_stamp: int, stamps: set[int]) -> Iterator[Field]:
    """The fields of an alarm's state, each with its rule."""
    active, core, flags, kept = alarm[138:142]
    deadline, stamp, *moments = struct.unpack(">5Q", alarm[142:])
    yield 138, "active", active in (0, 1)
    yield 139, "core state", core <= 5 and not (core in GONE_CORES and alarm[3]) and not (
        core in LATCHED_CORES and not alarm[3]
    )
    yield FLAGS_AT, "flags", flags <= ALL_FLAGS and (core == 0 if flags else active == (core in ACTIVE_CORES))
    yield 141, "how many moments are kept", kept <= 3 and (kept > 0 or core == 0)
    longest = int.from_bytes(alarm[20:24], "big")
    yield 142, "deadline of the shelving", clock < deadline <= clock + longest if flags & SHELVED else deadline == 0
    if core == 0 and not flags & SHELVED:
        yield 150, "stamp", stamp == 0
    else:
        yield 150, "stamp", 1 <= stamp < next_stamp and stamp not in stamps
        stamps.add(stamp)
    for place, (moment, before) in enumerate(zip(moments, [clock, *moments])):
        yield MOMENTS_AT + 8 * place, f"moment {place}", moment <= before if place < kept else moment == 0
