"""One field of a device of version 03 is changed, and its fault is where docs/develop/FORMAT.md says."""
import struct
from typing import Iterator

from lib.program import check
from lib.summed_device import ACTION, FRAME_HEAD
from worked_devices import Openings, Worked, device_of

# What is changed: its name, its place and its bytes; and the fault's half and place.
Row = tuple[str, int, bytes, int, int]
MOST_ACTIONS, ALARM_0 = 2**48, 16 + 2 * 4801


def header_rows(worked: Worked) -> Iterator[Row]:
    """Fields of the header. What is still one of a header is told by the head's checksum."""
    at, half = worked.device.half(worked.half), worked.half
    segment = worked.device.segment
    yield "name", 1, b"ALMSRV04", 2, 1
    yield "name of version 02", 1, b"ALMSRV02", half, at + 9
    yield "no alarms", 9, bytes(4), 2, 9
    yield "an alarm more than there is room for", 9, struct.pack(">I", 5), 2, 15
    yield "no areas", 13, bytes(2), 2, 13
    yield "65 areas", 13, struct.pack(">H", 65), 2, 13
    yield "length of a segment, less", 15, struct.pack(">Q", segment - 1), 2, 15
    yield "length of a segment, more", 15, struct.pack(">Q", segment + 1), 2, 15


def head_rows(worked: Worked) -> Iterator[Row]:
    """Fields of the head that stands."""
    at, half, text = worked.device.half(worked.half), worked.half, worked.bytes
    epoch, count = struct.unpack(">QQ", text[at + 1 : at + 17])
    yield "epoch, raised", at + 1, struct.pack(">Q", epoch + 1), half, at + 21
    yield "epoch, lowered", at + 1, struct.pack(">Q", 0), half, at + 21
    yield "mark of version 02", at + 9, b"\x02", half, at + 9
    yield "count", at + 9, struct.pack(">Q", count + 1), half, at + 21
    yield "count above the most", at + 10, (MOST_ACTIONS + 1).to_bytes(7, "big"), half, at + 9
    yield "checksum of the image", at + 17, text[at + 21 : at + 25], half, at + 21
    yield "checksum of the head", at + 21, text[at + 17 : at + 21], half, at + 21


def image_rows(worked: Worked) -> Iterator[Row]:
    """Fields of the image: whether or not they keep their rules, the checksum tells."""
    half, image = worked.half, worked.device.image_at(worked.half)
    sum_at = worked.device.half(half) + 17
    yield "clock", image, struct.pack(">Q", 2**39), half, sum_at
    yield "setpoint", image + ALARM_0 + 4, struct.pack(">q", 799), half, sum_at
    yield "tag", image + ALARM_0 + 25, b"TI-109", half, sum_at
    yield "priority that is none", image + ALARM_0 + 1, b"\x09", half, sum_at


def frame_rows(worked: Worked, at: int) -> Iterator[Row]:
    """Fields of a frame."""
    half, text, action = worked.half, worked.bytes, at + FRAME_HEAD
    epoch, number, times_255 = struct.unpack(">QIH", text[at + 1 : at + 15])
    yield "epoch of a frame", at + 1, struct.pack(">Q", epoch + 1), half, at + 1
    yield "number", at + 9, struct.pack(">I", number + 1), half, at + 9
    yield "n, no multiple of 255", at + 13, struct.pack(">H", times_255 + 1), half, at + 13
    yield "n of no action", at + 13, bytes(2), half, at + 13
    yield "n of 257 actions", at + 13, struct.pack(">H", 255 * 257), half, at + 13
    yield "n of an action more", at + 13, struct.pack(">H", times_255 + 255), half, at + 15
    yield "checksum", at + 15, bytes(4), half, at + 15
    yield "kind", action, b"\x08" if text[action] != 8 else b"\x07", half, at + 15
    yield "asker", action + 1, bytes([text[action + 1] % 18 + 1]), half, at + 15
    yield "nobody asked", action + 1, b"\x00", half, at + 15
    yield "zeros", action + 2, b"\x01", half, at + 15
    yield "alarm", action + 4, struct.pack(">I", 9), half, at + 15
    yield "argument", action + 8, struct.pack(">q", 10**11), half, at + 15


def mended_rows(worked: Worked, at: int, end: int) -> Iterator[Row]:
    """Fields that break their rule, or another's, in a text whose checksums are right again."""
    half, device, last = worked.half, worked.device, end - ACTION
    head, image = device.half(half), device.image_at(half)
    epoch, count = struct.unpack(">QQ", worked.bytes[head + 1 : head + 17])
    first = device.journal(half)
    yield "epoch, raised", head + 1, struct.pack(">Q", epoch + 1), half, first + 1
    yield "count", head + 9, struct.pack(">Q", count + 1), half, first + 9
    yield "mark of version 02", head + 9, b"\x02", half, head + 9
    yield "priority that is none", image + ALARM_0 + 1, b"\x09", half, image + ALARM_0 + 1
    yield "kind that is none", last, b"\x0b", half, last
    yield "asker that is none", last + 1, b"\x13", half, last
    yield "zeros", last + 3, b"\x01", half, last
    yield "alarm that isn't there", last, b"\x03\x01\0\0" + struct.pack(">Iq", 4, 0), half, last


def mended(text: bytes, path: str, half: int, at: int, end: int) -> bytes:
    """These bytes with the checksums of a half and of one of its frames right again."""
    device = device_of(text, path)
    device.sum_half(half)
    device.sum_frame(at, end)
    return bytes(device.bytes)


def try_fields(worked: Worked, openings: Openings) -> int:
    """Changes fields one by one, and counts them."""
    frames = worked.device.frames(True, worked.half)
    rows = [*header_rows(worked), *head_rows(worked), *image_rows(worked)]
    rows += [row for at, _ in (frames[0], frames[-1]) for row in frame_rows(worked, at)]
    for name, at, some, half, told in rows:
        said = openings.shown(((at, some),))
        check(
            said == f"damaged {half} {told}".encode(), worked.name, name, "at", at, "is told at", told, "and not", said
        )
    of_sums, path = list(mended_rows(worked, *frames[-1])), openings.path("mended")
    for name, at, some, half, told in of_sums:
        text = worked.bytes[:at] + some + worked.bytes[at + len(some) :]
        said = openings.shown(((0, mended(text, path, worked.half, *frames[-1])),))
        check(
            said == f"damaged {half} {told}".encode(), worked.name, name, "with sums is told at", told, "and not", said
        )
    return len(rows) + len(of_sums)
