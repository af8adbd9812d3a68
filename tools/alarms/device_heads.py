"""The gates and the heads of a device's halves, by the name in its header: those of version 03 have two checksums in
place of a length, and its frames have other gates."""
import struct
from typing import Optional

from .checksum import checksum
from .device_rules import COUNTS, GATE_OPEN, MARKS, Broken, first_broken

# The name of a device that has checksums, and the value at which its frames' gates are closed.
SUMMED_NAME = b"ALMSRV03"
GATE_CLOSED = 0x5A
# Where the last field of a head before its own checksum begins, and where that begins.
IMAGE_SUM, HEAD_SUM = 17, 21


def is_half_open(gate: bytes) -> bool:
    """Whether the gate of a half is open, which has one byte; none where a device was cut."""
    return gate == bytes([GATE_OPEN])


def is_frame_open(gate: bytes, name: bytes) -> bool:
    """Whether the gate of a frame is open, which has one byte; none where a segment was cut."""
    if name == SUMMED_NAME:
        return len(gate) == 1 and gate[0] != GATE_CLOSED
    return gate == bytes([GATE_OPEN])


def head_fault(head: bytes, header: bytes, half: int, image: int) -> Optional[Broken]:
    """What is wrong with the head of a half under a header with images of this length."""
    name, marked = header[1:9], int.from_bytes(head[9:IMAGE_SUM], "big")
    mark = (9, "mark and count", marked >> 56 in MARKS[name] and marked & (2**56 - 1) <= COUNTS)
    if name == SUMMED_NAME:
        said = int.from_bytes(head[HEAD_SUM:], "big")
        own = checksum(header[1:] + bytes([half]) + head[1:HEAD_SUM])
        return first_broken(iter([mark, (HEAD_SUM, "checksum of the head", said == own)]))
    (length,) = struct.unpack(">Q", head[IMAGE_SUM:])
    return first_broken(iter([mark, (IMAGE_SUM, "length of the image", length == image)]))


def image_sum_fault(head: bytes, name: bytes, image: bytes) -> Optional[Broken]:
    """Whether a head says another checksum than its image has."""
    if name != SUMMED_NAME or int.from_bytes(head[IMAGE_SUM:HEAD_SUM], "big") == checksum(image):
        return None
    return Broken(IMAGE_SUM, "checksum of the image")
