"""A device of version 03, spelled by docs/develop/FORMAT.md alone from one of version 02."""
import functools
import struct
from typing import Sequence

HEADER, HEAD, FRAME_HEAD, ACTION = 23, 25, 19, 16
OPEN, CLOSED, MARK_03 = 0xA5, 0x5A, 253


def remainder(byte: int) -> int:
    """Of one byte's division by the polynomial 1EDC6F41, bit by bit, with its bits in reverse."""
    for _ in range(8):
        byte = byte >> 1 ^ (0x82F63B78 if byte & 1 else 0)
    return byte


REMAINDERS = [remainder(byte) for byte in range(256)]


def checksum(text: bytes) -> int:
    """CRC-32C, a byte at a time."""
    register = 0xFFFFFFFF
    for byte in text:
        register = register >> 8 ^ REMAINDERS[(register ^ byte) & 255]
    return register ^ 0xFFFFFFFF


@functools.lru_cache(64)
def summed(text: bytes) -> bytes:
    """The four bytes of a checksum. An image is asked for over and over."""
    return struct.pack(">I", checksum(text))


class SummedDevice:
    """The bytes of a device, and where its parts begin."""

    def __init__(self, path: str):
        with open(path, "rb") as file:
            self.bytes = bytearray(file.read())
        rows, areas, self.segment = struct.unpack(">IHQ", self.bytes[9:HEADER])
        self.image = 16 + 4801 * areas + 182 * rows

    def half(self, number: int) -> int:
        return HEADER + number * (HEAD + self.image + self.segment)

    def image_at(self, half: int) -> int:
        return self.half(half) + HEAD

    def journal(self, half: int) -> int:
        return self.image_at(half) + self.image

    def standing(self) -> int:
        """The half of the greater epoch among those whose gates are written open."""
        halves = [half for half in (0, 1) if self.bytes[self.half(half)] == OPEN]
        return max(halves, key=lambda half: self.bytes[self.half(half) + 1 : self.half(half) + 9])

    def frames(self, is_summed: bool, half: int = 0) -> list[tuple[int, int]]:
        """Where each frame of a half begins and ends: from its gate up to the next one."""
        found, at = [], self.journal(half)
        while self.bytes[at] != CLOSED if is_summed else self.bytes[at] == OPEN:
            field = self.bytes[at + 13 : at + 15] if is_summed else self.bytes[at + 17 : at + 19]
            end = at + FRAME_HEAD + ACTION * (int.from_bytes(field, "big") // (255 if is_summed else 1))
            found.append((at, end))
            at = end
        return found

    def spell_03(self, slots: Sequence[int] = ()) -> None:
        """Makes of a device of version 02 one of version 03: the half that stands, and the other one's gate is closed.
        These slots asked for the device's actions, from its first on; of the rest it isn't said."""
        self.bytes[8] = ord("3")
        standing = self.standing()
        self.spell_half(standing, slots)
        self.bytes[self.half(1 - standing)] = CLOSED

    def spell_half(self, half: int, slots: Sequence[int]) -> None:
        """The same of one half, whose header is of version 03."""
        at, gate = self.half(half), self.journal(half)
        for frame, gate in self.frames(False, half):
            number, count = struct.unpack(">QH", self.bytes[frame + 9 : frame + FRAME_HEAD])
            for action, place in enumerate(range(frame + FRAME_HEAD, gate, ACTION), number - 1):
                self.bytes[place + 1] = slots[action] + 1 if action < len(slots) else 0
            self.bytes[frame + 9 : frame + 15] = struct.pack(">IH", number % 2**32, 255 * count)
            self.sum_frame(frame, gate)
        self.bytes[gate] = CLOSED
        self.bytes[at + 9] = MARK_03
        self.sum_half(half)

    def sum_frame(self, at: int, end: int) -> None:
        """Writes the checksum of a frame."""
        text = self.bytes[at + 1 : at + 15] + self.bytes[at + FRAME_HEAD : end]
        self.bytes[at + 15 : at + FRAME_HEAD] = summed(bytes(text))

    def sum_half(self, half: int) -> None:
        """Writes the checksums of a half's image and of its head."""
        at = self.half(half)
        self.bytes[at + 17 : at + 21] = summed(bytes(self.bytes[at + HEAD : at + HEAD + self.image]))
        self.sum_head(half)

    def sum_head(self, half: int) -> None:
        """Writes the checksum of a half's head."""
        at = self.half(half)
        text = self.bytes[1:HEADER] + bytes([half]) + self.bytes[at + 1 : at + 21]
        self.bytes[at + 21 : at + HEAD] = summed(bytes(text))

    def write(self, path: str) -> None:
        with open(path, "wb") as file:
            file.write(self.bytes)
