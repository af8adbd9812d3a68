"""What an opening has to find in a device of version 03, by docs/develop/FORMAT.md alone.

Of an image and of an action only the checksum is judged, and not the rules of its fields: a changed one breaks the
checksum first.
"""
import struct
from dataclasses import dataclass
from typing import Optional

from .summed_device import ACTION, CLOSED, FRAME_HEAD, HEAD, HEADER, MARK_03, OPEN, summed

NAMES = (b"ALMSRV01", b"ALMSRV02", b"ALMSRV03")
SEGMENTS, MOST_ACTIONS = range(4_116, 16_777_216 + 1), 2**48


@dataclass(frozen=True)
class Found:
    """The first fault's words, or the half that stands and the number of actions behind its image."""

    fault: str = ""
    half: int = 0
    actions: int = 0


@dataclass(frozen=True)
class Half:
    """A half's number, where its parts begin, and where its segment ends."""

    number: int
    at: int
    image: int
    journal: int
    end: int

    def damaged(self, at: int) -> Found:
        return Found(f"damaged {self.number} {at}")


def found(text: bytes) -> Found:
    """Judges header, gates, heads, image and frames, in this order."""
    if len(text) < HEADER or text[0] != OPEN:
        return Found("unformatted")
    rows, areas, segment = struct.unpack(">IHQ", text[9:HEADER])
    image = 16 + 4801 * areas + 182 * rows
    length = HEAD + image + segment
    rules = {1: text[1:9] in NAMES, 9: 1 <= rows <= 16_384, 13: 1 <= areas <= 64}
    rules[15] = segment in SEGMENTS and HEADER + 2 * length <= len(text)
    for at, holds in rules.items():
        if not holds:
            return Found(f"damaged 2 {at}")
    places = [HEADER + number * length for number in (0, 1)]
    halves = [Half(number, at, at + HEAD, at + HEAD + image, at + length) for number, at in enumerate(places)]
    return of_halves(text, halves)


def of_halves(text: bytes, halves: list[Half]) -> Found:
    """Judges the gates, and the half that stands."""
    opened = [half for half in halves if text[half.at] == OPEN]
    if not opened:
        return Found(f"damaged 2 {HEADER}")
    epochs = [text[half.at + 1 : half.at + 9] for half in opened]
    if len(opened) == 2 and epochs[0] == epochs[1]:
        return opened[1].damaged(opened[1].at + 1)
    opened.sort(key=lambda half: text[half.at + 1 : half.at + 9], reverse=True)
    for half in opened:
        if (at := broken_head(text, half)) is not None:
            return half.damaged(at)
    return of_journal(text, opened[0])


def is_open(text: bytes, at: int) -> bool:
    """Whether the gate of a frame is open."""
    return text[at] != CLOSED if text[1:9] == NAMES[2] else text[at] == OPEN


def broken_head(text: bytes, half: Half) -> Optional[int]:
    """Where the first field of a head is that breaks its rule."""
    mark, count = text[half.at + 9], int.from_bytes(text[half.at + 10 : half.at + 17], "big")
    if text[1:9] != NAMES[2] or mark != MARK_03 or count > MOST_ACTIONS:
        return half.at + 9
    head = text[1:HEADER] + bytes([half.number]) + text[half.at + 1 : half.at + 21]
    return None if text[half.at + 21 : half.image] == summed(head) else half.at + 21


def of_journal(text: bytes, half: Half) -> Found:
    """Judges the image of the half that stands by its checksum, and then its frames."""
    if text[half.at + 17 : half.at + 21] != summed(text[half.image : half.journal]):
        return half.damaged(half.at + 17)
    text, at, actions = text[: half.end], half.journal, 0
    before = int.from_bytes(text[half.at + 10 : half.at + 17], "big")
    while is_open(text, at):
        number = struct.pack(">I", (before + actions + 1) % 2**32)
        times_255 = int.from_bytes(text[at + 13 : at + 15], "big")
        end = at + FRAME_HEAD + ACTION * (times_255 // 255)
        rules = {1: text[at + 1 : at + 9] == text[half.at + 1 : half.at + 9], 9: text[at + 9 : at + 13] == number}
        rules[13] = times_255 % 255 == 0 and 1 <= times_255 // 255 <= 256 and end < half.end
        rules[15] = rules[13] and text[at + 15 : at + 19] == summed(
            text[at + 1 : at + 15] + text[at + FRAME_HEAD : end]
        )
        for place, holds in rules.items():
            if not holds:
                return half.damaged(at + place)
        at, actions = end, actions + times_255 // 255
    return Found("", half.number, actions)
