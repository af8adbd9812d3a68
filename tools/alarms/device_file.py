"""The bytes of a device file, after docs/develop/FORMAT.md: read without the server and without its lock, also while it
runs.

A half that is being written isn't read. What is read is kept only if the same half stands afterwards, so that a reader
never sees a torn piece. Nothing is written. A field that breaks its rule is `Damaged`: of header, heads and frames each
is judged as it is read.
"""
import os
import struct
from dataclasses import dataclass
from typing import Callable, Iterator, Optional, TypeVar

from .actions import Action
from .ending import Fault
from .device_frames import frame_fault, head_of_frame, sum_fault
from .device_heads import SUMMED_NAME, head_fault, image_sum_fault, is_frame_open, is_half_open
from .device_rules import (
    ACTION,
    ACTIONS,
    ALARM_IMAGE,
    AREA_IMAGE,
    FRAME_HEAD,
    GATE_OPEN,
    HEAD,
    HEADER,
    OF_HEADER,
    Broken,
    header_fault,
    image_fault,
    text_fault,
)


Read = TypeVar("Read")


class NoDevice(Fault):
    """The file isn't a formatted device."""


class Damaged(NoDevice):
    """A field breaks its rule: its half, 2 for the header; its place in the file; its name in docs/develop/FORMAT.md.
    Of an action also the part of its frame that is before it."""

    def __init__(self, path: str, half: int, at: int, field: str, before: Optional["Frame"] = None):
        super().__init__(
            f"{path} is damaged in {'its header' if half == OF_HEADER else f'half {half}'} at byte {at}: {field}"
        )
        self.half, self.at, self.field, self.before = half, at, field, before


@dataclass(frozen=True)
class Head:
    """The head of the half that stands."""

    half: int
    epoch: int
    mark: int
    count: int


@dataclass(frozen=True)
class Frame:
    """A frame of the journal, and the place behind it in its segment."""

    actions: list[Action]
    end: int

    def place(self, number: int) -> int:
        """Where in its segment the action of this number begins."""
        return self.end - ACTION * (self.actions[-1].number - number + 1)


def action_of(text: bytes, number: int) -> Action:
    """The action of this number in its text, with the slot that asked if the text says it."""
    kind, asker, alarm, argument = struct.unpack(">BB2xIq", text)
    return Action(number, ACTIONS[kind], alarm, argument, asker - 1 if asker else None)


class DeviceFile:
    """A formatted device file, open for reading."""

    def __init__(self, path: str):
        self.path, self.file = path, os.open(path, os.O_RDONLY)
        try:
            self.begin(self.read(0, HEADER))
        except BaseException:
            self.close()
            raise

    def begin(self, header: bytes) -> None:
        """Takes what the header says."""
        if len(header) < HEADER or header[0] != GATE_OPEN:
            raise NoDevice(f"{self.path} isn't formatted")
        self.header = header
        self.judge(OF_HEADER, 0, header_fault(header, os.fstat(self.file).st_size))
        self.name, self.rows, self.areas, self.segment = struct.unpack(">8sIHQ", header[1:])
        self.image = 16 + AREA_IMAGE * self.areas + ALARM_IMAGE * self.rows

    def judge(self, half: int, start: int, broken: Optional[Broken]) -> None:
        """Raises `Damaged` for a field that breaks its rule, at its place behind a start."""
        if broken:
            raise Damaged(self.path, half, start + broken.at, broken.field)

    def close(self) -> None:
        os.close(self.file)

    def read(self, at: int, length: int) -> bytes:
        return os.pread(self.file, length, at)

    def whole(self, at: int, length: int) -> bytes:
        """The bytes at a place, all of them."""
        text = self.read(at, length)
        if len(text) < length:
            raise NoDevice(f"{self.path} was cut")
        return text

    def half_at(self, half: int) -> int:
        return HEADER + half * (HEAD + self.image + self.segment)

    def segment_at(self, half: int) -> int:
        return self.half_at(half) + HEAD + self.image

    def head_of(self, half: int) -> Optional[Head]:
        """The head of a half whose gate is open."""
        return self.head_of_text(half, self.read(self.half_at(half), 17), True)

    def closed_head_of(self, half: int) -> Optional[Head]:
        """What stands where a half whose gate is closed has its head."""
        return self.head_of_text(half, self.read(self.half_at(half), 17), False)

    def before(self, newest: Head) -> Optional[Head]:
        """The head of the half that stood before the one that stands, where it is whole: it has its frames until the
        next checkpoint begins. In version 03 it is shut."""
        older = self.head_of(1 - newest.half) or self.shut_head_of(1 - newest.half)
        return older if older and older.epoch + 1 == newest.epoch else None

    def shut_head_of(self, half: int) -> Optional[Head]:
        """The head of a half of version 03 whose gate is closed, if it has its checksum."""
        head = self.closed_head_of(half) if self.name == SUMMED_NAME else None
        text = self.read(self.half_at(half), HEAD)
        return head if len(text) == HEAD and not head_fault(text, self.header, half, self.image) else None

    def stands_whole(self, head: Head) -> bool:
        """Whether nobody began to write over a half: then its gate is closed first, in version 03 its head written."""
        return head in (self.head_of(head.half), self.shut_head_of(head.half))

    def is_open(self, gate: bytes) -> bool:
        """Whether the gate of a frame is open."""
        return is_frame_open(gate, self.name)

    def head_of_text(self, half: int, text: bytes, is_shown: bool) -> Optional[Head]:
        """The head in the first bytes of a half, where its gate is open or not, as is asked."""
        if len(text) < 17 or is_half_open(text[:1]) != is_shown:
            return None
        epoch, marked = struct.unpack(">QQ", text[1:])
        return Head(half, epoch, marked >> 56, marked & (2**56 - 1))

    def standing(self) -> Head:
        """The head of the half that stands."""
        heads = [head for head in map(self.head_of, (0, 1)) if head]
        if not heads:
            if self.read(0, 1) != self.header[:1]:
                raise NoDevice(f"{self.path} is being formatted")
            raise Damaged(self.path, OF_HEADER, HEADER, "gates of the halves: both are closed")
        if len(heads) == 2 and heads[0].epoch == heads[1].epoch:
            raise Damaged(self.path, 1, self.half_at(1) + 1, "epoch: both halves have it")
        return max(heads, key=lambda head: head.epoch)

    def judge_head(self, head: Head) -> None:
        """Raises `Damaged` where a head breaks its rules; in version 03 also where the other one does, if its gate is
        open."""
        self.judge_head_of(head.half)
        if self.name == SUMMED_NAME and is_half_open(self.read(self.half_at(1 - head.half), 1)):
            self.judge_head_of(1 - head.half)

    def judge_head_of(self, half: int) -> None:
        start = self.half_at(half)
        self.judge(half, start, head_fault(self.whole(start, HEAD), self.header, half, self.image))

    def image_of(self, head: Head) -> bytes:
        """The image of a half, which keeps the rules of the page, as its head does."""
        self.judge_head(head)
        start = self.half_at(head.half)
        image = self.whole(start + HEAD, self.image)
        self.judge(head.half, start, image_sum_fault(self.whole(start, HEAD), self.name, image))
        self.judge(
            head.half, self.segment_at(head.half) - self.image, image_fault(image, self.rows, self.areas, head.count)
        )
        return image

    def frame_at(self, head: Head, at: int, first: int) -> Optional[Frame]:
        """The frame at a place of a half's segment whose first action has this number; none where the journal ends."""
        start, room = self.segment_at(head.half) + at, self.segment - at
        text = self.whole(start, min(FRAME_HEAD, room))
        if not self.is_open(text[:1]):
            return None
        self.judge(head.half, start, frame_fault(text, room, head.epoch, first, head.mark))
        count = head_of_frame(text, head.mark).actions
        body = self.whole(start + FRAME_HEAD, ACTION * count)
        self.judge(head.half, start, sum_fault(text, body, head.mark))
        return self.body_at(head, at, first, count)

    def body_at(self, head: Head, at: int, first: int, count: int) -> Frame:
        """The actions of a frame behind its head, which says how many they are."""
        start, actions = self.segment_at(head.half) + at + FRAME_HEAD, list[Action]()
        body = self.whole(start, ACTION * count)
        for place in range(0, len(body), ACTION):
            text = body[place : place + ACTION]
            if broken := text_fault(text, head.mark):
                raise Damaged(
                    self.path, head.half, start + place, broken.field, Frame(actions, at + FRAME_HEAD + place)
                )
            actions.append(action_of(text, first + len(actions)))
        return Frame(actions, at + FRAME_HEAD + len(body))

    def frames(self, head: Head, at: int = 0, first: Optional[int] = None) -> Iterator[Frame]:
        """The frames of a half's journal from a place on."""
        self.judge_head(head)
        first = head.count + 1 if first is None else first
        while frame := self.frame_at(head, at, first):
            yield frame
            at, first = frame.end, first + len(frame.actions)

    def settled(self, read: Callable[[Head], Read]) -> Read:
        """What is read of the half that stands. Damage counts only where that half stands afterwards too."""
        while True:
            head, damage = self.standing(), None
            try:
                found = read(head)
            except Damaged as fault:
                damage = fault
            if self.standing() == head:
                if damage:
                    raise damage
                return found

    def clock(self, head: Head) -> int:
        """The clock of a half's image."""
        return int.from_bytes(self.read(self.half_at(head.half) + HEAD, 8), "big")

    def moment(self) -> int:
        """The plant's clock: the last CLOCK of the journal, or the image's. It may be ahead of what the server has
        stored durably."""
        return self.settled(self.moment_of)

    def moment_of(self, head: Head) -> int:
        """The clock of a half."""
        clocks = [action.argument for frame in self.frames(head) for action in frame.actions if action.word == "CLOCK"]
        return clocks[-1] if clocks else self.clock(head)

    def tags(self) -> list[str]:
        """The tags of the alarms by number. They never change."""
        image = self.settled(self.image_of)
        alarms = (image[at : at + ALARM_IMAGE] for at in range(16 + AREA_IMAGE * self.areas, len(image), ALARM_IMAGE))
        return [alarm[25 : 25 + alarm[24]].decode("ascii") for alarm in alarms]
