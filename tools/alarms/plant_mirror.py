"""The plant of a device file in memory, which goes on as the file does, and what is new of it."""
import itertools
import os
from dataclasses import dataclass
from typing import Iterator, NamedTuple, Optional, Union
from .ending import Fault
from .actions import Action
from .device_file import Damaged, DeviceFile, Frame, Head
from .table_file import fixed
from .judging import is_admitted, not_admitted
from .model import Change, FloodChange, PlantModel


# So many frames are read before the half is looked at again: they count only if nobody wrote over it meanwhile.
FRAMES = 4096


class Step(NamedTuple):
    """An action, the plant's moment at it, what it did, and the slot that asked, where that is known."""

    action: Action
    moment: int
    changes: list[Change]
    floods: list[FloodChange]
    slot: Optional[int] = None

    @property
    def number(self) -> int:
        return self.action.number


@dataclass(frozen=True)
class Begun:
    """A mirror begins with the plant behind the action of this number. No action is between this one and `first`, if
    that is given."""

    number: int


@dataclass(frozen=True)
class Gap:
    """Actions that the file no longer has, by their numbers. The plant behind them is that of an image."""

    first: int
    last: int


@dataclass(frozen=True)
class Replaced:
    """The server has another plant than the one that was followed, of which so many actions were shown."""

    shown: int


class OtherTable(Fault):
    """The file has the plant of another table than before."""


class Mirror:
    """The plant of a device file, which goes on as the file does.

    It begins with the image of the half that stands; with `far`, of the half before, which reaches farther back."""

    def __init__(self, path: str, far: bool = False):
        self.path, self.device = path, DeviceFile(path)
        try:
            self.begin(far)
        except BaseException:
            self.close()
            raise

    def close(self) -> None:
        self.device.close()

    def place(self) -> str:
        """Which file it is."""
        there = os.fstat(self.device.file)
        return f"{there.st_dev}:{there.st_ino}"

    @property
    def count(self) -> int:
        """How many actions made the plant."""
        return self.plant.count

    def show(self) -> str:
        """What `alm_server show` prints of this plant."""
        return self.plant.show(self.head.epoch)

    def begin(self, far: bool) -> None:
        """Takes the first image that can be had."""
        while True:
            newest = self.device.standing()
            older = self.device.before(newest)
            for head in filter(None, (older, newest) if far else (newest, older)):
                plant = self.image(head) if head == newest else self.dispensable_image(head)
                if plant:
                    self.plant = plant
                    self.enter(head)
                    return

    def image(self, head: Head) -> Optional[PlantModel]:
        """The plant of a half's image; none if the half was overwritten meanwhile."""
        try:
            image = self.device.image_of(head)
        except Damaged:
            if self.device.stands_whole(head):
                raise
            return None
        if not self.device.stands_whole(head):
            return None
        return PlantModel.of_image(image, self.device.rows, self.device.areas, head.count)

    def dispensable_image(self, head: Head) -> Optional[PlantModel]:
        """The plant of an image that isn't needed; none if it is damaged."""
        try:
            return self.image(head)
        except Damaged:
            return None

    def enter(self, head: Head) -> None:
        """Goes on at the first frame of a half. Those of its actions that the plant has already are passed over."""
        self.head, self.at, self.first = head, 0, head.count + 1

    def next_frames(self) -> list[Frame]:
        """Some of the next frames of the half; none at the journal's end, or if the half was overwritten meanwhile.
        Damage is told behind those before it."""
        frames: list[Frame] = []
        try:
            frames.extend(itertools.islice(self.device.frames(self.head, self.at, self.first), FRAMES))
        except Damaged:
            if not frames and self.device.stands_whole(self.head):
                raise
        return frames if self.device.stands_whole(self.head) else []

    def rest(self) -> Iterator[Step]:
        """The actions after this place of the half."""
        while frames := self.next_frames():
            for frame in frames:
                for action in frame.actions:
                    if self.count < action.number:
                        yield self.step(frame, action)
                self.at, self.first = frame.end, self.first + len(frame.actions)

    def step(self, frame: Frame, action: Action) -> Step:
        """Does the next action, which has to be one that the plant admits."""
        if not is_admitted(self.plant, action):
            raise not_admitted(self.device, self.head, frame, action)
        return Step(action, *self.apply(action), action.slot)

    def apply(self, action: Action) -> tuple[int, list[Change], list[FloodChange]]:
        changes, floods = self.plant.apply(action)
        return self.plant.now, changes, floods

    def news(self) -> Iterator[Step | Gap]:
        """The actions since the last time, and which were missed. `Damaged` is told behind what is before it."""
        known: Optional[Head] = None  # what stood already as the rest was read
        while True:
            before, damage = self.count, None
            try:
                yield from self.rest()
            except Damaged as fault:
                damage = fault
            newest = self.device.standing()
            if newest == self.head:
                if damage and self.device.stands_whole(self.head):
                    raise damage
                return
            if newest.count <= self.count:
                self.enter(newest)
            elif self.device.stands_whole(self.head) and not damage and (newest != known or self.count > before):
                known = newest
            elif gap := self.leap(newest, self.device.stands_whole(self.head)):
                yield gap

    def leap(self, newest: Head, is_damaged: bool) -> Optional[Gap]:
        """Goes on in another half, as the one that was read is gone, or is damaged and the newest isn't. What lies
        between isn't there any more."""
        for head in filter(None, (None if is_damaged else self.device.before(newest), newest)):
            if head.count <= self.count:
                self.enter(head)
                return None
            plant = self.image(head)
            if plant:
                if fixed(plant.table()) != fixed(self.plant.table()):
                    raise OtherTable(f"{self.path} has the plant of another table")
                gap = Gap(self.count + 1, plant.count)
                self.plant = plant
                self.enter(head)
                return gap
        return None

    def last(self) -> int:
        """The number of the last action that the file has, also beyond the plant's."""
        count = self.count
        try:
            for frame in self.device.frames(self.head, self.at, self.first):
                count = max(count, frame.actions[-1].number)
        except Damaged:
            pass  # it was overwritten, and what stands there now is another device's; or it ends here
        return count


News = Union[Begun, Step, Gap, Replaced]
