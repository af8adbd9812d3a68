"""What a device's file stands for, judged by each rule of docs/develop/FORMAT.md and by none of the server's code.

    judged = judge(DeviceFile(path), head)
    judged.plant, judged.count, judged.damage       # the plant up to the first broken field, and that field

Whether a plant admits an action is asked here, after docs/PROTOCOL.md. `closed_gate` finds gates that no power failure
closes.
"""
import copy
import time
from dataclasses import dataclass
from typing import Callable, Optional, Union

from .actions import Action
from .device_file import Damaged, DeviceFile, Frame, Head
from .device_frames import head_of_frame, shown
from .device_rules import ACTION, COUNTS, FRAME_HEAD
from .table_file import READING_LIMIT
from .known import known
from .model import ACKNOWLEDGED, BY_DESIGN, OUT_OF_SERVICE, SHELVED, AlarmState, PlantModel

# Seconds between two readings of what looks damaged, and how many are made at most.
PAUSE, READINGS = 0.1, 50


def is_admitted(plant: PlantModel, action: Action) -> bool:
    """Whether a plant takes an action, whoever asks for it."""
    if plant.count >= COUNTS:
        return False
    if action.word == "CLOCK":
        return action.argument > plant.now
    return action.alarm < len(plant.alarms) and ADMITS[action.word](plant.alarms[action.alarm], action.argument)


def changes_condition(alarm: AlarmState, value: int) -> bool:
    """Whether a value makes the condition come or go."""
    setpoint, deadband = alarm.attributes.setpoint, alarm.attributes.deadband
    if alarm.attributes.kind == "high":
        return value < setpoint - deadband if alarm.active else value >= setpoint
    if alarm.attributes.kind == "low":
        return value > setpoint + deadband if alarm.active else value <= setpoint
    return (value == setpoint) != alarm.active


def is_shelvable(alarm: AlarmState, seconds: int) -> bool:
    return not alarm.flags & SHELVED and 1 <= seconds <= alarm.attributes.max_shelve


def switches(bit: int) -> Callable[[AlarmState, int], bool]:
    """Whether a flag isn't as it is asked to be."""
    return lambda alarm, is_on: bool(alarm.flags & bit) != bool(is_on)


# Whether an alarm takes the argument of each word.
ADMITS: dict[str, Callable[[AlarmState, int], bool]] = {
    "VAL": changes_condition,
    "ACK": lambda alarm, _: alarm.core in ACKNOWLEDGED,
    "RESET": lambda alarm, _: alarm.core == "LATAK",
    "SHELVE": is_shelvable,
    "UNSHELVE": lambda alarm, _: bool(alarm.flags & SHELVED),
    "OOS": switches(OUT_OF_SERVICE),
    "DESIGN": switches(BY_DESIGN),
    "PRIO": lambda alarm, priority: 1 <= priority <= 4 and priority != alarm.attributes.priority,
    "SETP": (
        lambda alarm, setpoint: -READING_LIMIT <= setpoint <= READING_LIMIT and setpoint != alarm.attributes.setpoint
    ),
}


def judge_frame(device: DeviceFile, head: Head, frame: Frame, plant: PlantModel) -> None:
    """Does the actions of a frame that a plant hasn't yet. `Damaged` is one that it doesn't admit."""
    for action in frame.actions:
        if action.number > plant.count:
            if not is_admitted(plant, action):
                raise not_admitted(device, head, frame, action)
            plant.apply(action)


def not_admitted(device: DeviceFile, head: Head, frame: Frame, action: Action) -> Damaged:
    """The damage of an action that the plant doesn't admit."""
    return Damaged(
        device.path,
        head.half,
        device.segment_at(head.half) + frame.place(action.number),
        f"action {action.number}, which the plant doesn't admit",
    )


@dataclass(frozen=True)
class ClosedGate:
    """A gate that no power failure closes: behind it are actions, which the server doesn't see. It is a frame's gate,
    or the gate of a half."""

    path: str
    half: int
    at: int
    gate: str
    first: int
    last: int

    def __str__(self) -> str:
        hidden = (
            f"action {self.first} stands" if self.first == self.last else f"actions {self.first} to {self.last} stand"
        )
        return (
            f"{self.path} is damaged in half {self.half} at byte {self.at}: gate of a {self.gate}, closed by no power"
            f" failure: {hidden} behind it"
        )


@dataclass(frozen=True)
class Judged:
    """What a half stands for up to its first damage, and where its frames end. Without a plant its head or image is
    damaged."""

    head: Head
    plant: Optional[PlantModel]
    end: int
    damage: Optional[Damaged]

    @property
    def count(self) -> int:
        return self.plant.count if self.plant else 0


def judge(device: DeviceFile, head: Head, plant: Optional[PlantModel] = None) -> Judged:
    """Judges a half: its head, its image and its frames. With a plant that is as far as its image, only the frames are
    done."""
    end = 0
    try:
        plant = plant or PlantModel.of_image(device.image_of(head), device.rows, device.areas, head.count)
        for frame in device.frames(head):
            judge_frame(device, head, frame, plant)
            end = frame.end
    except Damaged as damage:
        return Judged(head, plant, end, plant and earlier(device, head, plant, damage) or damage)
    return Judged(head, plant, end, None)


def earlier(device: DeviceFile, head: Head, plant: PlantModel, damage: Damaged) -> Optional[Damaged]:
    """Does what stands before a damaged action in its frame. It may be damaged itself."""
    try:
        if damage.before and damage.before.actions:
            judge_frame(device, head, damage.before, plant)
    except Damaged as fault:
        return fault
    return None


def closed_gate(device: DeviceFile, judged: Judged) -> Optional[ClosedGate]:
    """A gate that is closed though what is behind it was only written once it was open: that of the next frame, or of
    the next half."""
    if judged.damage is None:
        return closed_half(device, judged) or closed_frame(device, judged)
    return closed_half(device, judged)


def closed_frame(device: DeviceFile, judged: Judged) -> Optional[ClosedGate]:
    """A whole frame behind the journal's end, with an open frame of the next number behind it. A frame is only written
    once the gate of the one before it was stored. Frames of an older device in the same file may look so: theirs are
    actions that this plant doesn't admit."""
    head, first = judged.head, judged.count + 1
    count = actions_at(device, head, judged.end, first)
    behind = judged.end + FRAME_HEAD + ACTION * count
    if not count or last_open(device, head, behind, first + count) is None:
        return None
    last = last_admitted(device, judged, count)
    if last is None or is_open(device, device.segment_at(head.half) + judged.end):
        return None
    return ClosedGate(device.path, head.half, device.segment_at(head.half) + judged.end, "frame", first, last)


def last_admitted(device: DeviceFile, judged: Judged, count: int) -> Optional[int]:
    """The last action behind a closed gate, whose frame has so many; none if one of them is damaged, or isn't
    admitted."""
    head, plant = judged.head, copy.deepcopy(known(judged.plant))
    try:
        frame = device.body_at(head, judged.end, plant.count + 1, count)
        judge_frame(device, head, frame, plant)
        for frame in device.frames(head, frame.end, plant.count + 1):
            judge_frame(device, head, frame, plant)
    except Damaged:
        return None
    return plant.count


def closed_half(device: DeviceFile, judged: Judged) -> Optional[ClosedGate]:
    """A closed half of the next epoch, with the image of this plant, whose open frames go on behind the journal that
    stands. Those that a checkpoint copied end with it. What an older device left in the same file has another image."""
    half = 1 - judged.head.half
    head = device.closed_head_of(half)
    if head is None or head.epoch != judged.head.epoch + 1 or not judged.head.count <= head.count <= judged.count:
        return None
    own = judge(device, head)
    if (
        own.count <= last_read(device, judged)
        or not is_image_of(device, judged.head, head)
        or device.closed_head_of(half) != head
    ):
        return None
    return ClosedGate(device.path, half, device.half_at(half), "half", judged.count + 1, own.count)


def is_image_of(device: DeviceFile, standing: Head, closed: Head) -> bool:
    """Whether the image of a closed half is the plant that the standing one had at that action."""
    try:
        image = PlantModel.of_image(device.image_of(closed), device.rows, device.areas, closed.count)
        plant = PlantModel.of_image(device.image_of(standing), device.rows, device.areas, standing.count)
        for frame in device.frames(standing):
            judge_frame(
                device,
                standing,
                Frame([action for action in frame.actions if action.number <= closed.count], frame.end),
                plant,
            )
    except Damaged:
        return False
    return (plant.show(0), plant.next_stamp) == (image.show(0), image.next_stamp)


def is_open(device: DeviceFile, at: int) -> bool:
    return device.is_open(device.read(at, 1))


def actions_at(device: DeviceFile, head: Head, at: int, first: int) -> int:
    """How many actions the frame at a place says that it has, whatever its gate is, if the rest of its head is
    whole."""
    text = device.read(device.segment_at(head.half) + at, FRAME_HEAD) if at + FRAME_HEAD < device.segment else b""
    found = head_of_frame(text, head.mark)
    is_whole = (found.epoch, found.number) == (head.epoch, shown(head.mark, first)) and found.end(at) < device.segment
    return found.actions if is_whole else 0


def last_open(device: DeviceFile, head: Head, at: int, first: int) -> Optional[int]:
    """The last action of the open frames from a place on, as far as they are whole; none if there is no such frame."""
    last = None
    while is_open(device, device.segment_at(head.half) + at) and (count := actions_at(device, head, at, first)):
        last = first + count - 1
        at, first = at + FRAME_HEAD + ACTION * count, first + count
    return last


def last_read(device: DeviceFile, judged: Judged) -> int:
    """The last action of a journal by now: a server may have gone on since it was judged."""
    return max(judged.count, judged.head.count, last_open(device, judged.head, 0, judged.head.count + 1) or 0)


@dataclass(frozen=True)
class Reading:
    """What a device stands for. Without a judged half its header is damaged, or no half stands."""

    judged: Optional[Judged]
    damage: Optional[Damaged]
    closed: Optional[ClosedGate]

    @property
    def place(self) -> Optional[tuple[int, ...]]:
        """Where something is wrong."""
        return tuple(one for wrong in self.wrong() for one in (wrong.half, wrong.at)) or None

    def wrong(self) -> list[Union[Damaged, ClosedGate]]:
        return [wrong for wrong in (self.damage, self.closed) if wrong]


def read_once(path: str) -> Reading:
    """Reads a device as it is just now."""
    try:
        device = DeviceFile(path)
    except Damaged as damage:
        return Reading(None, damage, None)
    try:
        return standing_of(device)
    except Damaged as damage:
        return Reading(None, damage, None)
    finally:
        device.close()


def standing_of(device: DeviceFile) -> Reading:
    """What the half that stands is for. What is wrong counts only where it stands afterwards too: nobody wrote over it
    meanwhile."""
    while True:
        head = device.standing()
        judged = judge(device, head)
        reading = Reading(judged, judged.damage, closed_gate(device, judged))
        if reading.place is None or device.standing() == head:
            return reading


def read_device(path: str) -> Reading:
    """Reads a device that may be served: what is wrong counts only where the next reading finds the same place."""
    reading = read_once(path)
    for _ in range(READINGS):
        if reading.place is None:
            break
        time.sleep(PAUSE)
        before, reading = reading, read_once(path)
        if reading.place == before.place:
            break
    return reading
