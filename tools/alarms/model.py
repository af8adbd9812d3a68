"""A plant in memory: the image that begins it is docs/develop/FORMAT.md's, and what an action does is
docs/PROTOCOL.md's, `What the plant does`.

    plant = PlantModel.of_image(image, rows, areas, count)
    changes, floods = plant.apply(action)
    print(plant.show(epoch))                # what `alm_server show` prints

Nothing is asked and nothing is judged: each action that is applied was accepted by a server.
"""
import collections
import struct
from dataclasses import replace
from typing import Callable, Iterable, NamedTuple, Optional

from .actions import Action
from .device_file import NoDevice
from .device_rules import ALARM_IMAGE, AREA_IMAGE, KINDS
from .replies import Row
from .table_file import Alarm

CORES = ("NORM", "UNACK", "ACKED", "RTNUN", "LATUN", "LATAK")
SHELVED, BY_DESIGN, OUT_OF_SERVICE = 1, 2, 4
# The flags in the order in which one is shown before another: the bit, the letter and the word.
FLAGS = ((OUT_OF_SERVICE, "O", "OOSRV"), (BY_DESIGN, "D", "DSUPR"), (SHELVED, "S", "SHLVD"))
LETTERS = tuple("".join(letter for bit, letter, _ in FLAGS if flags & bit) or "-" for flags in range(8))
# What a state becomes if the condition goes, for an alarm that doesn't latch and for one that does; and what it becomes
# by ACK.
GONE = {"UNACK": ("RTNUN", "LATUN"), "ACKED": ("NORM", "LATAK")}
ACKNOWLEDGED = {"UNACK": "ACKED", "RTNUN": "NORM", "LATUN": "LATAK"}
# Seconds in which an area's annunciations are counted; a flood begins above the first number and ends below the second.
WINDOW = 600
FLOOD_ABOVE, FLOOD_BELOW = 10, 5
# The next stamp of a plant whose stamps so far nobody knows: below 0 they stand in their order.
UNKNOWN_STAMP = -(2**62)


class Change(NamedTuple):
    """What an action did to an alarm: the words of its state before and after, and its flags after.

    `since` is the moment of its last annunciation, of the one that this action made where `annunciated` says so; none
    before the first."""

    alarm: int
    before: str
    after: str
    flags: str
    annunciated: bool
    since: Optional[int]
    priority: int
    area: int


class FloodChange(NamedTuple):
    """A flood that began or ended by an action, and the area's annunciations in the last 600 seconds."""

    area: int
    flooded: bool
    annunciations: int


class AlarmState:
    """An alarm: its attributes with the priority and setpoint in force, and its state."""

    __slots__ = ("number", "attributes", "active", "core", "flags", "deadline", "stamp", "moments")

    def __init__(self, number: int, image: bytes):
        self.number = number
        kind, priority, area, latching, setpoint, deadband, max_shelve = struct.unpack(">BBBBqqI", image[:24])
        tag, text = image[25 : 25 + image[24]].decode("ascii"), image[58 : 58 + image[57]].decode("ascii")
        self.attributes = Alarm(KINDS[kind], setpoint, priority, area, tag, deadband, max_shelve, bool(latching), text)
        self.active, self.core, self.flags = bool(image[138]), CORES[image[139]], image[140]
        self.deadline, self.stamp, *moments = struct.unpack(">5Q", image[142:182])
        # of the last three annunciations, the newest first
        self.moments: tuple[int, ...] = tuple(moments[: image[141]])

    @classmethod
    def of_row(cls, number: int, alarm: Alarm, row: Row) -> "AlarmState":
        """An alarm of a table as its server's row has it."""
        state = cls.__new__(cls)
        state.number, state.attributes = number, replace(alarm, priority=row.priority, setpoint=row.setpoint)
        state.flags = sum(bit for bit, letter, _ in FLAGS if letter in row.flags)
        state.active, state.core = row.condition, "NORM" if state.flags else row.shown
        state.deadline, state.stamp, state.moments = row.deadline or 0, row.stamp, row.moments
        return state

    @property
    def shown(self) -> str:
        """The word of its state, as STATE shows it."""
        return next((word for bit, _, word in FLAGS if self.flags & bit), self.core)

    def line(self) -> str:
        """Its line of `show`."""
        deadline = self.deadline if self.flags & SHELVED else "-"
        return (
            "ALARM"
            f" {self.number} {self.attributes.tag} {self.shown} {int(self.active)} {LETTERS[self.flags]} {deadline}"
        )


class AreaWindow:
    """An area's annunciations in the last 600 seconds, and whether it is flooded."""

    __slots__ = ("moments", "total", "flooded")

    def __init__(self, now: int, image: bytes):
        self.flooded = bool(image[0])
        ages = struct.unpack(f">{WINDOW}Q", image[1:])
        # moments with how many annunciations each had, the oldest first
        self.moments = collections.deque([now - age, count] for age, count in reversed(list(enumerate(ages))) if count)
        self.total = sum(ages)

    @classmethod
    def empty(cls) -> "AreaWindow":
        """A window of which nothing is known."""
        return cls(0, bytes(AREA_IMAGE))

    def add(self, moment: int) -> None:
        if self.moments and self.moments[-1][0] == moment:
            self.moments[-1][1] += 1
        else:
            self.moments.append([moment, 1])
        self.total += 1

    def expire(self, now: int) -> None:
        while self.moments and self.moments[0][0] <= now - WINDOW:
            self.total -= self.moments.popleft()[1]

    def settle(self) -> bool:
        """Sets whether the area is flooded; whether that is another than before."""
        before = self.flooded
        self.flooded = self.total > FLOOD_ABOVE or (self.flooded and self.total >= FLOOD_BELOW)
        return self.flooded != before


class PlantModel:
    """A plant after a number of actions."""

    def __init__(self, now: int, next_stamp: int, count: int, windows: list[AreaWindow], alarms: list[AlarmState]):
        self.now, self.next_stamp, self.count = now, next_stamp, count
        self.windows, self.alarms = windows, alarms
        self.shelved = {alarm.number for alarm in alarms if alarm.flags & SHELVED}
        self.changes: list[Change] = []

    @classmethod
    def of_image(cls, image: bytes, rows: int, areas: int, count: int) -> "PlantModel":
        """The plant of an image, and the count of actions that made it."""
        now, next_stamp = struct.unpack(">QQ", image[:16])
        rest = 16 + AREA_IMAGE * areas
        windows = [AreaWindow(now, image[at : at + AREA_IMAGE]) for at in range(16, rest, AREA_IMAGE)]
        places = range(rest, rest + ALARM_IMAGE * rows, ALARM_IMAGE)
        return cls(
            now,
            next_stamp,
            count,
            windows,
            [AlarmState(number, image[at : at + ALARM_IMAGE]) for number, at in enumerate(places)],
        )

    def apply(self, action: Action) -> tuple[list[Change], list[FloodChange]]:
        """Does the next action: which alarms it changed, and which floods began or ended by it."""
        if action.number != self.count + 1:
            raise NoDevice(f"action {action.number} doesn't follow action {self.count}")
        self.changes = []
        try:
            floods = (
                self.clock(action.argument)
                if action.word == "CLOCK"
                else self.act(self.alarms[action.alarm], action.word, action.argument)
            )
        except (KeyError, IndexError):
            raise NoDevice(
                f"action {action.number}, {action.word} {action.alarm}, is none that the plant admits"
            ) from None
        self.count += 1
        return self.changes, floods

    def clock(self, moment: int) -> list[FloodChange]:
        """Sets the moment, then ends the shelvings that are due."""
        self.now = moment
        for window in self.windows:
            window.expire(moment)
        due = [
            (self.alarms[number].deadline, number) for number in self.shelved if self.alarms[number].deadline <= moment
        ]
        for _, number in sorted(due):
            alarm = self.alarms[number]
            before = alarm.shown
            self.note(alarm, before, self.unshelve(alarm))
        return self.floods(range(len(self.windows)))

    def act(self, alarm: AlarmState, word: str, argument: int) -> list[FloodChange]:
        """Does an action of an alarm."""
        before = alarm.shown
        annunciated = bool(ACTS[word](self, alarm, argument))
        self.note(alarm, before, annunciated)
        return self.floods([alarm.attributes.area]) if annunciated else []

    def note(self, alarm: AlarmState, before: str, annunciated: bool) -> None:
        """Notes how an alarm changed, and counts its annunciation."""
        since = alarm.moments[0] if alarm.moments else None
        attributes = alarm.attributes
        self.changes.append(
            Change(
                alarm.number,
                before,
                alarm.shown,
                LETTERS[alarm.flags],
                annunciated,
                since,
                attributes.priority,
                attributes.area,
            )
        )

    def floods(self, areas: Iterable[int]) -> list[FloodChange]:
        return [
            FloodChange(area, self.windows[area].flooded, self.windows[area].total)
            for area in areas
            if self.windows[area].settle()
        ]

    def stamp(self) -> int:
        """The next stamp, which no other has."""
        self.next_stamp += 1
        return self.next_stamp - 1

    def learn_stamp(self, alarm: AlarmState, stamp: int) -> None:
        """Takes the server's stamp of an alarm, where the plant began without knowing the next one: by it all are
        known."""
        ahead = stamp - alarm.stamp
        if alarm.stamp < 0 < stamp:
            self.next_stamp += ahead
            for one in self.alarms:
                one.stamp += ahead if one.stamp < 0 else 0

    def normal(self, alarm: AlarmState) -> None:
        """It is no longer annunciated."""
        alarm.core = "NORM"
        if not alarm.flags & SHELVED:
            alarm.stamp = 0

    def annunciate(self, alarm: AlarmState) -> bool:
        alarm.core, alarm.stamp = "UNACK", self.stamp()
        alarm.moments = (self.now, *alarm.moments[:2])
        self.windows[alarm.attributes.area].add(self.now)
        return True

    def value(self, alarm: AlarmState, _value: int) -> bool:
        """Its condition comes or goes: a value that changes neither is no action."""
        alarm.active = not alarm.active
        if alarm.flags:
            return False
        if alarm.active:
            return self.annunciate(alarm)
        alarm.core = GONE[alarm.core][alarm.attributes.latching]
        if alarm.core == "NORM":
            self.normal(alarm)
        return False

    def acknowledge(self, alarm: AlarmState, _argument: int) -> None:
        alarm.core = ACKNOWLEDGED[alarm.core]
        if alarm.core == "NORM":
            self.normal(alarm)

    def reset(self, alarm: AlarmState, _argument: int) -> None:
        self.normal(alarm)

    def shelve(self, alarm: AlarmState, seconds: int) -> None:
        self.suppress(alarm, SHELVED)
        alarm.deadline, alarm.stamp = self.now + seconds, self.stamp()
        self.shelved.add(alarm.number)

    def unshelve(self, alarm: AlarmState, _argument: int = 0) -> bool:
        alarm.deadline = alarm.stamp = 0
        self.shelved.remove(alarm.number)
        return self.release(alarm, SHELVED)

    def suppress(self, alarm: AlarmState, bit: int) -> None:
        alarm.flags |= bit
        self.normal(alarm)

    def release(self, alarm: AlarmState, bit: int) -> bool:
        """A flag falls. Where it was the last one, an alarm whose condition holds is annunciated again."""
        alarm.flags &= ~bit
        return not alarm.flags and alarm.active and self.annunciate(alarm)

    def switch(self, alarm: AlarmState, bit: int, on: int) -> bool:
        return self.release(alarm, bit) if not on else bool(self.suppress(alarm, bit))

    def show(self, epoch: Optional[int] = None) -> str:
        """What `alm_server show` prints of a device of this plant; `-` for an epoch that isn't known."""
        lines = [
            f"NOW {self.now} COUNT {self.count} EPOCH {'-' if epoch is None else epoch}",
            *(alarm.line() for alarm in self.alarms),
        ]
        listed = sorted((alarm for alarm in self.alarms if alarm.core != "NORM"), key=lambda alarm: alarm.stamp)
        for priority in range(1, 5):
            lines.append(listing("P", priority, (alarm for alarm in listed if alarm.attributes.priority == priority)))
        for area, window in enumerate(self.windows):
            line = listing("A", area, (alarm for alarm in listed if alarm.attributes.area == area))
            lines.append(f"{line} FLOOD {window.total} {int(window.flooded)}")
        return "\n".join(lines) + "\n"

    def table(self) -> list[Alarm]:
        """The attributes of the alarms, with the priorities and setpoints in force."""
        return [alarm.attributes for alarm in self.alarms]


def set_priority(_plant: PlantModel, alarm: AlarmState, priority: int) -> None:
    alarm.attributes = replace(alarm.attributes, priority=priority)


def set_setpoint(_plant: PlantModel, alarm: AlarmState, setpoint: int) -> None:
    alarm.attributes = replace(alarm.attributes, setpoint=setpoint)


# What each word of an alarm's action does; whether it annunciated the alarm.
ACTS: dict[str, Callable[..., object]] = {
    "VAL": PlantModel.value,
    "ACK": PlantModel.acknowledge,
    "RESET": PlantModel.reset,
    "SHELVE": PlantModel.shelve,
    "UNSHELVE": PlantModel.unshelve,
    "OOS": lambda plant, alarm, on: plant.switch(alarm, OUT_OF_SERVICE, on),
    "DESIGN": lambda plant, alarm, on: plant.switch(alarm, BY_DESIGN, on),
    "PRIO": set_priority,
    "SETP": set_setpoint,
}


def listing(letter: str, number: int, alarms: Iterable[AlarmState]) -> str:
    """A list in a line of `show`."""
    numbers = [str(alarm.number) for alarm in alarms]
    return " ".join([letter, str(number), str(len(numbers)), *numbers])
