"""Whether the rows that a tool computes are those that the server shows.

A tool that follows the journal has a model of the plant. So it asks the server for the rows too, some at a time, and
holds each against the model's at the same count of actions.
"""
import collections
from dataclasses import dataclass
from typing import Iterable

from .model import LETTERS as FLAG_LETTERS, SHELVED, AlarmState, PlantModel
from .replies import Row

# What is compared of a row, by its name.
Fields = dict[str, object]
LETTERS = "SDO"


@dataclass(frozen=True)
class Difference:
    """A field of an alarm's row that isn't the server's, behind the action `number` at a moment in seconds: what it is
    by the model, and what the server shows."""

    alarm: int
    number: int
    moment: int
    field: str
    here: str
    there: str

    def __str__(self) -> str:
        return f"its {self.field} is {self.here} here, and {self.there} there"


def written(name: str, value: object) -> str:
    """A field's value for people."""
    if name == "flags" and isinstance(value, int):
        return FLAG_LETTERS[value]
    if isinstance(value, tuple):
        return " ".join(map(str, value)) or "-"
    return "-" if value is None else str(int(value) if isinstance(value, bool) else value)


def of_model(alarm: AlarmState) -> Fields:
    """The row of an alarm in the model."""
    return {
        "state": alarm.shown,
        "condition": alarm.active,
        "flags": alarm.flags,
        "deadline": alarm.deadline if alarm.flags & SHELVED else None,
        "stamp": alarm.stamp if alarm.core != "NORM" or alarm.flags & SHELVED else 0,
        "priority": alarm.attributes.priority,
        "setpoint": alarm.attributes.setpoint,
        "moments": alarm.moments,
    }


def flags_of(row: Row) -> int:
    """The flags of a reply as the model has them."""
    return sum(1 << bit for bit, letter in enumerate(LETTERS) if letter in row.flags)


def of_server(row: Row) -> Fields:
    """The row of an alarm in a reply to ROW."""
    return {
        "state": row.shown,
        "condition": row.condition,
        "flags": flags_of(row),
        "deadline": row.deadline,
        "stamp": row.stamp,
        "priority": row.priority,
        "setpoint": row.setpoint,
        "moments": row.moments,
    }


class RowCheck:
    """Holds a plant's rows against the server's."""

    def __init__(self) -> None:
        self.compared = 0
        self.begin()

    def begin(self) -> None:
        """Another plant: nothing is known of its rows."""
        self.next = 0
        # Replies of a plant that the model hasn't reached, by their count; and what of which alarms the server denies.
        self.waiting: dict[int, list[tuple[int, Row]]] = collections.defaultdict(list)
        self.denied: dict[int, list[Difference]] = {}

    def due(self, alarms: int, part: int) -> list[int]:
        """The alarms that are asked now: at most so many, one round after the other."""
        asked = [(self.next + step) % alarms for step in range(min(part, alarms))]
        self.next = (self.next + len(asked)) % alarms
        return asked

    def came(self, plant: PlantModel, rows: Iterable[tuple[int, Row]]) -> None:
        """Takes replies: those of a later plant wait for it."""
        for number, row in rows:
            if row.count == plant.count:
                self.compare(plant, number, row)
            elif row.count > plant.count:
                self.waiting[row.count].append((number, row))

    def reached(self, plant: PlantModel) -> None:
        """Compares what waits for this count of actions, and drops what waits for an earlier one."""
        for count in [count for count in self.waiting if count <= plant.count]:
            rows = self.waiting.pop(count)
            if count == plant.count:
                for number, row in rows:
                    self.compare(plant, number, row)

    def compare(self, plant: PlantModel, number: int, row: Row) -> None:
        """Notes what of an alarm's row the server denies."""
        alarm = plant.alarms[number]
        plant.learn_stamp(alarm, row.stamp)
        mine, its = of_model(alarm), of_server(row)
        self.denied.pop(number, None)
        self.compared += 1
        if mine != its:
            self.denied[number] = [
                Difference(number, row.count, plant.now, name, written(name, value), written(name, its[name]))
                for name, value in mine.items()
                if value != its[name]
            ]
