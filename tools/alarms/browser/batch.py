"""What is told of a plant: its rows, its table, and what stands in a position's areas."""
from dataclasses import dataclass, field
from typing import Any, Optional

from ..followed import FollowedPlant
from ..replies import Row
from ..table_file import Alarm
from .positions import Position

# Events of the journal that are kept.
EVENTS = 1000
# The bits of the flags on the page, by their letters.
BITS = {"S": 1, "D": 2, "O": 4}


@dataclass
class Batch:
    """What is new since the last look. `era` is another one with each plant, and none while there is no plant; with
    `rows` of all alarms it is whole."""

    era: Optional[str]
    is_whole: bool
    rows: dict[int, list[Any]]
    events: list[list[Any]]
    head: dict[str, Any]
    table: list[list[Any]] = field(default_factory=list)


def is_annunciated(row: Row) -> bool:
    """Whether an alarm asks for the operator."""
    return not row.flags and row.shown != "NORM"


def row_of(number: int, alarm: Alarm, row: Row, value: Optional[int], suppressed: list[list[Any]]) -> list[Any]:
    """What the page shows of an alarm, with who suppressed it: model.js has the names of the places."""
    return [
        number,
        row.priority,
        alarm.area,
        row.shown,
        sum(BITS[letter] for letter in row.flags),
        int(row.condition),
        row.moments[0] if row.moments else None,
        row.moments[2] if len(row.moments) > 2 else None,
        row.deadline,
        row.stamp if is_annunciated(row) else 0,
        value,
        row.setpoint,
        suppressed,
    ]


def table_of(alarms: list[Alarm]) -> list[list[Any]]:
    """What never changes of the alarms."""
    return [[one.tag, one.text, one.kind, one.deadband, one.max_shelve, int(one.latching)] for one in alarms]


def standing(plant: FollowedPlant, position: Position, number: int) -> list[list[str]]:
    """The tags and states of a position's alarms that aren't normal, the most urgent first; of the plant of a
    number."""
    own = [
        (row.priority, alarm, plant.table[alarm].tag, row.shown)
        for alarm, row in enumerate(plant.rows)
        if row.shown != "NORM" and (position.areas is None or (number, plant.table[alarm].area) in position.areas)
    ]
    return [[tag, shown] for _, _, tag, shown in sorted(own)]
