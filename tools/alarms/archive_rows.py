"""The rows of an archive: of a plant, its alarms, actions, changes and floods."""
from dataclasses import dataclass
from typing import Iterator, Optional
from .client import CLOCK, FEED
from .actions import Action
from .table_file import Alarm
from .plant_mirror import Step
from .model import AlarmState, Change, PlantModel
from .store import Store


# Archived actions that are read at once.
CHUNK = 5000


# Which slot asks for an action, where it can be one alone.
SLOTS = {"CLOCK": CLOCK, "VAL": FEED, "DESIGN": FEED}


@dataclass
class ArchivedPlant:
    """A plant of the archive: the last action that is kept or told as gone, and its moment. Up to `shown` those until
    the plant before ended, at the moment `before`, only brought its states; `counted` is the last of them. `ends` is
    the last action of a device that was archived to its end."""

    number: int
    device: str
    begins: int
    last: int
    moment: int
    shown: int
    before: Optional[int]
    counted: int
    ends: Optional[int]

    @property
    def is_whole(self) -> bool:
        return self.ends == self.last


def latest(store: Store, name: str) -> Optional[ArchivedPlant]:
    """The plant of a name that was archived last."""
    row = store.row(
        "SELECT plant, device, begins, shown, counted, ends FROM plant WHERE name = ? ORDER BY plant DESC LIMIT 1",
        (name,),
    )
    if row is None:
        return None
    number, device, begins, shown, counted, ends = row
    action = store.row("SELECT number, moment FROM action WHERE plant = ? ORDER BY number DESC LIMIT 1", (number,)) or (
        begins,
        0,
    )
    gap = store.row(
        (
            "SELECT last, COALESCE(ended, began, 0) FROM gap WHERE plant = ? AND last IS NOT NULL ORDER BY first DESC"
            " LIMIT 1"
        ),
        (number,),
    ) or (begins, 0)
    last, moment = max(action, gap)
    return ArchivedPlant(number, device, begins, last, moment, shown, last_moment(store, name, number), counted, ends)


def last_moment(store: Store, name: str, number: int) -> Optional[int]:
    """The moment at which the plants of a name before one ended."""
    query = (
        "SELECT moment FROM action WHERE plant = (SELECT MAX(p.plant) FROM plant p WHERE p.name = ? AND p.plant < ? AND"
        " EXISTS (SELECT 1 FROM action a WHERE a.plant = p.plant)) ORDER BY number DESC LIMIT 1"
    )
    return store.value(query, (name, number))


def table_of(store: Store, plant: int) -> list[Alarm]:
    """The attributes of a plant's alarms, as they were found."""
    rows = store.rows(
        (
            "SELECT kind, setpoint, priority, area, tag, deadband, max_shelve, latching, text FROM alarm WHERE plant ="
            " ? ORDER BY alarm"
        ),
        (plant,),
    )
    return [
        Alarm(kind, setpoint, priority, area, tag, deadband, max_shelve, bool(latching), text)
        for kind, setpoint, priority, area, tag, deadband, max_shelve, latching, text in rows
    ]


def archived(store: Store, plant: int, number: int) -> Iterator[tuple]:
    """What is archived of a plant behind an action, some at a time."""
    query = (
        "SELECT number, moment, word, alarm, value FROM action WHERE plant = ? AND number > ? ORDER BY number LIMIT ?"
    )
    while rows := list(store.rows(query, (plant, number, CHUNK))):
        yield from rows
        number = rows[-1][0]


def alarm_rows(plant: int, alarms: list[Alarm]) -> list[tuple]:
    """The rows of a plant's alarms."""
    return [
        (
            plant,
            number,
            one.tag,
            one.text,
            one.kind,
            one.area,
            one.priority,
            one.setpoint,
            one.deadband,
            one.max_shelve,
            int(one.latching),
        )
        for number, one in enumerate(alarms)
    ]


def action_row(plant: int, step: Step, tags: list[str], slot: Optional[int]) -> tuple:
    """The row of an action, which a slot asked for."""
    action = step.action
    if action.word == "CLOCK":
        return plant, action.number, step.moment, action.word, None, None, action.argument, slot
    return (plant, action.number, step.moment, action.word, action.alarm, tags[action.alarm], value_of(action), slot)


def value_of(action: Action) -> Optional[int]:
    """The number that an action brings: a value, seconds, a priority, a setpoint, 1 for ON and 0 for OFF."""
    return None if action.word in ("ACK", "RESET", "UNSHELVE") else action.argument


def change_row(plant: int, number: int, moment: int, change: Change, tags: list[str]) -> tuple:
    """The row of what an action did to an alarm."""
    return (
        plant,
        change.alarm,
        number,
        moment,
        tags[change.alarm],
        change.priority,
        change.area,
        change.before,
        change.after,
        change.flags,
        int(change.annunciated),
        change.since,
    )


def found_rows(plant: int, model: PlantModel) -> list[tuple]:
    """What an alarm's state was found to be, for each alarm: behind a gap, and where the archive begins."""
    return [found_row(plant, model, alarm) for alarm in model.alarms]


def found_row(plant: int, model: PlantModel, alarm: AlarmState) -> tuple:
    """The row of an alarm whose state was found."""
    attributes, line = alarm.attributes, alarm.line().split(" ")
    since = alarm.moments[0] if alarm.moments else None
    return (
        plant,
        alarm.number,
        model.count,
        model.now,
        attributes.tag,
        attributes.priority,
        attributes.area,
        None,
        alarm.shown,
        line[5],
        0,
        since,
    )


def flood_rows(plant: int, model: PlantModel) -> list[tuple]:
    """Which areas were found flooded."""
    return [
        (plant, area, model.count, model.now, int(window.flooded), window.total)
        for area, window in enumerate(model.windows)
    ]
