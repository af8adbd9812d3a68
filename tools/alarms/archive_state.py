"""The plant of an archive as it was behind one of its actions, for an archiver that goes by lines. Started again it
goes on from there, and no action is missing that the server still remembers."""
import json
from typing import Optional

from .actions import Action
from .archive_rows import ArchivedPlant, archived, table_of
from .device_file import NoDevice
from .model import AlarmState, AreaWindow, PlantModel
from .replies import Row
from .row_check import LETTERS, of_model
from .store import Store
from .table_file import Alarm, Table, fixed

FLOODED = (
    "SELECT f.area FROM flood f JOIN (SELECT area, MAX(number) AS number FROM flood WHERE plant = ? GROUP BY area) l ON"
    " l.area = f.area AND l.number = f.number WHERE f.plant = ? AND f.flooded = 1"
)


def keep_state(store: Store, plant: int, model: PlantModel) -> None:
    """Keeps a plant, in place of what was kept of it."""
    store.run("DELETE FROM state WHERE plant = ?", (plant,))
    rows = json.dumps([list(of_model(alarm).values()) for alarm in model.alarms], separators=(",", ":"))
    store.insert("state", [(plant, model.count, model.now, model.next_stamp, rows)])


def alarm_of(number: int, alarm: Alarm, kept: list) -> AlarmState:
    """The alarm of a kept row, whose fields are those that are held against the server's."""
    shown, condition, flags, deadline, stamp, priority, setpoint, moments = kept
    letters = "".join(letter for bit, letter in enumerate(LETTERS) if flags >> bit & 1)
    row = Row(0, shown, condition, letters, deadline, stamp, priority, setpoint, tuple(moments))
    return AlarmState.of_row(number, alarm, row)


def kept_plant(store: Store, plant: ArchivedPlant, table: Table, first: int) -> Optional[PlantModel]:
    """The plant as it was archived, behind the action before `first` or a later one; none where the archive has another
    table, or not each action up to there."""
    row = store.row("SELECT number, moment, stamp, alarms FROM state WHERE plant = ?", (plant.number,))
    if row is None or first > plant.last + 1 or fixed(table_of(store, plant.number)) != fixed(table.alarms):
        return None
    number, moment, stamp, rows = row
    alarms = [alarm_of(place, *pair) for place, pair in enumerate(zip(table.alarms, json.loads(rows)))]
    windows = [AreaWindow.empty() for _ in range(table.areas)]
    for (area,) in store.rows(FLOODED, (plant.number, plant.number)):
        windows[area].flooded = True
    model = PlantModel(moment, stamp, number, windows, alarms)
    try:
        for number, _moment, word, alarm, value in archived(store, plant.number, number):
            if model.count + 1 >= first:
                break
            model.apply(Action(number, word, alarm or 0, value or 0))
    except NoDevice:
        return None
    return model if model.count + 1 >= first else None
