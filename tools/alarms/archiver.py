"""Brings what is new of a followed plant into an archive."""
import time
from typing import Iterator, Optional

from .archive_check import ArchiveCheck
from .archive_rows import (
    SLOTS,
    ArchivedPlant,
    action_row,
    alarm_rows,
    archived,
    change_row,
    flood_rows,
    found_rows,
    last_moment,
    latest,
    table_of,
)
from .archive_state import keep_state, kept_plant
from .device_file import Damaged
from .ending import sayer
from .known import known
from .line_follower import LINES, LineFollower
from .metrics_page import Metric
from .mirror import Follower
from .model import PlantModel
from .plant_mirror import Begun, Gap, News, Step
from .store import Store
from .table_file import Table, fixed

# Steps that are written together.
STEPS = 2000
# Seconds after which the state of a plant that is followed by lines is kept again.
KEEP = 3600.0
BEFORE = "before the archive"
# Why the end of a plant is missing: nobody read it, or bytes of it are others than those that were written.
UNSEEN, DAMAGED = "the plant's end wasn't seen", "the device is damaged at byte {}"

say = sayer("alm_archive")


class Archiver:
    """Brings the news of a follower into a store."""

    def __init__(self, store: Store, name: str, follower: Follower | LineFollower):
        self.store, self.name, self.follower = store, name, follower
        self.check = ArchiveCheck(follower.served)
        self.kept_at: Optional[float] = None
        self.missing = 0
        if isinstance(follower, LineFollower):
            follower.kept = self.kept_state
        # the plant that is archived now; none before one is begun
        self.kept: Optional[ArchivedPlant] = None
        # the archived actions that the device has to have too, where it is the plant that was archived last
        self.held: Optional[Iterator[tuple]] = None
        self.forced = False
        self.has_brought = False
        self.actions: list[tuple] = []
        self.changes: list[tuple] = []
        self.floods: list[tuple] = []

    def look(self) -> bool:
        """Archives what is new; whether there was anything."""
        any_news = False
        try:
            for one in self.follower.look():
                any_news = True
                if not self.take(one):
                    break
        except Damaged:
            self.write()
            raise
        self.write()
        if self.kept and self.held is None and self.follower.begun:
            self.keep()
            self.check.look(self.model)
            self.check.keep_news(self.store, self.plant.number, self.name, self.tags)
        return any_news

    def look_on(self) -> None:
        """Archives what is new until there is nothing."""
        while self.look():
            pass

    def is_behind(self) -> bool:
        """Whether all of a stopped device is less than what is archived: it is an older copy, and another plant."""
        return self.model.count < self.plant.last

    def kept_state(self, table: Table, first: int) -> Optional[PlantModel]:
        """The plant that was archived last, for a follower that goes by lines."""
        last = None if self.forced else latest(self.store, self.name)
        return kept_plant(self.store, last, table, first) if last else None

    def keep(self) -> None:
        """Keeps the state of a plant that is followed by lines, once in a while."""
        now = time.monotonic()
        is_due = self.kept_at is None or now >= self.kept_at + KEEP
        if isinstance(self.follower, LineFollower) and is_due and self.model.count == self.plant.last:
            keep_state(self.store, self.plant.number, self.model)
            self.store.commit()
            self.kept_at = now

    def metrics(self) -> Iterator[Metric]:
        """Name, kind, page and value of each metric."""
        rows, kept = self.check.rows, self.kept
        is_there = self.follower.served is not None and self.follower.served.is_there
        yield "alarms_archive_connected", "gauge", "Whether the archiver has the server.", int(is_there)
        if kept:
            yield "alarms_archive_last_action", "gauge", "The number of the last archived action.", kept.last
        missing = "Actions that the archive hasn't, of those since the archiver began."
        yield "alarms_archive_missing_actions_total", "counter", missing, self.missing
        compared = "Rows that were held against the server's."
        yield "alarms_archive_rows_compared_total", "counter", compared, rows.compared
        denied = "Alarms whose row by the archive isn't the server's."
        yield "alarms_archive_rows_denied", "gauge", denied, len(rows.denied)

    def take(self, one: News) -> bool:
        """Archives something new; whether the rest of what is new is of the same plant."""
        if isinstance(one, Step):
            self.check.reached(self.model)
            return self.step(one)
        self.check.restart()
        if isinstance(one, Begun):
            self.begin(one.number)
        elif isinstance(one, Gap):
            self.gap(one.first, one.last, self.follower.lost)
        else:
            self.leave()
        return True

    @property
    def plant(self) -> ArchivedPlant:
        """The plant that is archived now."""
        return known(self.kept)

    @property
    def model(self) -> PlantModel:
        return self.follower.mirror.plant

    def device(self) -> str:
        """Which file it is."""
        return self.follower.mirror.place()

    def begin(self, first: int) -> None:
        """Goes on with the plant that was archived last, if the device's is that one; else begins another of the same
        name. The actions behind `first` come next."""
        self.tags = [alarm.tag for alarm in self.model.table()]
        last = latest(self.store, self.name)
        if last is None:
            return self.new_plant("a new archive")
        why = self.is_another(last)
        if why or self.forced:
            return self.new_plant(why or "its actions aren't those that were archived")
        self.kept, self.compared = last, 0
        if self.model.count > last.last:
            self.gap(last.last + 1, self.model.count, self.follower.lost)
        elif first < last.last:
            self.held = archived(self.store, last.number, first)
            self.next_held = next(known(self.held), None)

    def is_another(self, last: ArchivedPlant) -> str:
        """Why the device's plant can't be the one that was archived last, if so."""
        count, served = self.model.count, self.follower.served
        if fixed(table_of(self.store, last.number)) != fixed(self.model.table()):
            return "the table is another one"
        if served and served.count < last.last:
            return f"the server has {served.count} actions, and {last.last} are archived"
        if count >= last.last and self.model.now < last.moment:
            return "its clock is behind what is archived"
        if count == last.last and self.model.now == last.moment:
            return ""
        if count >= last.last and self.is_other_file(last):
            return "the file is another one, and has none of the actions that were archived"
        return ""

    def is_other_file(self, plant: ArchivedPlant) -> bool:
        """Whether an archived plant was read of another file than this one; what went by lines was of no file."""
        return LINES not in (self.device(), plant.device) and self.device() != plant.device

    def new_plant(self, why: str) -> None:
        """Begins another plant of the name, with what the device holds."""
        number, before = (self.store.value("SELECT MAX(plant) FROM plant") or 0) + 1, latest(self.store, self.name)
        model, served = self.model, self.follower.served
        shown = served.count if served else self.follower.mirror.last()
        if before and not before.is_whole:
            self.open_gap(before, UNSEEN)
        self.store.insert(
            "plant", [(number, self.name, self.device(), len(model.windows), model.count, shown, model.count, None)]
        )
        self.store.insert("alarm", alarm_rows(number, model.table()))
        self.kept = ArchivedPlant(
            number, self.device(), model.count, model.count, model.now, shown, None, model.count, None
        )
        self.held, self.forced = None, False
        self.plant.before = last_moment(self.store, self.name, number)
        self.found(1, BEFORE)
        say(f"plant {number} of the name {self.name} from action {model.count + 1} on: {why}")

    def found(self, first: int, why: str, began: Optional[int] = None) -> None:
        """Keeps the state that was found, behind actions that are gone."""
        model, number = self.model, self.plant.number
        if model.count >= first:
            self.store.insert("gap", [(number, first, model.count, began, model.now, why)])
        self.store.insert("change", found_rows(number, model))
        self.store.insert("flood", flood_rows(number, model))
        self.store.commit()
        self.plant.last, self.plant.moment = model.count, model.now
        self.kept_at = None

    def gap(self, first: int, last: int, why: str) -> None:
        """Actions that are gone."""
        self.write()
        first = max(first, self.plant.last + 1)
        if first <= last:
            self.found(first, why, self.plant.moment)
            self.missing += last - first + 1
            say(f"actions {first} to {last} of {self.name}: {why}")
            self.held = None

    def leave(self) -> None:
        """The device was replaced."""
        self.write()
        self.kept = None
        say("another device is in the place of", self.follower.path)

    def open_gap(self, plant: ArchivedPlant, why: str) -> None:
        """The end of a plant that isn't archived; up to which action and moment isn't known."""
        self.store.insert("gap", [(plant.number, plant.last + 1, None, plant.moment, None, why)])
        say(f"actions {plant.last + 1} and later of {self.name}, plant {plant.number}: {why}")

    def close(self) -> None:
        """The device's end is archived. From there an archiver by lines goes on."""
        keep_state(self.store, self.plant.number, self.model)
        self.store.run("UPDATE plant SET ends = ? WHERE plant = ?", (self.plant.last, self.plant.number))
        self.store.commit()

    def close_damaged(self, at: int) -> None:
        """The device's end isn't archived, since it is damaged there."""
        if self.kept and not self.store.value(
            "SELECT COUNT(*) FROM gap WHERE plant = ? AND first = ?", (self.plant.number, self.plant.last + 1)
        ):
            self.open_gap(self.plant, DAMAGED.format(at))
            self.close()

    def step(self, step: Step) -> bool:
        """Archives an action, or holds one against the archive that has it; whether it is of this plant."""
        if step.number <= self.plant.last:
            return self.compare(step)
        slot = SLOTS.get(step.action.word) if step.slot is None else step.slot
        self.actions.append(action_row(self.plant.number, step, self.tags, slot))
        self.changes += [
            change_row(self.plant.number, step.number, step.moment, change, self.tags) for change in step.changes
        ]
        self.floods += [
            (self.plant.number, one.area, step.number, step.moment, int(one.flooded), one.annunciations)
            for one in step.floods
        ]
        self.plant.last, self.plant.moment = step.number, step.moment
        if self.plant.before is not None and step.number <= self.plant.shown and step.moment <= self.plant.before:
            self.plant.counted, self.has_brought = step.number, True
        if len(self.actions) >= STEPS:
            self.write()
        return True

    def compare(self, step: Step) -> bool:
        """Holds an action of the device against the archived one of its number. Where they differ it is another plant,
        which the next look begins."""
        while self.next_held and self.next_held[0] < step.number:
            self.next_held = next(known(self.held), None)
        row = action_row(self.plant.number, step, self.tags, None)
        if self.next_held and self.next_held[0] == step.number:
            if self.next_held[1:] != (row[2], row[3], row[4], row[6]):
                return self.restart()
            self.compared += 1
        return step.number < self.plant.last or self.settle()

    def settle(self) -> bool:
        """The device has all that is archived, so it is that plant, and the file is its file. Where no archived action
        could be compared, its moment is that of the plant, and it isn't another file."""
        self.held = None
        if not self.compared and (self.is_other_file(self.plant) or self.model.now != self.plant.moment):
            return self.restart()
        self.store.run("UPDATE plant SET device = ? WHERE plant = ?", (self.device(), self.plant.number))
        self.store.commit()
        return True

    def restart(self) -> bool:
        """Begins the device again, as another plant."""
        self.follower.mirror.close()
        self.follower.begun = self.kept = self.held = None
        self.check.restart()
        self.forced = True
        return False

    def write(self) -> None:
        """Writes what was gathered, all of it or nothing."""
        if not self.actions:
            return
        for table, rows in (("action", self.actions), ("change", self.changes), ("flood", self.floods)):
            self.store.insert(table, rows)
        if self.has_brought:
            self.store.run("UPDATE plant SET counted = ? WHERE plant = ?", (self.plant.counted, self.plant.number))
        self.store.commit()
        self.has_brought = False
        self.actions, self.changes, self.floods = [], [], []
