"""Whether what an archive computes of a plant is what its server shows.

Each row of the model is held against the server's, at the same count of actions: where a plant begins, behind each gap,
and once an hour. What differs is logged, counted on the page of metrics, and kept for reports.
"""
import time
from typing import Iterable, Iterator, Optional

from .client import Lost, OtherPlant, Refused
from .ending import sayer
from .served import Served
from .model import PlantModel
from .row_check import Difference, RowCheck
from .store import Store

# Seconds from one round over all rows to the next, and how many rows are asked at a look.
EVERY, PART = 3600.0, 1024

say = sayer("alm_archive")


class ArchiveCheck:
    """Holds the rows of the archived plant against those of a server, where there is one."""

    def __init__(self, served: Optional[Served]):
        self.served, self.rows = served, RowCheck()
        # which fields of each alarm were told as denied
        self.told: dict[int, set[str]] = {}
        self.restart()

    def restart(self) -> None:
        """Another plant, or actions that are missing: all rows are asked again, and what waits for another count is
        dropped."""
        self.rows.begin()
        self.told = {}
        self.due, self.left = time.monotonic(), 0

    def look(self, plant: PlantModel) -> None:
        """Asks for some rows, where a round is due or under way. A server that can't be asked is asked again later; one
        of an earlier release shows no rows."""
        served = self.served
        client = served.plant.client if served and served.is_there else None
        if served is None or client is None or (not self.left and time.monotonic() < self.due):
            return
        if not self.left:
            self.left, self.due = len(plant.alarms), time.monotonic() + EVERY
        numbers = self.rows.due(len(plant.alarms), min(PART, self.left))
        try:
            self.rows.came(plant, list(zip(numbers, client.rows(numbers))))
            self.left -= len(numbers)
        except Refused:
            self.left = 0
        except (Lost, OtherPlant):
            served.end()

    def reached(self, plant: PlantModel) -> None:
        """The plant has one action more."""
        if self.rows.waiting:
            self.rows.reached(plant)

    def news(self) -> Iterator[Difference]:
        """What is denied, and wasn't before."""
        self.told = {alarm: fields for alarm, fields in self.told.items() if alarm in self.rows.denied}
        for alarm, differences in self.rows.denied.items():
            before = self.told.get(alarm, set())
            yield from (one for one in differences if one.field not in before)
            self.told[alarm] = {one.field for one in differences}

    def keep_news(self, store: Store, plant: int, name: str, tags: list[str]) -> None:
        """Logs and keeps what is denied, where that is new."""
        news = list(self.news())
        if news:
            first, count = news[0], len(self.rows.denied)
            wrong = "; ".join(str(one) for one in news if one.alarm == first.alarm)
            where = f"of the rows of {name}, at action {first.number}"
            say(f"the server denies {count} {where}. {tags[first.alarm]}: {wrong}")
            keep(store, plant, tags, news)


def keep(store: Store, plant: int, tags: list[str], differences: Iterable[Difference]) -> None:
    """Keeps what the server denied of an archived plant."""
    for one in differences:
        key = (plant, one.alarm, one.number)
        # an archiver that was started again may find it again
        store.run("DELETE FROM denied WHERE plant = ? AND alarm = ? AND number = ? AND field = ?", (*key, one.field))
        store.insert("denied", [(*key, one.moment, tags[one.alarm], one.field, one.here, one.there)])
    store.commit()
