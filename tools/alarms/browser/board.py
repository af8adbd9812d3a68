"""What the browsers show, and what each of them hasn't been told yet.

A browser that is slow holds up nobody: what it misses is kept as the numbers of the alarms that changed, and it is told
their last states.
"""
import asyncio
import collections
import json
import time
from typing import Any, Callable, Optional, Sequence

from .batch import EVENTS, Batch
from .orders import READING

# Seconds between two words to a browser to which nothing changed, and the least between two to which something did.
TICK, REST = 0.5, 0.03
# Seconds after which a plant's clock that hasn't moved stands still.
STANDS = 5


def written(value: Any) -> str:
    return json.dumps(value, separators=(",", ":"))


class Place:
    """What a browser hasn't been told of a plant."""

    def __init__(self, news: asyncio.Event, at: int):
        self.needs_whole, self.at = True, at
        self.changed: set[int] = set()
        self.news = news


class Reader:
    """A browser, with its place at each board."""

    def __init__(self, boards: Sequence["BrowserBoard"]):
        self.news = asyncio.Event()
        self.places = [(board, board.join(self.news)) for board in boards]

    def leave(self) -> None:
        for board, place in self.places:
            board.places.discard(place)

    def told(self) -> str:
        """What it hasn't been told, as events of the stream."""
        self.news.clear()
        return "".join(board.news(place) for board, place in self.places)

    async def wait(self) -> None:
        """Waits for news, no longer than a tick."""
        try:
            await asyncio.wait_for(self.news.wait(), TICK)
        except asyncio.TimeoutError:
            pass


class BrowserBoard:
    """A plant as its rows' texts, and the browsers' places. By its number it is known among the others."""

    def __init__(
        self, number: int, name: str, areas: list[str], details: dict[str, list[Any]], answered: Callable[[], float]
    ):
        self.number, self.name, self.areas, self.details, self.answered = number, name, areas, details, answered
        self.era: Optional[str] = None
        self.table = "[]"
        self.rows: dict[int, Any] = {}
        self.events: collections.deque[list[Any]] = collections.deque(maxlen=EVENTS)
        self.told = 0
        self.head: dict[str, Any] = {"trouble": READING, "fault": "", "denied": []}
        self.now, self.moved = None, time.monotonic()
        self.places: set[Place] = set()

    def take(self, batch: Batch) -> None:
        """Takes what is new."""
        if batch.is_whole:
            if batch.era != self.era:
                self.events.clear()
            self.era, self.table, self.rows = batch.era, written(batch.table), {}
        self.rows.update((number, written(row)) for number, row in batch.rows.items())
        self.events.extend(batch.events)
        self.told += len(batch.events)
        self.head = batch.head
        if batch.head.get("now") != self.now:
            self.now, self.moved = batch.head.get("now"), time.monotonic()
        for place in self.places:
            place.needs_whole |= batch.is_whole
            place.changed.update(batch.rows)
            place.news.set()

    def join(self, news: asyncio.Event) -> Place:
        """A browser's place, whose news there is an event for."""
        place = Place(news, self.told)
        self.places.add(place)
        return place

    def head_now(self) -> dict[str, Any]:
        """The head with what time alone changes: since when the server hasn't answered, and for how long the plant's
        clock has stood still."""
        now = time.monotonic()
        still = int(now - self.moved)
        return {
            **self.head,
            "age": round(min(now - self.answered(), 1e6), 1),
            "still": still if still >= STANDS and self.now is not None else 0,
        }

    def news(self, place: Place) -> str:
        """What a browser hasn't been told of the plant, as an event of the stream."""
        head = written(self.head_now())
        if place.needs_whole:
            kind, numbers, events = "all", list(self.rows), list(self.events)
            more = f',"era":{written(self.era)},"areas":{written(self.areas)},"table":{self.table}'
            more += f',"details":{written(self.details)}'
        else:
            kind, numbers, more = "news", sorted(place.changed), ""
            missed = min(self.told - place.at, len(self.events))
            events = list(self.events)[len(self.events) - missed :]
        rows = ",".join(self.rows[number] for number in numbers)
        place.needs_whole, place.changed, place.at = False, set(), self.told
        return (
            f"event: {kind}\ndata:"
            f' {{"plant":{self.number},"rows":[{rows}],"events":{written(events)},"head":{head}{more}}}\n\n'
        )
