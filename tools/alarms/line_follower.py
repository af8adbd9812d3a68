"""The plant of a served device by its server's lines alone, for an archive, and for alm_mirror.

It begins with the plant as it was archived, where the server remembers each action since, and else with the rows as
they are. Each action of SINCE is played on a model of the plant from there on. What the server no longer remembers is a
gap. Floods are asked.
"""
import collections
from dataclasses import dataclass, field
from typing import Callable, Iterable, Iterator, Optional

from .client import Client, Flood, Lost, OtherPlant, Place, Plant, Refusal, Refused
from .device_file import NoDevice
from .known import known
from .served import Served
from .model import UNKNOWN_STAMP, AlarmState, AreaWindow, FloodChange, PlantModel
from .plant_mirror import Begun, Gap, News, Replaced, Step
from .replies import Entry
from .table_file import Table, fixed

# In the place of a file's number.
LINES = "lines"
# So many actions that are known already are asked again at a new connection: where they are others, the plant is
# another one.
AGAIN = 256
# So often a plant that moves is asked again, until all that is asked is of one count.
TURNS = 100
# The plant of a table as it was archived, behind the action before this number or a later one; none where the archive
# hasn't each action up to there.
Kept = Callable[[Table, int], Optional[PlantModel]]


@dataclass
class Told:
    """What a look was told: that a plant is another one, and then the actions, with the floods behind them."""

    first: list[News] = field(default_factory=list)
    entries: list[Entry] = field(default_factory=list)
    floods: list[Flood] = field(default_factory=list)


class LineMirror:
    """A plant that goes on as its server's lines say. A row has a count of its own: what is up to it the alarm has
    already."""

    def __init__(self, plant: PlantModel, counts: list[int]):
        self.plant, self.counts = plant, counts
        self.recent: collections.deque[Entry] = collections.deque(maxlen=AGAIN)

    @classmethod
    def of_rows(cls, client: Client, table: Table) -> "LineMirror":
        """The plant as it is now."""
        overview, rows = client.plant(), client.rows(range(len(table.alarms)))
        alarms = [AlarmState.of_row(number, *pair) for number, pair in enumerate(zip(table.alarms, rows))]
        windows = [AreaWindow.empty() for _ in range(table.areas)]
        plant = PlantModel(overview.moment, UNKNOWN_STAMP, overview.count, windows, alarms)
        mirror = cls(plant, [row.count for row in rows])
        for entry in client.entries(overview.count):
            mirror.step(entry)
        mirror.take_floods(client.floods(table.areas))
        return mirror

    @property
    def count(self) -> int:
        return self.plant.count

    def place(self) -> str:
        return LINES

    def last(self) -> int:
        return self.count

    def close(self) -> None:
        """Nothing is open."""

    def step(self, entry: Entry) -> Step:
        """Plays an action, unless the plant has it already, or its alarm's row is newer. `NoDevice` says that it is
        none that the plant admits."""
        action = entry.action
        self.recent.append(entry)
        if action.number <= self.plant.count:
            return Step(action, entry.moment, [], [], entry.slot)
        if action.word == "CLOCK":
            changes, _ = self.plant.apply(action)
        elif action.number > self.counts[action.alarm]:
            self.plant.now = entry.moment
            changes, _ = self.plant.apply(action)
        else:
            self.plant.count, self.plant.now, changes = action.number, entry.moment, []
        return Step(action, entry.moment, changes, [], entry.slot)

    def is_of(self, client: Client) -> bool:
        """Whether a server tells the last actions as they were told before, as far as it remembers them."""
        return are_told_again(client, self.recent, self.count)

    def take_floods(self, floods: list[Flood]) -> list[FloodChange]:
        """Takes what was asked of the areas; which floods began or ended."""
        changes = [
            FloodChange(area, flood.flooded, flood.window)
            for area, (window, flood) in enumerate(zip(self.plant.windows, floods))
            if window.flooded != flood.flooded
        ]
        for window, flood in zip(self.plant.windows, floods):
            window.flooded, window.total = flood.flooded, flood.window
        return changes


class LineFollower:
    """What becomes of a served plant. `kept` gives it as it was archived."""

    # Why actions are gone.
    lost = "nobody asked for them, or the server no longer remembers them"

    def __init__(self, place: Place, served: Served):
        self.path, self.served = str(place), served
        self.begun: Optional[LineMirror] = None
        # the connection at which the plant is known to be the one that is followed
        self.client: Optional[Client] = None
        self.is_broken = False
        self.kept: Kept = lambda _table, _first: None

    @property
    def mirror(self) -> LineMirror:
        """The plant that is there."""
        return known(self.begun)

    def __enter__(self) -> "LineFollower":
        return self

    def __exit__(self, *_: object) -> None:
        self.served.end()

    def look(self) -> Iterator[News]:
        """What is new. A connection that is lost is made again by the next look."""
        self.served.look()
        try:
            told = self.ask() if self.served.is_there else Told()
        except (Lost, OtherPlant, Refused) as fault:
            self.served.end()
            self.served.say_once(str(fault), "- trying again")
            return
        yield from told.first
        for entry in told.entries:
            try:
                step = self.mirror.step(entry)
            except NoDevice as fault:
                self.served.say_once(str(fault), "- going on with the server's rows")
                self.is_broken = True
                return
            yield step._replace(floods=self.mirror.take_floods(told.floods)) if entry is told.entries[-1] else step

    def ask(self) -> Told:
        """Asks for all that is new."""
        client, table = known(self.served.plant.client), self.served.plant.table
        if self.begun is None:
            return self.begin(client, table)
        if self.is_other(client, table):
            last, self.begun = self.mirror.count, None
            self.served.forget()
            return Told([Replaced(last)])
        last = self.mirror.count
        if self.is_broken:
            self.begun, self.is_broken = LineMirror.of_rows(client, table), False
            return Told([Gap(last + 1, self.mirror.count)])
        told = self.since(client, table, last) if self.served.count > last else Told()
        return self.begin(client, table) if told is None else told

    def is_other(self, client: Client, table: Table) -> bool:
        """Whether the server has another plant than the one that is followed. That may be so at a new connection."""
        if client is self.client:
            return self.served.count < self.mirror.count
        has_table = fixed(table.alarms) == fixed(self.mirror.plant.table())
        if self.served.count < self.mirror.count or not has_table or not self.mirror.is_of(client):
            return True
        self.client = client
        return False

    def begin(self, client: Client, table: Table) -> Told:
        """Goes on behind what is archived, where the server remembers what came then. That may be more than was told
        here: what was archived of the stopped device."""
        first = client.since().first
        plant = self.kept(table, first)
        if plant and plant.count <= self.served.count:
            start = max(first - 1, plant.count - AGAIN)
            told = self.since(client, table, start)
            if told:
                self.begun, told.first = LineMirror(plant, [0] * len(plant.alarms)), [Begun(start)]
                return told
        self.begun = LineMirror.of_rows(client, table)
        return Told([Begun(self.mirror.count)])

    def since(self, client: Client, table: Table, last: int) -> Optional[Told]:
        """The actions behind a number; none where the server doesn't remember them."""
        try:
            return Told([], list(client.entries(last)), client.floods(table.areas))
        except Refused as refused:
            if refused.refusal != Refusal.FORGOTTEN:
                raise
            return None


def are_told_again(client: Client, recent: Iterable[Entry], count: int) -> bool:
    """Whether a server tells the last of so many actions as they were told before, as far as it remembers them."""
    start = max(client.since().first - 1, count - AGAIN)
    before = {entry.action.number: entry for entry in recent}
    return start >= count or all(
        before.get(entry.action.number, entry) == entry for entry in client.since(start).entries
    )


def shown_by_lines(place: Place, slot: int) -> str:
    """What `show` prints of a served plant, but for the epoch. `Lost` says that there is no server, or that its plant
    moves too fast."""
    asked = Plant(place, slot)
    with asked.connect() as client:
        mirror = LineMirror.of_rows(client, asked.table)
        for _ in range(TURNS):
            for entry in client.entries(mirror.count):
                mirror.step(entry)
            # an annunciation that was played has no stamp of the server's yet
            unknown = [alarm for alarm in mirror.plant.alarms if alarm.stamp < 0 and alarm.core != "NORM"]
            floods, rows = client.floods(asked.table.areas), client.rows([alarm.number for alarm in unknown])
            if all(told.count == mirror.count for told in (*floods, *rows)):
                mirror.take_floods(floods)
                for alarm, row in zip(unknown, rows):
                    alarm.stamp = row.stamp
                return mirror.plant.show()
    raise Lost("the plant moves faster than all of it can be asked: try again")
