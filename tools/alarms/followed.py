"""A served plant by its server's lines alone: its rows and floods, and what happened.

    plant = FollowedPlant(table, areas)
    plant.begin(client)                 # asks for each row
    while True:
        news = plant.look(client)       # asks what happened, and for the rows that it made old
        ..                              # plant.is_mixed: not all that it has is of one count

Between two counts a row differs only if an action between them names its alarm, or a CLOCK among them reaches the
deadline that the row had.
"""
from dataclasses import dataclass, field

from .client import Client, Flood
from .known import known
from .replies import Entry, Row
from .table_file import Alarm

# How often a look goes on with what came while it asked, until all is of one count.
TURNS = 4


@dataclass
class Happenings:
    """What happened between two looks: each action, with the alarms that it may have changed; and the rows of these as
    they were, but for those that were newer already."""

    entries: list[tuple[Entry, list[int]]] = field(default_factory=list)
    before: dict[int, Row] = field(default_factory=dict)


class FollowedPlant:
    """The rows and the floods of a plant whose table this is, and the number of the last action that they are known to
    have."""

    def __init__(self, table: list[Alarm], areas: int):
        self.table, self.areas = table, areas
        self.rows, self.floods, self.count = list[Row](), list[Flood](), 0
        self.shelved: set[int] = set()
        # The greatest count of a row or a flood.
        self.newest = 0

    @property
    def is_mixed(self) -> bool:
        """Whether rows or floods are newer than the count, so that some may have an action that others haven't."""
        return self.newest > self.count

    def begin(self, client: Client) -> None:
        """Asks for all rows."""
        self.rows = client.rows(range(len(self.table)))
        self.floods = client.floods(self.areas)
        self.shelved = {number for number, row in enumerate(self.rows) if row.deadline is not None}
        self.count = min(row.count for row in self.rows)
        self.newest = max(*(row.count for row in self.rows), *(flood.count for flood in self.floods))

    def look(self, client: Client) -> Happenings:
        """What happened since. The server's `Refused` by FORGOTTEN says that it doesn't remember all of it: begin
        again. A look that fails has taken nothing, but rows that are newer."""
        count = self.count
        try:
            return self.turns(client)
        except Exception:
            self.count = count
            raise

    def turns(self, client: Client) -> Happenings:
        """A look, which goes on with what comes while it asks."""
        news = Happenings()
        for _ in range(TURNS):
            old = {alarm for entry in client.entries(self.count) for alarm in self.take(entry, news)}
            self.ask(client, sorted(old), news)
            if not self.is_mixed:
                break
        return news

    def take(self, entry: Entry, news: Happenings) -> list[int]:
        """Takes an action; the alarms whose rows it made old."""
        alarms = self.named(entry)
        news.entries.append((entry, alarms))
        self.count = entry.action.number
        return [alarm for alarm in alarms if self.rows[alarm].count < self.count]

    def named(self, entry: Entry) -> list[int]:
        """The alarms that an action names; of CLOCK those whose shelving it ends."""
        if entry.action.word != "CLOCK":
            return [entry.action.alarm]
        return sorted(alarm for alarm in self.shelved if known(self.rows[alarm].deadline) <= entry.moment)

    def ask(self, client: Client, alarms: list[int], news: Happenings) -> None:
        """Asks for rows again, and for the floods."""
        for alarm, row in zip(alarms, client.rows(alarms)):
            news.before.setdefault(alarm, self.rows[alarm])
            self.rows[alarm] = row
            self.newest = max(self.newest, row.count)
            (self.shelved.discard if row.deadline is None else self.shelved.add)(alarm)
        self.floods = client.floods(self.areas)
        self.newest = max(self.newest, *(flood.count for flood in self.floods))
