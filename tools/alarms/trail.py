"""The accepted actions of a plant as lines, and those of a served plant by its server's lines, for alm_journal."""
import collections
from typing import Callable, Iterator, Optional

from .actions import Action, in_words
from .client import Client, Lost, OtherPlant, Refusal, Refused
from .known import known
from .line_follower import AGAIN, are_told_again
from .moments import date
from .replies import Entries, Entry
from .served import Served
from .table_file import Alarm, Table, TableFile, fixed

# The greatest number that SINCE takes.
MOST = 2**48
FORGOTTEN = "not remembered by the server"


class Wording:
    """How an action of a plant stands in a line: in the words of its request, or with a table file for people."""

    def __init__(self, alarms: list[Alarm], table: Optional[TableFile]):
        self.tags, self.is_for_people = [alarm.tag for alarm in alarms], table is not None
        self.texts = {alarm.tag: alarm.text for alarm in table.read().alarms} if table else {}

    def line(self, action: Action, moment: int, slot: Optional[int]) -> str:
        """The line of an action, with the slot that asked, where that is known."""
        asked = "" if slot is None else f"  (slot {slot})"
        if not self.is_for_people:
            return f"{action.number} {action.request(self.tags)}{asked}"
        tag = "-" if action.word == "CLOCK" else self.tags[action.alarm]
        said = f"{tag:14}  {in_words(action):32}{self.texts.get(tag, '')}{asked}"
        return f"{date(moment)}  {action.number:>8}  {said}".rstrip()


def missing(first: int, last: int, why: str) -> Iterator[str]:
    """The line of actions that aren't printed, by their numbers, where there are any."""
    if first == last:
        yield f"(action {first}: {why})"
    elif first < last:
        yield f"(actions {first} to {last}: {why})"


class LineTrail:
    """The lines of a served plant's actions, from the action of a number on, or where it is None from the next one."""

    def __init__(self, served: Served, first: Optional[int], table: Optional[TableFile], say: Callable[..., None]):
        self.served, self.file, self.say, self.first = served, table, say, first
        # the number of the next action that is printed, and how many the server showed
        self.next, self.count = first or 1, 0
        # the plant that is followed; none before it is begun
        self.table: Optional[Table] = None
        self.recent: collections.deque[Entry] = collections.deque(maxlen=AGAIN)
        # the connection at which the plant is known to be the one that is followed
        self.client: Optional[Client] = None
        self.is_new = True
        self.wording = Wording([], table)

    def look(self) -> Iterator[str]:
        """The lines of what is new. A connection that is lost is made again by the next look."""
        self.served.look()
        if not self.served.is_there:
            return
        client, table = known(self.served.plant.client), self.served.plant.table
        try:
            if self.table is not None and self.is_other(client, table):
                yield "(the server has another plant than before)"
                self.leave()
                return
            self.begin(client, table)
            yield from self.news(client)
        except (Lost, OtherPlant, Refused) as fault:
            self.served.end()
            self.served.say_once(str(fault), "- trying again")

    def is_other(self, client: Client, table: Table) -> bool:
        """Whether the server has another plant than the one that is followed. That may be so at a new connection."""
        if self.served.count < self.count:
            return True
        if client is self.client:
            return False
        is_same = fixed(table.alarms) == fixed(known(self.table).alarms)
        return not is_same or not are_told_again(client, self.recent, self.count)

    def leave(self) -> None:
        """Leaves a plant that is gone. The one that is there now is begun by the next look."""
        self.next, self.count, self.table = 1, 0, None
        self.recent.clear()
        self.served.forget()

    def begin(self, client: Client, table: Table) -> None:
        """Goes on at a connection, with the names that it told."""
        self.count = self.served.count
        if client is self.client:
            return
        self.client, self.table, self.wording = client, table, Wording(table.alarms, self.file)
        if self.is_new and self.first is None:
            self.next = self.count + 1
        if self.is_new and self.next > self.count + 1:
            self.say(f"the server has {self.count} actions, so action {self.next} isn't there")
        if self.is_new:
            self.say(f"from action {min(self.next, self.count + 1)} on")
        self.is_new = False

    def news(self, client: Client) -> Iterator[str]:
        """The lines of the actions up to those that the server showed as it was looked at."""
        while self.next <= self.count:
            told = self.since(client)
            yield from missing(self.next, told.first - 1, FORGOTTEN)
            for entry in told.entries:
                self.next = entry.action.number + 1
                self.recent.append(entry)
                yield self.wording.line(entry.action, entry.moment, entry.slot)
            self.next = told.last + 1

    def since(self, client: Client) -> Entries:
        """The next actions, or those that the server remembers from the oldest on."""
        try:
            return client.since(min(self.next - 1, MOST))
        except Refused as refused:
            if refused.refusal != Refusal.FORGOTTEN:
                raise
            return client.since()
