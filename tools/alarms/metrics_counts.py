"""How many annunciations and acknowledgements a plant had, by its server's lines alone.

The counters begin at 0 where the count begins, and again where the server has another device. Each row is asked once.
Then SINCE reports what happened, and an alarm's condition and flags say which of it is an annunciation.
"""
from dataclasses import dataclass
from typing import Iterator, Optional

from .actions import Action
from .client import PRIORITIES, Client, Refusal, Refused
from .replies import Entry, Row

# Name and page of each counter that has a sample by priority.
BY_PRIORITY = {
    "alarms_annunciations_total": "Annunciations since the exporter began, by priority.",
    "alarms_acknowledgements_total": "Accepted acknowledgements since the exporter began, by priority.",
}
UNCOUNTED = "alarms_uncounted_actions_total"
UNCOUNTED_PAGE = "Actions that the server no longer remembered when they were to be counted."
# The letter of a flag, by the word that sets and ends it.
SWITCHES = {"OOS": "O", "DESIGN": "D"}


@dataclass
class FollowedAlarm:
    """An alarm whose row was asked at a count of actions, and what came of it since."""

    count: int
    priority: int
    condition: bool
    flags: set[str]
    deadline: int

    @staticmethod
    def of_row(row: Row) -> "FollowedAlarm":
        return FollowedAlarm(row.count, row.priority, row.condition, set(row.flags), row.deadline or 0)

    def act(self, action: Action, moment: int) -> bool:
        """Takes an action of the alarm; whether it annunciated it."""
        if action.word == "VAL":  # one that changes no condition is no action
            self.condition = not self.condition
            return self.condition and not self.flags
        if action.word == "PRIO":
            self.priority = action.argument
        if action.word == "SHELVE":
            self.flags.add("S")
            self.deadline = moment + action.argument
        elif action.word in SWITCHES and action.argument:
            self.flags.add(SWITCHES[action.word])
        elif action.word == "UNSHELVE" or action.word in SWITCHES:
            return self.release(SWITCHES.get(action.word, "S"))
        return False

    def is_due(self, moment: int) -> bool:
        """Whether its shelving ends at a moment."""
        return "S" in self.flags and self.deadline <= moment

    def release(self, letter: str) -> bool:
        """A flag falls; whether that annunciated the alarm."""
        self.flags.discard(letter)
        return self.condition and not self.flags


class Tally:
    """The counters of a plant."""

    def __init__(self) -> None:
        self.restart()

    def restart(self) -> None:
        """Begins at 0."""
        # the number of the last action that is counted; none before the count has begun
        self.last: Optional[int] = None
        self.alarms: list[FollowedAlarm] = []
        self.uncounted = 0
        self.counts = {name: dict.fromkeys(PRIORITIES, 0) for name in BY_PRIORITY}

    def look(self, client: Client, count: int) -> None:
        """Counts what is new, where the server shows this count. A server of an earlier release knows no SINCE: then
        nothing is counted."""
        if self.last is not None and count < self.last:
            self.restart()
        try:
            if self.last is None:
                self.begin(client)
            for entry in client.entries(self.last or 0):
                self.count(entry)
                self.last = entry.action.number
        except Refused as refused:
            if refused.refusal == Refusal.FORGOTTEN:
                self.begin_again(client)
            elif refused.refusal != Refusal.BAD_LINE:
                raise

    def begin(self, client: Client) -> None:
        """Asks for the rows: what is after the first of them is counted."""
        rows = client.rows(range(client.plant().alarms))
        client.since(min(row.count for row in rows))  # whether the server knows SINCE
        self.alarms, self.last = [FollowedAlarm.of_row(row) for row in rows], min(row.count for row in rows)

    def begin_again(self, client: Client) -> None:
        """Goes on behind actions that the server no longer remembers."""
        last = self.last or 0
        self.begin(client)
        self.uncounted += (self.last or 0) - last

    def count(self, entry: Entry) -> None:
        """Counts what an action did, where the rows are of before it."""
        action = entry.action
        if action.word == "CLOCK":
            for alarm in self.alarms:
                if action.number > alarm.count and alarm.is_due(entry.moment):
                    self.add("alarms_annunciations_total", alarm, alarm.release("S"))
            return
        alarm = self.alarms[action.alarm]
        if action.number > alarm.count:
            self.add("alarms_annunciations_total", alarm, alarm.act(action, entry.moment))
            self.add("alarms_acknowledgements_total", alarm, action.word == "ACK")

    def add(self, name: str, alarm: FollowedAlarm, is_one: bool) -> None:
        self.counts[name][alarm.priority] += is_one

    def samples(self) -> Iterator[tuple[str, str, dict[str, float]]]:
        """Name, page and samples of each counter; none before the count has begun."""
        if self.last is not None:
            for name, page in BY_PRIORITY.items():
                yield name, page, {f'{{priority="{one}"}}': count for one, count in self.counts[name].items()}
            yield UNCOUNTED, UNCOUNTED_PAGE, {"": self.uncounted}
