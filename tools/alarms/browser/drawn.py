"""What is drawn of the alarms, held against the server's own rows.

Each row is asked again once a round. One that differs was taken or drawn wrongly by this process, or a change was
missed.
"""
import math
from typing import Any, Callable, Iterable, Iterator, Optional

from ..client import Client
from ..replies import Row
from ..table_file import Alarm

# Seconds of a round, and the most rows that are asked at a look.
ROUND, ROWS = 20.0, 64
# The places of a drawn row that the server tells too, and how it tells them. No stamp is drawn of what asks for nobody.
TOLD: dict[int, tuple[str, Callable[[Row], object]]] = {
    1: ("priority", lambda row: row.priority),
    3: ("state", lambda row: row.shown),
    4: ("flags", lambda row: ("S" in row.flags) + 2 * ("D" in row.flags) + 4 * ("O" in row.flags)),
    5: ("condition", lambda row: 1 if row.condition else 0),
    6: ("last annunciation", lambda row: next(iter(row.moments), None)),
    7: ("last but two", lambda row: next(iter(row.moments[2:]), None)),
    8: ("deadline", lambda row: row.deadline),
    9: ("stamp", lambda row: 0 if row.flags or row.shown == "NORM" else row.stamp),
    11: ("setpoint", lambda row: row.setpoint),
}


class DrawnCheck:
    """Holds the rows that were drawn against the server's."""

    def __init__(self) -> None:
        self.compared = 0
        self.begin()

    def begin(self) -> None:
        """Another plant: nothing is drawn of it."""
        self.next = 0
        # What was drawn of each alarm; the rows that the server gave since, while no action has named their alarms; and
        # what is wrong with those that it denies.
        self.drawn: dict[int, list[Any]] = {}
        self.asked: dict[int, Row] = {}
        self.denied: dict[int, str] = {}
        self.said: Optional[str] = None

    def ask(self, client: Client, alarms: int, period: float) -> None:
        """Asks for some rows, at one look of this period. They are compared at the next one, which knows what was done
        up to their counts."""
        part = min(ROWS, alarms, math.ceil(alarms * period / ROUND))
        numbers = [(self.next + step) % alarms for step in range(part)]
        self.next = (self.next + part) % alarms
        self.asked = dict(zip(numbers, client.rows(numbers)))

    def leave_out(self, alarms: Iterable[int]) -> None:
        """What the server gave of these alarms may be of before an action, and what is drawn of behind it."""
        for alarm in alarms:
            self.asked.pop(alarm, None)

    def lost(self) -> None:
        """What was asked isn't compared: it isn't known what was done since."""
        self.asked = {}

    def compare(self, table: list[Alarm]) -> None:
        """Notes which of the drawn rows the server denies."""
        self.compared += len(self.asked)
        for alarm, row in self.asked.items():
            wrong = next(differing(self.drawn[alarm], row), None)
            if wrong:
                self.denied[alarm] = f"{table[alarm].tag}: its {wrong}"
            else:
                self.denied.pop(alarm, None)
        self.asked = {}

    def news(self) -> Optional[str]:
        """What the server denies, where that is another than was said last."""
        first = next(iter(self.denied.values()), None)
        fault = first and f"the server denies {len(self.denied)} of the rows. {first}"
        is_new, self.said = fault != self.said, fault
        return fault if is_new else None


def differing(drawn: list[Any], row: Row) -> Iterator[str]:
    """The fields of a drawn row that aren't the server's, with both values."""
    for place, (name, told) in TOLD.items():
        if drawn[place] != told(row):
            yield f"{name} is {drawn[place]} here, and {told(row)} there"
