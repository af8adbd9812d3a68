"""On and off delay: a value that would change an alarm counts once it has held for so long. This is the feed's alone,
in seconds of its clock.

The setpoint in force and the condition are asked of the server each time that values are sent again. Until then a value
is judged by those.
"""
import time
from typing import Iterable, Iterator, Optional

from .client import Client, Refused
from .replies import read_attributes, read_state
from .feed_lines import Input
from .table_file import Alarm
from .value_map import Row


def condition_of(alarm: Alarm, value: int, before: bool) -> bool:
    """Whether the condition holds by a value, where it was so before."""
    if alarm.kind == "discrete":
        return value == alarm.setpoint
    if alarm.kind == "high":
        return value >= alarm.setpoint or (before and value >= alarm.setpoint - alarm.deadband)
    return value <= alarm.setpoint or (before and value <= alarm.setpoint + alarm.deadband)


class Delays:
    """The values of the rows with a delay that don't count yet."""

    def __init__(self) -> None:
        self.rows: dict[str, Row] = {}
        self.alarms: dict[str, Alarm] = {}
        self.holds: dict[str, bool] = {}
        self.waiting: dict[str, tuple[Input, float]] = {}

    def hold(self, rows: Iterable[Row]) -> None:
        """Delays these rows from here on."""
        self.rows = {row.tag: row for row in rows if row.on_delay or row.off_delay}
        self.waiting = {tag: one for tag, one in self.waiting.items() if tag in self.rows}

    def refresh(self, client: Client, numbers: dict[str, int]) -> None:
        """Asks for the setpoints and conditions in force."""
        tags = [tag for tag in self.rows if tag in numbers]
        replies = client.ask_all(f"{word} {numbers[tag]}" for tag in tags for word in ("ATTR", "STATE"))
        found = list(replies)
        for tag, attributes, state in zip(tags, found[::2], found[1::2]):
            if not isinstance(attributes, Refused) and not isinstance(state, Refused):
                self.alarms[tag], self.holds[tag] = read_attributes(attributes[1:]), read_state(state[1:]).condition

    def counts(self, one: Input, moment: float) -> bool:
        """Whether a value counts at once. One that doesn't takes the place of an earlier one, which has held no longer
        than it.
        """
        if one.tag not in self.rows or one.tag not in self.alarms or one.is_design:
            return True
        since = self.waiting.get(one.tag, (one, moment))[1]
        self.waiting[one.tag] = (one, since)
        return self.is_due(one.tag, moment)

    def end_of(self, tag: str) -> float:
        """When the value of a tag counts that waits: at once where it changes nothing."""
        row, (one, since), holds = self.rows[tag], self.waiting[tag], self.holds[tag]
        comes = condition_of(self.alarms[tag], one.value, holds)
        return since + (0.0 if comes == holds else row.on_delay if comes else row.off_delay)

    def is_due(self, tag: str, moment: float) -> bool:
        """Takes a value away that counts by now."""
        if self.end_of(tag) > moment:
            return False
        one, _ = self.waiting.pop(tag)
        self.holds[tag] = condition_of(self.alarms[tag], one.value, self.holds[tag])
        return True

    def deadline(self) -> Optional[float]:
        """When the next value counts."""
        return min(map(self.end_of, self.waiting), default=None)

    def due(self) -> Iterator[Input]:
        """The values that have held for long enough."""
        now = time.monotonic()
        for tag, (one, _) in list(self.waiting.items()):
            if self.is_due(tag, now):
                yield one
