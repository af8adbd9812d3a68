"""The lines of a desk that bring the states of a plant onto a new device: `alm_change_table` and `alm_salvage` print
them."""
import graphlib
import itertools
from dataclasses import dataclass, replace
from typing import Iterator, Optional

from .client import CLOCK, FEED
from .known import known
from .table_file import READING_LIMIT, Alarm, Table, read_table

CONSOLE = 0
# How long an annunciation counts in FLOOD and CHATTER, in seconds: what is brought stands farther back than that.
WINDOW = 600
# The status of a tool if the new table can't hold something.
KEPT_BACK = 4
GONE = ("RTNUN", "LATUN", "LATAK")
ACKNOWLEDGED = ("ACKED", "LATAK")


@dataclass(frozen=True)
class ShownAlarm:
    """What `show` says of an alarm."""

    shown: str
    condition: bool
    flags: str
    deadline: Optional[int]


@dataclass(frozen=True)
class StoppedPlant:
    """What `export` and `show` say of a device."""

    table: Table
    now: int
    alarms: list[ShownAlarm]
    lists: list[list[int]]


def read_plant(exported: str, shown: str) -> StoppedPlant:
    """The plant in the texts of `export` and `show`."""
    head, *lines = shown.splitlines()
    alarms, lists = [], []
    for words in map(str.split, lines):
        if words[0] == "ALARM":
            _, _, _, state, condition, flags, deadline = words
            alarms.append(
                ShownAlarm(state, condition == "1", flags.strip("-"), None if deadline == "-" else int(deadline))
            )
        else:
            length = int(words[2])
            lists.append([int(alarm) for alarm in words[3 : 3 + length]])
    return StoppedPlant(read_table(exported), int(head.split()[1]), alarms, lists)


def in_order(plant: StoppedPlant) -> list[int]:
    """The annunciated alarms in an order that all lists agree with."""
    before: graphlib.TopologicalSorter[int] = graphlib.TopologicalSorter()
    for alarms in plant.lists:
        for alarm in alarms:
            before.add(alarm)
        for first, second in itertools.pairwise(alarms):
            before.add(second, first)
    return list(before.static_order())


class TableChange:
    """The lines from an old plant to a new table, and what can't be brought."""

    def __init__(self, plant: StoppedPlant, table: Table, new_values: bool, now: Optional[int] = None):
        self.plant, self.new_values = plant, new_values
        self.now = plant.now if now is None else now
        numbers = table.numbers()
        old = plant.table.numbers()
        self.pairs = {
            number: (numbers[tag], table.alarms[numbers[tag]]) for tag, number in old.items() if tag in numbers
        }
        self.tags = {number: tag for tag, number in old.items()}
        self.left = [tag for tag in old if tag not in numbers]
        self.added = [tag for tag in numbers if tag not in old]
        self.kept_back: list[str] = []
        self.ids = itertools.count(1)

    def line(self, slot: int, request: str) -> str:
        return f"{slot} {next(self.ids)} {request}"

    def lacks(self, number: int, why: str) -> None:
        self.kept_back.append(f"{self.tags[number]}: {why}")

    def lines(self) -> Iterator[str]:
        """All lines: settings, then annunciated alarms at a moment before the windows, then at the present moment the
        suppressed ones."""
        for number in self.pairs:
            yield from self.settings(number)
        if self.now > WINDOW + 1:
            yield self.line(CLOCK, f"CLOCK {self.now - WINDOW - 1}")
        for number in in_order(self.plant):
            if number in self.pairs:
                yield from self.annunciation(number)
        if self.now:
            yield self.line(CLOCK, f"CLOCK {self.now}")
        for number in self.pairs:
            if self.plant.alarms[number].flags:
                yield from self.suppression(number)

    def settings(self, number: int) -> Iterator[str]:
        """The priority and the setpoint in force."""
        there, new = self.pairs[number]
        old = self.plant.table.alarms[number]
        if self.new_values:
            return
        if old.priority != new.priority:
            yield self.line(CONSOLE, f"PRIO {there} {old.priority}")
        if old.setpoint != new.setpoint:
            yield self.line(CONSOLE, f"SETP {there} {old.setpoint}")
            self.pairs[number] = there, replace(new, setpoint=old.setpoint)

    def annunciation(self, number: int) -> Iterator[str]:
        """The state of an annunciated alarm, from normal."""
        there, new = self.pairs[number]
        shown = self.plant.alarms[number].shown
        if shown in GONE and not self.can_go(number, new):
            return
        yield self.line(FEED, f"VAL {there} {new.coming}")
        if shown in ACKNOWLEDGED:
            yield self.line(CONSOLE, f"ACK {there}")
        if shown in GONE:
            yield self.line(FEED, f"VAL {there} {new.going}")

    def can_go(self, number: int, new: Alarm) -> bool:
        """Whether the state of a condition that went is one that the new alarm can have."""
        shown = self.plant.alarms[number].shown
        if abs(new.going) > READING_LIMIT:
            self.lacks(number, f"no value ends its condition, so {shown} isn't brought")
        elif (shown != "RTNUN") != new.latching:
            self.lacks(number, f"the new table changes `latching`, so {shown} isn't brought")
        else:
            return True
        return False

    def suppression(self, number: int) -> Iterator[str]:
        """The flags of an alarm, and its condition behind them, so that it isn't annunciated."""
        there, new = self.pairs[number]
        old = self.plant.alarms[number]
        if "O" in old.flags:
            yield self.line(CONSOLE, f"OOS {there} ON")
        if "D" in old.flags:
            yield self.line(FEED, f"DESIGN {there} ON")
        if "S" in old.flags:
            yield from self.shelving(number, there, new, known(old.deadline) - self.plant.now)
        if old.condition:
            yield self.line(FEED, f"VAL {there} {new.coming}")

    def shelving(self, number: int, there: int, new: Alarm, seconds: int) -> Iterator[str]:
        """What is left of a shelving, as far as the new table lets it."""
        allowed = min(seconds, new.max_shelve)
        if allowed < seconds:
            self.lacks(number, f"shelved for {seconds} s more, and the new table allows {new.max_shelve}")
        if allowed:
            yield self.line(CONSOLE, f"SHELVE {there} {allowed}")

    def report(self) -> Iterator[str]:
        """What there was, and what isn't brought."""
        names = f": {' '.join(self.left)}" if self.left else ""
        yield f"{len(self.pairs)} alarms in both tables, {len(self.added)} new, {len(self.left)} left out{names}"
        yield "not brought: the count, and the moments of annunciations, so FLOOD, STALE and CHATTER begin without them"
        yield from self.kept_back
