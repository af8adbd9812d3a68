"""What the readings of a feed bring: by the tags of the plant, or by a map of names. feed.py has what lines look like.

What brings nothing is reported where it is the first of its name, until a good one comes, and is counted.
"""
import collections
import re
import sys
import time
from dataclasses import dataclass
from typing import Container, Hashable, Iterable, Iterator, Optional

from .client import switch
from .feed_reading import AHEAD, HOLDER, BadValue, NoMessage, Reading, of_line
from .feed_watch import Watches
from .table_file import READING_LIMIT
from .value_map import Row, ValueMap

SWITCHES = {"on": True, "off": False}
# A whole number, and how long its text may be.
WHOLE, MOST_DIGITS = re.compile(r"[-+]?[0-9]+"), 1000
# Names that the plant or the map hasn't are reported up to so many, and letters of a line.
MOST_UNKNOWN, MOST_LETTERS = 100, 200


class BadLine(Exception):
    """A line that asks nothing of an alarm."""


class Unmapped(BadLine):
    """A line of a name that nobody knows."""


class Late(Exception):
    """A value that is too old."""


@dataclass(frozen=True)
class Input:
    """What a line brings: a value of a tag, or whether it is suppressed by design."""

    tag: str
    value: int | bool

    @property
    def is_design(self) -> bool:
        return isinstance(self.value, bool)

    @property
    def key(self) -> tuple[str, bool]:
        """What one input takes the place of another of."""
        return self.tag, self.is_design

    def request(self, alarm: int) -> str:
        return f"DESIGN {alarm} {switch(bool(self.value))}" if self.is_design else f"VAL {alarm} {self.value}"

    def __str__(self) -> str:
        return f"{self.tag},design,{switch(bool(self.value)).lower()}" if self.is_design else f"{self.tag},{self.value}"


def say(*words: object) -> None:
    print("feed:", *words, file=sys.stderr, flush=True)


def printable(line: str) -> str:
    """The beginning of a line, of one line whatever a source puts there."""
    text = "".join(letter if letter.isprintable() else HOLDER for letter in line[:MOST_LETTERS])
    return text + (".." if len(line) > MOST_LETTERS else "")


def read_value(text: str) -> int:
    """The value in the last field of a line."""
    if not WHOLE.fullmatch(text):
        raise BadLine("the value is no whole number")
    value = READING_LIMIT + 1 if len(text) > MOST_DIGITS else int(text)
    if abs(value) > READING_LIMIT:
        raise BadLine(f"the value isn't from -{READING_LIMIT} to {READING_LIMIT}")
    return value


def read_input(name: str, text: str, numbers: dict[str, int]) -> Input:
    """What a line brings by a tag of the plant."""
    before, _, word = (part.strip() for part in name.rpartition(","))
    is_design = word.lower() == "design" and text.lower() in SWITCHES
    found = Input(before, SWITCHES[text.lower()]) if is_design else Input(name, 0)
    if found.tag not in numbers:
        raise Unmapped("the table has no such tag")
    return found if is_design else Input(name, read_value(text))


class Lines:
    """Reads by a plant's tags, or by a map; with `messages` no lines but those of JSON."""

    def __init__(self, values: Optional[ValueMap], messages: bool = False):
        self.values, self.messages = values, messages
        self.watches = Watches(values.all_rows() if values else ())
        self.numbers: dict[str, int] = {}
        self.counts: collections.Counter[str] = collections.Counter()
        self.latest_time: dict[str, float] = {}
        # the last reading of each name that is a value of all its rows, also of those that the plant hasn't now
        self.kept: dict[str, Reading] = {}
        self.last_moment: Optional[float] = None
        self.reported: set[tuple[str, str]] = set()
        self.unknown = 0

    def reading_of(self, line: str, moment: float) -> Reading:
        """The reading in a line. A message is of its topic alone, whatever its payload is."""
        if self.values and line.startswith("{"):
            try:
                return of_line(line, moment)
            except NoMessage as no:
                if self.messages:
                    return Reading("", None, moment, why=str(no), line=line)
        if self.messages:
            return Reading("", None, moment, why="no JSON", line=line)
        if "," not in line:
            return Reading("", None, moment, why="no comma", line=line)
        if self.values:
            name, text = self.values.split(line)
        else:
            name, _, text = (part.strip() for part in line.rpartition(","))
        return Reading(name, text, moment, line=line)

    def is_known(self, name: str) -> bool:
        if self.values:
            return name in self.values.rows
        before, _, word = (part.strip() for part in name.rpartition(","))
        return name in self.numbers or (word.lower() == "design" and before in self.numbers)

    def key_of(self, reading: Reading) -> Hashable:
        """Of what a reading is the last one: its name, and whether it is a value. All that the map hasn't are one."""
        if not self.values:
            return reading.name
        rows = self.values.rows.get(reading.name, ())
        return (reading.name, self.is_value(rows, reading.text)) if rows else None

    @staticmethod
    def is_value(rows: Iterable[Row], text: Optional[str]) -> bool:
        try:
            return text is not None and all(row.read(text) is not None for row in rows)
        except BadValue:
            return False

    def inputs(self, readings: Iterable[Reading]) -> Iterator[tuple[Input, float]]:
        """What readings bring, with the moments from which it holds."""
        for reading in readings:
            self.counts["readings"] += 1
            try:
                found = self.of_map(self.values, reading) if self.values else self.of_tags(reading)
            except (BadLine, BadValue) as bad:
                self.counts["bad"] += 1
                self.counts["unmapped"] += isinstance(bad, Unmapped)
                self.report("bad", reading, str(bad))
                continue
            except Late as late:
                self.counts["late"] += 1
                self.report("late", reading, str(late))
                continue
            if self.reported:
                self.reported -= {("bad", reading.name), ("late", reading.name)}
            self.last_moment = reading.moment
            for one in found:
                yield one, reading.moment

    def missing(self, known: Container[tuple[str, bool]]) -> Iterator[tuple[Input, float]]:
        """The last values of the rows that the plant has, but for what is known; with the moments of them."""
        for name, rows in self.values.active.items() if self.values else ():
            for row in rows:
                if name in self.kept and (row.tag, row.is_design) not in known:
                    yield Input(row.tag, row.read(self.kept[name].text or "")), self.kept[name].moment

    def of_tags(self, reading: Reading) -> list[Input]:
        """What a line brings by the tags of the plant."""
        if reading.text is None:
            raise BadLine(reading.why)
        return [read_input(reading.name, reading.text, self.numbers)]

    def of_map(self, values: ValueMap, reading: Reading) -> list[Input]:
        """What a reading brings by the map."""
        if not reading.name and reading.text is None:
            raise BadLine(reading.why)
        if reading.name not in values.rows:
            raise Unmapped("the map has no such name")
        moment = self.moment_of(reading)
        rows = values.active.get(reading.name, [])
        try:
            if reading.text is None:
                raise BadValue(reading.why)
            found = [Input(row.tag, row.read(reading.text)) for row in rows]
        except BadValue:
            self.watches.note(reading.name, False, moment)
            raise
        self.watches.note(reading.name, True, moment, reading.is_live)
        whole = values.rows[reading.name]
        if len(rows) == len(whole) or self.is_value(whole, reading.text):
            self.kept[reading.name] = reading
        for row in rows:
            if not reading.text.isdecimal() and row.loses_fraction(reading.text):
                self.counts["rounded"] += 1
                self.report(
                    "rounded",
                    reading,
                    f"goes by a scale of 1, rounded to {row.read(reading.text)}: is the setpoint in that unit?",
                    row.tag,
                )
        return found

    def moment_of(self, reading: Reading) -> float:
        """When a reading was true, in seconds of this machine. By its source's time it may be too old, or from the
        future, which is reported.
        """
        if reading.time is None:
            return reading.moment
        now = time.time()
        age = now - reading.time
        if age < -AHEAD:
            self.counts["ahead"] += 1
            self.report("ahead", reading, f"is {-age:.0f} seconds ahead of this machine's clock")
        if self.watches.is_late(reading.name, age):
            raise Late(f"a value that is {age:.0f} seconds old")
        if reading.time < self.latest_time.get(reading.name, reading.time):
            raise Late("a value that is older than the one before")
        self.latest_time[reading.name] = min(reading.time, now + AHEAD)
        return min(reading.moment, time.monotonic() - age)

    def report(self, kind: str, reading: Reading, why: str, tag: str = "") -> None:
        """Says what is wrong with a reading, if it is the first of its kind and name."""
        key = (kind, tag or reading.name)
        is_unknown = kind == "bad" and not self.is_known(reading.name)
        if key in self.reported or (is_unknown and self.unknown >= MOST_UNKNOWN):
            return
        self.reported.add(key)
        if is_unknown:
            self.unknown += 1
            if self.unknown == MOST_UNKNOWN:
                say(f"{MOST_UNKNOWN} unknown names were reported: no further ones are")
        say(f"{tag}: {printable(reading.text or '')} {why}" if tag else f"{printable(str(reading))}: {why}")
