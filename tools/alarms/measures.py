"""What figures are made of: tables, counts in spans of time, spells, floods and chattering."""
import collections
import datetime
import math
from dataclasses import dataclass
from typing import Iterable, Optional, Sequence
from .life import Spell
from .moments import DATES


@dataclass(frozen=True)
class FigureTable:
    """Rows of a report under the names of their columns."""

    name: str
    columns: Sequence[str]
    rows: Sequence[tuple]


@dataclass(frozen=True)
class Figure:
    """A number of the summary, and the bound that it should not be above; none where it has no bound. Up to a second
    bound it can be managed."""

    name: str
    value: Optional[float]
    bound: Optional[float] = None
    is_share: bool = False
    manageable: Optional[float] = None

    @property
    def is_above(self) -> bool:
        return self.bound is not None and self.value is not None and self.value > self.bound

    def bounds(self) -> str:
        """Its bound, and the second one."""
        return ", ".join(self.written(one) for one in (self.bound, self.manageable) if one is not None)

    def written(self, value: Optional[float]) -> str:
        if value is None:
            return "-"
        return f"{100 * value:.2f} %" if self.is_share else f"{value:.2f}".rstrip("0").rstrip(".")


def offset_at(moment: int) -> int:
    """How far the clock of the machine's zone is ahead of a plant's clock that counts from 1970; 0 for another
    clock."""
    if moment not in DATES:
        return 0
    offset = datetime.datetime.fromtimestamp(moment).astimezone().utcoffset()
    return int(offset.total_seconds()) if offset else 0


class Bins:
    """How many annunciations lie in each period of a span. They lie on the clock: hours begin on the hour. The first
    and the last may be shorter."""

    def __init__(self, moments: Iterable[int], begin: int, end: int, seconds: int):
        self.begin, self.end, self.seconds = begin, end, seconds
        self.first = begin - (begin + offset_at(begin)) % seconds
        self.counts = [0] * math.ceil((end - self.first) / seconds)
        for moment in moments:
            self.counts[(moment - self.first) // seconds] += 1

    def begin_of(self, number: int) -> int:
        return max(self.begin, self.first + number * self.seconds)

    def length(self, number: int) -> int:
        return min(self.end, self.first + (number + 1) * self.seconds) - self.begin_of(number)

    def share_above(self, bound: int) -> float:
        """The share of the time that lies in periods with more than so many."""
        above = sum(self.length(number) for number, count in enumerate(self.counts) if count > bound)
        return above / (self.end - self.begin)


def percentile(values: list[int], share: float) -> int:
    """The least of the values which at least this share of them doesn't exceed."""
    return sorted(values)[max(0, math.ceil(share * len(values)) - 1)]


def covered(spells: Iterable[Spell], begin: int, end: int) -> int:
    """The seconds of a span in which at least one spell lies."""
    total, reached = 0, begin
    for since, until in sorted((one.since, end if one.end is None else min(end, one.end)) for one in spells):
        total += max(0, until - max(since, reached))
        reached = max(reached, until)
    return total


def steps(spells: Iterable[Spell], begin: int, end: int) -> list[tuple[int, int]]:
    """How many spells there are from each moment of a span on at which that changes; the first is the span's
    beginning."""
    changes: collections.Counter[int] = collections.Counter({begin: 0})
    for one in spells:
        changes[max(begin, one.since)] += 1
        if one.end is not None and one.end < end:
            changes[max(begin, one.end)] -= 1
    count = 0
    found: list[tuple[int, int]] = []
    for moment in sorted(changes):
        count += changes[moment]
        if not found or found[-1][1] != count:
            found.append((moment, count))
    return found


@dataclass(frozen=True)
class FloodSpell:
    """A flood of an area: how many of its seconds lie in the span, the most annunciations of ten minutes there, and how
    many there were."""

    area: int
    since: int
    end: Optional[int]
    seconds: int
    peak: int
    annunciations: int


@dataclass(frozen=True)
class Chatter:
    """How an alarm chattered: in how many bursts, by how many annunciations that were at least the third within a
    minute."""

    tag: str
    bursts: int
    annunciations: int
    first: int
    last: int


@dataclass(frozen=True)
class Fleeting:
    """How often an alarm came and went again within a minute, and neither before nor behind that within one."""

    tag: str
    annunciations: int
    first: int
    last: int
