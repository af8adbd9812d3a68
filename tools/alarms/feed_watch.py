"""Which sources have no value: the rows of a map that have a number of seconds and a watching alarm. Moments are the
machine's monotonic seconds.
"""
import time
from collections import defaultdict
from typing import Iterable, Optional

from .value_map import Row

# Seconds after which all sources are looked at, also if none is late.
LONGEST = 60.0


class Watches:
    """When each watched source had its last good value, and whether it has one."""

    def __init__(self, rows: Iterable[Row]):
        self.began = time.monotonic()
        self.seconds: dict[str, float] = {}
        self.watched: list[tuple[str, float, str]] = []
        self.latest: dict[str, float] = {}
        self.good: dict[str, Optional[bool]] = {}
        # what was found last, until when it holds if nothing changes
        self.found: dict[str, Optional[bool]] = {}
        self.until, self.has_changed = 0.0, True
        self.hold(rows)

    def hold(self, rows: Iterable[Row]) -> None:
        """Watches these rows from here on. What is known of their names stays."""
        seconds: dict[str, float] = {}
        watched = []
        for row in rows:
            if row.silent:
                seconds[row.name] = min(row.silent, seconds.get(row.name, row.silent))
                watched += [(row.name, row.silent, row.watch)] if row.watch else []
        for name in seconds:
            self.latest.setdefault(name, self.began)
            self.good.setdefault(name, None)
        self.seconds, self.watched, self.has_changed = seconds, watched, True

    def note(self, name: str, is_good: bool, moment: float, is_live: bool = True) -> None:
        """A source sent a value, or one that is none. A good one that isn't live, as a retained message, is no sign
        that the source lives.
        """
        if name in self.good and (is_live or not is_good):
            self.has_changed = self.has_changed or self.good[name] is not is_good
            self.good[name] = is_good
            if is_good:
                self.latest[name] = max(moment, self.latest[name])

    def is_late(self, name: str, age: float) -> bool:
        """Whether a value of this age, in seconds, is none any more."""
        return name in self.seconds and age > self.seconds[name]

    def deadline(self) -> Optional[float]:
        """When a source may have been silent for too long: not before, and then `lacking` says it."""
        return self.until if self.watched else None

    def lacking(self) -> dict[str, Optional[bool]]:
        """Of each watching alarm whether a source has no value; `None` if one has sent nothing yet, and isn't late."""
        now = time.monotonic()
        if self.has_changed or now >= self.until:
            self.until, self.has_changed = now + LONGEST, False
            found: dict[str, list[Optional[bool]]] = defaultdict(list)
            for name, silent, watch in self.watched:
                if self.latest[name] + silent <= now:
                    self.good[name] = False
                elif self.good[name] is not False:
                    self.until = min(self.until, self.latest[name] + silent)
                found[watch].append(self.good[name])
            self.found = {
                watch: True if False in good else None if None in good else False for watch, good in found.items()
            }
        return self.found

    def silent_count(self) -> int:
        """How many watched sources have no value, or have sent none yet."""
        return sum(self.good[name] is not True for name in {name for name, _, _ in self.watched})
