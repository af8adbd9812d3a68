"""The figures of a report, counted slowly from what the program shows after each action."""
import collections
import statistics
import time
from dataclasses import dataclass
from typing import Callable, Iterator, Optional
from slow_count import Shown, is_annunciation
from alarms.table_file import Table


DAY = 86_400


STANDING = {"UNACK", "ACKED", "RTNUN", "LATUN", "LATAK"}


WORDS = {"S": "shelved", "D": "suppressed by design", "O": "out of service"}


@dataclass(frozen=True)
class Piece:
    """The plant from a moment to another, both behind the same action."""

    begin: int
    end: int
    shown: Shown


def periods(begin: int, end: int, seconds: int) -> Iterator[tuple[int, int]]:
    """The periods of a span, as a clock on the wall has them: a full hour, or a full ten minutes of one."""
    while begin < end:
        wall = time.localtime(begin)
        until = min(end, begin + seconds - (60 * wall.tm_min + wall.tm_sec) % seconds)
        yield begin, until
        begin = until


class SlowCount:
    """Each table of a report, counted from the plant behind each action. Nothing is quick here, and nothing is
    clever."""

    def __init__(self, table: Table, shown: list[Shown], begin: int, end: int, areas: set[int]):
        self.table, self.shown, self.begin, self.end, self.areas = table, shown, begin, end, areas
        self.alarms = [number for number, alarm in enumerate(table.alarms) if alarm.area in areas]
        self.annunciations = [
            (after.moment, alarm, after.priorities[alarm])
            for before, after in zip(shown, shown[1:])
            for alarm in self.alarms
            if is_annunciation(before, after, alarm)
        ]
        self.counted = [one for one in self.annunciations if begin <= one[0] < end]
        ends = [one.moment for one in shown[1:]] + [end]
        self.pieces = [Piece(max(begin, one.moment), min(end, until), one) for one, until in zip(shown, ends)]
        self.pieces = [one for one in self.pieces if one.begin < one.end]

    def tag(self, alarm: int) -> str:
        return self.table.alarms[alarm].tag

    def mean(self, holds: Callable[[Shown, int], bool]) -> float:
        total = sum(
            (one.end - one.begin) * sum(holds(one.shown, alarm) for alarm in self.alarms) for one in self.pieces
        )
        return total / (self.end - self.begin)

    def most(self, holds: Callable[[Shown, int], bool]) -> int:
        return max(sum(holds(one.shown, alarm) for alarm in self.alarms) for one in self.pieces)

    def last_annunciation(self, alarm: int, number: int) -> int:
        """The moment of an alarm's last annunciation before an action; 0 where no CLOCK came before it."""
        before = self.shown[:number]
        return next(
            after.moment
            for ahead, after in reversed(list(zip(before, before[1:])))
            if is_annunciation(ahead, after, alarm)
        )

    def bins(self, seconds: int, bound: int, areas: Optional[set[int]] = None) -> list[tuple]:
        rows = []
        for begin, until in periods(self.begin, self.end, seconds):
            count = sum(
                begin <= at < until
                for at, alarm, _ in self.counted
                if areas is None or self.table.alarms[alarm].area in areas
            )
            rows.append((begin, until - begin, count, int(count > bound)))
        return rows

    def share_above(self, rows: list[tuple]) -> float:
        return sum(row[1] for row in rows if row[3]) / (self.end - self.begin)

    def spells(self, holds: Callable[[Shown], bool]) -> Iterator[tuple[int, Optional[int]]]:
        """Beginning and end of each time in which something holds, as far as it lies in the span."""
        since = None
        for one in self.shown:
            if one.moment >= self.end:
                break
            if holds(one) and since is None:
                since = one.moment
            elif not holds(one) and since is not None:
                if one.moment > max(since, self.begin):
                    yield since, one.moment
                since = None
        if since is not None:
            yield since, None

    def seconds(self, since: int, end: Optional[int]) -> int:
        return min(self.end, self.end if end is None else end) - max(self.begin, since)

    def floods(self) -> list[tuple]:
        rows = []
        for area in sorted(self.areas):
            for since, end in self.spells(lambda one: bool(one.floods[area][1])):
                start, until = max(since, self.begin), self.end if end is None else end
                windows = [one.shown.floods[area][0] for one in self.pieces if start <= one.begin and one.end <= until]
                moments = [
                    at
                    for at, alarm, _ in self.annunciations
                    if self.table.alarms[alarm].area == area and start - 600 < at < until
                ]
                if since < self.begin:  # the plant's window is that of its last CLOCK, and the span begins later
                    windows = [
                        sum(moment - 600 < at <= moment for at in moments)
                        for moment in [start, *(at for at in moments if at >= start)]
                    ]
                rows.append((area, since, end, self.seconds(since, end), max(windows), len(moments)))
        return sorted(rows, key=lambda row: (row[1], row[0]))

    def in_flood(self, areas: set[int]) -> float:
        return sum(one.end - one.begin for one in self.pieces if any(one.shown.floods[area][1] for area in areas)) / (
            self.end - self.begin
        )

    def frequent(self) -> list[tuple]:
        counts = collections.Counter(self.tag(alarm) for _, alarm, _ in self.counted)
        return [
            (tag, count, count / len(self.counted))
            for tag, count in sorted(counts.items(), key=lambda one: (-one[1], one[0]))[:10]
        ]

    def chattering(self) -> list[tuple]:
        rows = []
        for alarm in self.alarms:
            moments = [at for at, one, _ in self.annunciations if one == alarm]
            thirds = [
                sum(moment - 60 < at <= moment for at in moments[: place + 1]) >= 3
                for place, moment in enumerate(moments)
            ]
            found = [moment for moment, third in zip(moments, thirds) if third and self.begin <= moment < self.end]
            bursts, within = 0, False
            for moment, third in zip(moments, thirds):
                if self.begin <= moment < self.end:
                    bursts += third and not within
                    within = third
            if found:
                rows.append((self.tag(alarm), bursts, len(found), found[0], found[-1]))
        return sorted(rows, key=lambda row: (-row[2], row[0]))

    def fleeting(self) -> list[tuple]:
        """Which alarms came and went within less than a minute, with no other annunciation within less than one."""
        rows = []
        for alarm in self.alarms:
            moments = [at for at, one, _ in self.annunciations if one == alarm and at < self.end]
            last, found = 0, []
            for before, after in zip(self.shown, self.shown[1:]):
                went = before.states[alarm][0] in ("UNACK", "ACKED") and (
                    before.states[alarm][1],
                    after.states[alarm][1],
                ) == ("1", "0")
                if (
                    went
                    and self.begin <= last
                    and after.moment < min(self.end, last + 60)
                    and sum(abs(at - last) < 60 for at in moments) == 1
                ):
                    found.append(last)
                last = after.moment if is_annunciation(before, after, alarm) else last
            if found:
                rows.append((self.tag(alarm), len(found), found[0], found[-1]))
        return sorted(rows, key=lambda row: (-row[1], row[0]))

    def attributes(self) -> list[tuple]:
        """Who was given another priority or setpoint."""
        words = {"PRIO": "priority", "SETP": "setpoint"}
        return [
            (one.moment, self.tag(one.alarm), words[one.request.split()[0]], int(one.request.split()[2]))
            for one in self.shown
            if one.request[:4] in words and self.begin <= one.moment < self.end and one.alarm in self.alarms
        ]

    def stale_since(self, alarm: int) -> list[tuple[int, Optional[int]]]:
        """When an alarm was stale: a day behind its last annunciation it still stood."""
        found = []
        for since, end in self.all_standing(alarm):
            moments = [
                at for at, one, _ in self.annunciations if one == alarm and since <= at and (end is None or at < end)
            ]
            for at, again in zip(moments, [*moments[1:], end]):
                if again is None or again > at + DAY:
                    found.append((at + DAY, again if again is None or again < self.end else None))
        return [(since, end) for since, end in found if since < self.end and (end is None or end > self.begin)]

    def all_standing(self, alarm: int) -> Iterator[tuple[int, Optional[int]]]:
        since = None
        for one in self.shown:
            stands = one.states[alarm][0] in STANDING
            if stands and since is None:
                since = one.moment
            elif not stands and since is not None:
                yield since, one.moment
                since = None
        if since is not None:
            yield since, None

    def stale(self) -> list[tuple]:
        rows = [
            (self.tag(alarm), "stale", since, end, self.seconds(since, end))
            for alarm in self.alarms
            for since, end in self.stale_since(alarm)
        ]
        return sorted(rows, key=lambda row: (row[2], row[0]))

    def most_stale(self) -> int:
        moments = sorted({max(self.begin, since) for alarm in self.alarms for since, _ in self.stale_since(alarm)})
        return max(
            (
                sum(
                    since <= moment and (end is None or moment < end)
                    for alarm in self.alarms
                    for since, end in self.stale_since(alarm)
                )
                for moment in moments
            ),
            default=0,
        )

    def priorities(self) -> list[tuple]:
        goals = {1: 0.01, 2: 0.05, 3: 0.15, 4: 0.80}
        counts = collections.Counter(priority for _, _, priority in self.counted)
        return [(one, counts[one], counts[one] / len(self.counted), goals[one]) for one in goals]

    def acknowledgements(self) -> list[tuple]:
        """How long acknowledgements took, by priority."""
        last = [one for one in self.shown if one.moment < self.end][-1]
        rows = []
        for priority in (1, 2, 3, 4):
            acked = [
                (one.moment, self.last_annunciation(one.alarm, one.number))
                for one in self.shown
                if one.request.startswith("ACK ")
                and self.begin <= one.moment < self.end
                and one.alarm in self.alarms
                and one.priorities[one.alarm] == priority
            ]
            taken = sorted(moment - since for moment, since in acked if since)
            waiting = sum(
                last.states[alarm][0] in ("UNACK", "RTNUN", "LATUN") and last.priorities[alarm] == priority
                for alarm in self.alarms
            )
            figures = [None] * 4
            if taken:
                nine = next(value for value in taken if sum(one <= value for one in taken) >= 0.9 * len(taken))
                figures = [statistics.median(taken), nine, taken[-1], sum(taken) / len(taken)]
            rows.append((priority, len(taken), *figures, waiting))
        return rows

    def standing(self) -> list[tuple]:
        last = [one for one in self.shown if one.moment < self.end][-1]
        rows = []
        for alarm in self.alarms:
            for since, end in self.all_standing(alarm):
                if since < self.end and (end is None or end >= self.end) and last.states[alarm][0] in STANDING:
                    rows.append(
                        (
                            self.tag(alarm),
                            last.priorities[alarm],
                            self.table.alarms[alarm].area,
                            last.states[alarm][0],
                            since,
                            self.end - since,
                        )
                    )
        return sorted(rows, key=lambda row: (row[4], row[0]))

    def suppressions(self) -> list[tuple]:
        rows = [
            (self.tag(alarm), WORDS[letter], since, end, self.seconds(since, end))
            for letter in WORDS
            for alarm in self.alarms
            for since, end in self.spells(lambda one: letter in one.states[alarm][2])
        ]
        kinds = {"out of service": "OOSRV", "suppressed by design": "DSUPR", "shelved": "SHLVD"}
        return sorted(rows, key=lambda row: (row[2], row[0], kinds[row[1]]))

    def suppressed(self) -> list[tuple]:
        found = collections.defaultdict(list)
        for tag, kind, _since, end, seconds in self.suppressions():
            found[tag, kind].append((seconds, end))
        rows = [
            (
                tag,
                kind,
                len(ones),
                sum(one for one, _ in ones),
                max(one for one, _ in ones),
                int(any(end is None for _, end in ones)),
            )
            for (tag, kind), ones in found.items()
        ]
        return sorted(rows, key=lambda row: (-row[3], row[0], row[1]))

    def area_rows(self) -> list[tuple]:
        rows = []
        for area in sorted(self.areas):
            count = sum(self.table.alarms[alarm].area == area for _, alarm, _ in self.counted)
            tens = self.bins(600, 10, {area})
            rows.append(
                (
                    area,
                    count,
                    3600 * count / (self.end - self.begin),
                    max(row[2] for row in tens),
                    self.share_above(tens),
                    sum(row[0] == area for row in self.floods()),
                    self.in_flood({area}),
                )
            )
        return rows

    def summary(self) -> list[tuple]:
        """The figures of the summary, by their names."""
        span, hours, tens = self.end - self.begin, self.bins(3600, 30), self.bins(600, 10)
        count, ten = len(self.counted), sum(row[1] for row in self.frequent())
        stands, is_shelved = (lambda one, alarm: one.states[alarm][0] in STANDING), (
            lambda one, alarm: "S" in one.states[alarm][2]
        )
        return [
            span / 3600,
            count,
            86_400 * count / span,
            3600 * count / span,
            600 * count / span,
            max(row[2] for row in hours),
            max(row[2] for row in tens),
            self.share_above(hours),
            self.share_above(tens),
            len(self.floods()),
            self.in_flood(self.areas),
            ten / count,
            len(self.chattering()),
            len(self.fleeting()),
            self.most_stale(),
            self.mean(stands),
            self.most(stands),
            self.mean(is_shelved),
            len(self.attributes()),
            0,
            0,
            0,
        ]

    def tables(self) -> dict[str, list[tuple]]:
        return {
            "hours": self.bins(3600, 30),
            "ten_minutes": self.bins(600, 10),
            "areas": self.area_rows(),
            "floods": self.floods(),
            "frequent": self.frequent(),
            "chattering": self.chattering(),
            "fleeting": self.fleeting(),
            "attributes": self.attributes(),
            "stale": self.stale(),
            "priorities": self.priorities(),
            "acknowledgements": self.acknowledgements(),
            "standing": self.standing(),
            "suppressions": self.suppressions(),
            "suppressed": self.suppressed(),
            "gaps": [],
            "denied": [],
        }
