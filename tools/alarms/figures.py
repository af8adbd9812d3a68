"""The figures of ISA-18.2 and EEMUA 191 over a plant's life, beside their bounds. docs/HISTORY.md says what each means.

    figures = Figures(life)
    for table in figures.tables():
        print(table.name, table.columns, table.rows)
"""
import bisect
import collections
import itertools
import statistics
from typing import Iterable, Optional, Sequence

from .details_file import NONE, Details
from .life import KINDS, STANDING, UNACKNOWLEDGED, WINDOW, Life, ChangeRow, Spell
from .moments import date
from .measures import Bins, Chatter, Figure, Fleeting, FloodSpell, FigureTable, covered, percentile, steps

DAY, HOUR, TEN_MINUTES, MINUTE = 86_400, 3600, 600, 60
PRIORITIES = range(1, 5)
SUPPRESSIONS = tuple(KINDS.values())
SUPPRESSION_WORDS = {"OOSRV": "out of service", "DSUPR": "suppressed by design", "SHLVD": "shelved"}
# The bounds of one operating position: mean annunciations a day, an hour and in ten minutes that are acceptable, and
# the most that can be managed; how many a period may have, and the share of periods that may be above.
DAY_BOUND, DAY_MANAGEABLE = 150, 300
HOUR_BOUND, HOUR_MANAGEABLE, HOUR_MOST = 6, 12, 30
TEN_BOUND, TEN_MANAGEABLE, TEN_MOST = 1, 2, 10
SHARE_BOUND = 0.01
FREQUENT, FREQUENT_BOUND = 10, 0.05
CHATTER = 3
# stale alarms are to be fewer than five
STALE_BOUND, STANDING_BOUND, SHELVED_BOUND = 4, 10, 30
PRIORITY_SHARES = {1: 0.01, 2: 0.05, 3: 0.15, 4: 0.80}


# The bounds of a row of areas, which is one operating position; none for its number, its count and how many floods it
# had.
AREA_BOUNDS = (None, None, HOUR_BOUND, TEN_MOST, SHARE_BOUND, None, SHARE_BOUND)


class Figures:
    """What a report says of a life."""

    def __init__(self, life: Life, details: Optional[dict[str, Details]] = None):
        self.life, self.begin, self.end, self.details = life, life.begin, life.end, details
        self.counted = life.counted()
        moments = [one.moment for one in self.counted]
        self.hours = Bins(moments, self.begin, self.end, HOUR)
        self.tens = Bins(moments, self.begin, self.end, TEN_MINUTES)
        self.by_tag = collections.Counter(one.tag for one in self.counted)
        self.by_priority = collections.Counter(one.priority for one in self.counted)
        # with those of the window before the span
        self.of_tag, self.of_area = collections.defaultdict(list), collections.defaultdict(list)
        for one in life.annunciations:
            self.of_tag[one.tag].append(one.moment)
            self.of_area[one.area].append(one.moment)
        self.floods = sorted((self.flood(one) for one in life.of("flood")), key=lambda one: (one.since, one.area))
        self.chatter = sorted(
            filter(None, map(self.chatter_of, sorted(self.by_tag))), key=lambda one: (-one.annunciations, one.tag)
        )

    def flood(self, spell: Spell) -> FloodSpell:
        """A flood as far as it lies in the span: the annunciations in the window as it begins there, and those
        since."""
        start, until = max(self.begin, spell.since), self.end if spell.end is None else min(self.end, spell.end)
        moments = self.of_area[spell.area]
        first, last = bisect.bisect_right(moments, start - WINDOW), bisect.bisect_left(moments, until)
        at_start = bisect.bisect_right(moments, start) - first
        peak = max(
            [
                at_start,
                *(
                    place + 1 - bisect.bisect_right(moments, moments[place] - WINDOW)
                    for place in range(first + at_start, last)
                ),
            ]
        )
        return FloodSpell(spell.area, spell.since, spell.end, spell.seconds(self.begin, self.end), peak, last - first)

    def chatter_of(self, tag: str) -> Optional[Chatter]:
        moments = self.of_tag[tag]
        is_third = [
            place >= CHATTER - 1 and moments[place - CHATTER + 1] > moment - MINUTE
            for place, moment in enumerate(moments)
        ]
        found = [place for place, is_one in enumerate(is_third) if is_one and moments[place] >= self.begin]
        if not found:
            return None
        bursts = 1 + sum(1 for before, place in itertools.pairwise(found) if place != before + 1)
        return Chatter(tag, bursts, len(found), moments[found[0]], moments[found[-1]])

    def fleeting(self) -> list[Fleeting]:
        """The alarms that were fleeting, the most frequent first. What chatters comes again within a minute, and is
        none."""
        found: dict[str, list[int]] = collections.defaultdict(list)
        for one in self.life.returns:
            moments, at = self.of_tag[one.tag], one.annunciated
            near = bisect.bisect_left(moments, at + MINUTE) - bisect.bisect_right(moments, at - MINUTE)
            if one.moment - at < MINUTE and at >= self.begin and near == 1:
                found[one.tag].append(at)
        return sorted(
            (Fleeting(tag, len(moments), moments[0], moments[-1]) for tag, moments in found.items()),
            key=lambda one: (-one.annunciations, one.tag),
        )

    def suppressed_seconds(self) -> list[tuple[str, int]]:
        """For how long of the span each alarm was suppressed, by whatever kinds; the longest first."""
        spells: dict[str, list[Spell]] = collections.defaultdict(list)
        for kind in SUPPRESSIONS:
            for one in self.life.of(kind):
                spells[one.tag].append(one)
        return sorted(
            ((tag, covered(ones, self.begin, self.end)) for tag, ones in spells.items()),
            key=lambda one: (-one[1], one[0]),
        )

    def mean(self, kind: str) -> float:
        """How many spells of a kind there were, over the time of the span."""
        return sum(one.seconds(self.begin, self.end) for one in self.life.of(kind)) / self.life.seconds

    def most(self, kind: str) -> int:
        return max((count for _, count in steps(self.life.of(kind), self.begin, self.end)), default=0)

    def frequent(self) -> list[tuple[str, int]]:
        """The ten most frequent alarms, and how often each was annunciated."""
        return sorted(self.by_tag.items(), key=lambda one: (-one[1], one[0]))[:FREQUENT]

    def share(self, count: int) -> float:
        return count / len(self.counted) if self.counted else 0.0

    def delays(self, priority: int) -> list[int]:
        """Seconds from the last annunciation to the acknowledgement, of the span's acknowledgements."""
        return [
            one.seconds for one in self.life.acknowledgements if one.priority == priority and one.moment >= self.begin
        ]

    def position(self, bound: float) -> Optional[float]:
        """A bound of one operating position, where the report is of one."""
        return bound if self.life.is_position else None

    def summary(self) -> list[Figure]:
        """The figures that have a bound, and what they are of."""
        rate, one = len(self.counted) / self.life.seconds, self.position
        in_flood = covered(self.life.of("flood"), self.begin, self.end) / self.life.seconds
        return [
            Figure("hours", self.life.seconds / HOUR),
            Figure("annunciations", len(self.counted)),
            Figure("annunciations a day, mean", rate * DAY, one(DAY_BOUND), manageable=one(DAY_MANAGEABLE)),
            Figure("annunciations an hour, mean", rate * HOUR, one(HOUR_BOUND), manageable=one(HOUR_MANAGEABLE)),
            Figure(
                "annunciations in ten minutes, mean", rate * TEN_MINUTES, one(TEN_BOUND), manageable=one(TEN_MANAGEABLE)
            ),
            Figure("annunciations in an hour, most", max(self.hours.counts)),
            Figure("annunciations in ten minutes, most", max(self.tens.counts), one(TEN_MOST)),
            Figure(
                f"time in hours with more than {HOUR_MOST}", self.hours.share_above(HOUR_MOST), one(SHARE_BOUND), True
            ),
            Figure(
                f"time in ten minutes with more than {TEN_MOST}",
                self.tens.share_above(TEN_MOST),
                one(SHARE_BOUND),
                True,
            ),
            Figure("floods", len(self.floods)),
            Figure("time in a flood", in_flood, one(SHARE_BOUND), True),
            Figure(
                "share of the ten most frequent",
                self.share(sum(count for _, count in self.frequent())),
                FREQUENT_BOUND,
                True,
            ),
            Figure("alarms that chattered", len(self.chatter), 0),
            Figure("alarms that were fleeting", len(self.fleeting()), 0),
            Figure("stale alarms, most at once", self.most("stale"), one(STALE_BOUND)),
            Figure("standing alarms, mean", self.mean("standing"), one(STANDING_BOUND)),
            Figure("standing alarms, most at once", self.most("standing")),
            Figure("shelved alarms, mean", self.mean("SHLVD"), one(SHELVED_BOUND)),
            Figure("attribute changes", len(self.life.attribute_changes)),
            Figure(
                "actions missing in gaps",
                sum(gap.last - gap.first + 1 for gap in self.life.gaps if gap.last is not None),
                0,
            ),
            Figure("gaps without a known end", sum(gap.last is None for gap in self.life.gaps), 0),
            Figure("alarms whose row the server denied", len({one.tag for one in self.life.denied}), 0),
        ]

    def tables(self) -> list[FigureTable]:
        """All that a report says."""
        return [
            FigureTable(
                "summary",
                ("figure", "value", "bound", "above", "manageable"),
                [(one.name, one.value, one.bound, int(one.is_above), one.manageable) for one in self.summary()],
            ),
            self.bins("hours", self.hours, HOUR_MOST),
            self.bins("ten_minutes", self.tens, TEN_MOST),
            self.areas(),
            self.flood_table(),
            FigureTable(
                "frequent",
                ("tag", "annunciations", "share"),
                [(tag, count, self.share(count)) for tag, count in self.frequent()],
            ),
            FigureTable(
                "chattering",
                ("tag", "bursts", "annunciations", "first", "last"),
                [(one.tag, one.bursts, one.annunciations, one.first, one.last) for one in self.chatter],
            ),
            FigureTable(
                "fleeting",
                ("tag", "annunciations", "first", "last"),
                [(one.tag, one.annunciations, one.first, one.last) for one in self.fleeting()],
            ),
            self.attributes(),
            self.spell_table("stale", ["stale"]),
            self.priorities(),
            self.acknowledgements(),
            self.standing(),
            self.spell_table("suppressions", SUPPRESSIONS),
            self.suppressed(),
            self.asked(),
            FigureTable(
                "gaps",
                ("plant", "first", "last", "began", "ended", "why"),
                [(gap.plant, gap.first, gap.last, gap.began, gap.ended, gap.why) for gap in self.life.gaps],
            ),
            FigureTable(
                "denied", ("moment", "tag", "field", "archived", "shown"), [tuple(one) for one in self.life.denied]
            ),
        ]

    def attributes(self) -> FigureTable:
        """The priorities and setpoints that alarms were given; with details these are in the operator's unit."""
        columns = ("moment", "tag", "attribute", "value")
        if self.details is None:
            return FigureTable("attributes", columns, [tuple(one) for one in self.life.attribute_changes])
        rows: list[tuple] = []
        for one in self.life.attribute_changes:
            told = self.details.get(one.tag, NONE)
            is_setpoint = one.attribute == "setpoint"
            rows.append((*one[:3], told.told(one.value), told.unit) if is_setpoint else (*one, ""))
        return FigureTable("attributes", (*columns, "unit"), rows)

    def asked(self) -> FigureTable:
        """How many actions each slot asked for, by their words; of the slot none, where it isn't known."""
        rows = [(word, slot, count) for (word, slot), count in self.life.asked.items()]
        return FigureTable(
            "asked", ("word", "slot", "actions"), sorted(rows, key=lambda row: (row[0], row[1] is None, row[1] or 0))
        )

    def bins(self, name: str, bins: Bins, bound: int) -> FigureTable:
        rows = [
            (bins.begin_of(number), bins.length(number), count, int(count > bound))
            for number, count in enumerate(bins.counts)
        ]
        return FigureTable(name, ("begins", "seconds", "annunciations", "above"), rows)

    def areas(self) -> FigureTable:
        """The rates of each area, which is one operating position."""
        rows = []
        for area in self.life.areas:
            moments = [one.moment for one in self.counted if one.area == area]
            tens = Bins(moments, self.begin, self.end, TEN_MINUTES)
            floods = [one for one in self.life.of("flood") if one.area == area]
            rows.append(
                (
                    area,
                    len(moments),
                    HOUR * len(moments) / self.life.seconds,
                    max(tens.counts),
                    tens.share_above(TEN_MOST),
                    len(floods),
                    covered(floods, self.begin, self.end) / self.life.seconds,
                )
            )
        return FigureTable(
            "areas",
            ("area", "annunciations", "an_hour", "most_in_ten_minutes", "share_above", "floods", "share_in_flood"),
            rows,
        )

    def flood_table(self) -> FigureTable:
        rows = [(one.area, one.since, one.end, one.seconds, one.peak, one.annunciations) for one in self.floods]
        return FigureTable("floods", ("area", "since", "end", "seconds", "peak", "annunciations"), rows)

    def priorities(self) -> FigureTable:
        rows = [
            (one, self.by_priority[one], self.share(self.by_priority[one]), PRIORITY_SHARES[one]) for one in PRIORITIES
        ]
        return FigureTable("priorities", ("priority", "annunciations", "share", "goal"), rows)

    def acknowledgements(self) -> FigureTable:
        """How long acknowledgements took, by priority, and what waits for one at the end."""
        waiting = collections.Counter(row.priority for row in self.life.alarms.values() if row.after in UNACKNOWLEDGED)
        rows = []
        for priority in PRIORITIES:
            taken = self.delays(priority)
            figures = (
                (statistics.median(taken), percentile(taken, 0.9), max(taken), statistics.fmean(taken))
                if taken
                else (None,) * 4
            )
            rows.append((priority, len(taken), *figures, waiting[priority]))
        return FigureTable(
            "acknowledgements",
            ("priority", "acknowledged", "median", "nine_of_ten", "longest", "mean", "waiting_at_end"),
            rows,
        )

    def standing(self) -> FigureTable:
        """The alarms that stand at the end, the longest first."""
        spells = {one.tag: one for one in self.life.of("standing") if one.end is None}
        rows: list[tuple[Spell, ChangeRow]] = sorted(
            ((spells[tag], row) for tag, row in self.life.alarms.items() if row.after in STANDING and tag in spells),
            key=lambda one: (one[0].since, one[0].tag),
        )
        return FigureTable(
            "standing",
            ("tag", "priority", "area", "state", "since", "seconds"),
            [
                (spell.tag, row.priority, row.area, row.after, spell.since, self.end - spell.since)
                for spell, row in rows
            ],
        )

    def spell_table(self, name: str, kinds: Sequence[str]) -> FigureTable:
        """Spells of some kinds, one a row. `seconds` are those in the span."""
        spells = sorted(
            (one for kind in kinds for one in self.life.of(kind)), key=lambda one: (one.since, one.tag, one.kind)
        )
        rows = [
            (one.tag, SUPPRESSION_WORDS.get(one.kind, one.kind), one.since, one.end, one.seconds(self.begin, self.end))
            for one in spells
        ]
        return FigureTable(name, ("tag", "kind", "since", "end", "seconds"), rows)

    def suppressed(self) -> FigureTable:
        """Who was suppressed how long, the longest first."""
        found: dict[tuple[str, str], list[Spell]] = collections.defaultdict(list)
        for kind in SUPPRESSIONS:
            for one in self.life.of(kind):
                found[one.tag, kind].append(one)
        seconds = lambda spells: [one.seconds(self.begin, self.end) for one in spells]
        rows = [
            (
                tag,
                SUPPRESSION_WORDS[kind],
                len(spells),
                sum(seconds(spells)),
                max(seconds(spells)),
                int(any(one.end is None for one in spells)),
            )
            for (tag, kind), spells in found.items()
        ]
        return FigureTable(
            "suppressed",
            ("tag", "kind", "times", "seconds", "longest", "at_end"),
            sorted(rows, key=lambda row: (-row[3], row[0], row[1])),
        )


def in_words(figures: Figures) -> Iterable[str]:
    """The summary as lines of a terminal."""
    life = figures.life
    areas = ", ".join(map(str, life.areas))
    yield f"{life.name}, areas {areas}: {date(life.begin)} to {date(life.end)}, {life.actions} actions"
    if not life.is_position:
        yield (
            "  The bounds of rates, floods and standing alarms are those of one operating position: see areas.csv, or"
            " report one by its areas, --area each"
        )
    for one in figures.summary():
        bound = "" if one.bound is None else f"at most {one.written(one.bound)}"
        bound += "" if one.manageable is None else f", or {one.written(one.manageable)}"
        yield f"  {one.name:44}{one.written(one.value):>12}   {bound:22}{'ABOVE' if one.is_above else ''}".rstrip()
