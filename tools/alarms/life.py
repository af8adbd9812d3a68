"""The life of a plant in a span of its archive, as lists: annunciations, acknowledgements, floods, and how long each
alarm stood or was suppressed.

    life = read_life(store, "plant", begin, end)

The span is [begin, end), in seconds of the plant's clock, and never longer than what is archived. Plants of the same
name, as a change of the table leaves them, follow one another. What was brought onto the later one isn't counted again.
"""
import collections
from dataclasses import dataclass, field
from typing import NamedTuple, Optional, Sequence

from .known import known
from .model import FLAGS, LETTERS, WINDOW
from .store import Store, StoreFault
from .moments import date
from .spells import Acknowledgement, Annunciation, AttributeChange, Denied, Return, Spell

STALE = 86_400
# A span that is longer has a clock that was wrong in it, or never set.
LONGEST = 20 * 31_536_000
KINDS = {letter: word for _, letter, word in FLAGS}
STANDING = ("UNACK", "ACKED", "RTNUN", "LATUN", "LATAK")
# What an acknowledgement makes of a state; nothing else does so.
ACKNOWLEDGED = {("UNACK", "ACKED"), ("RTNUN", "NORM"), ("LATUN", "LATAK")}
UNACKNOWLEDGED = ("UNACK", "RTNUN", "LATUN")
# What the end of its condition makes of an annunciated alarm's state; nothing else does so.
RETURNED = {("UNACK", "RTNUN"), ("UNACK", "LATUN"), ("ACKED", "NORM"), ("ACKED", "LATAK")}
# The words of actions that change an attribute, and the attribute.
ATTRIBUTES = {"PRIO": "priority", "SETP": "setpoint"}


class ChangeRow(NamedTuple):
    """A row of the archive's changes. One without `before` is a state that was found."""

    alarm: int
    number: int
    moment: int
    tag: str
    priority: int
    area: int
    before: Optional[str]
    after: str
    flags: str
    annunciated: int
    since: Optional[int]


COLUMNS = "alarm, number, moment, tag, priority, area, before, after, flags, annunciated, since"


@dataclass
class Standing:
    """What is known of an alarm by now."""

    row: ChangeRow
    # since when it stands, since when its last annunciation counts, and since when each flag is set
    stands: Optional[int] = None
    annunciated: Optional[int] = None
    flags: dict[str, int] = field(default_factory=dict)


@dataclass
class ArchiveGap:
    """Actions of a plant that the archive hasn't, by their numbers and moments."""

    plant: int
    first: int
    last: Optional[int]
    began: Optional[int]
    ended: Optional[int]
    why: str


@dataclass
class Life:
    """What happened in a span. Annunciations begin a window earlier, so that each window of the span is whole. The
    areas are those of one operating position where the report was asked for these alone, or the plant has one area."""

    name: str
    begin: int
    end: int
    areas: list[int]
    is_position: bool
    actions: int = 0
    annunciations: list[Annunciation] = field(default_factory=list)
    acknowledgements: list[Acknowledgement] = field(default_factory=list)
    returns: list[Return] = field(default_factory=list)
    attribute_changes: list[AttributeChange] = field(default_factory=list)
    # how often each slot asked for each word of an alarm's action; of no slot, where nobody knows who asked
    asked: collections.Counter[tuple[str, Optional[int]]] = field(default_factory=collections.Counter)
    spells: list[Spell] = field(default_factory=list)
    gaps: list[ArchiveGap] = field(default_factory=list)
    denied: list[Denied] = field(default_factory=list)
    # the alarms at the end, by tag
    alarms: dict[str, ChangeRow] = field(default_factory=dict)

    @property
    def seconds(self) -> int:
        return self.end - self.begin

    def counted(self) -> list[Annunciation]:
        """The annunciations of the span."""
        return [one for one in self.annunciations if one.moment >= self.begin]

    def of(self, kind: str) -> list[Spell]:
        """The spells of a kind that lie in the span, or partly in it."""
        return [
            one
            for one in self.spells
            if one.kind == kind and one.since < self.end and (one.end is None or one.end > self.begin)
        ]


class Player:
    """Plays the rows of an archive in their order."""

    def __init__(self, life: Life, areas: Optional[set[int]]):
        self.life, self.only = life, areas
        self.alarms: dict[str, Standing] = {}
        self.floods: dict[int, int] = {}

    def is_asked(self, area: int) -> bool:
        return self.only is None or area in self.only

    def spell(self, kind: str, row: ChangeRow, since: int, end: Optional[int]) -> None:
        if end is None or end > since:
            self.life.spells.append(Spell(kind, row.tag, row.priority, row.area, since, end))

    def play(self, row: ChangeRow) -> None:
        """What a change did to an alarm."""
        if not self.is_asked(row.area):
            return
        alarm = self.alarms.setdefault(row.tag, Standing(row))
        if row.annunciated:
            self.life.annunciations.append(Annunciation(row.moment, row.tag, row.priority, row.area))
        if (row.before, row.after) in ACKNOWLEDGED and row.since:  # one of before the first CLOCK has no moment
            self.life.acknowledgements.append(
                Acknowledgement(row.moment, row.tag, row.priority, row.area, row.moment - row.since)
            )
        if (row.before, row.after) in RETURNED and row.since:
            self.life.returns.append(Return(row.moment, row.tag, row.since))
        self.stand(alarm, row)
        self.suppress(alarm, row)
        alarm.row = row

    def stand(self, alarm: Standing, row: ChangeRow) -> None:
        """Whether it is annunciated, and since when."""
        stands = row.after in STANDING
        if alarm.stands is not None and not stands:
            self.spell("standing", row, alarm.stands, row.moment)
        if alarm.annunciated is not None and (not stands or row.since != alarm.annunciated):
            self.spell("stale", row, alarm.annunciated + STALE, row.since if stands else row.moment)
            alarm.annunciated = None
        if stands and alarm.annunciated is None:
            alarm.annunciated = row.since
        # what was found annunciated is so since its last annunciation at least
        began = row.moment if row.before is not None or row.since is None else row.since
        alarm.stands = None if not stands else began if alarm.stands is None else alarm.stands

    def suppress(self, alarm: Standing, row: ChangeRow) -> None:
        """Which flags are set, and since when."""
        for letter, kind in KINDS.items():
            if letter in row.flags:
                alarm.flags.setdefault(letter, row.moment)
            elif letter in alarm.flags:
                self.spell(kind, row, alarm.flags.pop(letter), row.moment)

    def find(self, row: ChangeRow, begun: dict[str, int], earliest: int) -> None:
        """A state that was found where a plant is begun. Of one that stood on the plant before it is known since
        when."""
        if not self.is_asked(row.area):
            return
        before = self.alarms.get(row.tag)
        if before and before.annunciated is not None and row.after in STANDING:
            row = row._replace(since=before.annunciated)
        self.play(row._replace(moment=max(row.moment, earliest), before=None, annunciated=0))
        if not before:
            alarm = self.alarms[row.tag]
            alarm.stands = begun.get("standing", alarm.stands)
            alarm.flags.update({letter: begun[kind] for letter, kind in KINDS.items() if kind in begun})

    def flood(self, area: int, moment: int, flooded: int) -> None:
        """A flood of an area begins or ends."""
        if not self.is_asked(area):
            return
        if flooded:
            self.floods.setdefault(area, moment)
        elif area in self.floods:
            self.life.spells.append(Spell("flood", "", 0, area, self.floods.pop(area), moment))

    def leave(self, tags: set[str], moment: int) -> None:
        """On a later plant these are the tags: what the others were ends here."""
        for tag in [tag for tag in self.alarms if tag not in tags]:
            alarm = self.alarms.pop(tag)
            gone = alarm.row._replace(number=0, moment=moment, before=None, after="NORM", flags="-", annunciated=0)
            self.stand(alarm, gone)
            self.suppress(alarm, gone)
        for area in list(self.floods):
            self.flood(area, moment, 0)

    def close(self) -> None:
        """At the span's end all that is so goes on."""
        for tag, alarm in self.alarms.items():
            self.life.alarms[tag] = alarm.row
            if alarm.stands is not None:
                self.spell("standing", alarm.row, alarm.stands, None)
            if alarm.annunciated is not None and alarm.annunciated + STALE < self.life.end:
                self.spell("stale", alarm.row, alarm.annunciated + STALE, None)
            for letter, since in alarm.flags.items():
                self.spell(KINDS[letter], alarm.row, since, None)
        self.life.spells += [Spell("flood", "", 0, area, since, None) for area, since in self.floods.items()]


class PlantRows(NamedTuple):
    """A plant of the archive: what is behind the action `counted` is counted. Its moments, and that at which the one
    before it ended."""

    plant: int
    areas: int
    counted: int
    began: int
    ended: int
    before: int


def plants_of(store: Store, name: str) -> list[PlantRows]:
    """The plants of a name, one behind the other."""
    found: list[PlantRows] = []
    counts = store.counted()
    for plant, areas in list(store.rows("SELECT plant, areas FROM plant WHERE name = ? ORDER BY plant", (name,))):
        ended = store.value("SELECT moment FROM action WHERE plant = ? ORDER BY number DESC LIMIT 1", (plant,))
        if ended is None:
            continue
        before = found[-1].ended if found else 0
        counted = counts[plant]
        began = store.value(
            "SELECT moment FROM action WHERE plant = ? AND number > ? AND moment > 0 ORDER BY number LIMIT 1",
            (plant, counted),
        )
        found.append(PlantRows(plant, areas, counted, ended if began is None else began, ended, before))
    if not found:
        raise StoreFault(f"{store.place} has no actions of a plant of the name {name}")
    return found


def states_at(store: Store, plant: int, number: int) -> list[ChangeRow]:
    """The last change of each alarm, up to an action."""
    query = (
        f"SELECT {', '.join('c.' + one for one in COLUMNS.split(', '))} FROM alarm a JOIN change c ON c.plant = a.plant"
        " AND c.alarm = a.alarm AND c.number = (SELECT MAX(number) FROM change WHERE plant = a.plant AND alarm ="
        " a.alarm AND number <= ?) WHERE a.plant = ? ORDER BY a.alarm"
    )
    rows = [ChangeRow(*row) for row in store.rows(query, (number, plant))]
    twice = [tag for tag, count in collections.Counter(row.tag for row in rows).items() if count > 1]
    if twice:
        raise StoreFault(f"{store.place}: tag {twice[0]} stands twice in plant {plant}, and reports go by tags")
    return rows


def begun_at(store: Store, plant: int, row: ChangeRow) -> dict[str, int]:
    """Since when an alarm stands or is suppressed, by the kind of that: the first of its changes that are so without a
    pause, up to a row."""
    found: dict[str, int] = {}
    kinds: list[tuple[str, str, Sequence[str]]] = [("standing", "after", STANDING)] if row.after in STANDING else []
    kinds += [
        (kind, "flags", [letters for letters in LETTERS if letter in letters])
        for letter, kind in KINDS.items()
        if letter in row.flags
    ]
    for kind, column, words in kinds:
        query = (
            "SELECT moment, before, since FROM change WHERE plant = ? AND alarm = ? AND number > COALESCE((SELECT"
            f" MAX(number) FROM change WHERE plant = ? AND alarm = ? AND number <= ? AND {column} NOT IN"
            f" ({', '.join('?' * len(words))})), -1) ORDER BY number LIMIT 1"
        )
        values = (plant, row.alarm, plant, row.alarm, row.number, *words)
        moment, before, since = known(store.row(query, values))
        found[kind] = since if kind == "standing" and before is None and since is not None else moment
    return found


def floods_at(store: Store, plant: int, number: int) -> list[tuple]:
    """The last beginning or end of a flood of each area, up to an action."""
    query = (
        "SELECT f.area, f.moment, f.flooded FROM flood f JOIN (SELECT area, MAX(number) AS number FROM flood WHERE"
        " plant = ? AND number <= ? GROUP BY area) l ON l.area = f.area AND l.number = f.number WHERE f.plant = ?"
    )
    return list(store.rows(query, (plant, number, plant)))


def read_life(
    store: Store, name: str, begin: Optional[int] = None, end: Optional[int] = None, areas: Optional[set[int]] = None
) -> Life:
    """What happened in a span; without one, in all of the archive."""
    store.still()
    plants = plants_of(store, name)
    known = min(one.began for one in plants), max(one.ended for one in plants) + 1
    begin, end = max(known[0], known[0] if begin is None else begin), min(known[1], known[1] if end is None else end)
    if begin >= end:
        raise StoreFault(
            f"{store.place} has nothing of {name} in that span: it has {date(known[0])} to {date(known[1])}"
        )
    if end - begin > LONGEST:
        raise StoreFault(
            f"{name} is archived from {date(known[0])} to {date(known[1])}: give a span of at most"
            f" {LONGEST // 31_536_000} years"
        )
    asked = range(max(one.areas for one in plants))
    if areas and not areas <= set(asked):
        raise StoreFault(f"{name} has no area {max(areas)}, but 0 to {asked.stop - 1}")
    life = Life(name, begin, end, sorted(areas or asked), bool(areas) or len(asked) == 1)
    player = Player(life, areas)
    for one in plants:
        if one.began < end:
            play_plant(store, player, one)
    player.close()
    return life


def play_plant(store: Store, player: Player, plant: PlantRows) -> None:
    """Plays what a plant has of the span, and of the window before it."""
    life, number = player.life, plant.plant
    number_at = lambda moment: (store.last_before(number, moment) or (0, 0))[0]
    first, last = max(plant.counted, number_at(life.begin - WINDOW)), number_at(life.end)
    found = states_at(store, number, first)
    player.leave({row.tag for row in found}, plant.before)
    for row in found:
        player.find(row, begun_at(store, number, row), plant.before)
    for area, began, flooded in floods_at(store, number, first):
        player.flood(area, max(began, plant.before), flooded)
    for values in store.rows(
        f"SELECT {COLUMNS} FROM change WHERE plant = ? AND number > ? AND number <= ? ORDER BY number",
        (number, first, last),
    ):
        player.play(ChangeRow(*values))
    for flood in store.rows(
        "SELECT area, moment, flooded FROM flood WHERE plant = ? AND number > ? AND number <= ? ORDER BY number",
        (number, first, last),
    ):
        player.flood(*flood)
    life.attribute_changes += attribute_changes(
        store, number, max(plant.counted, number_at(life.begin)), last, set(life.areas)
    )
    life.asked += asked_by(store, number, max(plant.counted, number_at(life.begin)), last, set(life.areas))
    life.gaps += [
        ArchiveGap(number, *row)
        for row in store.rows(
            (
                "SELECT first, last, began, ended, why FROM gap WHERE plant = ? AND COALESCE(last, first) > ? AND"
                " COALESCE(ended, began) >= ? AND COALESCE(began, 0) < ? ORDER BY first"
            ),
            (number, plant.counted, life.begin, life.end),
        )
    ]
    life.actions += store.value(
        "SELECT COUNT(*) FROM action WHERE plant = ? AND number > ? AND number <= ?",
        (number, max(plant.counted, number_at(life.begin)), last),
    )
    life.denied += denied_of(store, number, number_at(life.begin), life.end, set(life.areas))


def denied_of(store: Store, plant: int, first: int, end: int, areas: set[int]) -> list[Denied]:
    """What the server denied of rows of alarms of some areas, from an action on, before a moment."""
    if "denied" not in store.more():
        return []
    query = (
        "SELECT d.moment, d.tag, d.field, d.archived, d.shown, l.area FROM denied d JOIN alarm l ON l.plant = d.plant"
        " AND l.alarm = d.alarm WHERE d.plant = ? AND d.number >= ? AND d.moment < ? ORDER BY d.number, d.tag, d.field"
    )
    return [Denied(*row) for *row, area in store.rows(query, (plant, first, end)) if area in areas]


def asked_by(
    store: Store, plant: int, first: int, last: int, areas: set[int]
) -> collections.Counter[tuple[str, Optional[int]]]:
    """How often each slot asked for each word behind an action, up to another, of the alarms of some areas."""
    query = (
        "SELECT a.word, a.slot, l.area, COUNT(*) FROM action a JOIN alarm l ON l.plant = a.plant AND l.alarm = a.alarm"
        " WHERE a.plant = ? AND a.number > ? AND a.number <= ? GROUP BY a.word, a.slot, l.area"
    )
    found: collections.Counter[tuple[str, Optional[int]]] = collections.Counter()
    for word, slot, area, count in store.rows(query, (plant, first, last)):
        if area in areas:
            found[word, slot] += count
    return found


def attribute_changes(store: Store, plant: int, first: int, last: int, areas: set[int]) -> list[AttributeChange]:
    """The priorities and setpoints that alarms of some areas were given behind an action, up to another."""
    query = (
        "SELECT a.moment, a.tag, a.word, a.value, l.area FROM action a JOIN alarm l ON l.plant = a.plant AND l.alarm ="
        " a.alarm WHERE a.plant = ? AND a.number > ? AND a.number <= ? AND a.word IN"
        f" ({', '.join('?' * len(ATTRIBUTES))}) ORDER BY a.number"
    )
    return [
        AttributeChange(moment, tag, ATTRIBUTES[word], value)
        for moment, tag, word, value, area in store.rows(query, (plant, first, last, *ATTRIBUTES))
        if area in areas
    ]
