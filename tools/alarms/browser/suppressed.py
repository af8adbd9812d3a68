"""Who suppressed each alarm of a plant, why and since when, whatever the journal still has.

What began is kept beside the notes, by the alarm's tag and the action's word; so it outlasts a restart, and a change of
the table. A suppression that began while nobody followed the plant, and that its server no longer remembers, isn't
known.
"""
import hashlib
from typing import Any

from ..followed import FollowedPlant
from ..replies import Entry
from ..table_file import Alarm, fixed
from .batch import BITS
from .notes import Notes, Suppression

# The letter of the flag that each word sets.
LETTERS = {"SHELVE": "S", "OOS": "O", "DESIGN": "D"}


def sum_of(alarms: list[Alarm]) -> str:
    """A sum of what never changes of a plant's alarms."""
    return hashlib.sha256(repr(fixed(alarms)).encode()).hexdigest()


class Suppressions:
    """What is known of a plant's suppressions."""

    def __init__(self, notes: Notes):
        self.notes = notes
        self.known: dict[tuple[int, str], Suppression] = {}
        # What isn't kept yet, by tag and word.
        self.fresh: dict[tuple[str, str], Suppression] = {}

    def begin(self, plant: FollowedPlant, moment: int) -> None:
        """Takes what was kept of each flag that is set. What is ahead of the plant, at a moment, was of another device:
        but where the table was changed, by which states are brought and actions are counted anew."""
        kept, self.known, self.fresh = self.notes.suppressions(), {}, {}
        is_changed = self.notes.is_other_table(sum_of(plant.table))
        for number, row in enumerate(plant.rows):
            for word, letter in LETTERS.items():
                tag = plant.table[number].tag
                one = kept.get((tag, word)) if letter in row.flags else None
                if one and one.moment <= moment and one.number > plant.count and is_changed:
                    one = self.fresh[tag, word] = one._replace(number=plant.count)
                if one and one.moment <= moment and one.number <= plant.count:
                    self.known[number, word] = one

    def take(self, entry: Entry, plant: FollowedPlant) -> None:
        """Takes an action of the plant, if it suppresses an alarm."""
        action = entry.action
        if action.word not in LETTERS or (action.word != "SHELVE" and not action.argument):
            return
        tag = plant.table[action.alarm].tag
        note = self.notes.of(action.number, entry.moment, action.word, tag)
        one = Suppression(action.number, entry.moment, *((note.user, note.reason) if note else ("", "")))
        self.known[action.alarm, action.word] = self.fresh[tag, action.word] = one

    def keep(self) -> None:
        """Keeps what is new."""
        if self.fresh:
            self.notes.keep_suppressions(self.fresh)
        self.fresh = {}

    def of(self, number: int, flags: str) -> list[list[Any]]:
        """Of each flag that an alarm has: the flag, since when, who and why."""
        found = [(BITS[letter], self.known.get((number, word))) for word, letter in LETTERS.items() if letter in flags]
        return [[bit, one.moment, one.user, one.reason] for bit, one in found if one]
