"""What an operator may ask for by the page, and what is said where it isn't done."""
from dataclasses import dataclass
from typing import Any, Callable, NamedTuple, Optional

from ..client import Refusal, acknowledgement
from ..table_file import READING_LIMIT, SHELVE_LIMIT

from .language import fill
from .notes import NoteAsker
from .positions import LEAVE, ROLES, TAKE, Desks, Places

# Which role each action wants at least, and the limits of its number where it has one. Out of service has no end and no
# limit in the table, so it is an engineer's where nobody says otherwise.
ACTIONS = {
    "ACK": ("operator", None),
    "RESET": ("operator", None),
    "SHELVE": ("operator", (1, SHELVE_LIMIT)),
    "UNSHELVE": ("operator", None),
    "OOS": ("engineer", (0, 1)),
    "PRIO": ("engineer", (1, 4)),
    "SETP": ("engineer", (-READING_LIMIT, READING_LIMIT)),
}
SHIFTS = (TAKE, LEAVE)
WITH_REASON = ("SHELVE", "OOS", "PRIO", "SETP")
# Actions that are bound to the annunciation that was seen, and the refusal of one where there is none.
SEEN = {"ACK": Refusal.NOT_UNACKNOWLEDGED, "RESET": Refusal.NOT_RESETTABLE}
# Alarms of an order; of one that silences or changes them, where nobody says otherwise; letters of a reason.
MOST_ALARMS, MOST_AT_ONCE, MOST_REASON = 1000, 20, 200
AGAIN = "it has come again since it was seen: look again"
# Why the server refused, for an operator.
REASONS = {
    Refusal.NO_SUCH_ALARM: "the plant has no such alarm",
    Refusal.NOT_UNACKNOWLEDGED: "there is nothing to acknowledge, as if another console was first",
    Refusal.NOT_RESETTABLE: "it is no latched alarm that is acknowledged and gone",
    Refusal.ALREADY_SHELVED: "it is shelved",
    Refusal.NOT_SHELVED: "it isn't shelved",
    Refusal.SHELVE_LENGTH: "the table doesn't allow so long a shelving",
    Refusal.ALREADY_SET: "it is out of service",
    Refusal.NOT_SET: "it is in service",
    Refusal.STOPPED: "the server's storage has stopped: look again when it is back",
    Refusal.PRIORITY_RANGE: "a priority is 1 to 4",
    Refusal.SAME_VALUE: "it has that already",
    Refusal.ANNUNCIATED_AGAIN: AGAIN,
}
NO_SERVER = "no server: nothing was asked"
NO_REPLY = "no reply came: look whether it was done once the server is back"
OTHER_PLANT = "the plant is another one than was seen: look again"
OTHER_AREA = "its area is another position's"
READING = "the plant is being read"
NO_POSITION = "take a position first"


class Answer(NamedTuple):
    """What came of an action of one alarm: `done`, `refused` or `lost`, its number if it was done, and what is to be
    said."""

    alarm: int
    outcome: str
    number: Optional[int]
    said: str


class NotTaken(Exception):
    """An order isn't taken: why, as a text with values in braces, for the operator's language."""

    def __init__(self, text: str, **values: object):
        super().__init__(fill(text, values))
        self.text, self.values = text, values


class BadOrder(NotTaken):
    """A page of ours doesn't ask so."""


class NotAllowed(NotTaken):
    """The role or the position doesn't have this action."""


@dataclass
class Order:
    """An action of some alarms of a plant, each with the stamp of the annunciation that was seen; of alarms of these
    areas alone."""

    plant: int
    era: str
    word: str
    alarms: list[tuple[int, int]]
    value: Optional[int]
    asker: NoteAsker
    answer: Callable[[list[Answer]], None]
    areas: Places = None

    @property
    def is_shift(self) -> bool:
        """Whether it takes or leaves a position: its number is the order's value, and it is of all plants."""
        return self.word in SHIFTS

    def refuse(self, why: str, outcome: str = "refused") -> None:
        """Answers that nothing was done, and why. What is of no alarm is answered for one of number 0."""
        self.answer([Answer(alarm, outcome, None, why) for alarm, _ in self.alarms or [(0, 0)]])

    def asked(self) -> dict[str, Any]:
        """What `read_order` reads."""
        return {
            "plant": self.plant,
            "era": self.era,
            "word": self.word,
            "alarms": self.alarms,
            "value": self.value,
            "reason": self.asker.reason,
        }

    def request(self, alarm: int, stamp: int) -> str:
        """The line that asks it of an alarm, which was seen with a stamp."""
        if self.word == "ACK":
            return acknowledgement(alarm, stamp)
        if self.word == "OOS":
            return f"OOS {alarm} {'ON' if self.value else 'OFF'}"
        return f"{self.word} {alarm}" + ("" if self.value is None else f" {self.value}")


@dataclass(frozen=True)
class Rules:
    """What operators may. Without positions it goes by their roles: the one that OOS wants at least, and of how many
    alarms at once something is done that silences or changes them."""

    out_of_service: str = ACTIONS["OOS"][0]
    most: int = MOST_AT_ONCE
    desks: Optional[Desks] = None

    def words(self, role: str) -> list[str]:
        """The actions that a role has."""
        least = {**{word: least for word, (least, _) in ACTIONS.items()}, "OOS": self.out_of_service}
        return [word for word in ACTIONS if ROLES.index(role) >= ROLES.index(least[word])]

    def told_positions(self) -> list[dict[str, Any]]:
        """The positions with the actions that each has, as the page is told."""
        if self.desks is None:
            return []
        return [
            {**position.told(), "may": [*self.words(position.role), *position.may]} for position in self.desks.positions
        ]

    def allow(self, user: str, role: str, word: str, count: int) -> Places:
        """The areas in which a user in a role may ask for a word of so many alarms; `NotAllowed` where there are
        none."""
        if self.desks is None:
            self.judge(role, self.words(role), self.most, word, count)
            return None
        own = self.desks.of(user, role)
        if not own:
            raise NotAllowed(NO_POSITION)
        having = [one for one in own if word in (*self.words(one.role), *one.may)]
        fit = [one for one in having if word not in WITH_REASON or count <= one.most]
        if not fit:
            names = ", ".join(one.name for one in own)
            self.judge(names, [word] if having else [], max((one.most for one in having), default=1), word, count)
        wholes = [one.areas for one in fit]
        return None if None in wholes else frozenset().union(*(areas for areas in wholes if areas is not None))

    def judge(self, who: str, words: list[str], most: int, word: str, count: int) -> None:
        """Refuses a word that somebody hasn't, or hasn't for so many alarms."""
        if word not in words:
            raise NotAllowed("{who} doesn't have {word}", who=who, word=word)
        if word in WITH_REASON and count > most:
            raise NotAllowed("{word} is for {most} alarms at once at most", word=word, most=most)


def is_number(value: Any, least: int, most: int) -> bool:
    return isinstance(value, int) and not isinstance(value, bool) and least <= value <= most


def read_order(
    asked: Any, user: str, role: str, rules: Rules, answer: Callable[[list[Answer]], None], plants: int
) -> Order:
    """The order in what a page sent, whose user is in a role, to one of a number of plants: the first where none is
    named."""
    if isinstance(asked, dict) and asked.get("word") in SHIFTS:
        return read_shift(asked, user, role, rules, answer)
    if not isinstance(asked, dict) or not isinstance(asked.get("word"), str) or asked["word"] not in ACTIONS:
        raise BadOrder("no such action")
    word, value, alarms = asked["word"], asked.get("value"), asked.get("alarms")
    limits = ACTIONS[word][1]
    areas = rules.allow(user, role, word, len(alarms) if isinstance(alarms, list) else 0)
    if (value is not None) if limits is None else not is_number(value, *limits):
        raise BadOrder("the number is out of its limits")
    reason = read_reason(asked.get("reason", ""))
    if word in WITH_REASON and not reason:
        raise BadOrder("a reason is wanted")
    if not isinstance(alarms, list) or not 0 < len(alarms) <= MOST_ALARMS or not all(is_seen(one) for one in alarms):
        raise BadOrder("no alarms, or too many")
    plant = asked.get("plant", 0)
    if not isinstance(asked.get("era"), str) or not is_number(plant, 0, plants - 1):
        raise BadOrder("no plant")
    seen, asker = [(alarm, stamp) for alarm, stamp in alarms], NoteAsker(user, role, reason)
    return Order(plant, asked["era"], word, seen, value, asker, answer, areas)


def read_reason(reason: Any) -> str:
    """A reason, or what is said as a position is taken or left."""
    if not isinstance(reason, str) or len(reason) > MOST_REASON:
        raise BadOrder("a reason has at most {most} letters", most=MOST_REASON)
    if not reason.isprintable():
        raise BadOrder("a reason has no line end, no joined sign, and no blank but the plain one")
    return reason.strip()


def read_shift(
    asked: dict[str, Any], user: str, role: str, rules: Rules, answer: Callable[[list[Answer]], None]
) -> Order:
    """The order of a user who takes or leaves a position."""
    desks, number = rules.desks, asked.get("value")
    if desks is None or not isinstance(number, int) or not is_number(number, 0, len(desks.positions) - 1):
        raise BadOrder("no such position")
    remark = read_reason(asked.get("reason", ""))
    why = desks.refusal(asked["word"], number, user, role)
    if why:
        raise NotAllowed(why)
    return Order(0, "", asked["word"], [], number, NoteAsker(user, role, remark), answer)


def is_seen(one: Any) -> bool:
    """Whether it is an alarm's number and a stamp."""
    return isinstance(one, list) and len(one) == 2 and is_number(one[0], 0, 2**32) and is_number(one[1], 0, 2**53)
