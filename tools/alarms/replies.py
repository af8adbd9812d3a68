"""The server's replies as values."""
import enum
from dataclasses import dataclass
from typing import Iterator, Optional
from .actions import FIELDS, Action, action_of_words
from .ending import Fault
from .table_file import Alarm
from .connecting import Lost


# Words of a reply to ATTR before the text, its id among them.
ATTRIBUTE_WORDS = 11


class Refusal(enum.IntEnum):
    """The numbers after NO."""

    NO_SUCH_ALARM = 1
    NOT_UNACKNOWLEDGED = 2
    NOT_RESETTABLE = 3
    ALREADY_SHELVED = 4
    NOT_SHELVED = 5
    SHELVE_LENGTH = 6
    ALREADY_SET = 7
    NOT_SET = 8
    NO_CHANGE = 9
    CLOCK_BACK = 10
    WRONG_ROLE = 11
    BAD_LINE = 13
    LINE_TOO_LONG = 14
    STOPPED = 15
    OUT_OF_MEMORY = 16
    NO_SUCH_LIST = 17
    EXHAUSTED = 18
    PRIORITY_RANGE = 19
    SAME_VALUE = 20
    FORGOTTEN = 21
    ANNUNCIATED_AGAIN = 22


class Refused(Fault):
    """The answer was NO: nothing changed, but where the storage has stopped."""

    def __init__(self, request: str, refusal: Refusal):
        super().__init__(f"{request}: refused by {refusal.value} ({refusal.name})")
        self.request, self.refusal = request, refusal


@dataclass(frozen=True)
class State:
    """What is shown of an alarm."""

    count: int
    shown: str
    condition: bool
    flags: str
    deadline: Optional[int]

    @property
    def is_unacknowledged(self) -> bool:
        return self.shown in ("UNACK", "RTNUN", "LATUN")


@dataclass(frozen=True)
class Row(State):
    """What is shown of an alarm, with its stamp, its limits in force, and when it was annunciated last.

    `moments` has at most three, in seconds, the newest first.
    """

    stamp: int
    priority: int
    setpoint: int
    moments: tuple[int, ...]


@dataclass(frozen=True)
class Listing:
    """The alarms of a list, and the count of actions of the plant that was looked at."""

    count: int
    alarms: list[int]


@dataclass(frozen=True)
class Entry:
    """An accepted action, the plant's moment behind it, in seconds, and the slot that asked."""

    moment: int
    slot: int
    action: Action


@dataclass(frozen=True)
class Entries:
    """The accepted actions from number `first` on, or some of them, and the count of actions of the plant that was
    looked at."""

    count: int
    first: int
    entries: list[Entry]

    @property
    def last(self) -> int:
        """The number of the last entry; where there is none that before the first."""
        return self.first + len(self.entries) - 1

    @property
    def are_all(self) -> bool:
        """Whether the plant had no further actions."""
        return self.last >= self.count


@dataclass(frozen=True)
class Flood:
    """The annunciations of an area in the last 600 seconds, and whether it is flooded."""

    count: int
    window: int
    flooded: bool


@dataclass(frozen=True)
class Overview:
    """The plant's moment in seconds, and how many alarms and areas it has."""

    count: int
    moment: int
    alarms: int
    areas: int


def split_reply(line: str) -> list[str]:
    """The words of a reply without its LF. The text of an alarm, the last word after ATTR, may have spaces."""
    words = line[:-1].split(" ")
    return line[:-1].split(" ", ATTRIBUTE_WORDS) if words[1:2] == ["ATTR"] else words


def read_state(words: list[str]) -> State:
    """The state in the words after STATE."""
    count, shown, condition, flags, deadline = words
    return State(int(count), shown, condition == "1", flags.strip("-"), None if deadline == "-" else int(deadline))


def read_row(words: list[str]) -> Row:
    """The row in the words after ROW."""
    state, (stamp, priority, setpoint, length, *moments) = read_state(words[:5]), words[5:]
    if len(moments) != int(length):
        raise Lost(f"a row of {length} moments has {len(moments)}")
    return Row(
        **vars(state),
        stamp=int(stamp),
        priority=int(priority),
        setpoint=int(setpoint),
        moments=tuple(map(int, moments)),
    )


def read_listing(words: list[str]) -> Listing:
    """The list in the words after LIST, STALE or CHATTER."""
    count, length, *alarms = words
    if len(alarms) != int(length):
        raise Lost(f"a list of {length} alarms has {len(alarms)}")
    return Listing(int(count), [int(alarm) for alarm in alarms])


def read_entries(words: list[str]) -> Entries:
    """The entries in the words after SINCE."""
    count, first, length = map(int, words[:3])
    entries = list(split_entries(first, words[3:]))
    if len(entries) != length:
        raise Lost(f"a reply of {length} entries has {len(entries)}")
    return Entries(count, first, entries)


def split_entries(number: int, words: list[str]) -> Iterator[Entry]:
    """The entries in words, the first of this number."""
    at = 0
    while at < len(words):
        moment, slot, word = words[at : at + 3]
        end = at + 3 + FIELDS[word]
        yield Entry(int(moment), int(slot), action_of_words(number, word, *words[at + 3 : end]))
        at, number = end, number + 1


def read_flood(words: list[str]) -> Flood:
    """The window in the words after FLOOD."""
    count, window, flooded = words
    return Flood(int(count), int(window), flooded == "1")


def read_overview(words: list[str]) -> Overview:
    """What the words after PLANT tell."""
    return Overview(*map(int, words))


def read_attributes(words: list[str]) -> Alarm:
    """The alarm in the words after ATTR."""
    _count, kind, setpoint, deadband, priority, area, max_shelve, latching, tag, *text = words
    return Alarm(
        kind.lower(),
        int(setpoint),
        int(priority),
        int(area),
        tag,
        int(deadband),
        int(max_shelve),
        latching == "ON",
        *text,
    )
