"""The positions of a control room, and who has each: a TOML file that docs/CONTROL_ROOM.md describes.

    positions = load_positions("site.positions.toml", ["plant"])
    desks = Desks(positions)
    desks.change("TAKE", 0, "anna", "operator", "")     # "", or why not

A position is had by one user at a time, and a user may have several. Who has none looks alone.
"""
import time
import tomllib
from dataclasses import dataclass
from typing import Any, Callable, Iterable, NamedTuple, Optional, Sequence

from ..ending import Fault
from ..table_file import AREA_LIMIT

ROLES = ("viewer", "operator", "engineer")
KEYS = ("name", "areas", "role", "may", "most", "sound")
# What the file may give a position beside its role, by the action that each is.
MAY = {"out of service": "OOS", "priority": "PRIO", "setpoint": "SETP"}
MOST_POSITIONS, MOST_LETTERS = 64, 40
# What changes who has a position: who begins there, and who ends.
TAKE, LEAVE = "TAKE", "LEAVE"

# Why a position isn't taken or left.
NOT_YOURS, YOURS = "it isn't yours", "you have it"
WANTS = {"operator": "it wants the role operator", "engineer": "it wants the role engineer"}

# Areas of plants by the plants' numbers; all where it is none.
Places = Optional[frozenset[tuple[int, int]]]


class NoPositions(Fault):
    """A file isn't one of positions; in one line."""


@dataclass(frozen=True)
class Position:
    """A place in the control room: its areas, its role and what it may beside that, of how many alarms at once, and
    the areas that sound there."""

    name: str
    areas: Places
    role: str
    may: tuple[str, ...]
    most: int
    sound: Places

    def told(self) -> dict[str, Any]:
        """It, as JSON has it."""
        places = {key: None if (one := getattr(self, key)) is None else sorted(one) for key in ("areas", "sound")}
        return {"name": self.name, "role": self.role, "may": list(self.may), "most": self.most, **places}


def position_of(told: dict[str, Any]) -> Position:
    """A position as `told` gives it."""
    areas, sound = (
        None if told[key] is None else frozenset((plant, area) for plant, area in told[key])
        for key in ("areas", "sound")
    )
    return Position(str(told["name"]), areas, str(told["role"]), tuple(told["may"]), int(told["most"]), sound)


class Holder(NamedTuple):
    """Who has a position, since when in seconds by the machine's clock, and what was said as it was taken or left.
    Nobody has it where the user is empty."""

    user: str
    since: int
    remark: str


NOBODY = Holder("", 0, "")


class Desks:
    """The positions, and who has each."""

    def __init__(self, positions: Sequence[Position], told: Optional[Callable[[], Any]] = None):
        self.positions = positions
        self.held = [NOBODY] * len(positions)
        # In the part that the network reaches: what the other part tells of it.
        self.told_held = told

    def holders(self) -> list[Holder]:
        """Who has each position now."""
        if self.told_held:
            told = self.told_held() or []
            return [Holder(*one) for one in told] if len(told) == len(self.positions) else self.held
        return self.held

    def restore(self, last: dict[str, Holder]) -> None:
        """Takes who had each position, by its name, as this was noted last."""
        self.held = [last.get(position.name, NOBODY) for position in self.positions]

    def of(self, user: str, role: str) -> list[Position]:
        """The positions that a user has, and may have in this role."""
        return [
            position
            for position, holder in zip(self.positions, self.holders())
            if user and holder.user == user and is_enough(role, position.role)
        ]

    def refusal(self, word: str, number: int, user: str, role: str) -> str:
        """Why a user in a role can't take or leave a position; empty where nothing is against it."""
        position, holder = self.positions[number], self.holders()[number]
        if word == LEAVE:
            return "" if user and holder.user == user else NOT_YOURS
        if holder.user == user:
            return YOURS
        return "" if is_enough(role, position.role) else WANTS[position.role]

    def change(self, word: str, number: int, user: str, role: str, remark: str) -> str:
        """Gives or takes a position; says why not."""
        why = self.refusal(word, number, user, role)
        if not why:
            now = Holder(user if word == TAKE else "", int(time.time()), remark)
            self.held = [now if at == number else one for at, one in enumerate(self.held)]
        return why


def is_enough(role: str, least: str) -> bool:
    return ROLES.index(role) >= ROLES.index(least)


def read_areas(value: Any, plants: Sequence[str]) -> Places:
    """Areas by their numbers: a list, and of several plants a list for each by its name."""
    if isinstance(value, list) and len(plants) == 1:
        value = {plants[0]: value}
    if not isinstance(value, dict):
        raise Fault("it is no list of areas" if len(plants) == 1 else "of several plants each has a list of its own")
    found = set()
    for name, areas in value.items():
        if name not in plants:
            raise Fault(f"there is no plant {name}")
        if not isinstance(areas, list) or not all(is_whole(area, 0, AREA_LIMIT - 1) for area in areas):
            raise Fault(f"an area is a number from 0 to {AREA_LIMIT - 1}")
        found |= {(list(plants).index(name), area) for area in areas}
    return frozenset(found)


def is_whole(value: Any, least: int, most: int) -> bool:
    return isinstance(value, int) and not isinstance(value, bool) and least <= value <= most


def read_key(key: str, value: Any, plants: Sequence[str], most: int) -> Any:
    """What a key of a position says; `Fault` says why it says nothing."""
    if key in ("areas", "sound"):
        return read_areas(value, plants)
    if key == "name":
        if not isinstance(value, str) or not 0 < len(value.strip()) <= MOST_LETTERS or not value.isprintable():
            raise Fault(f"it has 1 to {MOST_LETTERS} letters that print")
        return value.strip()
    if key == "role":
        if value not in ROLES[1:]:
            raise Fault(f"it is {' or '.join(ROLES[1:])}")
        return value
    if key == "may":
        if not isinstance(value, list) or not all(isinstance(one, str) and one in MAY for one in value):
            raise Fault(f"it is a list of {', '.join(MAY)}")
        return tuple(MAY[one] for one in dict.fromkeys(value))
    if not is_whole(value, 1, most):
        raise Fault(f"it is a number from 1 to {most}")
    return value


def read_position(cells: Any, plants: Sequence[str], most: int, at_once: int) -> Position:
    """A position of the file; `Fault` names the key that is wrong."""
    if not isinstance(cells, dict):
        raise Fault("it is no table")
    unknown = [key for key in cells if key not in KEYS]
    if unknown or "name" not in cells:
        raise Fault(f"{unknown[0]}: there is no such key" if unknown else "name: it is missing")
    found: dict[str, Any] = {"areas": None, "role": ROLES[1], "may": (), "most": at_once}
    for key, value in cells.items():
        try:
            found[key] = read_key(key, value, plants, most)
        except Fault as fault:
            raise Fault(f"{key}: {fault}") from None
    return Position(**{"sound": found["areas"], **found})


def read_positions(text: str, plants: Sequence[str], most: int, at_once: int) -> list[Position]:
    """The positions in a TOML text, for plants of these names; `Fault` names the position by its place, from 1."""
    tree = tomllib.loads(text)
    rows = tree.get("position")
    if set(tree) != {"position"} or not isinstance(rows, list) or not 0 < len(rows) <= MOST_POSITIONS:
        raise Fault(f"it has 1 to {MOST_POSITIONS} tables [[position]], and nothing else")
    found: dict[str, Position] = {}
    for place, cells in enumerate(rows, 1):
        try:
            position = read_position(cells, plants, most, at_once)
            if position.name in found:
                raise Fault(f"name: {position.name} stands twice")
            found[position.name] = position
        except Fault as fault:
            raise Fault(f"position {place}, {fault}") from None
    return list(found.values())


def load_positions(path: str, plants: Sequence[str], most: int, at_once: int) -> list[Position]:
    """The positions of a file for plants of these names; `most` is the greatest number of alarms at once, `at_once`
    that where a position names none. `NoPositions` says why there are none."""
    try:
        with open(path, encoding="utf-8-sig") as file:
            return read_positions(file.read(), plants, most, at_once)
    except OSError as error:
        raise NoPositions(f"{path}: {error.strerror}") from None
    except UnicodeDecodeError:
        raise NoPositions(f"{path}: it isn't UTF-8") from None
    except (Fault, tomllib.TOMLDecodeError, RecursionError) as fault:
        raise NoPositions(f"{path}: {fault}") from None


def area_lines(positions: Iterable[Position], plant: int, areas: int) -> list[str]:
    """What the positions have too many of a plant's areas, and which of these nobody can have: a line each."""
    wholes = [position.areas for position in positions]
    named = {area for one in wholes if one is not None for number, area in one if number == plant}
    many = sorted(area for area in named if area >= areas)
    few = [] if None in wholes else [area for area in range(areas) if area not in named]
    lines = [(many, "areas that the plant hasn't"), (few, "areas that no position has")]
    return [f"{what}: {', '.join(map(str, some))}" for some, what in lines if some]
