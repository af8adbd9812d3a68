"""Table files in Python: what one says, and the size that a device has to have. docs/TABLE.md has the keys."""
import tomllib
from dataclasses import dataclass, replace
from typing import Any, Optional

from .ending import Fault

KINDS = ("high", "low", "discrete")
READING_LIMIT = 10**12
SHELVE_LIMIT = 604_800
ALARM_LIMIT, AREA_LIMIT, SIZE_LIMIT = 16_384, 64, 2**40
# Bytes of a device's segment: the least, the greatest that is used, and the least with which no commit waits for a
# whole checkpoint.
LEAST_SEGMENT, GREATEST_SEGMENT, CALM_SEGMENT = 4_116, 16_777_216, 452_651


def image_length(alarms: int, areas: int) -> int:
    """Bytes of a plant's image."""
    return 16 + 4801 * areas + 182 * alarms


def device_size(alarms: int, areas: int, segment: int = CALM_SEGMENT) -> int:
    """Bytes of a device with segments of this length."""
    return 23 + 2 * (25 + image_length(alarms, areas) + segment)


@dataclass(frozen=True)
class Alarm:
    """An alarm of a table file."""

    kind: str
    setpoint: int
    priority: int
    area: int
    tag: str
    deadband: int = 0
    max_shelve: int = 0
    latching: bool = False
    text: str = ""

    @property
    def coming(self) -> int:
        """A value at which the condition comes."""
        return self.setpoint

    @property
    def going(self) -> int:
        """A value at which it goes; it may be out of a value's limits."""
        if self.kind == "high":
            return self.setpoint - self.deadband - 1
        if self.kind == "low":
            return self.setpoint + self.deadband + 1
        return self.setpoint - 1 if self.setpoint == READING_LIMIT else self.setpoint + 1


@dataclass(frozen=True)
class Table:
    """The table of a plant. Its size is that of the device in bytes; none where it isn't known."""

    size: Optional[int]
    areas: int
    alarms: list[Alarm]

    def numbers(self) -> dict[str, int]:
        """The number of each tag. Tools that go by tags want each to stand once."""
        found: dict[str, int] = {}
        for number, alarm in enumerate(self.alarms):
            if alarm.tag in found:
                raise ValueError(f"tag {alarm.tag} stands twice: alarms {found[alarm.tag]} and {number}")
            found[alarm.tag] = number
        return found


# What a text raises that is no table file.
UNREADABLE = (AttributeError, KeyError, TypeError, ValueError)


def fixed(alarms: list[Alarm]) -> list[Alarm]:
    """What never changes on a device: the attributes but priority and setpoint."""
    return [replace(alarm, priority=1, setpoint=0) for alarm in alarms]


def read_table(text: str) -> Table:
    """The table in a text that `alm_server format` takes."""
    tree: dict[str, Any] = tomllib.loads(text)
    return Table(tree["size"], tree["areas"], [Alarm(**alarm) for alarm in tree["alarm"]])


class NoTable(Fault):
    """A file isn't a table file whose tags each stand once."""


class TableFile:
    """A table file whose tags each stand once. It can be read again, and is parsed only where its bytes are others."""

    def __init__(self, path: str):
        self.path = path
        self.text: Optional[bytes] = None
        self.read()

    def read(self) -> Table:
        """The table as the file has it now; `NoTable` says why there is none."""
        try:
            with open(self.path, "rb") as file:
                text = file.read()
            if text != self.text:
                table = read_table(text.decode("utf-8"))
                table.numbers()
                self.text, self.table = text, table
        except OSError as error:
            raise NoTable(f"{self.path}: {error.strerror}") from None
        except UNREADABLE as error:
            raise NoTable(f"{self.path} is no table file: {error}") from None
        return self.table


def load_table(path: str) -> Table:
    """The table of a file, whose tags may stand twice. `NoTable` says why there is none."""
    try:
        with open(path, encoding="utf-8") as file:
            return read_table(file.read())
    except OSError as error:
        raise NoTable(f"{path}: {error.strerror}") from None
    except UNREADABLE as error:
        raise NoTable(f"{path} is no table file: {error}") from None


def quoted(text: str) -> str:
    """A string of TOML."""
    return '"' + text.replace("\\", "\\\\").replace('"', '\\"') + '"'


def written(value: object) -> str:
    """A value of TOML: a boolean, a number or a string."""
    if isinstance(value, bool):
        return str(value).lower()
    return quoted(value) if isinstance(value, str) else str(value)
