"""Which source is which alarm: a map for feed.py, as a CSV file.

    name,tag,as,scale,bad,silent,watch,on_delay,off_delay,modbus,register,type,order,bit
    plant/ti101,TI-101,,100,-9999|bad,30,XS-901,,,,,,,
    plant/ti101,TI-101L,,100,-9999|bad,30,XS-901,5,10,,,,,
    plant/maintenance,PI-104,design,,,,,,,,,,,
    plc1/level,LI-107,,10,,30,XS-901,,,192.0.2.7/1,40101,float32,ABCD,

The first line names the columns, in any order; `name` and `tag` are needed. A name may have several rows, since one
measurement has often several alarms. A tag has one row for its value, and one for its suppression by design.

name      what the lines begin with, or a topic of MQTT, or any text for a register
tag       the alarm's tag in the plant
as        `value`, or `design` for a source that suppresses the alarm: 1, on, true or 0, off, false. `value` if it is
          left out
scale     a decimal number by which a value is multiplied, and then rounded to a whole number; if it is left out, that
          of the file of details (feed.py --details), else 1
bad       what isn't a value, separated by |; a number by its value, so -9999.0 is -9999. Empty texts, NaN, infinite and
          other texts never are
silent    a number of seconds: a source that has sent no good value for so long has none; a value that is older is none
watch     the tag of an alarm of the kind `discrete` that is on while a source has no value: it is sent its setpoint,
          and else another value
on_delay  seconds for which a value has to hold before an alarm comes by it; 0 if it is left out
off_delay seconds for which it has to hold before the alarm goes by it
modbus    the device that has the value, as HOST, HOST:PORT or HOST:PORT/UNIT; 502 and 1 are left out
register  its register: 40101 as data sheets number them from 1 (0 coil, 1 contact, 3 input, 4 holding), or `holding
          100` by the protocol's address
type      uint16, int16, uint32, int32, uint64, int64, float32 or float64; uint16 if it is left out
order     the order of its bytes: ABCD, CDAB (low word first), BADC or DCBA; ABCD if it is left out
bit       0 to 15: one bit of the register, 0 the lowest
"""
import csv
import re
from collections import defaultdict
from dataclasses import dataclass, replace
from decimal import MAX_EMAX, MIN_EMIN, ROUND_HALF_EVEN, Context, Decimal
from typing import Iterable, Iterator, Mapping, Optional

from .ending import Fault
from .feed_reading import BadValue
from .modbus_point import Point, read_point
from .table_file import READING_LIMIT, Alarm

POINT_COLUMNS = ("modbus", "register", "type", "order", "bit")
COLUMNS = ("name", "tag", "as", "scale", "bad", "silent", "watch", "on_delay", "off_delay", *POINT_COLUMNS)
SWITCHES = {"1": True, "on": True, "true": True, "0": False, "off": False, "false": False}
# A decimal number. Python takes more: NaN, infinite ones, 1_0, and the digits of other scripts.
NUMBER = re.compile(r"[-+]?([0-9]+[.]?[0-9]*|[.][0-9]+)(e[-+]?[0-9]+)?", re.IGNORECASE)
# Digits before the point of the greatest value.
MOST_DIGITS = len(str(READING_LIMIT))
# Letters of a number's text: a longer one is none.
LONGEST = 1_000
# Seconds that a map may name.
MOST_SECONDS = 10**9
# In which a product has all its digits, so that it is rounded once.
EXACT = Context(prec=2 * LONGEST, Emax=MAX_EMAX, Emin=MIN_EMIN)


class NoMap(Fault):
    """A file is no map, or not one of the plant's alarms."""


@dataclass(frozen=True)
class Row:
    """One source of one alarm. Times are in seconds."""

    name: str
    tag: str
    is_design: bool = False
    scale: Decimal = Decimal(1)
    bad: frozenset[str] = frozenset()
    bad_numbers: frozenset[Decimal] = frozenset()
    silent: Optional[float] = None
    watch: Optional[str] = None
    on_delay: float = 0.0
    off_delay: float = 0.0
    point: Optional[Point] = None

    def read(self, text: str) -> int | bool:
        """The value that a text is; `BadValue` says why it is none."""
        if text.lower() in self.bad:
            raise BadValue("a bad value")
        if self.is_design:
            return read_switch(text)
        number = read_number(text)
        if number in self.bad_numbers:
            raise BadValue("a bad value")
        return scaled(number, self.scale)

    def loses_fraction(self, text: str) -> bool:
        """Whether a value has a fraction and goes by a scale of 1, which rounds it: the setpoint may be in another
        unit.
        """
        return not self.is_design and self.scale == 1 and (number := read_number(text)) != number.to_integral_value()


def read_switch(text: str) -> bool:
    if text.lower() not in SWITCHES:
        raise BadValue("neither on nor off")
    return SWITCHES[text.lower()]


def read_number(text: str) -> Decimal:
    """The decimal number that a text is."""
    if not NUMBER.fullmatch(text):
        raise BadValue("no number")
    if len(text) > LONGEST:
        raise BadValue("out of the limits of a value")
    try:
        return Decimal(text)
    except ArithmeticError:
        raise BadValue("out of the limits of a value") from None


def scaled(number: Decimal, scale: Decimal) -> int:
    """A number by its scale, rounded once: half a unit goes to the even one."""
    if number.is_zero():
        return 0
    # a number with many digits before its point is refused before it is computed with
    if number.adjusted() >= MOST_DIGITS or abs(number) > READING_LIMIT:
        raise BadValue("out of the limits of a value")
    product = EXACT.multiply(number, scale)
    if product.adjusted() >= MOST_DIGITS or product.copy_abs() > READING_LIMIT:
        raise BadValue("out of the limits of a value")
    return int(product.to_integral_value(ROUND_HALF_EVEN))


def seconds_of(column: str, text: str) -> float:
    """A number of seconds of a cell; 0 where there is none."""
    if not text:
        return 0.0
    if not NUMBER.fullmatch(text) or not 0 <= float(text) < MOST_SECONDS:
        raise ValueError(f"{column} is {text}")
    return float(text)


def scale_of(text: str) -> Decimal:
    scale = Decimal(text or "1")
    if not scale.is_finite() or scale.adjusted() >= MOST_DIGITS or abs(scale) > READING_LIMIT or len(text) > LONGEST:
        raise ValueError(f"scale is {scale}")
    return scale


def read_row(cells: dict[str, str]) -> Row:
    """The row in the cells of a line."""
    kind, silent = cells["as"].lower() or "value", cells["silent"]
    if not cells["name"] or not cells["tag"]:
        raise ValueError("a row has a name and a tag")
    if kind not in ("value", "design"):
        raise ValueError(f"{kind} is neither value nor design")
    if bool(silent) != bool(cells["watch"]):
        raise ValueError("silent and watch go together")
    if silent and not seconds_of("silent", silent):
        raise ValueError(f"silent is {silent}")
    on_delay, off_delay = (seconds_of(column, cells[column]) for column in ("on_delay", "off_delay"))
    if kind == "design" and (on_delay or off_delay):
        raise ValueError("a suppression has no delay")
    bad = frozenset(word.strip().lower() for word in cells["bad"].split("|")) | {""}
    point = read_point(*(cells[column] for column in POINT_COLUMNS))
    return Row(
        cells["name"],
        cells["tag"],
        kind == "design",
        scale_of(cells["scale"]),
        bad,
        numbers_of(bad),
        float(silent) if silent else None,
        cells["watch"] or None,
        on_delay,
        off_delay,
        point,
    )


def numbers_of(words: Iterable[str]) -> frozenset[Decimal]:
    """Those of some words that are numbers."""
    return frozenset(Decimal(word) for word in words if NUMBER.fullmatch(word))


def read_rows(lines: Iterable[str], scales: Mapping[str, Decimal]) -> Iterator[Row]:
    """The rows of a file, its first line the columns. A row that leaves its scale out has its tag's in `scales`."""
    reader = csv.reader(lines)
    columns = [cell.strip().lower() for cell in next(reader, [])]
    unknown = [column for column in columns if column not in COLUMNS]
    if unknown or "name" not in columns or "tag" not in columns or len(set(columns)) < len(columns):
        raise ValueError(f"the columns are {', '.join(columns)}; there are {', '.join(COLUMNS)}")
    for cells in reader:
        if any(cell.strip() for cell in cells):
            if len(cells) > len(columns):
                raise ValueError(f"line {reader.line_num}: more cells than columns")
            found = {column: "" for column in COLUMNS} | {column: cell.strip() for column, cell in zip(columns, cells)}
            found["scale"] = found["scale"] or str(scales.get(found["tag"], ""))
            try:
                yield read_row(found)
            except (ValueError, ArithmeticError) as error:
                why = "no number" if isinstance(error, ArithmeticError) else error
                raise ValueError(f"line {reader.line_num}: {why}") from None


class ValueMap:
    """The rows of a map by their names."""

    def __init__(self, rows: Iterable[Row]):
        self.rows: dict[str, list[Row]] = defaultdict(list)
        # those whose alarms the plant has
        self.active: dict[str, list[Row]] = {}
        taken: set[tuple[str, bool]] = set()
        for row in rows:
            if (row.tag, row.is_design) in taken:
                raise ValueError(f"two rows for {row.tag}")
            taken.add((row.tag, row.is_design))
            self.rows[row.name].append(row)
        self.commas = sorted({name.count(",") for name in self.rows}, reverse=True)
        self.points = dict(self.points_by_name())

    @staticmethod
    def load(path: str, scales: Optional[Mapping[str, Decimal]] = None) -> "ValueMap":
        """The map in a file; `NoMap` says why it is none. `scales` are those of tags whose rows leave theirs out."""
        try:
            with open(path, encoding="utf-8-sig", newline="") as file:
                return ValueMap(read_rows(file, scales or {}))
        except OSError as error:
            raise NoMap(f"{path}: {error.strerror}") from None
        except (ValueError, csv.Error) as error:
            raise NoMap(f"{path} is no map: {error}") from None

    def points_by_name(self) -> Iterator[tuple[str, Point]]:
        """The register of each name that has one. Rows of one name have the same, or it stands in one of them."""
        for name, rows in self.rows.items():
            points = {row.point for row in rows if row.point}
            if len(points) > 1:
                raise ValueError(f"two registers for {name}")
            yield from ((name, point) for point in points)

    def topics(self) -> list[str]:
        """The names that may be topics of MQTT: those without a register."""
        return [name for name in self.rows if name not in self.points and not set("+#\0") & set(name)]

    def all_rows(self) -> Iterator[Row]:
        for rows in self.rows.values():
            yield from rows

    def hold_against(self, alarms: dict[str, Alarm]) -> list[str]:
        """Takes the rows whose alarms the plant has. What of the others is left out, a line each."""
        said: list[str] = []
        found: dict[str, list[Row]] = defaultdict(list)
        for row in self.all_rows():
            if row.tag not in alarms:
                said.append(f"the plant has no tag {row.tag}, which the map has for {row.name}: that row is left out")
                continue
            if row.watch and (row.watch not in alarms or alarms[row.watch].kind != "discrete"):
                why = "isn't of the kind discrete" if row.watch in alarms else "is no tag of the plant"
                said.append(f"{row.watch} {why}, so {row.name} isn't watched")
                row = replace(row, watch=None)
            found[row.name].append(row)
        if not found:
            raise NoMap("; ".join(said[:1]) or "the map has no row")
        self.active = found
        return said

    def other_scales(self, scales: Mapping[str, Decimal]) -> list[str]:
        """Which rows have a scale that isn't their tag's in `scales`: a line each."""
        return [
            f"{row.tag}: {row.name} goes by a scale of {row.scale} in the map, and operators by {scales[row.tag]}"
            for row in self.all_rows()
            if not row.is_design and scales.get(row.tag, row.scale) != row.scale
        ]

    def split(self, line: str) -> tuple[str, str]:
        """The name and the text of a line. Either may have commas, as a decimal comma is one: the longest name of the
        map counts.
        """
        parts = line.split(",")
        for commas in self.commas:
            name = ",".join(parts[: commas + 1]).strip()
            if len(parts) > commas + 1 and name in self.rows:
                return name, ",".join(parts[commas + 1 :]).strip()
        name, _, text = line.rpartition(",")
        return name.strip(), text.strip()
