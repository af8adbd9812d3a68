"""What operators are told of each alarm beside its table: a CSV file in UTF-8, which docs/TABLE.md describes.

    details = load_details("plant.details.csv")
    details["TI-101"].told(3805)            # "380.5", of the plant's 3805 at a scale of 10
    details["TI-101"].whole("380.5")        # 3805
    print("\\n".join(differences(details, ["TI-101", "TI-102"])))

A value of an operator is that of the plant, divided by `scale`: the number by which a feed multiplies. The file is
judged alone as it is read, and held against a plant's tags by `differences`.
"""
import argparse
import csv
import io
import re
from dataclasses import dataclass
from decimal import ROUND_HALF_EVEN, Context, Decimal
from typing import Iterable
from urllib.parse import urlsplit

from .ending import Fault
from .table_file import READING_LIMIT

COLUMNS = ("tag", "unit", "scale", "decimals", "text", "cause", "consequence", "response", "respond", "display")
NUMBER = re.compile(r"[0-9]{1,12}([.][0-9]{1,12})?")
VALUE = re.compile(r"-?[0-9]{1,13}([.][0-9]{1,12})?")
# Letters of a text, of a unit and of an address; decimals; seconds.
MOST_TEXT, MOST_UNIT, MOST_ADDRESS, MOST_DECIMALS, MOST_RESPOND = 1_000, 12, 500, 9, 604_800
# Tags that are named one by one.
MOST_TAGS = 5
# In which each product and quotient here has the digits that are told of it.
EXACT = Context(prec=40)


class NoDetails(Fault):
    """A file isn't one of details; in one line."""


@dataclass(frozen=True)
class Details:
    """What operators are told of an alarm. `respond` is in seconds; 0 where none is named."""

    unit: str = ""
    scale: Decimal = Decimal(1)
    decimals: int = 0
    text: str = ""
    cause: str = ""
    consequence: str = ""
    response: str = ""
    respond: int = 0
    display: str = ""

    def told(self, value: int) -> str:
        """A value of the plant in the operator's unit."""
        quotient = EXACT.divide(Decimal(value), self.scale)
        return f"{quotient.quantize(Decimal(1).scaleb(-self.decimals), ROUND_HALF_EVEN, EXACT):f}"

    def with_unit(self, value: int) -> str:
        """A value of the plant in the operator's unit, with it."""
        return f"{self.told(value)} {self.unit}".rstrip()

    def whole(self, text: str) -> int:
        """The plant's value of an operator's; `Fault` where that has a fraction that the plant can't hold, or none."""
        if not VALUE.fullmatch(text):
            raise Fault(f"{text} is no number")
        product = EXACT.multiply(Decimal(text), self.scale)
        if product != product.to_integral_value():
            raise Fault(f"{text} has a fraction that a scale of {self.scale} drops")
        if abs(product) > READING_LIMIT:
            raise Fault(f"{text} is beyond {READING_LIMIT} by the scale of {self.scale}")
        return int(product)


def read_scale(cell: str) -> Decimal:
    if not NUMBER.fullmatch(cell) or not Decimal(cell):
        raise Fault(f"{cell} is no decimal number above 0")
    return Decimal(cell)


def whole_number(most: int, cell: str) -> int:
    """A number of digits alone, up to a limit."""
    if not cell.isdecimal() or not cell.isascii() or len(cell) > 9 or int(cell) > most:
        raise Fault(f"{cell} is no whole number up to {most}")
    return int(cell)


def read_text(most: int, cell: str) -> str:
    """A text of any letters that print."""
    if len(cell) > most or not cell.isprintable():
        raise Fault(f"it has more than {most} letters, or one that doesn't print")
    return cell


def read_address(cell: str) -> str:
    """The address of a page."""
    if urlsplit(cell).scheme not in ("http", "https") or not urlsplit(cell).hostname:
        raise Fault(f"{cell} is no address that begins with http:// or https://")
    return read_text(MOST_ADDRESS, cell)


def read_row(cells: dict[str, str]) -> Details:
    """The details of an alarm; `Fault` names the column that is wrong."""
    found: dict[str, object] = {}
    for column, cell in cells.items():
        try:
            if cell and column != "tag":
                found[column] = read_cell(column, cell)
        except (Fault, ValueError) as fault:
            raise Fault(f"{column}: {fault}") from None
    details = Details(**found)  # type: ignore[arg-type]
    if details.decimals and details.scale < 10**details.decimals:
        raise Fault(f"decimals: a scale of {details.scale} drops what stands at {details.decimals} behind the point")
    return details


def read_cell(column: str, cell: str) -> object:
    if column == "scale":
        return read_scale(cell)
    if column in ("decimals", "respond"):
        return whole_number(MOST_DECIMALS if column == "decimals" else MOST_RESPOND, cell)
    if column == "display":
        return read_address(cell)
    return read_text(MOST_UNIT if column == "unit" else MOST_TEXT, cell)


def read_details(text: str) -> dict[str, Details]:
    """The details in a CSV text by their tags; `Fault` names the row, as a spreadsheet counts them, and the column."""
    separator = ";" if ";" in text.partition("\n")[0] else ","
    rows = csv.DictReader(io.StringIO(text, newline=""), delimiter=separator, skipinitialspace=True)
    columns = list(rows.fieldnames or [])
    unknown = [name for name in columns if name not in COLUMNS]
    if unknown or "tag" not in columns or len(set(columns)) < len(columns):
        raise Fault(f"row 1: the columns are tag and any of {', '.join(COLUMNS[1:])}, each once")
    found: dict[str, Details] = {}
    for cells in rows:
        try:
            if None in cells or None in cells.values():
                raise Fault("it has more or fewer cells than row 1")
            tag = cells["tag"].strip()
            if not tag or tag in found:
                raise Fault(f"tag: {tag} stands twice" if tag else "tag: it is missing")
            found[tag] = read_row({column: cell.strip() for column, cell in cells.items()})
        except Fault as fault:
            raise Fault(f"row {rows.line_num}, {fault}") from None
    return found


def load_details(path: str) -> dict[str, Details]:
    """The details of a file by their tags; `NoDetails` says why there are none."""
    try:
        with open(path, encoding="utf-8-sig", newline="") as file:
            return read_details(file.read())
    except OSError as error:
        raise NoDetails(f"{path}: {error.strerror}") from None
    except UnicodeDecodeError:
        raise NoDetails(f"{path}: it isn't UTF-8") from None
    except (Fault, csv.Error) as fault:
        raise NoDetails(f"{path}: {fault}") from None


NONE = Details()


def add_details(words: argparse.ArgumentParser, several: str = "") -> None:
    """The argument that names a file of details; of several servers that of each."""
    words.add_argument(
        "--details",
        action="append" if several else "store",
        default=[] if several else None,
        metavar="FILE",
        help=f"what operators are told of each alarm: units, decimals, texts (docs/TABLE.md){several}",
    )


def differences(details: dict[str, Details], tags: Iterable[str]) -> list[str]:
    """What a file has too many of the plant's tags, and too few: a line each."""
    there = set(tags)
    many, few = [tag for tag in details if tag not in there], sorted(there - set(details))
    lines = [(many, "the plant hasn't"), (few, "the plant has, and the file hasn't")]
    return [f"{len(some)} tags that {what}: {named(some)}" for some, what in lines if some]


def named(tags: list[str]) -> str:
    return ", ".join(tags[:MOST_TAGS]) + (" .." if len(tags) > MOST_TAGS else "")
