"""A table file from a spreadsheet's CSV.

    alm_csv2toml TABLE.csv [--segment BYTES] > TABLE.toml

The first row names the columns, by the keys of docs/TABLE.md: tag, kind, setpoint, priority and area have to be there;
deadband, max_shelve, latching (true or false) and text may be. Cells are separated by commas, or by semicolons where
row 1 has one. An empty cell stands for a key that is left out. The number of areas is one more than the greatest, and
`size` is worked out: 926,067 bytes for four alarms in two areas, more with a longer segment.

With --details FILE setpoints and deadbands are in the operator's units of that file: 410.0 of a scale of 10 becomes
4100. A fraction that the scale drops is a fault; tags that one of the files has too many are told.

A fault is reported with its row, as the spreadsheet counts them, and its column; nothing is printed then, and the
status is 1.
"""
import csv
import io
from typing import Any, Callable, Optional

from .arguments import Parser, whole_number
from .details_file import NONE, Details, add_details, differences, load_details
from .ending import Fault, end_of, sayer
from .table_file import ALARM_LIMIT, AREA_LIMIT, CALM_SEGMENT, KINDS, READING_LIMIT, SHELVE_LIMIT, device_size, written

REQUIRED = ("tag", "kind", "setpoint", "priority", "area")
LIMITS = {
    "setpoint": (-READING_LIMIT, READING_LIMIT),
    "priority": (1, 4),
    "area": (0, AREA_LIMIT - 1),
    "deadband": (0, READING_LIMIT),
    "max_shelve": (0, SHELVE_LIMIT),
}
LENGTHS = {"tag": (1, 32, "!"), "text": (0, 80, " ")}


def number(key: str, cell: str) -> int:
    least, most = LIMITS[key]
    try:
        value = int(cell)
    except ValueError:
        raise Fault(f"{cell} is no whole number") from None
    if not least <= value <= most:
        raise Fault(f"{cell} isn't from {least} to {most}")
    return value


def string(key: str, cell: str) -> str:
    least, most, first = LENGTHS[key]
    if not least <= len(cell) <= most:
        raise Fault(f"it has {len(cell)} characters, and not {least} to {most}")
    for character in cell:
        if not first <= character <= "~":
            raise Fault(f"{character!r} isn't allowed")
    return cell


def kind(_key: str, cell: str) -> str:
    if cell.lower() not in KINDS:
        raise Fault(f"{cell} is none of {', '.join(KINDS)}")
    return cell.lower()


def truth(_key: str, cell: str) -> bool:
    if cell.lower() not in ("true", "false"):
        raise Fault(f"{cell} is neither true nor false")
    return cell.lower() == "true"


READERS: dict[str, Callable[[str, str], object]] = {
    "kind": kind,
    "latching": truth,
    **dict.fromkeys(LIMITS, number),
    **dict.fromkeys(LENGTHS, string),
}


def scaled(cells: dict[str, str], details: Details) -> dict[str, str]:
    """The cells of an alarm with its values as the plant has them, of those in the operator's unit."""
    found = dict(cells)
    for key in ("setpoint", "deadband"):
        try:
            if cells.get(key):
                found[key] = str(details.whole(cells[key]))
        except Fault as fault:
            raise Fault(f"{key}: {fault}") from None
    return found


def read_row(cells: dict[str, str]) -> dict[str, object]:
    """The keys of an alarm and their values."""
    alarm: dict[str, object] = {}
    for key, cell in cells.items():
        if not cell and key in REQUIRED:
            raise Fault(f"{key}: it is missing")
        if cell:
            try:
                alarm[key] = READERS[key](key, cell)
            except Fault as fault:
                raise Fault(f"{key}: {fault}") from None
    if alarm["kind"] == "discrete" and alarm.get("deadband"):
        raise Fault("deadband: a discrete alarm has none")
    return alarm


def read_rows(text: str, details: Optional[dict[str, Details]] = None) -> list[dict[str, Any]]:
    """The alarms of a CSV text; with details their values are in the operator's units."""
    separator = ";" if ";" in text.partition("\n")[0] else ","
    rows = csv.DictReader(io.StringIO(text, newline=""), delimiter=separator, skipinitialspace=True)
    columns = rows.fieldnames or []
    unknown = [name for name in columns if name not in READERS]
    missing = [name for name in REQUIRED if name not in columns]
    if unknown or missing:
        raise Fault(f"row 1: unknown columns {unknown}, missing columns {missing}")
    alarms = []
    for cells in rows:
        if None in cells or None in cells.values():
            raise Fault(f"row {rows.line_num}: it has more or fewer cells than row 1")
        try:
            row = {key: cell.strip() for key, cell in cells.items()}
            alarms.append(read_row(row if details is None else scaled(row, details.get(row["tag"], NONE))))
        except Fault as fault:
            raise Fault(f"row {rows.line_num}, {fault}") from None
    if not 1 <= len(alarms) <= ALARM_LIMIT:
        raise Fault(f"{len(alarms)} alarms, and not 1 to {ALARM_LIMIT}")
    return alarms


def print_table(alarms: list[dict[str, Any]], segment: int) -> None:
    areas = 1 + max(alarm["area"] for alarm in alarms)
    print(f"size = {device_size(len(alarms), areas, segment)}\nareas = {areas}")
    for alarm in alarms:
        print("\n[[alarm]]")
        for key, value in alarm.items():
            print(f"{key} = {written(value)}")


def load_rows(path: str, details: Optional[dict[str, Details]] = None) -> list[dict[str, Any]]:
    """The alarms of a CSV file; `Fault` says which row is wrong."""
    # a byte that is no UTF-8 becomes a character that no cell may have, and so is reported with its row
    with open(path, encoding="utf-8-sig", errors="surrogateescape", newline="") as file:
        return read_rows(file.read(), details)


def convert(path: str, details: Optional[str], segment: int) -> None:
    """Prints the table of a CSV file, whose values are in the units of a file of details where one is given."""
    told = load_details(details) if details else None
    alarms = load_rows(path, told)
    for line in differences(told, (alarm["tag"] for alarm in alarms)) if told is not None else ():
        sayer("csv2toml")(f"{details}: {line}")
    print_table(alarms, segment)


def main() -> None:
    words = Parser("alm_csv2toml", __doc__)
    words.add_argument("table", metavar="TABLE.csv", help="the CSV file")
    words.add_argument(
        "--segment",
        type=whole_number,
        default=CALM_SEGMENT,
        metavar="BYTES",
        help="bytes of a segment of the device; %(default)s where it is left out",
    )
    add_details(words)
    chosen = words.parse_args()
    end_of("csv2toml", lambda: convert(chosen.table, chosen.details, chosen.segment))


if __name__ == "__main__":
    main()
