"""Prints the table of a served plant, with the priorities and setpoints that are in force.

    alm_export --port P [--slot 15] [--device DEVICE] [> TABLE.toml]

It asks the server, which goes on. With --device the text is that of `alm_server export DEVICE` once the server has
ended, byte for byte, where no priority and no setpoint is changed meanwhile. No line has the size of a device: without
--device it is the one that docs/TABLE.md recommends for so many alarms and areas.
"""
import os
from typing import Iterator, Optional

from .client import Client, Place
from .arguments import Parser, add_port, add_slot
from .ending import end_of
from .table_file import Alarm, Table, device_size, written

# The keys of an alarm, as `alm_server export` has them.
KEYS = ("area", "deadband", "kind", "latching", "max_shelve", "priority", "setpoint", "tag", "text")


def string(text: str) -> str:
    """A string of TOML, in the first form that needs no escape, as `alm_server export` writes it."""
    has_escape, has_quote, has_apostrophe = ("\\" in text), ('"' in text), ("'" in text)
    if not has_escape and not has_quote:
        return f'"{text}"'
    if not has_apostrophe:
        return f"'{text}'"
    if not has_escape and '"""' not in text:
        return f'"""{text}"""'
    return written(text) if "'''" in text else f"'''{text}'''"


def lines(table: Table, size: int) -> Iterator[str]:
    """The lines of a table file."""
    yield f"areas = {table.areas}"
    yield f"size = {size}"
    for alarm in table.alarms:
        yield from alarm_lines(alarm)


def alarm_lines(alarm: Alarm) -> Iterator[str]:
    yield ""
    yield "[[alarm]]"
    for key in KEYS:
        value = getattr(alarm, key)
        yield f"{key} = {string(value) if isinstance(value, str) else written(value)}"


def export(place: Place, slot: int, device: Optional[str]) -> None:
    """Prints the table of a served plant, with the size of its device."""
    with Client.connect(place, slot) as client:
        table = client.table()
    size = os.stat(device).st_size if device else device_size(len(table.alarms), table.areas)
    print("\n".join(lines(table, size)))


def main() -> None:
    words = Parser("alm_export", __doc__)
    add_port(words)
    add_slot(words, 15)
    words.add_argument("--device", help="the device file, for its size alone")
    chosen = words.parse_args()
    end_of("export", lambda: export(chosen.port, chosen.slot, chosen.device))


if __name__ == "__main__":
    main()
