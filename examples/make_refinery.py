#!/usr/bin/env python3
"""Prints the table file of a refinery: 200 alarms in 8 areas; or what its operators are told of each.

    PYTHONPATH=tools examples/make_refinery.py > examples/refinery.toml
    PYTHONPATH=tools examples/make_refinery.py --details > examples/refinery.details.csv

Each area has its units' instruments, tagged as ISA-5.1 has it: the measured variable, I for indication, S for a switch,
then the loop. Values are in tenths of the unit that the text names.
"""
import csv
import sys
from typing import Iterator

from alarms.arguments import new_parser
from alarms.table_file import written

AREAS = [
    "Crude unit",
    "Vacuum unit",
    "Hydrotreater",
    "Reformer",
    "Cracker",
    "Sulfur recovery",
    "Tank farm",
    "Utilities",
]

# kind, first letter, setpoint, deadband, priority, max_shelve, latching, text
LOOPS = [
    ("high", "TI", 3800, 20, 2, 3600, False, "Heater outlet temperature high, 0.1 degC"),
    ("high", "TI", 4100, 20, 1, 0, True, "Heater tube skin temperature high, 0.1 degC"),
    ("low", "TI", 3300, 20, 3, 28800, False, "Heater outlet temperature low, 0.1 degC"),
    ("high", "PI", 185, 2, 2, 3600, False, "Column top pressure high, 0.1 bar"),
    ("high", "PI", 210, 2, 1, 0, True, "Column top pressure near relief, 0.1 bar"),
    ("low", "PI", 120, 2, 3, 28800, False, "Column top pressure low, 0.1 bar"),
    ("high", "LI", 850, 10, 3, 28800, False, "Column bottom level high, 0.1 %"),
    ("low", "LI", 150, 10, 2, 3600, False, "Column bottom level low, 0.1 %"),
    ("high", "LI", 900, 10, 2, 3600, False, "Reflux drum level high, 0.1 %"),
    ("low", "LI", 100, 10, 1, 0, False, "Reflux drum level low, 0.1 %"),
    ("low", "FI", 450, 15, 2, 3600, False, "Feed flow low, 0.1 m3/h"),
    ("high", "FI", 1250, 15, 4, 86400, False, "Feed flow high, 0.1 m3/h"),
    ("low", "FI", 200, 10, 2, 3600, False, "Reflux flow low, 0.1 m3/h"),
    ("low", "FI", 80, 5, 1, 0, False, "Pump minimum flow, 0.1 m3/h"),
    ("low", "PI", 35, 1, 2, 3600, False, "Fuel gas pressure low, 0.1 bar"),
    ("high", "AI", 50, 5, 3, 28800, False, "Stack oxygen high, 0.1 %"),
    ("low", "AI", 15, 2, 2, 3600, False, "Stack oxygen low, 0.1 %"),
    ("high", "AI", 100, 10, 1, 0, True, "Hydrogen sulfide at ground level, 0.1 ppm"),
    ("high", "AI", 200, 20, 1, 0, True, "Combustible gas at the pumps, 0.1 % LEL"),
    ("discrete", "XS", 1, 0, 1, 0, True, "Emergency shutdown tripped"),
    ("discrete", "XS", 1, 0, 2, 3600, False, "Feed pump tripped"),
    ("discrete", "XS", 1, 0, 3, 28800, False, "Spare pump not ready"),
    ("discrete", "ZS", 1, 0, 3, 28800, False, "Isolation valve not open"),
    ("discrete", "YS", 1, 0, 4, 604800, False, "Analyser in maintenance"),
    ("high", "VI", 71, 5, 2, 3600, False, "Compressor vibration high, 0.1 mm/s"),
]


# Of each loop: what brings it about, what follows if nothing is done, what to do, and within how many seconds.
TOLD = [
    ("Too much fuel, or too little feed", "Coke in the tubes", "Reduce fuel; hold the feed above its low limit", 600),
    ("Flame on a tube, or coke in it", "A tube bursts", "Cut fuel at once; look at the flames; keep the feed on", 120),
    ("Too little fuel, or too much feed", "Poor separation", "Raise fuel by steps; see that burners are lit", 1800),
    ("Condenser fouled, or too much light feed", "The relief valve opens", "Raise cooling; reduce heat", 600),
    (
        "Cooling lost, or an outlet blocked",
        "The relief valve opens to the flare",
        "Cut heat at once; trip if it rises",
        60,
    ),
    ("Too little heat, or a leak", "Air may be drawn in", "Raise heat; look for a leak", 1800),
    ("Bottom pump weak, or too much feed", "Trays flood", "Raise the draw; reduce the feed", 1800),
    ("Too much draw, or too little feed", "The bottom pump cavitates", "Reduce the draw", 600),
    ("Reflux pump weak, or too much vapour", "Liquid in the gas line", "Raise reflux or draw", 600),
    (
        "Reflux too high, or condensing lost",
        "The reflux pump runs dry",
        "Reduce reflux; start the spare pump if it stops",
        180,
    ),
    ("Feed pump weak, or a valve closed", "Tubes of the heater overheat", "Start the spare pump; reduce fuel", 300),
    ("Control valve too far open", "Off-specification product", "Bring the feed back to its setpoint", 3600),
    ("Reflux pump weak, or its filter blocked", "Heavy product overhead", "Start the spare pump; reduce heat", 600),
    ("Minimum flow valve closed", "The pump is damaged", "Open the minimum flow valve; stop the pump", 60),
    ("Gas supply weak, or a filter blocked", "Burners go out", "Change to the other filter; reduce fuel users", 300),
    ("Too much air", "Fuel is lost", "Close the damper by steps", 3600),
    ("Too little air", "Unburnt fuel in the firebox", "Open the damper; reduce fuel", 300),
    ("A leak of sour gas", "People are poisoned", "Clear the area; put on breathing air; find the leak", 60),
    ("A leak of light product", "Fire", "Clear the area; stop work with flames; start water curtains", 60),
    (
        "A trip by its own conditions, or by hand",
        "The unit is down",
        "Follow the shutdown list; see that valves are safe",
        60,
    ),
    ("Overload, or a fault of the motor", "The heater has no feed", "Start the spare pump; reduce fuel", 120),
    (
        "Its breaker is open, or its seal leaks",
        "No spare if the pump trips",
        "Call the electrician; see the breaker",
        28800,
    ),
    ("Left closed after work, or stuck", "A line is blocked", "Look at the valve in the field; open it", 1800),
    ("Calibration", "A value isn't the process's", "Use the laboratory's values until it is back", 28800),
    (
        "Bearing worn, or liquid in the gas",
        "The compressor is damaged",
        "Reduce load; call the machine's engineer",
        600,
    ),
]
# A unit as the tables write it in ASCII, and as operators know it.
UNITS = {"degC": "°C", "bar": "bar", "%": "%", "m3/h": "m³/h", "ppm": "ppm", "% LEL": "% LEL", "mm/s": "mm/s"}
COLUMNS = ("tag", "unit", "scale", "decimals", "text", "cause", "consequence", "response", "respond")


def detail_row(area: int, loop: int) -> list[object]:
    """The row of an alarm in the file of details."""
    letters, text = LOOPS[loop][1], LOOPS[loop][7]
    words, _, unit = text.partition(", 0.1 ")
    scale = [UNITS[unit], 10, 1] if unit else ["", 1, 0]
    return [f"{letters}-{area + 1}{loop + 1:02}", *scale, words, *TOLD[loop]]


def print_details() -> None:
    """Prints the file of details."""
    lines = csv.writer(sys.stdout, lineterminator="\n")
    lines.writerow(COLUMNS)
    lines.writerows(detail_row(area, loop) for area in range(len(AREAS)) for loop in range(len(LOOPS)))


def alarm_lines(area: int, loop: int) -> Iterator[str]:
    """The lines of an alarm. A key that has its default is left out."""
    kind, letters, setpoint, deadband, priority, shelve, latching, text = LOOPS[loop]
    keys = {"kind": kind, "setpoint": setpoint, "priority": priority, "area": area}
    optional = {"deadband": deadband, "max_shelve": shelve, "latching": latching}
    keys |= {key: value for key, value in optional.items() if value}
    keys |= {"tag": f"{letters}-{area + 1}{loop + 1:02}", "text": text}
    yield from ("", f"# {AREAS[area]}", "[[alarm]]")
    yield from (f"{key} = {written(value)}" for key, value in keys.items())


def main() -> None:
    words = new_parser(__doc__)
    words.add_argument("--details", action="store_true", help="print what operators are told of each alarm")
    if words.parse_args().details:
        print_details()
        return
    print(f"# A refinery: {len(AREAS) * len(LOOPS)} alarms in {len(AREAS)} areas. Made by make_refinery.py.")
    print(f"size = 16777216\nareas = {len(AREAS)}")
    for area in range(len(AREAS)):
        for loop in range(len(LOOPS)):
            print("\n".join(alarm_lines(area, loop)))


if __name__ == "__main__":
    main()
