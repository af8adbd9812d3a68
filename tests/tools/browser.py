#!/usr/bin/env python3
"""The alarm list in a browser, tools/alarms/browser, in a real Chromium over the built program.

    tests/tools/browser.py PROGRAM [--short] [--only CHECK,..]
    tests/tools/browser.py PROGRAM --only aims --clicks 1000      an hour of aimed clicks; 40 where it is left out

Each control is used as an operator does, and the server is asked at another slot what came of it. Two browsers stand
side by side; servers are killed and held, and one page has two of them; tables change; pages of another origin try each
request; nginx authenticates; 16,384 alarms are listed; a flood is drawn over the refinery.

It needs aiohttp, selenium and Chromium (Debian: python3-aiohttp, python3-selenium, chromium, chromium-driver), and is
left out where they aren't there. What wants nginx is left out alone. CHECKS of the parts, check_*.py, have the names.
--shots FOLDER also writes the screenshots of docs/.
"""
import importlib
import os
import signal
import subprocess
import sys
import time
from typing import Callable

from lib import chromium

PARTS = (
    "check_list",
    "check_looks",
    "check_lost",
    "check_denied",
    "check_mixed",
    "check_several",
    "check_doors",
    "check_listen",
    "check_windows",
    "check_late",
    "check_hand",
    "check_details",
    "check_positions",
    "check_leaving",
    "check_proxy",
    "check_two_desks",
    "check_language",
    "check_screen",
    "check_tablet",
    "check_hold",
    "check_flood",
    "check_latency",
    "check_brief",
)
# What a short run is, and a whole one isn't.
SHORT = ("brief",)


def all_checks() -> dict[str, Callable]:
    """The checks of the parts by their names, no two of which are the same."""
    checks: dict[str, Callable] = {}
    for part in PARTS:
        if os.path.exists(os.path.join(os.path.dirname(os.path.abspath(__file__)), f"{part}.py")):
            some = importlib.import_module(part).CHECKS
            assert not checks.keys() & some.keys(), f"{part}: {checks.keys() & some.keys()} are names of others"
            checks |= some
    return checks


def chosen(argv: list[str], checks: dict) -> tuple[list[str], list[str]]:
    """The arguments without --only, and the names of the checks that are to be run."""
    if "--only" not in argv[:-1]:
        return argv, [name for name in checks if (name in SHORT) == ("--short" in argv)]
    at = argv.index("--only")
    names = argv[at + 1].split(",")
    unknown = [name for name in names if name not in checks]
    if unknown:
        sys.exit(f"browser: no check {', '.join(unknown)}; there are {', '.join(checks)}")
    return argv[:at] + argv[at + 2 :], names


def take_option(argv: list[str], option: str, take: Callable[[str], object]) -> list[str]:
    """The arguments without an option and its value, which the checks are told."""
    if option not in argv[:-1]:
        return argv
    at = argv.index(option)
    take(argv[at + 1])
    return argv[:at] + argv[at + 2 :]


def take_options(argv: list[str]) -> list[str]:
    """The arguments without --shots and --clicks."""
    told = importlib.import_module("lib.browsers")
    argv = take_option(argv, "--shots", lambda folder: told.SHOTS.append(os.path.abspath(folder)))
    return take_option(argv, "--clicks", lambda number: told.CLICKS.append(int(number)))


def run(program: str, folder: str, checks: dict, names: list[str], count: int) -> list[str]:
    """Runs checks one after the other, each in a folder of its own."""
    from lib.tools import Yard

    said = []
    for name in names:
        began = time.monotonic()
        os.mkdir(os.path.join(folder, name))
        said.append(checks[name](Yard(program, os.path.join(folder, name)), count))
        if "ALM_BROWSER_LOUD" in os.environ:
            print(f"browser: {name}: {said[-1]}, {time.monotonic() - began:.1f} s", flush=True)
    return said


def main() -> None:
    why = chromium.lacks()
    if why:
        print(f"browser: left out: {why}")
        sys.exit(77)
    from lib.tools import end_all
    from lib.browsers import end_pages
    from alarms.client import Lost, Refused
    from lib.program import Wrong, begin, finish
    from selenium.common.exceptions import WebDriverException

    checks = all_checks()
    argv, names = chosen(take_options(sys.argv), checks)
    program, count, folder = begin("browser", argv, 20, 5)
    began = time.monotonic()
    for number in (signal.SIGTERM, signal.SIGINT):  # whatever was started is ended
        signal.signal(number, lambda number, _frame: sys.exit(128 + number))
    try:
        said = run(program, folder, checks, names, count)
    except (Wrong, Lost, Refused, WebDriverException, subprocess.TimeoutExpired) as wrong:
        sys.exit(f"browser: {str(wrong).strip()}; devices are in {folder}")
    finally:
        end_pages()
        end_all()
    finish("browser", folder, f"{'; '.join(said)}; none wrong, {time.monotonic() - began:.0f} s")


if __name__ == "__main__":
    main()
