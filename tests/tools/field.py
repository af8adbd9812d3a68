#!/usr/bin/env python3
"""The promise of docs/FIELD.md, against the built program: a drawn storm, and each way in which values were once lost.

    tests/tools/field.py PROGRAM [--short] [--rounds N] [--seed N] [--storm | --without MEND | --mends]

The storm (storm.py) has 200 rounds over 2,000 topics, 200 lines and 100 registers; with --short a few over fewer, in
about two minutes. After each, within ten seconds of a machine that has nothing else to do, each alarm is as its
source's last value says, and each watching alarm as its sources are. Then words that say nothing move nothing, are
counted and told. Beside that single checks: old and retained values, retained payloads that are none, a dead feed, one
that hangs, a server that does, registers of all types, delays, metrics. --storm runs the storm alone.

--without runs it over a copy of the feed from which a mend (mends.py) is taken out, and ends with status 0 once the
storm has seen that. --mends does so for each mend, and prints a table.

It needs a mosquitto, paho-mqtt and pymodbus (Debian: mosquitto, python3-paho-mqtt, python3-pymodbus,
python3-serial-asyncio), and ends with status 77 where they aren't there. Whichever Python has the libraries runs the
feed.
"""
import argparse
import os
import random
import shutil
import signal
import statistics
import subprocess
import sys
import time
from pathlib import Path

from lib.tools import Yard, end_all, slowness

import check_access
import check_field
import check_outages
import check_pace
import check_registers
from alarms.client import Lost, Refused
from check_mqtt import python_with_paho
from history import leave, run_checks
from lib.places import TOOLS
from lib.program import Wrong, begin, check, finish
from mends import MENDS, copy_without
from storm import Storm
from stormy_site import Site

# Rounds, topics, lines and registers, seconds of a storm, and values a second.
FULL, SHORT = (200, 2_000, 100, 3.0, 3_000), (3, 400, 40, 2.0, 1_000)
# Rounds within which a storm sees that a mend is out.
MOST = 20
# Lines and messages a second whose alarms are timed, and for how many seconds.
FULL_PACE, SHORT_PACE = (20_000, 5_000, 20.0), (5_000, 1_000, 4.0)
# Seconds within which all is right.
WITHIN = 10.0


def storm(yard: Yard, sizes: tuple, seed: int, tools: Path = TOOLS) -> str:
    """The rounds of a storm over one plant, whose feed is that of `tools`."""
    rounds, topics, few, seconds, pace = sizes
    dice = random.Random(seed)
    took, counts, deck, number = [], {}, [], 0
    site = Site(yard, dice, topics, few, tools)
    try:
        Storm(site, 0, 0, deck).quiet(3 * WITHIN * slowness())
        for number in range(1, rounds + 1):
            one = Storm(site, seconds, pace, deck)
            one.run()
            took.append(one.quiet(WITHIN * slowness()))
            one.stay(WITHIN * slowness())
            site.revive()
            counts = {name: counts.get(name, 0) + one.counts.get(name, 0) for name in {*counts, *one.counts}}
            if number % 5 == 0:
                print(f"field: {number} rounds, none wrong; {right_after(took)}", flush=True)
    except (Wrong, Lost, Refused, OSError) as wrong:
        raise Wrong(f"round {number} of seed {seed}: {wrong}") from None
    finally:
        site.end()
    kinds = ", ".join(f"{count} {name}" for name, count in sorted(counts.items()))
    sent = site.publisher.sent + site.gateway.sent
    said = f"{rounds} rounds of a storm, {sent} values, {site.keeper.starts} starts of the feed"
    return f"{said} ({kinds}); {right_after(took)}"


def right_after(took: list[float]) -> str:
    """After how many seconds of quiet all was right."""
    return f"right after {statistics.median(took):.1f} s, {max(took):.1f} at most"


def lacking() -> str:
    """What isn't here; empty where nothing is missing."""
    python = python_with_paho()
    if not shutil.which("mosquitto") or not python:
        return "no mosquitto, or no paho-mqtt"
    found = subprocess.run([python, "-c", "import pymodbus.client"], capture_output=True)
    return "" if found.returncode == 0 else f"no pymodbus that {python} has"


def without(yard: Yard, sizes: tuple, seed: int, mend: str) -> str:
    """A storm over a feed without a mend; what it saw. `Wrong` says that it saw nothing."""
    tools = copy_without(mend, yard.folder)
    try:
        storm(yard, sizes, seed, tools)
    except Wrong as seen:
        return f"{mend}: {seen}"
    raise Wrong(f"{sizes[0]} rounds of a storm don't see that the feed is without: {mend}")


def all_mends(program: str, folder: str, sizes: tuple, seed: int) -> str:
    """A storm for each mend, and a table of what saw that it is out; `Wrong` names those that nothing saw."""
    unseen = []
    print("| mend taken out | what the storm saw |\n|---|---|")
    for number, mend in enumerate(MENDS):
        yard = Yard(program, os.path.join(folder, str(number)))
        os.makedirs(yard.folder)
        try:
            print(
                "|", without(yard, sizes, seed, mend)[:300].replace("|", "/").replace(": ", " | ", 1), "|", flush=True
            )
        except Wrong as wrong:
            print("|", mend, "| **not seen** |", flush=True)
            unseen.append(str(wrong))
    check(not unseen, *unseen)
    return f"a storm sees each of {len(MENDS)} mends that is taken out"


def all_checks(yard: Yard, sizes: tuple, seed: int, pace: tuple) -> str:
    """The storm and the single checks beside each other, and behind them how soon alarms come."""
    parts = (check_field, check_registers, check_outages, check_access)
    single = {name: one for part in parts for name, one in part.CHECKS.items()}
    checks = {"storm": lambda yard, _: storm(yard, sizes, seed), **single}
    said = run_checks(yard.program, yard.folder, checks, list(checks), 0)
    os.makedirs(yard.path("pace"))
    said.append(check_pace.paces(Yard(yard.program, yard.path("pace")), *pace))
    return "; ".join(said)


def new_words() -> argparse.ArgumentParser:
    words = argparse.ArgumentParser(description=__doc__, formatter_class=argparse.RawDescriptionHelpFormatter)
    words.add_argument("program", metavar="PROGRAM", help="the built program")
    words.add_argument("--short", action="store_true", help="fewer rounds and sources, in about two minutes")
    words.add_argument("--rounds", type=int, metavar="N", help="of the storm; with --mends of each storm, at most")
    words.add_argument("--seed", type=int, default=84, metavar="N", help="what the storm is drawn by")
    words.add_argument("--storm", action="store_true", help="the storm alone")
    words.add_argument("--without", choices=MENDS, metavar="MEND", help=f"without a mend: {', '.join(MENDS)}")
    words.add_argument("--mends", action="store_true", help="without each mend in turn, and a table of what saw it")
    return words


def main() -> None:
    chosen = new_words().parse_args()
    missing = lacking()
    if missing:
        print(f"field: left out: {missing}")
        sys.exit(77)
    words = ["field", chosen.program, *["--short"] * chosen.short]
    program, sizes, folder = begin("field", words, FULL, SHORT)
    pace, yard = SHORT_PACE if chosen.short else FULL_PACE, Yard(program, folder)
    sizes = (chosen.rounds or (MOST if chosen.mends or chosen.without else sizes[0]), *sizes[1:])
    began = time.monotonic()
    for number in (signal.SIGTERM, signal.SIGINT):
        signal.signal(number, leave)
    try:
        if chosen.mends:
            said = all_mends(program, folder, sizes, chosen.seed)
        elif chosen.without:
            said = without(yard, sizes, chosen.seed, chosen.without)
        elif chosen.storm:
            said = storm(yard, sizes, chosen.seed)
        else:
            said = all_checks(yard, sizes, chosen.seed, pace)
    except (Wrong, Lost, Refused, OSError, subprocess.TimeoutExpired) as wrong:
        sys.exit(f"field: {wrong}; devices are in {folder}")
    except SystemExit:
        shutil.rmtree(folder, ignore_errors=True)
        raise
    finally:
        end_all()
    finish("field", folder, f"{said}; none wrong, {time.monotonic() - began:.0f} s")


if __name__ == "__main__":
    main()
