#!/usr/bin/env python3
"""The clients of a plant's history against the built program: mirror, archive and reports.

    tests/tools/history.py PROGRAM [--short] [--only CHECK,..]

A mirror is what `show` prints, over drawn plants and each word of an action. Archiver and server are killed at drawn
moments, and the archive has each accepted action once, as the server numbered it. The figures of reports are those of a
slow count over what the program itself shows. What wants a library or a program that isn't here (matplotlib,
PostgreSQL) is left out, and that is said. CHECKS of the parts, check_*.py, have the names.
"""
import concurrent.futures
import importlib
import os
import shutil
import signal
import subprocess
import sys
import time

from lib.tools import Yard, end_all

from alarms.client import Lost, Refused
from lib.program import Wrong, begin, finish

PARTS = (
    "check_archive",
    "check_archived_rows",
    "check_askers",
    "check_followed",
    "check_line_archive",
    "check_tail",
    "check_week",
    "check_reports",
    "check_bounds",
    "check_mirror",
)
# How many checks run beside each other.
BESIDE = 6
# Actions of a whole run and of a short one.
ACTIONS, FEW = 10_000, 600


def all_checks() -> dict:
    """Each check by its name."""
    here = os.path.dirname(os.path.abspath(__file__))
    parts = [part for part in PARTS if os.path.exists(os.path.join(here, f"{part}.py"))]
    return {name: check for part in parts for name, check in importlib.import_module(part).CHECKS.items()}


def chosen(argv: list[str], checks: dict) -> tuple[list[str], list[str]]:
    """The arguments without --only, and the names of the checks that are to be run."""
    if "--only" not in argv[:-1]:
        return argv, list(checks)
    at = argv.index("--only")
    names = argv[at + 1].split(",")
    unknown = [name for name in names if name not in checks]
    if unknown:
        sys.exit(f"history: no check {', '.join(unknown)}; there are {', '.join(checks)}")
    return argv[:at] + argv[at + 2 :], names


def run_check(check, program: str, folder: str, count: int) -> str:
    os.mkdir(folder)
    return check(Yard(program, folder), count)


def run_checks(program: str, folder: str, checks: dict, names: list[str], count: int) -> list[str]:
    """Runs checks beside each other, each in a folder of its own. The first that finds something wrong ends them
    all."""
    with concurrent.futures.ThreadPoolExecutor(BESIDE) as pool:
        running = [pool.submit(run_check, checks[name], program, os.path.join(folder, name), count) for name in names]
        done, _ = concurrent.futures.wait(running, return_when=concurrent.futures.FIRST_EXCEPTION)
        for one in done:
            if one.exception():
                pool.shutdown(wait=False, cancel_futures=True)
                end_all()
                raise one.exception()
        return [one.result() for one in running]


def leave(number: int, _frame: object) -> None:
    """Ends with what was started."""
    end_all()
    sys.exit(128 + number)


def main() -> None:
    checks = all_checks()
    argv, names = chosen(sys.argv, checks)
    program, count, folder = begin("history", argv, ACTIONS, FEW)
    began = time.monotonic()
    for number in (signal.SIGTERM, signal.SIGINT):
        signal.signal(number, leave)
    try:
        said = run_checks(program, folder, checks, names, count)
    except (Wrong, Lost, Refused, subprocess.TimeoutExpired) as wrong:
        sys.exit(f"history: {wrong}; devices are in {folder}")
    except SystemExit:
        shutil.rmtree(folder, ignore_errors=True)
        raise
    finally:
        end_all()
    finish("history", folder, f"{'; '.join(said)}; none wrong, {time.monotonic() - began:.0f} s")


if __name__ == "__main__":
    main()
