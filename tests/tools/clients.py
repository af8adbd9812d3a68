#!/usr/bin/env python3
"""The tools, the clients of examples/, and `export`, against the built program.

    tests/tools/clients.py PROGRAM [--short] [--only CHECK,..]

Each is run as its page says. Expected values come from the tables that are drawn here and from what the server answers
at another slot. alm_console is run in tmux, in a window of 80 by 24. Where there is no tmux, no promtool or no systemd,
what wants it is left out, and that is said. The checks run beside each other, since they mostly wait. With --only just
those of these names are run; CHECKS below has them.
"""
import ast
import concurrent.futures
import os
import re
import shutil
import signal
import subprocess
import sys
import time
import tomllib
from typing import Callable

from lib.tools import Yard, end_all, tool

import check_clock
import check_console
import check_consoles
import check_device_metrics
import check_feed
import check_journal
import check_metrics
import check_since
import check_tables
import check_units
from alarms.client import Lost, Refused
from lib.places import DEPLOY, DOCS, EXAMPLES, TOOLS, TOP
from lib.program import Wrong, begin, check, finish

VERSION = (TOP / "VERSION").read_text(encoding="ascii").strip()
# How many checks run beside each other.
BESIDE = 6
INSTALLED = re.compile(r"/opt/alarms-([0-9.]+[0-9])")
# A desk that answers each line and keeps none of those that come last: what is stored is a copy from before them.
LOSER = """#!/bin/sh
if [ "$1" != desk ] || [ "${2%/device}" = "$2" ]; then exec PROGRAM "$@"; fi
cp "$2" "$2.kept"
exec PROGRAM desk "$2.kept"
"""


def tmux(check_with: Callable[[Yard], str]) -> Callable[[Yard], str]:
    """The check where there is tmux."""
    return lambda yard: check_with(yard) if shutil.which("tmux") else f"no tmux: {check_with.__name__} left out"


def helps(_yard: Yard) -> str:
    """Each tool prints its page with --help, and each file begins with one."""
    pages = {path.name: path for path in EXAMPLES.glob("*.py")}
    for command in tomllib.loads((TOP / "pyproject.toml").read_text(encoding="utf-8"))["project"]["scripts"]:
        module = TOOLS / "alarms" / command.removeprefix("alm_")
        pages[command] = module / "__main__.py" if module.is_dir() else module.with_suffix(".py")
    check({path.name for path in TOOLS.glob("alm_*")} <= set(pages), "tools/ has commands that no package installs")
    for name, path in pages.items():
        page = ast.get_docstring(ast.parse(path.read_text(encoding="utf-8")), clean=False)
        run = tool(name, "--help")
        check(run.returncode == 0 and page.strip() in run.stdout and not run.stderr, name, run.stdout, run.stderr)
        run = tool(name, "--no-such-word")
        check(run.returncode == 2 and not run.stdout, name, "takes any word")
    return f"{len(pages)} pages"


def power_cut(yard: Yard, rounds: int) -> str:
    """power_cut.py over the program, and over one that loses what it answered: that is noticed."""
    run = tool("power_cut.py", yard.program, rounds)
    check(
        run.returncode == 0 and re.match(rf"{rounds} kills, \d+ lines answered: each of them stands\.\n", run.stdout),
        run.stdout,
        run.stderr,
    )
    loser = yard.write("loser", LOSER.replace("PROGRAM", yard.program))
    os.chmod(loser, 0o700)
    run = tool("power_cut.py", loser, rounds)
    check(
        run.returncode == 1 and "an answered line is missing" in run.stderr,
        "of a program that loses lines it says",
        run.stdout,
        run.stderr,
    )
    return "power_cut.py"


def units(yard: Yard) -> str:
    """No page names a folder of a version, but the section on upgrades that of an earlier one. systemd takes the units,
    with commands that are there."""
    for page in sorted(DOCS.glob("*.md")):
        named = {
            (section.partition("\n")[0], version)
            for section in page.read_text(encoding="utf-8").split("\n## ")
            for version in INSTALLED.findall(section)
        }
        check(
            named <= {("Upgrade", version) for _, version in named}
            and VERSION not in {version for _, version in named},
            page.name,
            "names the folders of",
            named,
        )
    if not shutil.which("systemd-analyze"):
        return "no systemd: units left out"
    names = sorted(path.name for kind in ("service", "timer") for path in (DEPLOY / "systemd").glob(f"*.{kind}"))
    for name in names:
        text = (DEPLOY / "systemd" / name).read_text(encoding="utf-8")
        goes_on = "StartLimitIntervalSec=0" in text or name.endswith("timer")
        check("/opt/" not in text and VERSION not in text and goes_on, name, "is of one version, or gives up")
        text = re.sub(r"(?m)^(Exec\w+=)alm_server\b", rf"\g<1>{yard.program}", text)
        yard.write(name, re.sub(r"(?m)^(Exec\w+=)(alm_\w+)", rf"\g<1>{TOOLS}/\g<2>", text))
    for name in names:  # once all are there, since one may require another
        run = subprocess.run(["systemd-analyze", "verify", yard.path(name)], capture_output=True, text=True, timeout=60)
        check(run.returncode == 0 and not run.stdout + run.stderr, name, run.stdout, run.stderr)
    return f"{len(names)} units"


# Each check by its name. The longest come first.
CHECKS: dict[str, Callable[[Yard, int], str]] = {
    "consoles": lambda yard, _: tmux(check_console.largest)(yard),
    "ahead": lambda yard, _: check_clock.early_plants(yard),
    "clock": lambda yard, _: check_clock.clock(yard),
    "tables": lambda yard, _: tmux(check_console.tables)(yard),
    "console": lambda yard, _: tmux(check_console.console)(yard),
    "plants": lambda yard, _: tmux(check_consoles.plants)(yard),
    "export": lambda yard, step: check_tables.export(yard, 1000 // step),
    "served": lambda yard, step: check_tables.export_served(yard, 60 // step),
    "largest": lambda yard, _: check_tables.export_largest(yard),
    "changes": lambda yard, step: check_tables.changes(yard, 100 // step),
    "kept_back": lambda yard, _: check_tables.kept_back(yard),
    "feed": lambda yard, _: check_feed.feed(yard),
    "machines": lambda yard, _: check_feed.two_machines(yard),
    "takeover": lambda yard, _: check_feed.takeover(yard),
    "metrics": lambda yard, _: check_metrics.metrics(yard),
    "counters": lambda yard, _: check_metrics.without_device(yard),
    "device_page": lambda yard, _: check_device_metrics.page(yard),
    "while_written": lambda yard, step: check_device_metrics.while_written(yard, 600 // step),
    "collected": lambda yard, _: check_device_metrics.collected(yard),
    "rules": lambda yard, _: check_metrics.rules(yard),
    "dashboard": lambda yard, _: check_metrics.dashboard(yard),
    "journal": lambda yard, step: check_journal.journal(yard, 3000 // step),
    "reply": lambda yard, _: check_journal.not_before_its_reply(yard),
    "halves": lambda yard, _: check_journal.halves(yard),
    "asked": lambda yard, _: check_journal.asked(yard),
    "replaced": lambda yard, _: check_journal.replaced(yard),
    "forgotten": lambda yard, _: check_journal.forgotten(yard),
    "journal_ends": lambda yard, _: check_journal.ends(yard),
    "power": lambda yard, step: power_cut(yard, 50 // step),
    "csv": lambda yard, _: check_tables.csv(yard),
    "help": lambda yard, _: helps(yard),
    "client": lambda yard, _: check_feed.demonstration(yard),
    "snippets": lambda yard, _: check_feed.snippets(yard),
    "methods": lambda yard, _: check_feed.methods(yard),
    "since": lambda yard, _: check_since.since(yard),
    "seen": lambda yard, _: check_since.seen(yard),
    "happened": lambda yard, _: tmux(check_since.at_console)(yard),
    "in_c": lambda yard, _: check_since.in_c(yard) if shutil.which("gcc") else "no gcc: follow.c left out",
    "units": lambda yard, _: units(yard),
    "details": lambda yard, _: check_units.units(yard),
}


def chosen_checks(argv: list[str]) -> tuple[list[str], list[str]]:
    """The arguments without --only, and the names of the checks that are to be run."""
    if "--only" not in argv[:-1]:
        return argv, list(CHECKS)
    at = argv.index("--only")
    names = argv[at + 1].split(",")
    unknown = [name for name in names if name not in CHECKS]
    if unknown:
        sys.exit(f"clients: no check {', '.join(unknown)}; there are {', '.join(CHECKS)}")
    return argv[:at] + argv[at + 2 :], names


def run_checks(program: str, folder: str, names: list[str], step: int) -> list[str]:
    """Runs checks, each in a folder of its own; what they say, in their order. The first that finds something wrong
    ends them all."""
    with concurrent.futures.ThreadPoolExecutor(BESIDE) as pool:
        running = [pool.submit(CHECKS[name], Yard(program, make_folder(folder, name)), step) for name in names]
        done, _ = concurrent.futures.wait(running, return_when=concurrent.futures.FIRST_EXCEPTION)
        for one in done:
            if one.exception():
                pool.shutdown(wait=False, cancel_futures=True)
                end_all()
                raise one.exception()
        return [one.result() for one in running]


def make_folder(folder: str, name: str) -> str:
    path = os.path.join(folder, name)
    os.mkdir(path)
    return path


def leave(number: int, _frame: object) -> None:
    """Ends with what was started."""
    end_all()
    sys.exit(128 + number)


def main() -> None:
    argv, names = chosen_checks(sys.argv)
    program, step, folder = begin("clients", argv, 1, 10)
    began = time.monotonic()
    # a job in the background ignores SIGINT, and so would the tools that it starts
    for number in (signal.SIGTERM, signal.SIGINT):
        signal.signal(number, leave)
    try:
        said = run_checks(program, folder, names, step)
    except (Wrong, Lost, Refused, subprocess.TimeoutExpired) as wrong:
        sys.exit(f"clients: {wrong}; devices are in {folder}")
    except SystemExit:
        shutil.rmtree(folder, ignore_errors=True)
        raise
    finally:
        end_all()
    finish("clients", folder, f"{'; '.join(said)}; none wrong, {time.monotonic() - began:.0f} s")


if __name__ == "__main__":
    main()
