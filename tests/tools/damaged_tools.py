"""Every tool that reads a device file, run in this process over a damaged one: none ends by a traceback, and none makes
anything up."""
import contextlib
import io
import os
import re
import sqlite3
import sys
from typing import Callable, Optional

from lib.tools import Yard


from alarms import check as check_tool
from alarms import journal
from alarms import salvage
from alarms import archive, mirror
from alarms.judging import Reading
from lib.program import check

# The rows of an archive's actions by their numbers.
Rows = dict[int, tuple]


def ended(main: Callable[[], None], *words: str) -> tuple[int, str, str]:
    """The status of a tool, and what it printed and said. Whatever else it raises is its traceback."""
    printed, said, before = io.StringIO(), io.StringIO(), sys.argv
    sys.argv = ["tool", *words]
    try:
        with contextlib.redirect_stdout(printed), contextlib.redirect_stderr(said):
            status = status_of(main)
    finally:
        sys.argv = before
    if isinstance(status, str):
        return 1, printed.getvalue(), said.getvalue() + status
    return status, printed.getvalue(), said.getvalue()


def status_of(main: Callable[[], None]) -> int | str:
    try:
        main()
    except SystemExit as ending:
        return ending.code or 0
    finally:
        sys.stdout = sys.stdout or sys.__stdout__
    return 0


def look_all(yard: Yard, path: str, reading: Optional[Reading], whole: Rows) -> None:
    """Runs each tool over a device whose bits were flipped. Of the whole one these rows were archived."""
    wrong = reading is None or reading.place is not None
    for main, words in (
        (check_tool.main, [path]),
        (journal.main, [path]),
        (journal.main, [path, "--from", "1"]),
        (mirror.main, [path]),
    ):
        status, printed, said = ended(main, *words)
        check(status == int(wrong), main.__module__, words, "ends with", status, printed[-200:], said)
        check(not wrong or main is check_tool.main or path in said, main.__module__, "says", said)
    check(ended(salvage.main, path, "--table")[0] in (0, 1), "salvage")
    status, page, said = ended(check_tool.main, path, "--metrics")
    check(status == int(not page) and len(said.splitlines()) == status, "metrics end with", status, page, said)
    is_told_whole = re.search(r"(?m)^alarms_device_damaged\S* 0$", page) is not None
    check(reading is None or is_told_whole != wrong, "metrics", page)
    wanted = reading.judged.count if reading and not wrong else None
    judge_archive(*archived(yard, path), whole, wanted)


def archived(yard: Yard, path: str) -> tuple[int, str, Rows]:
    """The status of the archiver over a stopped device, what it says, and the rows of actions that it made."""
    database = yard.path("flip.sqlite")
    with contextlib.suppress(FileNotFoundError):
        os.remove(database)
    status, _, said = ended(archive.main, "run", path, database, "--stopped")
    with contextlib.closing(sqlite3.connect(database)) as store:
        return (
            status,
            said,
            {row[0]: row[1:] for row in store.execute("SELECT number, moment, word, alarm, value FROM action")},
        )


def judge_archive(status: int, said: str, rows: Rows, whole: Rows, wanted: Optional[int]) -> None:
    """The archive has rows of the whole device and no others, but for the one whose bit was flipped, and moments behind
    it where that is a CLOCK. Of a device that isn't damaged it has all, up to the action that is wanted."""
    others = [number for number, row in rows.items() if number not in whole or row[1:] != whole[number][1:]]
    check(len(others) <= 1, "the archive made up the actions", others, said)
    check(status == int(wanted is None) and len(said.splitlines()) <= 3, "the archiver ends with", status, said)
    check(
        wanted is None or not rows or max(rows) == wanted,
        "the archive has",
        len(rows),
        "actions up to",
        max(rows, default=0),
        "of",
        wanted,
    )
