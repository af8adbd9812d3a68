"""Archives of a plant: archivers that run, what databases have, and what they should have."""
import contextlib
import glob
import os
import pwd
import re
import shutil
import signal
import sqlite3
import subprocess
import sys
import time
from typing import Callable, Iterator
from lib.drawn_plants import CONSOLE, Hand, module
from lib.places import AT_TOOLS, EXAMPLES
from lib.program import check
from slow_count import Shown, change_rows, replay
from alarms.table_file import Table
from lib.tools import Yard, await_true, started


SEGMENT = 400_000


# Seconds of a sync that takes its time: an archiver is started and ends within one.
SYNC = 3.0


PLANT = str(EXAMPLES / "plant.toml")


ACTIONS = "SELECT number, moment, word, tag, value, slot FROM action WHERE plant = ? ORDER BY number"


CHANGES = (
    "SELECT number, moment, tag, priority, area, before, after, flags, annunciated, since FROM change WHERE plant = ?"
    " AND before IS NOT NULL ORDER BY number, alarm"
)


# What another user runs. The modules come first, since that user may not read them.
AS_ANOTHER = """
import os, sys
from alarms.life import read_life
from alarms.store import Store
database, user, group = sys.argv[1:]
os.setgroups([])
os.setgid(int(group))
os.setuid(int(user))
with Store.open(database) as store:
    print(len(read_life(store, "plant").counted()))
"""


FLOODS = "SELECT number, moment, area, flooded, annunciations FROM flood WHERE plant = ? ORDER BY number, area"


def archiver(
    database: str, port: int, *words: object, name: str = "plant", python: str = sys.executable, **streams: object
) -> subprocess.Popen:
    """An archiver that runs on."""
    pipes = dict.fromkeys(("stdout", "stderr"), subprocess.PIPE)
    command = module("archive", "run", database, "--port", port, "--name", name, *words, python=python)
    return started(subprocess.Popen(command, env=AT_TOOLS, text=True, **{**pipes, **streams}))


def run_tool(
    name: str, *words: object, python: str = sys.executable, before: tuple[str, ...] = ()
) -> subprocess.CompletedProcess:
    """Runs a tool to its end, behind the words of a program that starts it."""
    command = [*before, *module(name, *words, python=python)]
    return subprocess.run(command, env=AT_TOOLS, capture_output=True, text=True, timeout=300)


def archive_once(database: str, port: int, name: str = "plant", python: str = sys.executable) -> str:
    """Archives what a server shows by now; what that says."""
    run = run_tool("archive", "run", database, "--port", port, "--name", name, "--once", python=python)
    check(run.returncode == 0, "alm_archive run:", run.stdout, run.stderr)
    return run.stderr


def archive_stopped(
    device: str, database: str, *words: object, name: str = "plant", python: str = sys.executable
) -> str:
    """Archives a device that isn't served, to its end; what that says."""
    run = run_tool("archive", "run", device, database, "--stopped", "--name", name, *words, python=python)
    check(run.returncode == 0, "alm_archive run .. --stopped:", run.stdout, run.stderr)
    return run.stderr


def rows_of(database: str, statement: str, *values: object) -> list[tuple]:
    """What SQLite's own program finds."""
    with contextlib.closing(sqlite3.connect(database)) as connection:
        return connection.execute(statement, values).fetchall()


def last_archived(database: str) -> int:
    """The number of the last action in an archive, which may not be made yet."""
    try:
        return rows_of(database, "SELECT MAX(number) FROM action")[0][0]
    except sqlite3.OperationalError:
        return 0


def plants_of(database: str) -> int:
    """How many plants an archive has, which may not be made yet."""
    try:
        return rows_of(database, "SELECT COUNT(*) FROM plant")[0][0]
    except sqlite3.OperationalError:
        return 0


def request_of(word: str, number: int, value: object) -> str:
    """The request that an archived action was."""
    if word == "CLOCK":
        return f"CLOCK {value}"
    if word in ("OOS", "DESIGN"):
        return f"{word} {number} {'ON' if value else 'OFF'}"
    return f"{word} {number}" + ("" if value is None else f" {value}")


def judge(yard: Yard, table: Table, select: Callable[[str], list[tuple]], hand: Hand, total: int) -> None:
    """An archive has each action once, as the server numbered it, and what the program shows of it."""
    actions = select(ACTIONS)
    check([row[0] for row in actions] == list(range(1, total + 1)), "not each action once:", len(actions), "of", total)
    numbers = {alarm.tag: number for number, alarm in enumerate(table.alarms)}
    requests = [request_of(word, numbers.get(tag, -1), value) for _, _, word, tag, value, _ in actions]
    for number, request in hand.accepted.items():
        check(
            requests[number - 1] == request,
            "action",
            number,
            "was",
            request,
            "and is archived as",
            requests[number - 1],
        )
    shown = replay(yard, table, requests)
    check([row[1] for row in actions] == [one.moment for one in shown[1:]], "other moments")
    check(
        {row[5] for row in actions if row[2] == "CLOCK"} <= {17}
        and {row[5] for row in actions if row[2] in ("VAL", "DESIGN")} <= {16},
        "other slots",
    )
    check(
        {row[5] for row in actions if row[2] in ("ACK", "SHELVE", "OOS", "PRIO")} <= {None, CONSOLE},
        "a console's slot that asked for nothing",
    )
    wanted, there = change_rows(shown, table), select(CHANGES)
    check(
        there == wanted,
        "what actions did is archived as",
        [one for one in zip(there, wanted) if one[0] != one[1]][:2],
        len(there),
        len(wanted),
    )
    flooded = {area: flooded for _, _, area, flooded, _ in select(FLOODS)}
    check(flooded == {area: one[1] for area, one in enumerate(shown[-1].floods)}, "other floods at the end", flooded)
    check(
        any(row[8] and request.startswith("CLOCK") for row, request in ((row, requests[row[0] - 1]) for row in wanted)),
        "no CLOCK annunciated anything",
    )


def python_with(library: str) -> str:
    """A Python that has a library; empty if none of them has it."""
    for python in (sys.executable, "/usr/bin/python3"):
        if (
            os.path.exists(python)
            and subprocess.run([python, "-c", f"import {library}"], capture_output=True).returncode == 0
        ):
            return python
    return ""


@contextlib.contextmanager
def postgresql(yard: Yard) -> Iterator[str]:
    """A server of PostgreSQL, as another user where this one is root; how it is reached."""
    programs = os.path.dirname(
        shutil.which("initdb") or next(iter(sorted(glob.glob("/usr/lib/postgresql/*/bin/initdb"))), "")
    )
    folder = yard.path("postgresql")
    os.mkdir(folder)
    prefix = []
    if os.geteuid() == 0:
        user = pwd.getpwnam("postgres")
        os.chown(folder, user.pw_uid, user.pw_gid)
        for above in (yard.folder, os.path.dirname(yard.folder)):
            os.chmod(above, 0o711)
        prefix = ["setpriv", "--reuid=postgres", "--regid=postgres", "--clear-groups"]
    subprocess.run(
        [*prefix, f"{programs}/initdb", "-D", f"{folder}/data", "-U", "postgres", "-A", "trust"],
        check=True,
        capture_output=True,
        cwd=folder,
    )
    server = started(
        subprocess.Popen(
            [
                *prefix,
                f"{programs}/postgres",
                "-D",
                f"{folder}/data",
                "-k",
                folder,
                "-c",
                "listen_addresses=",
                "-c",
                "dynamic_shared_memory_type=mmap",
            ],
            cwd=folder,
            stdout=subprocess.DEVNULL,
            stderr=subprocess.DEVNULL,
        )
    )
    await_true("PostgreSQL", lambda: os.path.exists(f"{folder}/.s.PGSQL.5432"))
    time.sleep(1)
    try:
        yield f"host={folder} user=postgres dbname=postgres"
    finally:
        server.send_signal(signal.SIGINT)
        server.wait(30)


def psql(place: str, statement: str) -> list[tuple]:
    """What PostgreSQL's own program finds."""
    run = subprocess.run(
        ["psql", "-X", "-A", "-t", "-F", "\t", "-P", "null=None", place, "-c", statement],
        capture_output=True,
        text=True,
        timeout=60,
    )
    check(run.returncode == 0, "psql:", run.stderr)
    read = lambda word: None if word == "None" else int(word) if re.fullmatch(r"-?\d+", word) else word
    return [tuple(map(read, line.split("\t"))) for line in run.stdout.splitlines()]


def one_line(run: subprocess.CompletedProcess, status: int, said: str, *words: object) -> None:
    check(
        run.returncode == status and run.stdout == "" and said in run.stderr and run.stderr.count("\n") == 1,
        *words,
        run.returncode,
        run.stdout,
        run.stderr,
    )


def judge_found(database: str, table: Table, shown: list[Shown], number: int) -> None:
    """The states that were found behind an action are those that the program shows there."""
    found = rows_of(
        database,
        "SELECT tag, priority, after, flags, since FROM change WHERE number = ? AND before IS NULL ORDER BY alarm",
        number,
    )
    since = {row[2]: row[9] for row in change_rows(shown[: number + 1], table)}
    wanted = [
        (
            alarm.tag,
            shown[number].priorities[place],
            shown[number].states[place][0],
            shown[number].states[place][2],
            since.get(alarm.tag),
        )
        for place, alarm in enumerate(table.alarms)
    ]
    check(found == wanted, "behind a gap was found", found, "and the program shows", wanted)
