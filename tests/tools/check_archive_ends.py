"""How an archiver ends and what a reader sees: wrong words, missing libraries, full disks, pruning, other users."""
import ast
import contextlib
import os
import pathlib
import pwd
import random
import re
import signal
import sqlite3
import subprocess
import sys
import time
from dataclasses import replace
from lib.drawn_plants import CONSOLE, Hand, draw_plant, module, new_device
from alarms.client import CLOCK, FEED, Client
from lib.places import AT_TOOLS, TOOLS
from lib.program import check
from lib.tools import Yard, await_said, await_true
from archives import (
    ACTIONS,
    AS_ANOTHER,
    PLANT,
    SEGMENT,
    archive_once,
    archive_stopped,
    archiver,
    last_archived,
    one_line,
    plants_of,
    rows_of,
    run_tool,
)


def ends(yard: Yard, _count: int) -> str:
    """Each tool ends by one line and a status: Ctrl-C, a full disk, wrong words, no server, no archive, no library."""
    device, database = yard.format("ends.device", PLANT), yard.path("ends.sqlite")
    server = yard.serve(device)
    with Client.connect(server.port, FEED) as feed, Client.connect(server.port, CLOCK) as clock:
        for moment in range(1000, 3000, 10):
            clock.clock(moment)
            feed.value(0, 800 if moment % 20 else 700) if moment > 1000 else None
    running = archiver(yard.path("second.sqlite"), server.port)
    await_said(running, "a new archive\n")
    running.send_signal(signal.SIGINT)
    said = running.communicate(timeout=60)[1]
    check(running.returncode == 130 and "Traceback" not in said, "Ctrl-C:", running.returncode, said)
    server.end()
    archive_stopped(device, database, name="ends")
    full_disk(yard, device)
    wrong_words(yard, device, database, server.port)
    without_libraries(yard, database)
    pages_and_full_output(device, database)
    return "ends of each tool"


def wrong_words(yard: Yard, device: str, database: str, port: int) -> None:
    """Words, files and databases that are none are refused in a line."""
    text, empty = yard.write("text", "no archive " * 100), yard.path("empty.sqlite")
    with contextlib.closing(sqlite3.connect(empty)) as connection:
        connection.execute("CREATE TABLE one (two)")
    run, prune, there = ("archive", "run"), ("archive", "prune", database), ("reports", database)
    for status, said, *words in (
        (2, "required", "archive"),
        (2, "invalid choice", "archive", "walk"),
        (2, "required", *run, database),
        (2, "isn't a port", *run, database, "--port", 1),
        (2, "alm_archive run DATABASE --port P --name PLANT; ", *run, device, database, "--port", port),
        (2, "alm_archive run DATABASE --port P --name PLANT; ", *run, device, database, "--sockets", yard.folder),
        (2, "by --stopped, once the server has ended", *run, device, database, "--port", port, "--once"),
        (2, "is no moment", *prune, "--name", "ends", "--before", "yesterday"),
        (2, "unrecognized", *there, "--walk"),
        (2, "is no moment", *there, "--from", "2026-13-01"),
        (1, "Connection refused", *run, database, "--port", port, "--once"),
        (1, "no such file", "archive", "list", yard.path("none")),
        (1, "no such file", "reports", yard.path("none")),
        (1, "not a database", "reports", text),
        (1, "is no archive", "reports", empty),
        (1, "no plant of the name", *prune, "--name", "x", "--before", 5),
        (1, "no actions of a plant of the name x", *there, "--name", "x"),
        (1, "nothing of ends in that span", *there, "--from", 9000),
        (1, "no area 7", *there, "--area", 7),
        (1, "unable to open", *run, "/", "--port", port, "--once"),
        (1, "unable to open", *run, device, "/", "--stopped"),
    ):
        one_line(run_tool(*words), status, said, words)


def without_libraries(yard: Yard, database: str) -> None:
    """A tool without its library says which package to install."""
    fakes = yard.path("fakes")
    os.mkdir(fakes)
    for library in ("psycopg", "matplotlib"):
        pathlib.Path(fakes, f"{library}.py").write_text("raise ImportError\n", encoding="ascii")
    without = {**AT_TOOLS, "PYTHONPATH": f"{AT_TOOLS['PYTHONPATH']}:{fakes}"}
    none = "postgresql://nobody@127.0.0.1:1/none"
    for said, *words in (
        ("python3-psycopg", "archive", "list", none),
        ("python3-matplotlib", "reports", database, "--png", yard.path("png")),
    ):
        one_line(
            subprocess.run(module(*words), env=without, capture_output=True, text=True, timeout=60), 1, said, words
        )


def pages_and_full_output(device: str, database: str) -> None:
    """Each tool prints its page with --help, and says so where its output is full."""
    for name, *words in (
        ("archive",),
        ("archive", "run"),
        ("archive", "list"),
        ("archive", "prune"),
        ("reports",),
        ("mirror",),
    ):
        run = run_tool(name, *words, "--help")
        page = ast.get_docstring(ast.parse((TOOLS / "alarms" / f"{name}.py").read_text(encoding="utf-8")), clean=False)
        check(
            run.returncode == 0 and (words or page.strip() in run.stdout) and not run.stderr,
            name,
            words,
            run.stdout,
            run.stderr,
        )
    with open("/dev/full", "w", encoding="ascii") as full:
        for words in (("archive", "list", database), ("reports", database), ("mirror", device)):
            run = subprocess.run(
                module(*words), env=AT_TOOLS, stdout=full, stderr=subprocess.PIPE, text=True, timeout=60
            )
            check(
                run.returncode == 1 and "No space left" in run.stderr and "Traceback" not in run.stderr,
                words,
                run.returncode,
                run.stderr,
            )


def full_disk(yard: Yard, device: str) -> None:
    """On a full disk the archiver ends, and goes on where it was once there is room; a report says so too."""
    folder = yard.path("small")
    os.mkdir(folder)
    small = (
        os.geteuid() == 0
        and subprocess.run(["mount", "-t", "tmpfs", "-o", "size=48k", "tmpfs", folder], capture_output=True).returncode
        == 0
    )
    database = os.path.join(folder, "full.sqlite")
    limit = () if small else ("prlimit", "--fsize=24000")
    try:
        run = run_tool("archive", "run", device, database, "--stopped", before=limit)
        check(run.returncode == 1 and "Traceback" not in run.stderr, "on a full disk:", run.returncode, run.stderr)
        check(re.search(r"disk is full|disk I/O error|File too large", run.stderr.splitlines()[-1]), run.stderr)
        if small:
            run = run_tool("reports", yard.path("ends.sqlite"), "--csv", os.path.join(folder, "csv"))
            one_line(run, 1, "No space left", "reports on a full disk")
            subprocess.run(["mount", "-o", "remount,size=4m", folder], check=True)
        archive_stopped(device, database, name="full")
        check(
            rows_of(database, "SELECT number, moment, word FROM action")
            == rows_of(yard.path("ends.sqlite"), "SELECT number, moment, word FROM action"),
            "others",
        )
    finally:
        if small:
            subprocess.run(["umount", folder], check=True)


def pruned(yard: Yard, count: int) -> str:
    """Behind a pruning the figures of what is kept are what they were, the archive goes on, and the gap is told."""
    dice = random.Random(51)
    table = draw_plant(dice, 12, 3, SEGMENT)
    table.alarms[2] = replace(table.alarms[2], max_shelve=604_800)
    device, database, hand = (
        new_device(yard, "pruned", table),
        yard.path("pruned.sqlite"),
        Hand(dice, table, 1_790_000_000),
    )
    server = yard.serve(device)
    hand.connect(server)
    # these three stay as they are from here on
    hand.ask_at(CLOCK, [f"CLOCK {hand.moment}"])
    hand.ask_at(FEED, [f"VAL 0 {table.alarms[0].coming}"])
    hand.ask_at(CONSOLE, ["ACK 0", "OOS 1 ON", f"SHELVE 2 {table.alarms[2].max_shelve}"])
    while len(hand.accepted) < min(1200, count):
        hand.ask(40, 3)
    hand.leave()
    server.end()
    archive_stopped(device, database)
    server = yard.serve(device, server.port)
    moments = [row[1] for row in rows_of(database, ACTIONS, 1) if row[1]]
    begin, before = moments[len(moments) // 2], moments[len(moments) // 3]
    reports = []
    for turn in range(2):
        folder = yard.path(f"csv{turn}")
        run = run_tool("reports", database, "--from", begin, "--csv", folder)
        check(run.returncode == 0, run.stderr)
        reports.append({name: pathlib.Path(folder, f"{name}.csv").read_text(encoding="utf-8") for name in UNCHANGED})
        if turn == 0:
            run = run_tool("archive", "prune", database, "--name", "plant", "--before", before)
            check(run.returncode == 0, run.stderr)
    check(reports[0] == reports[1], "another report behind a pruning")
    kept = [row for row in moments if row >= before]
    check([row[1] for row in rows_of(database, ACTIONS, 1)] == kept, "others were pruned")
    hand.connect(server)
    hand.ask(100, 3)
    check(archive_once(database, server.port) == "", "the archive doesn't go on")
    check(
        [row[0] for row in rows_of(database, ACTIONS, 1)]
        == list(range(len(hand.accepted) - len(rows_of(database, ACTIONS, 1)) + 1, len(hand.accepted) + 1)),
        "numbers",
    )
    hand.leave()
    server.end()
    run = run_tool("archive", "run", database, "--port", server.port, "--seconds", 1.5)
    check(
        run.returncode == 0 and run.stderr.count("\n") == 1 and "trying again" in run.stderr,
        "without a server:",
        run.returncode,
        run.stderr,
    )
    listed = run_tool("archive", "list", database).stdout
    check(listed.count("gap") == 1 and "pruned" in listed and "plant 2" not in listed, listed)
    return f"{len(moments) - len(kept)} of {len(moments)} actions pruned"


def readers(yard: Yard, _count: int) -> str:
    """Whoever may read the file alone makes reports, while it is written and while it isn't; and a reader doesn't end
    an archiver."""
    if os.geteuid():
        return "not root: other users left out"
    device, database = yard.format("readers.device", PLANT), yard.path("readers.sqlite")
    for folder in (yard.folder, os.path.dirname(yard.folder)):
        os.chmod(folder, 0o711)
    server = yard.serve(device)
    counts = []
    with Client.connect(server.port, FEED) as feed, Client.connect(server.port, CLOCK) as clock:
        for turn, ending in enumerate((None, signal.SIGKILL, signal.SIGINT)):
            running = archiver(database, server.port, stdout=subprocess.DEVNULL, stderr=subprocess.DEVNULL)
            await_true("an archive", lambda: plants_of(database) == 1)
            clock.clock(1000 + 10 * turn)
            last = [feed.value(0, 800), feed.value(0, 700)][1]
            await_true("the last action", lambda: last_archived(database) == last)
            os.chmod(database, 0o644)
            if ending:
                running.send_signal(ending)
                running.communicate(timeout=60)
            counts.append(read_as_nobody(database))
            held_open(running, database, clock, turn) if ending is None else None
    server.end()
    check(counts == ["1", "2", "3"], "another user reads", counts)
    return "reports of another user"


def read_as_nobody(database: str) -> str:
    """How many annunciations another user reads. A process of its own: a fork beside threads may wait for ever for what
    they hold."""
    nobody = pwd.getpwnam("nobody")
    command = [sys.executable, "-c", AS_ANOTHER, database, str(nobody.pw_uid), str(nobody.pw_gid)]
    run = subprocess.run(command, env=AT_TOOLS, capture_output=True, text=True, timeout=60)
    return run.stdout.strip() or run.stderr


def held_open(running: subprocess.Popen, database: str, clock: Client, turn: int) -> None:
    """An archiver waits for a reader."""
    with contextlib.closing(sqlite3.connect(database)) as reader:
        reader.execute("BEGIN")
        before = reader.execute("SELECT COUNT(*) FROM action").fetchone()
        clock.clock(1000 + 10 * turn + 5)
        time.sleep(1)
        check(
            running.poll() is None and reader.execute("SELECT COUNT(*) FROM action").fetchone() == before,
            "a reader sees what comes later",
        )
    running.kill()
    running.communicate()


UNCHANGED = (
    "summary",
    "hours",
    "ten_minutes",
    "areas",
    "frequent",
    "chattering",
    "priorities",
    "acknowledgements",
    "suppressed",
)
