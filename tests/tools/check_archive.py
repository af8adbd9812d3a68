"""The archive against the built program: kills, pauses, replaced devices and ends. tests/tools/history.py runs these
checks."""
import os
import pathlib
import random
import shutil
import signal
import subprocess
import sys
import threading
import time
from dataclasses import replace

from lib.drawn_plants import Hand, draw_plant, new_device
from alarms.client import CLOCK, FEED, Client, Lost, Refused
from check_journal import SLOW, held_actions, syncs
from lib.program import check
from lib.server import Server
from slow_count import change_rows, replay
from alarms.table_file import LEAST_SEGMENT, Alarm, Table
from lib.tools import Yard, await_said, await_true, tool
from archives import (
    ACTIONS,
    CHANGES,
    PLANT,
    SEGMENT,
    SYNC,
    archive_once,
    archive_stopped,
    archiver,
    judge,
    postgresql,
    psql,
    python_with,
    request_of,
    rows_of,
    run_tool,
)
from check_archive_ends import ends, pruned, readers
from archives import judge_found


class Killed:
    """A server and an archiver that are killed at drawn moments while requests are asked, and started again. What a
    server leaves on its device is archived before the next one begins."""

    def __init__(self, yard: Yard, database: str, kills: int, python: str = sys.executable):
        self.yard, self.database, self.kills, self.python = yard, database, kills, python
        self.dice = random.Random(kills)
        self.table = draw_plant(self.dice, 12, 3, SEGMENT)
        self.device = new_device(yard, "killed", self.table)
        self.hand = Hand(self.dice, self.table)
        self.server = yard.serve(self.device)
        self.hand.connect(self.server)
        archive_once(database, self.server.port, python=python)
        self.archiver = self.start()
        # who has it starts and ends the archiver
        self.starting = threading.Lock()
        self.done = threading.Event()
        self.wrong: list[str] = []

    def start(self) -> subprocess.Popen:
        return archiver(self.database, self.server.port, python=self.python, stdout=subprocess.DEVNULL)

    def stop(self) -> None:
        self.archiver.kill()
        self.archiver.communicate()

    def run(self) -> None:
        """Kills both so many times."""
        killer = threading.Thread(target=self.kill_archivers)
        killer.start()
        killed = 0
        while killed < self.kills or not self.done.is_set():
            try:
                self.hand.ask(30)
                time.sleep(0.01)
                if self.dice.random() < 0.08 and killed < self.kills:
                    killed += 1
                    threading.Timer(self.dice.random() * 0.01, self.server.process.kill).start()
            except Lost:
                self.restart()
        killer.join()
        check(not self.wrong, *self.wrong)
        self.finish()

    def restart(self) -> None:
        self.hand.leave()
        self.server.end()
        with self.starting:
            self.stop()
            archive_stopped(self.device, self.database, "--existing", python=self.python)
            self.server = self.yard.serve(self.device, self.server.port)
            self.archiver = self.start()
        self.hand.connect(self.server)

    def kill_archivers(self) -> None:
        for _ in range(self.kills):
            time.sleep(0.1 + self.dice.random() * 0.6)
            with self.starting:
                if self.archiver.poll() is not None:
                    self.wrong.append(f"an archiver ended by itself: {self.archiver.communicate()}")
                    break
                self.stop()
                self.archiver = self.start()
        self.done.set()

    def finish(self) -> None:
        """Waits until all is archived."""
        time.sleep(0.1)  # no timer kills any more
        try:
            self.total = self.hand.count()
        except Lost:
            self.restart()
            self.total = self.hand.count()
        self.stop()
        archive_once(self.database, self.server.port, python=self.python)
        self.hand.leave()
        self.server.end()


def kills(yard: Yard, count: int) -> str:
    """Over kills of both each action is archived once, with what the program shows of it."""
    number = max(4, count // 200)
    killed = Killed(yard, yard.path("killed.sqlite"), number)
    killed.run()
    judge(yard, killed.table, lambda statement: rows_of(killed.database, statement, 1), killed.hand, killed.total)
    check(
        not [row for row in rows_of(killed.database, "SELECT * FROM gap")]
        and rows_of(killed.database, "SELECT COUNT(*) FROM plant") == [(1,)],
        "gaps",
    )
    return f"{killed.total} actions archived over {number} kills of the archiver and {number} of the server"


def kills_postgresql(yard: Yard, count: int) -> str:
    """The same over PostgreSQL."""
    python = python_with("psycopg")
    if not python or not shutil.which("psql"):
        return "no psycopg or no PostgreSQL: left out"
    number = max(3, count // 200)
    with postgresql(yard) as place:
        killed = Killed(yard, place, number, python)
        killed.run()
        judge(yard, killed.table, lambda statement: psql(place, statement.replace("?", "1")), killed.hand, killed.total)
        listed = run_tool("archive", "list", place, python=python)
        check(
            listed.returncode == 0
            and f"plant plant 1: {killed.total} actions" in listed.stdout
            and "gap" not in listed.stdout,
            listed.stdout,
            listed.stderr,
        )
        pruned = run_tool(
            "archive", "prune", place, "--name", "plant", "--before", killed.hand.moment // 2, python=python
        )
        check(
            pruned.returncode == 0 and psql(place, "SELECT why FROM gap") == [("pruned",)], pruned.stdout, pruned.stderr
        )
    gone = run_tool("archive", "list", place, python=python)
    check(gone.returncode == 1 and gone.stderr.count("\n") == 1 and "Traceback" not in gone.stderr, gone.stderr)
    return f"{killed.total} actions in PostgreSQL over {number} kills of each"


def not_ahead(yard: Yard, _count: int) -> str:
    """An action is archived once it is synced, though it stands in the file before."""
    if not shutil.which("cc"):
        return "no compiler: an action before its reply left out"
    library, device, database = yard.path("slow.so"), yard.format("slow.device", PLANT), yard.path("slow.sqlite")
    subprocess.run(["cc", "-O2", "-shared", "-fPIC", "-o", library, SLOW], check=True)
    server = yard.serve(
        device, loaded={"LD_PRELOAD": library, "SYNC_US": str(int(SYNC * 10**6)), "SYNC_COUNT": yard.path("syncs")}
    )
    with Client.connect(server.port, FEED, patience=60) as feed:
        running = archiver(database, server.port)
        await_said(running, "a new archive\n")
        needed, early = syncs(yard) + 2, []
        feed.send("1 VAL 0 800\n")

        def is_there() -> bool:
            archived, in_file, synced = (
                rows_of(database, "SELECT COUNT(*) FROM action")[0][0],
                held_actions(device) == 1,
                syncs(yard) >= needed,
            )
            check(synced or not archived, "the archive has an action before its reply")
            early.append(in_file and not synced)
            return archived == 1

        await_true("the action in the archive", is_there)
        check(any(early), "the action wasn't in the file before its last sync")
        check(feed.receive() == "1 OK 1\n", "VAL wasn't taken")
        running.kill()
        running.communicate()
        was_early = begun_early(yard, device, feed, server)
    server.end()
    return "nothing before its reply" + (
        "" if was_early else "; this machine is too busy to begin an archive within a sync"
    )


def begun_early(yard: Yard, device: str, feed: Client, server: Server) -> bool:
    """Nor does one that begins just then; whether it was done before the sync was."""
    needed = syncs(yard) + 2
    feed.send("2 VAL 0 700\n")
    await_true("the action in the file", lambda: held_actions(device) == 2)
    archive_once(yard.path("early.sqlite"), server.port)
    was_early = syncs(yard) < needed
    check(
        not was_early or rows_of(yard.path("early.sqlite"), "SELECT begins FROM plant") == [(1,)],
        "an archive that begins has an action before its reply",
    )
    return was_early


class Course:
    """A device of a name, served again and again; what each of its plants was asked."""

    def __init__(self, yard: Yard, seed: int, segment: int = SEGMENT):
        self.yard, self.dice = yard, random.Random(seed)
        self.table = draw_plant(self.dice, 8, 2, segment)
        self.device, self.database = new_device(yard, "course", self.table), yard.path("course.sqlite")
        self.port, self.moment = 0, 1_790_000_000

    def ask(self, count: int, known: dict[int, str]) -> dict[int, str]:
        """Serves the device and asks; the accepted actions of its plant, those of before among them."""
        server = self.yard.serve(self.device, self.port)
        self.port = server.port
        hand = Hand(self.dice, self.table, self.moment)
        hand.accepted.update(known)
        hand.connect(server)
        hand.ask(count)
        hand.leave()
        self.server, self.moment = server, hand.moment
        return hand.accepted

    def archive(self) -> str:
        """Stops the server, and archives its device; what that says."""
        self.server.end()
        return archive_stopped(self.device, self.database)

    def put(self, path: str) -> None:
        """Another file in the place of the device."""
        os.replace(path, self.device)

    def copy(self, name: str) -> str:
        return shutil.copyfile(self.device, self.yard.path(name))


def pauses(yard: Yard, count: int) -> str:
    """What a stopped device still holds is archived behind a pause; what is gone is a gap, and behind it stands what
    the program shows."""
    course, accepted = Course(yard, 31, LEAST_SEGMENT), dict[int, str]()
    for turn in range(max(4, count // 1000)):
        accepted = course.ask(course.dice.choice([20, 150]), accepted)
        course.archive()
        is_whole = not rows_of(course.database, "SELECT * FROM gap WHERE first > ?", len(accepted) - 200)
        check(is_whole, "a gap where the device had all of it")
        accepted = course.ask(1600 if turn % 2 else 60, accepted)
        said = course.archive()
        check(("no longer in the file" in said) == bool(turn % 2), "it said", said)
    shown = replay(yard, course.table, [accepted[one] for one in sorted(accepted)])
    gaps = rows_of(course.database, "SELECT first, last, began, ended FROM gap ORDER BY first")
    missing = {number for first, last, _, _ in gaps for number in range(first, last + 1)}
    numbers = [row[0] for row in rows_of(course.database, ACTIONS, 1)]
    check(sorted([*numbers, *missing]) == list(range(1, len(shown))), "actions and gaps aren't each number once")
    check(
        rows_of(course.database, CHANGES, 1)
        == [row for row in change_rows(shown, course.table) if row[0] not in missing],
        "other changes",
    )
    for first, last, began, ended in gaps:
        check((began, ended) == (shown[first - 1].moment, shown[last].moment), "the gap's moments are", began, ended)
        judge_found(course.database, course.table, shown, last)
    return f"{len(gaps)} gaps of {len(missing)} actions, {len(numbers)} archived"


def plants(yard: Yard, _count: int) -> str:
    """An older copy, a moved device, a changed table: another plant of the same name, or the same."""
    course = Course(yard, 41)
    first = course.ask(200, {})
    course.archive()
    backup, after_backup = course.copy("backup"), dict(first)
    first = course.ask(100, first)
    said = course.archive()
    check("plant" not in said and len(rows_of(course.database, "SELECT * FROM plant")) == 1, said)
    course.put(course.copy("moved"))
    first = course.ask(50, first)
    check(course.archive() == "", "a moved device isn't the same plant")
    course.put(backup)
    second = course.ask(40, after_backup)
    said = course.archive()
    check("plant 2" in said and "its actions aren't those" in said, "of an older copy it says", said)
    backup, after_backup = course.copy("backup"), dict(second)
    second = course.ask(30, second)
    course.archive()
    course.put(backup)
    third = course.ask(300, after_backup)
    said = course.archive()
    check("plant 3" in said and "its actions aren't those" in said, "of a copy with more actions it says", said)
    numbered = {1: first, 2: second, 3: third}
    for plant, accepted in numbered.items():
        numbers = {alarm.tag: number for number, alarm in enumerate(course.table.alarms)}
        there = {
            row[0]: request_of(row[2], numbers.get(row[3], -1), row[4])
            for row in rows_of(course.database, ACTIONS, plant)
        }
        check(there == accepted, "plant", plant, "has", len(there), "actions, wanted are", len(accepted))
    changed_table(yard, course)
    return "an older copy, a moved device, a changed table"


def changed_table(yard: Yard, course: Course) -> None:
    """An archiver that runs on while the table is changed goes on with another plant, and a report counts what was
    brought once."""
    server = yard.serve(course.device, course.port)
    running = archiver(course.database, course.port)
    with Client.connect(course.port, CLOCK) as clock, Client.connect(course.port, FEED) as feed:
        clock.clock(course.moment + 10_000)
        for number, alarm in enumerate(course.table.alarms):
            for value in (alarm.going, alarm.coming):
                try:
                    feed.value(number, value)
                except Refused:
                    pass
        count = clock.clock(course.moment + 10_001)
    await_true(
        "the last action",
        lambda: rows_of(course.database, "SELECT MAX(number) FROM action WHERE plant = 3") == [(count,)],
    )
    server.end()
    new = Table(course.table.size, course.table.areas, [*course.table.alarms, Alarm("high", 5, 1, 0, "NEW-1")])
    fresh = new_device(yard, "fresh", replace(new, size=course.table.size + 1000))
    brought = tool("alm_change_table", course.device, yard.path("fresh.toml"), "--program", yard.program)
    yard.run("desk", fresh, lines=brought.stdout)
    course.put(fresh)
    server = yard.serve(course.device, course.port)
    await_true("the plant", lambda: rows_of(course.database, "SELECT MAX(plant) FROM plant") == [(4,)])
    with Client.connect(course.port, CLOCK) as clock, Client.connect(course.port, FEED) as feed:
        clock.clock(course.moment + 10_050)
        last = feed.value(len(course.table.alarms), 7)
    await_true(
        "the changed table",
        lambda: rows_of(course.database, "SELECT MAX(number) FROM action WHERE plant = 4") == [(last,)],
    )
    running.send_signal(signal.SIGINT)
    said = running.communicate(timeout=60)[1]
    check(
        running.returncode == 130
        and "Traceback" not in said
        and "plant 4" in said
        and "the table is another one" in said,
        running.returncode,
        said,
    )
    server.end()
    folder = yard.path("csv")
    report = run_tool("reports", course.database, "--from", course.moment + 10_001, "--csv", folder)
    check(
        report.returncode == 0 and "annunciations                                          1\n" in report.stdout,
        report.stdout,
        report.stderr,
    )
    newest, *others = reversed(
        [line.split(",") for line in pathlib.Path(folder, "standing.csv").read_text(encoding="utf-8").splitlines()[1:]]
    )
    check(newest[:5] == ["NEW-1", "1", "0", "UNACK", str(course.moment + 10_050)], newest)
    check(
        others and all(int(row[4]) <= course.moment + 10_000 for row in others),
        "what stood before stands since",
        others,
    )


# Each check by its name. Those that mostly wait come first.
CHECKS = {
    "not_ahead": not_ahead,
    "postgresql": kills_postgresql,
    "kills": kills,
    "ends": ends,
    "plants": plants,
    "pauses": pauses,
    "pruned": pruned,
    "readers": readers,
}
