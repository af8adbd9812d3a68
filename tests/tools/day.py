#!/usr/bin/env python3
"""A drawn day of a plant in two archives: one by the server's lines alone, and one to which each server's end is
added from the device, as the units do.

    tests/tools/day.py PROGRAM [--short] [--seed N]

All eighteen slots are taken: sixteen clients ask and write down each reply, two are the archivers'. Server and
archivers are killed at drawn moments, the archivers are off for a while, the table is changed, and an older copy is
restored. Then each action of each plant is in each archive once, under its number and with who asked, as the clients
wrote it down; or it lies in a gap that is told, and in one alone. What actions did is what the program shows of them.
An action that had no reply may be there or not. A seed draws the same day; threads run as they do.
"""
import os
import random
import shutil
import subprocess
import sys
import time

from alarms.client import Lost, Refused
from alarms.table_file import Alarm, Table
from archives import rows_of, run_tool
from day_clients import Crowd, Era
from day_judge import Ended, end_of_plant, judge_changes, judge_numbers
from lib.drawn_plants import draw_plant, new_device
from lib.places import AT_TOOLS
from lib.program import Wrong, begin, check, count_of, finish, run_words
from lib.server import Server
from lib.tools import Yard, await_true, end_all, started, tool

# The slots of the archivers: of the one with each server's end, and of the one by lines alone.
SLOTS = {"units": 13, "lines": 12}
# Turns of a day and of a short one, and requests of each client in a turn.
TURNS, FEW, REQUESTS = 24, 10, 40
SEGMENT = 2_000_000
# Rows are held against the server's each half a second, and the state is kept each second.
ARCHIVER = """
from alarms import archive, archive_check, archiver
archive_check.EVERY, archiver.KEEP = 0.5, 1.0
archive.main()
"""


class Archived:
    """An archiver that is killed and started again, and its archive."""

    def __init__(self, yard: Yard, way: str, device: str):
        self.yard, self.way, self.database = yard, way, yard.path(f"{way}.sqlite")
        self.device = device if way == "units" else ""
        self.running: subprocess.Popen | None = None
        self.kills = 0

    def words(self, *more: object) -> list[str]:
        return [self.database, "--name", "plant", *map(str, more)]

    def start(self, port: int) -> None:
        if self.running is None:
            command = [sys.executable, "-c", ARCHIVER, "run", *self.words("--port", port, "--slot", SLOTS[self.way])]
            log = open(self.yard.path(f"{self.way}.log"), "a", encoding="utf-8")
            self.running = started(subprocess.Popen(command, env=AT_TOOLS, stdout=log, stderr=log))
            log.close()

    def kill(self) -> None:
        if self.running is not None:
            check(self.running.poll() is None, self.way, "the archiver has ended", self.said())
            self.running.kill()
            self.running.wait()
            self.running, self.kills = None, self.kills + 1

    def said(self) -> str:
        return self.yard.read(f"{self.way}.log")

    def has(self, plant: int) -> bool:
        """Whether a plant is the last one of the archive."""
        return "a new archive" in self.said() and rows_of(self.database, "SELECT MAX(plant) FROM plant") == [(plant,)]

    def close(self) -> None:
        """Archives what a server left on its device, as its unit does."""
        if self.device:
            self.kill()
            run = run_tool("archive", "run", self.device, *self.words("--stopped", "--existing"))
            check(run.returncode == 0, "--stopped:", run.stdout, run.stderr)


class Day:
    """The plant of a day, its server, its clients and its archives."""

    def __init__(self, yard: Yard, seed: int):
        self.yard, self.dice = yard, random.Random(seed)
        table = draw_plant(self.dice, 12, 2, SEGMENT)
        self.device, self.era = new_device(yard, "plant", table), Era(table)
        self.eras: list[Ended | tuple[Era, int]] = []
        self.crowd = Crowd(seed, set(SLOTS.values()), 1_790_000_000)
        self.archives = [Archived(yard, way, self.device) for way in SLOTS]
        self.server: Server = yard.serve(self.device)
        self.port, self.server_kills, self.turns = self.server.port, 0, 0

    def turn(self) -> None:
        """All clients ask, and something happens meanwhile, or nothing does."""
        for one in self.archives:
            if self.dice.random() < 0.8:
                one.start(self.port)
        self.crowd.begin(self.era, self.port, REQUESTS)
        self.turns += 1
        for event in (self.kill_server, *(one.kill for one in self.archives)):
            # the server is killed in each fourth turn at least
            if self.dice.random() < 0.3 or (event == self.kill_server and self.turns % 4 == 2):
                time.sleep(self.dice.uniform(0, 0.3))
                event()
        self.crowd.end(self.era)
        if self.server is None:
            self.close()
            self.server = self.yard.serve(self.device, self.port)
        if self.dice.random() < 0.5:
            self.catch_up(count_of_served(self.server))

    def kill_server(self) -> None:
        self.server.end()
        self.server, self.server_kills = None, self.server_kills + 1

    def close(self) -> None:
        """Archives what the server left."""
        for one in self.archives:
            one.close()

    def stop(self) -> int:
        """Ends the server; how many actions its device has."""
        self.server.end()
        self.server = None
        self.close()
        shown = run_words(self.yard.program, ["show", self.device])
        check(shown.returncode == 0, "show:", shown.stderr)
        return count_of(shown.stdout)

    def put(self, device: str, era: Era) -> None:
        """Puts another device in the place of the one that is stopped, as the page's blocks do."""
        os.replace(device, self.device)
        self.close()
        self.era = era
        self.server = self.yard.serve(self.device, self.port)
        self.catch_up(0)

    def catch_up(self, last: int) -> None:
        """Both archives have the plant that is there now, up to an action or farther."""
        plant = len(self.eras) + 1
        for one in self.archives:
            one.start(self.port)
            await_true(
                f"action {last} of plant {plant} in the archive {one.way}",
                lambda one=one: one.has(plant) and last_of(one.database, plant) >= last,
            )

    def change_table(self) -> None:
        """The plant goes on with another table."""
        last, old = self.stop(), self.era.table
        self.eras.append((self.era, last))
        table = Table(old.size, old.areas, [*old.alarms, Alarm("high", 5, 1, 0, "NEW-1")])
        table = Table(table.size + 1000, table.areas, table.alarms)
        fresh, era = new_device(self.yard, "fresh", table), Era(table)
        brought = tool("alm_change_table", self.device, self.yard.path("fresh.toml"), "--program", self.yard.program)
        check(brought.returncode == 0, "alm_change_table:", brought.stderr)
        replies = self.yard.run("desk", fresh, lines=brought.stdout).splitlines()
        for line, reply in zip(brought.stdout.splitlines(), replies, strict=True):
            slot, _, request = line.split(" ", 2)
            era.take(int(slot), request, reply.partition(" ")[2])
        self.put(fresh, era)

    def copy(self) -> None:
        """A backup, of the stopped device."""
        self.kept = self.stop(), shutil.copyfile(self.device, self.yard.path("copy.device"))
        self.server = self.yard.serve(self.device, self.port)

    def restore(self) -> None:
        """The backup is put back, when the archives have more than it has: by its lines alone it would be the same
        plant else."""
        last, copy = self.kept
        self.catch_up(last + 1)
        self.turn()
        self.eras.append((self.era, self.stop()))
        self.put(copy, self.era.copy(last))

    def end(self) -> list[tuple[Era, int]]:
        """All is archived, and the day ends."""
        last = count_of_served(self.server)
        self.catch_up(last)
        for one in self.archives:
            one.kill()
        self.server.end()
        return [*self.eras, (self.era, last)]


def count_of_served(server: Server) -> int:
    """How many actions a server shows."""
    with server.connect(0) as one, one.makefile("rwb") as lines:
        lines.write(b"1 PLANT\n")
        lines.flush()
        return int(lines.readline().split()[2])


def last_of(database: str, plant: int) -> int:
    """The last action of a plant that is archived, or told as gone."""
    numbers = "SELECT number AS n FROM action WHERE plant = {0} UNION SELECT last FROM gap WHERE plant = {0}"
    return rows_of(database, f"SELECT MAX(n) FROM ({numbers.format(plant)})")[0][0] or 0


def run_day(yard: Yard, seed: int, turns: int) -> str:
    """The day, and what is judged of it."""
    day = Day(yard, seed)
    day.catch_up(0)
    changes, copies, restores = turns // 3, turns // 2, turns * 3 // 4
    for turn in range(turns):
        for at, event in ((changes, day.change_table), (copies, day.copy), (restores, day.restore)):
            if turn == at:
                event()
        day.turn()
    ended = day.end()
    databases = [one.database for one in day.archives]
    gone = dict.fromkeys(SLOTS, 0)
    for plant, (era, last) in enumerate(ended, 1):
        whole = end_of_plant(yard, plant, era, last, databases)
        for one in day.archives:
            judge_numbers(one.database, plant, whole)
            judge_changes(one.database, plant, whole)
            gone[one.way] += last - rows_of(one.database, "SELECT COUNT(*) FROM action WHERE plant = ?", plant)[0][0]
    for one in day.archives:
        check(rows_of(one.database, "SELECT * FROM denied") == [], one.way, "the server denied", one.said())
        check("Traceback" not in one.said(), one.said())
    total = sum(last for _, last in ended)
    check(gone["units"] == 0, "the archive with each server's end lacks", gone["units"])
    check(gone["lines"] < total * 3 / 4, "the archive by lines lacks", gone["lines"], "of", total)
    return (
        f"{total} actions of {len(ended)} plants, {day.server_kills} kills of the server, "
        f"{sum(one.kills for one in day.archives)} of archivers; by lines {gone['lines']} in gaps"
    )


def main() -> None:
    argv = list(sys.argv)
    seed = int(argv.pop(argv.index("--seed") + 1)) if "--seed" in argv[:-1] else 1
    argv = [word for word in argv if word != "--seed"]
    program, turns, folder = begin("day", argv, TURNS, FEW)
    began = time.monotonic()
    try:
        said = run_day(Yard(program, folder), seed, turns)
    except (Wrong, Lost, Refused, subprocess.TimeoutExpired) as wrong:
        sys.exit(f"day: seed {seed}: {wrong}; what was archived is in {folder}")
    finally:
        end_all()
    finish("day", folder, f"seed {seed}: {said}; none wrong, {time.monotonic() - began:.0f} s")


if __name__ == "__main__":
    main()
