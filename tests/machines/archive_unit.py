"""The unit of the archive: what it archives while server and archiver are killed, and what it can reach."""
import os
import sqlite3

import systemd
from systemd import FOLDER, SERVER, active, ask_all, await_true, blocks_of, check, count, moves, output, run, state_of

ARCHIVE_UNIT, ARCHIVE = "alm_archive@plant", "/var/lib/alarms-archive/plant.sqlite"
# Actions that are asked just before something is killed.
BURST = 60


def rows(query, *values):
    """What SQLite finds in the archive, as whoever may read it."""
    with sqlite3.connect(f"file:{ARCHIVE}?mode=ro", uri=True) as kept:
        return kept.execute(query, values).fetchall()


def burst():
    """Asks for actions at a console, each of which is done."""
    replies = ask_all(FOLDER, 3, "".join(f"{at} PRIO 0 {4 - at % 2}\n" for at in range(BURST)).encode())
    check(sum(" OK " in reply for reply in replies) >= BURST - 1, "it was answered", replies[:4])


def is_whole(what):
    """The archive has each action of the plant that is served, once; no gap is told."""
    last = count()
    newest = "(SELECT MAX(plant) FROM plant)"
    numbers = lambda: [number for number, in rows(f"SELECT number FROM action WHERE plant = {newest} ORDER BY number")]
    await_true(f"{what}: action {last} in the archive", lambda: numbers()[-1:] >= [last])
    found = numbers()
    check(found == list(range(1, len(found) + 1)), what, "it has", len(found), "actions up to", found[-1])
    check(rows("SELECT * FROM gap") == [], what, "it has the gaps", rows("SELECT * FROM gap"))


def main_process(unit):
    return int(output("systemctl", "show", "-P", "MainPID", unit))


def killed(unit):
    """A unit's process is killed, behind many actions, and comes back."""
    before = main_process(unit)
    burst()
    os.kill(before, 9)
    await_true(f"another process of {unit}", lambda: main_process(unit) not in (before, 0))
    active(SERVER, ARCHIVE_UNIT)
    moves()


def archive_part():
    """The page's block begins the archive with what the device holds. Then nothing is missing, whatever is killed or
    stopped, and the unit doesn't reach the device."""
    run(blocks_of("Take it into use", os.path.join(systemd.PAGES, "HISTORY.md"))[0])
    active(SERVER, ARCHIVE_UNIT)
    is_whole("as it began")
    inside = f"/proc/{main_process(ARCHIVE_UNIT)}/root"
    check(os.path.exists(f"{inside}{ARCHIVE}"), "it has no archive")
    for path in ("/var/lib/alarms/plant.device", "/var/lib/alarms-browser/plant.sqlite"):
        check(not os.path.exists(inside + path), "it reaches", path)
    for unit in (ARCHIVE_UNIT, SERVER, SERVER):
        killed(unit)
        is_whole(f"behind a kill of {unit}")
    burst()
    run("systemctl stop alm_server@plant")
    check(state_of(ARCHIVE_UNIT) == "inactive", "the archiver is", state_of(ARCHIVE_UNIT))
    run("systemctl start alm_server@plant")
    active(SERVER, ARCHIVE_UNIT)
    moves()
    is_whole("behind a stop")


def archive_end():
    """Copies, other tables and clocks were other plants, and nothing of any is missing."""
    is_whole("in the end")
    plants = rows("SELECT plant, ends FROM plant ORDER BY plant")
    check(len(plants) > 2 and None not in [ends for _, ends in plants[:-1]], "its plants are", plants)
    for plant, ends in plants[:-1]:
        query = "SELECT COUNT(*), MIN(number), MAX(number) FROM action WHERE plant = ?"
        check(rows(query, plant) == [(ends, 1, ends)], "of plant", plant, "up to", ends, "it has", rows(query, plant))
    output("systemctl", "disable", "--now", ARCHIVE_UNIT)
