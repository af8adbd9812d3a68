"""An archive by the server's lines alone. tests/tools/history.py runs this."""
import contextlib
import os
import random
import shutil
import signal
import sqlite3
import subprocess

from alarms.client import CLOCK, FEED, Client
from alarms.table_file import Table
from archives import (
    ACTIONS,
    CHANGES,
    PLANT,
    archive_once,
    archive_stopped,
    archiver,
    last_archived,
    plants_of,
    request_of,
    rows_of,
    run_tool,
)
from check_since import act
from lib.drawn_plants import CONSOLE, Hand, draw_plant, new_device
from lib.program import check
from lib.server import Server
from lib.tools import Yard, await_said, await_true
from slow_count import change_rows, replay

FLOOD = "SELECT flooded FROM flood WHERE plant = 1 AND area = ? ORDER BY number DESC LIMIT 1"
GAPS = "SELECT first, last, began, ended FROM gap WHERE plant = ? ORDER BY first"


def is_exact(yard: Yard, table: Table, database: str, hand: Hand) -> None:
    """Each action is there once, by its slot, with what the program shows of it."""
    actions = rows_of(database, ACTIONS, 1)
    check([row[0] for row in actions] == list(range(1, len(hand.accepted) + 1)), "not each action once", len(actions))
    numbers = {alarm.tag: number for number, alarm in enumerate(table.alarms)}
    requests = [request_of(word, numbers.get(tag, -1), value) for _, _, word, tag, value, _ in actions]
    check(requests == [hand.accepted[number] for number in sorted(hand.accepted)], "others than were accepted")
    slots = {"CLOCK": CLOCK, "VAL": FEED, "DESIGN": FEED}
    check([row[5] for row in actions] == [slots.get(row[2], CONSOLE) for row in actions], "other slots")
    shown = replay(yard, table, requests)
    check([row[1] for row in actions] == [one.moment for one in shown[1:]], "other moments")
    wanted, there = change_rows(shown, table), rows_of(database, CHANGES, 1)
    check(
        there == wanted, "what actions did is archived as", [one for one in zip(there, wanted) if one[0] != one[1]][:2]
    )


def by_lines(yard: Yard, count: int) -> str:
    """Without the device each action is archived with what it did and who asked. What comes while nobody asks, and just
    before a server ends, is a gap with both ends; another table begins another plant."""
    dice = random.Random(5)
    table = draw_plant(dice, 10, 2, 400_000)
    device, database = new_device(yard, "plant", table), yard.path("lines.sqlite")
    server, hand = yard.serve(device), Hand(dice, table)
    running = archiver(database, server.port)
    await_said(running, "a new archive\n")
    hand.connect(server)
    while len(hand.accepted) < min(600, count):
        hand.ask(40)
    await_true("all of them", lambda: last_archived(database) == len(hand.accepted))
    is_exact(yard, table, database, hand)
    with Client.connect(server.port, 9) as console:
        flooded = [int(flood.flooded) for flood in console.floods(table.areas)]
    check([rows_of(database, FLOOD, area)[0][0] for area in range(table.areas)] == flooded, "the floods are", flooded)
    check(rows_of(database, GAPS, 1) == [], "gaps from the first action on", rows_of(database, GAPS, 1))
    total = len(hand.accepted)
    running.send_signal(signal.SIGSTOP)
    hand.ask(20)
    hand.leave()
    server.end()
    server = yard.serve(device, server.port)
    running.send_signal(signal.SIGCONT)
    missed = len(hand.accepted)
    await_true("a gap", lambda: rows_of(database, GAPS, 1) != [])
    found = rows_of(database, GAPS, 1)
    check([row[:2] for row in found] == [(total + 1, missed)], "the gap is", found, "and not", total + 1, "to", missed)
    check(None not in found[0], "an end of it is open", found)
    with Client.connect(server.port, 3) as console:
        last = console.priority(0, console.row(0).priority % 4 + 1)
    await_true("what comes then", lambda: last_archived(database) == last == missed + 1)
    check(rows_of(database, ACTIONS, 1)[-1][5] == 3, "who asked then", rows_of(database, ACTIONS, 1)[-1])
    server.end()
    other_plant(yard, device, database, server.port)
    running.kill()
    running.communicate()
    return f"{total} actions by lines, a gap of {missed - total}"


def restarts(yard: Yard, count: int) -> str:
    """An archiver without the device that is killed goes on where it was: with what the server remembers, by the state
    that it kept and by what it archived since. Nothing is missing, and nothing there twice."""
    dice = random.Random(6)
    table = draw_plant(dice, 10, 2, 400_000)
    device, database = new_device(yard, "restarts", table), yard.path("restarts.sqlite")
    server, hand = yard.serve(device), Hand(dice, table)
    turns = 3 * max(2, count // 2000)
    for turn in range(turns):
        running = archiver(database, server.port)
        if turn == 0:
            await_said(running, "a new archive\n")
        hand.connect(server)
        hand.ask(60)
        if turn % 3 != 1:
            await_true("all of them", lambda: last_archived(database) == len(hand.accepted))
        running.kill()
        running.communicate()
        if turn % 3 == 2:  # the server has seen nothing of what comes before its start
            hand.leave()
            server.end()
            server = yard.serve(device, server.port)
            hand.connect(server)
        hand.ask(40)
        hand.leave()
    said = archive_once(database, server.port)
    check(said == "", "it says", said)
    check(rows_of(database, GAPS, 1) == [], "gaps", rows_of(database, GAPS, 1))
    check(rows_of(database, "SELECT COUNT(*) FROM plant") == [(1,)], "more plants than one")
    is_exact(yard, table, database, hand)
    server, copy = forgotten(yard, server, device, database, hand)
    another(yard, server, device, copy, database, hand)
    return f"{len(hand.accepted)} actions over {turns} kills of an archiver by lines"


def forgotten(yard: Yard, server: Server, device: str, database: str, hand: Hand) -> tuple[Server, str]:
    """What the server no longer remembers is a gap, and nothing else is. A copy of the device has all up to there."""
    last = len(hand.accepted)
    hand.connect(server)
    hand.ask(30)
    hand.leave()
    server.end()
    missed, copy = len(hand.accepted), shutil.copyfile(device, yard.path("copy.device"))
    server = yard.serve(device, server.port)
    said = archive_once(database, server.port)
    check(f"actions {last + 1} to {missed} of plant: " in said and said.count("\n") == 1, "of a gap it says", said)
    check([row[:2] for row in rows_of(database, GAPS, 1)] == [(last + 1, missed)], rows_of(database, GAPS, 1))
    hand.connect(server)
    hand.ask(50)
    hand.leave()
    check(archive_once(database, server.port) == "", "behind a gap it doesn't go on")
    check(last_archived(database) == len(hand.accepted) > missed, last_archived(database), len(hand.accepted))
    return server, copy


def another(yard: Yard, server: Server, device: str, copy: str, database: str, hand: Hand) -> None:
    """An older copy that is put in the device's place, and has more actions by then, is another plant."""
    before = rows_of(database, ACTIONS, 1)
    server.end()
    os.replace(copy, device)
    server = yard.serve(device, server.port)
    other = Hand(hand.dice, hand.table, hand.moment)
    other.connect(server)
    fewer = shutil.copyfile(database, yard.path("fewer.sqlite"))
    said = archive_once(fewer, server.port)
    check(f"the server has {other.count()} actions, and {before[-1][0]} are archived" in said, "of fewer it says", said)
    while other.count() < before[-1][0] + 20:
        other.ask(40)
    said = archive_once(database, server.port)
    check("its actions aren't those that were archived" in said, "of a copy it says", said)
    check(rows_of(database, ACTIONS, 1) == before, "the plant before has others")
    check(rows_of(database, GAPS, 2)[0][:2] == (1, other.count()), "of the copy is missing", rows_of(database, GAPS, 2))
    other.leave()
    server.end()


def other_plant(yard: Yard, device: str, database: str, port: int) -> None:
    """Another table in the device's place."""
    os.replace(yard.format("other.device", PLANT), device)
    server = yard.serve(device, port)
    await_true("another plant", lambda: rows_of(database, "SELECT COUNT(*) FROM plant") == [(2,)])
    act(server, (CLOCK, "CLOCK 1000"), (FEED, "VAL 0 800"), (7, "ACK 0"))
    await_true("its actions", lambda: len(rows_of(database, ACTIONS, 2)) == 3)
    check([row[2:] for row in rows_of(database, ACTIONS, 2)][-1] == ("ACK", "TI-101", None, 7), "its last action")
    check(rows_of(database, GAPS, 1)[-1][1] is None, "the end of the plant before is known", rows_of(database, GAPS, 1))
    run = run_tool("archive", "run", database, "--stopped")
    check(run.returncode == 2 and "--stopped wants a DEVICE" in run.stderr, "a stopped plant without a device", run)
    server.end()


def restored(yard: Yard, _count: int) -> str:
    """An older copy that is restored while an archiver runs, and has more actions by the time it looks again, is
    another plant."""
    dice = random.Random(9)
    table = draw_plant(dice, 6, 1, 400_000)
    device, database = new_device(yard, "restored", table), yard.path("restored.sqlite")
    copy, hand = shutil.copyfile(device, yard.path("copy.device")), Hand(dice, table)
    server = yard.serve(device)
    running = archiver(database, server.port)
    await_said(running, "a new archive\n")
    hand.connect(server)
    hand.ask(60)
    await_true("all of them", lambda: last_archived(database) == len(hand.accepted))
    before = rows_of(database, ACTIONS, 1)
    running.send_signal(signal.SIGSTOP)
    hand.leave()
    server.end()
    os.replace(copy, device)
    server = yard.serve(device, server.port)
    other = Hand(dice, table, hand.moment)
    other.connect(server)
    while other.count() < len(hand.accepted) + 20:
        other.ask(20)
    running.send_signal(signal.SIGCONT)
    await_true("another plant", lambda: rows_of(database, "SELECT COUNT(*) FROM plant") == [(2,)])
    check(rows_of(database, ACTIONS, 1) == before, "the plant before has others", rows_of(database, ACTIONS, 1)[-3:])
    running.kill()
    running.communicate()
    other.leave()
    server.end()
    return "a restored copy"


def pause(running: subprocess.Popen, database: str) -> None:
    """Stops an archiver where it stands, but not within a transaction, whose lock would stay."""
    while True:
        running.send_signal(signal.SIGSTOP)
        with contextlib.closing(sqlite3.connect(database, timeout=0.2)) as connection:
            try:
                connection.execute("BEGIN IMMEDIATE")
                connection.rollback()
                return
            except sqlite3.OperationalError:  # locked
                running.send_signal(signal.SIGCONT)


def is_whole(table: Table, database: str, plant: int, accepted: dict[int, str]) -> None:
    """Each action of a plant is there once, and no gap is."""
    numbers = {alarm.tag: number for number, alarm in enumerate(table.alarms)}
    actions = rows_of(database, ACTIONS, plant)
    found = {row[0]: request_of(row[2], numbers.get(row[3], -1), row[4]) for row in actions}
    check(len(found) == len(actions) and found == accepted, "of plant", plant, "there is", found, "and not", accepted)
    check({row[5] for row in actions} <= {CLOCK, FEED, CONSOLE, None}, "slots of plant", plant, actions)
    check(rows_of(database, GAPS, plant) == [], "of plant", plant, "is missing", rows_of(database, GAPS, plant))


def between(yard: Yard, count: int) -> str:
    """Between two servers the device is archived, or a copy from before the next start; the archiver by lines goes on
    behind it, whether it runs on or is started again. Nothing is missing, and nothing there twice. An older copy is
    another plant, and whole too."""
    dice = random.Random(11)
    table = draw_plant(dice, 10, 2, 400_000)
    device, database = new_device(yard, "between", table), yard.path("between.sqlite")
    server, hand = yard.serve(device), Hand(dice, table)
    running = archiver(database, server.port)
    await_said(running, "a new archive\n")
    turns = max(4, count // 500)
    for turn in range(turns):
        hand.connect(server)
        hand.ask(60)
        await_true("all of them", lambda: last_archived(database) == len(hand.accepted))
        pause(running, database)
        hand.ask(40)
        hand.leave()
        server.end()
        if turn == 0:
            older, kept = shutil.copyfile(device, yard.path("older.device")), dict(hand.accepted)
        server = archives_between(yard, server, device, database, is_copy=turn % 2 == 1)
        check(last_archived(database) == len(hand.accepted), "--stopped left out the end of", len(hand.accepted))
        if turn // 2 % 2:
            running.kill()
            running.communicate()
            running = archiver(database, server.port)
        else:
            running.send_signal(signal.SIGCONT)
    hand.connect(server)
    hand.ask(60)
    await_true("all of them", lambda: last_archived(database) == len(hand.accepted))
    is_whole(table, database, 1, hand.accepted)
    hand.leave()
    server.end()
    running.kill()
    running.communicate()
    archive_stopped(device, database, "--existing")
    os.replace(older, device)
    other = Hand(dice, table, hand.moment)
    server = archives_between(yard, server, device, database, is_copy=True)
    other.connect(server)
    other.ask(60)
    check(archive_once(database, server.port) == "", "behind a copy it isn't whole")
    is_whole(table, database, 1, hand.accepted)
    is_whole(table, database, 2, {**kept, **other.accepted})
    other.leave()
    server.end()
    return f"{len(hand.accepted)} actions over {turns} ends of a server"


def archives_between(yard: Yard, server: Server, device: str, database: str, is_copy: bool) -> Server:
    """The next server at the place of one that ended, and what that one's end left is archived: of the device before
    it, or of a copy behind its start."""
    if not is_copy:
        archive_stopped(device, database, "--existing")
        return yard.serve(device, server.port)
    ended = shutil.copyfile(device, yard.path("plant.ended"))
    following = yard.serve(device, server.port)
    archive_stopped(ended, database, "--existing")
    return following


def served_on(yard: Yard, device: str, hand: Hand, port: int = 0) -> Server:
    """A server, and what is asked of it."""
    server = yard.serve(device, port)
    hand.connect(server)
    hand.ask(60)
    hand.leave()
    return server


def begun_empty(yard: Yard, _count: int) -> str:
    """An archive that began by lines, and has no action yet, goes on as the same plant by --stopped."""
    device, database = yard.format("empty.device", PLANT), yard.path("empty.sqlite")
    server = yard.serve(device)
    act(server, (CLOCK, "CLOCK 1000"), (FEED, "VAL 0 800"))
    archive_once(database, server.port)
    act(server, (3, "ACK 0"))
    server.end()
    check(archive_stopped(device, database) == "", "--stopped begins another plant")
    numbers, gaps = [row[0] for row in rows_of(database, ACTIONS, 1)], [row[:2] for row in rows_of(database, GAPS, 1)]
    check((numbers, gaps) == ([3], [(1, 2)]), "it has", numbers, "and the gaps", gaps)
    return "an archive that had no action yet"


def begun_with_device(yard: Yard, _count: int) -> str:
    """An archive that an earlier version began with the device has no state. By lines it goes on as the same plant, and
    what came since is a gap; by --stopped nothing is missing."""
    dice = random.Random(13)
    table = draw_plant(dice, 6, 1, 400_000)
    device, database, hand = new_device(yard, "begun", table), yard.path("begun.sqlite"), Hand(dice, table)
    server = served_on(yard, device, hand)
    server.end()
    archive_stopped(device, database)
    with contextlib.closing(sqlite3.connect(database)) as connection:
        connection.executescript("DELETE FROM state; UPDATE plant SET ends = NULL;")
    whole, last = shutil.copyfile(database, yard.path("whole.sqlite")), len(hand.accepted)
    server = served_on(yard, device, hand, server.port)
    missed = len(hand.accepted)
    said = archive_once(database, server.port)
    check(f"actions {last + 1} to {missed} of plant: nobody asked" in said and said.count("\n") == 1, "it says", said)
    check([row[:2] for row in rows_of(database, GAPS, 1)] == [(last + 1, missed)], rows_of(database, GAPS, 1))
    server.end()
    server = served_on(yard, device, hand, server.port)
    server.end()
    for one, gaps in ((whole, []), (database, [(last + 1, missed)])):
        check(archive_stopped(device, one) == "", one, "doesn't go on")
        check(last_archived(one) == len(hand.accepted) and plants_of(one) == 1, one, "has", last_archived(one))
        check([row[:2] for row in rows_of(one, GAPS, 1)] == gaps, one, "lacks", rows_of(one, GAPS, 1))
    is_whole(table, whole, 1, hand.accepted)
    return "an archive that was begun with the device"


CHECKS = {
    "by_lines": by_lines,
    "restarts": restarts,
    "restored": restored,
    "between": between,
    "begun_empty": begun_empty,
    "begun_with_device": begun_with_device,
}
