"""Who asked, in the archive and in its reports. tests/tools/history.py runs this."""
import csv
import os

from alarms.client import CLOCK, FEED
from archives import PLANT, archive_once, archive_stopped, archiver, last_archived, one_line, rows_of, run_tool
from check_since import act
from lib.program import check
from lib.tools import Yard, await_said, await_true

SLOTS = "SELECT number, word, slot FROM action ORDER BY number"


def askers(yard: Yard, _count: int) -> str:
    """An action has the slot that asked where the server remembers it, also if several acted between two looks. Of what
    an earlier server took it isn't known."""
    device, database = yard.format("askers.device", PLANT), yard.path("askers.sqlite")
    server = yard.serve(device)
    running = archiver(database, server.port)
    await_said(running, "a new archive\n")
    act(server, (CLOCK, "CLOCK 1000"), (FEED, "VAL 0 800"), (3, "ACK 0 1"), (FEED, "DESIGN 1 ON"))
    await_true("the first actions", lambda: last_archived(database) == 4)
    act(server, (15, "SHELVE 0 60"), (0, "UNSHELVE 0"), (3, "PRIO 3 1"))
    await_true("what is done meanwhile", lambda: last_archived(database) == 7)
    running.kill()
    running.communicate()
    act(server, (5, "SETP 3 7"), (5, "OOS 3 ON"))
    server.end()
    archive_stopped(device, database)
    server = yard.serve(device)
    act(server, (FEED, "VAL 3 60"), (6, "OOS 3 OFF"))
    archive_once(database, server.port)
    server.end()
    wanted = [(1, "CLOCK", 17), (2, "VAL", 16), (3, "ACK", 3), (4, "DESIGN", 16), (5, "SHELVE", 15), (6, "UNSHELVE", 0)]
    wanted += [(7, "PRIO", 3), (8, "SETP", None), (9, "OOS", None), (10, "VAL", 16), (11, "OOS", 6)]
    check(rows_of(database, SLOTS) == wanted, "asked has", rows_of(database, SLOTS))
    reported(yard, database)
    return "who asked"


def reported(yard: Yard, database: str) -> None:
    """A report counts each action once, by its word and slot."""
    for words, wanted in (
        (
            (),
            [
                "ACK,3,1",
                "DESIGN,16,1",
                "OOS,6,1",
                "OOS,,1",
                "PRIO,3,1",
                "SETP,,1",
                "SHELVE,15,1",
                "UNSHELVE,0,1",
                "VAL,16,2",
            ],
        ),
        (("--area", 0), ["ACK,3,1", "DESIGN,16,1", "SHELVE,15,1", "UNSHELVE,0,1", "VAL,16,1"]),
    ):
        run = run_tool("reports", database, "--csv", yard.path("csv"), *words)
        check(run.returncode == 0, "alm_reports ends with", run.stderr)
        with open(yard.path("csv/asked.csv"), encoding="utf-8", newline="") as file:
            rows = [",".join(row) for row in csv.reader(file)]
        check(rows == ["word,slot,actions", *wanted], words, "has", rows)


def stopped(yard: Yard, _count: int) -> str:
    """A stopped device is archived where there is an archive, as the server's unit asks, and else nothing is made. Its
    last actions have no slot."""
    device, database = yard.format("stopped.device", PLANT), yard.path("stopped.sqlite")
    words = ("archive", "run", device, database, "--stopped", "--existing", "--name", "plant")
    server = yard.serve(device)
    run = run_tool(*words)
    check(
        (run.returncode, run.stdout, run.stderr) == (0, "", "") and not os.path.exists(database),
        "without an archive",
        run,
    )
    archive_once(database, server.port)
    act(server, (CLOCK, "CLOCK 1000"), (FEED, "VAL 0 800"), (3, "ACK 0"))
    archive_once(database, server.port)
    act(server, (FEED, "VAL 0 0"), (FEED, "VAL 0 800"), (3, "ACK 0"))
    run = run_tool(*words)
    one_line(run, 1, "is served, or in use", "of a served device")
    server.end()
    run = run_tool(*words)
    check((run.returncode, run.stdout) == (0, "plant: plant 1, 6 actions, to its end\n"), "stopped", run)
    wanted = [(1, "CLOCK", 17), (2, "VAL", 16), (3, "ACK", 3), (4, "VAL", 16), (5, "VAL", 16), (6, "ACK", None)]
    check(rows_of(database, SLOTS) == wanted, "stopped has", rows_of(database, SLOTS))
    server = yard.serve(device)
    act(server, (4, "PRIO 0 2"))
    archive_once(database, server.port)
    check(rows_of(database, SLOTS) == [*wanted, (7, "PRIO", 4)], "behind that it has", rows_of(database, SLOTS))
    check(rows_of(database, "SELECT * FROM gap") == [], "it has gaps")
    server.end()
    return "a stopped device"


CHECKS = {"askers": askers, "stopped": stopped}
