"""What an archive computes, held against the server's rows. tests/tools/history.py runs this."""
import csv
import random
import re
import signal
import subprocess
import sys
import urllib.request

from alarms.client import CLOCK, FEED
from archives import PLANT, rows_of, run_tool
from check_metrics import lint
from check_since import act
from lib.drawn_plants import Hand, draw_plant, new_device
from lib.places import AT_TOOLS
from lib.program import check
from lib.tools import Yard, await_said, await_true, started, stop

# An archiver whose model has a field of alarm 0 otherwise than it played it, from action 3 on. So many seconds lie
# between two rounds over all rows.
FALSIFIED = """
from alarms import archive, archive_check, model
from dataclasses import replace
archive_check.EVERY = {every}
true = model.PlantModel.apply
def apply(self, action):
    told, alarm = true(self, action), self.alarms[0]
    if action.number > 2:
        {wrong}
    return told
model.PlantModel.apply = apply
archive.main()
"""
# What makes each field of the row `3 UNACK 1 - - 1 1 800 1 1000` wrong, and what is told of it then.
FIELDS = {
    "state": ("alarm.core = 'ACKED'", "ACKED", "UNACK"),
    "condition": ("alarm.active = False", "0", "1"),
    "flags": ("alarm.flags |= model.BY_DESIGN", "D", "-"),
    "stamp": ("alarm.stamp = 7", "7", "1"),
    "priority": ("alarm.attributes = replace(alarm.attributes, priority=4)", "4", "1"),
    "setpoint": ("alarm.attributes = replace(alarm.attributes, setpoint=11)", "11", "800"),
    "moments": ("alarm.moments = (1000, 5)", "1000 5", "1000"),
    # of a shelved alarm
    "deadline": ("alarm.deadline = 9", "9", "1060"),
}
COMPARED, DENIED = "alarms_archive_rows_compared_total", "alarms_archive_rows_denied"


class Watched:
    """An archiver with a page of metrics, maybe behind a change of its code."""

    def __init__(self, device: str, port: int, wrong: str = "pass", every: float = 0.0):
        self.database = f"{device}.sqlite"
        words = [self.database, "--port", str(port), "--metrics", "0", "--name", "plant"]
        command = [sys.executable, "-c", FALSIFIED.format(wrong=wrong, every=every), "run", *words]
        pipes = dict.fromkeys(("stdout", "stderr"), subprocess.PIPE)
        self.process = started(subprocess.Popen(command, env=AT_TOOLS, text=True, **pipes))
        self.said = await_said(self.process, "a new archive\n")
        self.address = re.findall(r"http://\S+/metrics", self.said)[0]

    def value(self, name: str) -> int:
        """The value of a metric."""
        page = urllib.request.urlopen(self.address, timeout=60).read().decode()
        return int(re.findall(rf"^{name} (\d+)$", page, re.M)[0])

    def await_value(self, name: str, least: int) -> None:
        await_true(f"{name} of {least}", lambda: self.value(name) >= least)


def reported(yard: Yard, database: str) -> list[list[str]]:
    """What a report says that the server denied; its figure counts the alarms."""
    run = run_tool("reports", database, "--csv", yard.path("csv"))
    check(run.returncode == 0, "a report:", run.stderr)
    with open(yard.path("csv/denied.csv"), encoding="utf-8", newline="") as file:
        columns, *rows = csv.reader(file)
    check(columns == ["moment", "tag", "field", "archived", "shown"], columns)
    figure = re.findall(r"^  alarms whose row the server denied +(\d+) +at most 0 *(ABOVE)?$", run.stdout, re.M)
    alarms = len({row[1] for row in rows})
    check(figure == [(str(alarms), "ABOVE" if alarms else "")], "the figure is", figure, "of", rows)
    return rows


def wrong_field(yard: Yard, name: str) -> None:
    """A wrong field is told in the log, on the page of metrics and in a report."""
    change, here, there = FIELDS[name]
    device = yard.format(name, PLANT)
    server = yard.serve(device)
    act(server, (CLOCK, "CLOCK 1000"))
    running = Watched(device, server.port, change)
    act(server, (FEED, "VAL 0 800"), (3, "SHELVE 0 60" if name == "deadline" else "PRIO 1 3"))
    said = await_said(running.process, f"its {name} is {here} here, and {there} there")
    check("the server denies 1 of the rows of plant, at action 3. TI-101: " in said, said)
    running.await_value(DENIED, 1)
    check(running.value(DENIED) == 1, name, "the page counts", running.value(DENIED))
    await_true("what is kept", lambda: rows_of(running.database, "SELECT COUNT(*) FROM denied")[0][0] > 0)
    stop(running.process)
    rows = reported(yard, running.database)
    check(["1000", "TI-101", name, here, there] in rows, name, "is reported as", rows)
    check(name == "flags" or len(rows) == 1, "more than the", name, "is reported", rows)
    server.end()


def archived_rows(yard: Yard, _count: int) -> str:
    """Each field of a row that the archive's model has otherwise than the server is told."""
    for name in FIELDS:
        wrong_field(yard, name)
    return f"{len(FIELDS)} wrong fields of an archive's model, each told"


def true_rows(yard: Yard, count: int) -> str:
    """Rows are held against the server's while the plant moves, and none is denied; also of a plant that was there
    before the archive."""
    dice = random.Random(8)
    table = draw_plant(dice, 10, 2, 400_000)
    device = new_device(yard, "true", table)
    server, hand = yard.serve(device), Hand(dice, table)
    hand.connect(server)
    hand.ask(100)
    running = Watched(device, server.port)
    for _ in range(max(20, count // 40)):
        hand.ask(dice.choice([1, 5, 40]))
    running.await_value(COMPARED, 200)
    lint(running.address)
    check(running.value(DENIED) == 0, "of true rows it denies", running.value(DENIED))
    check(reported(yard, running.database) == [], "it reports", reported(yard, running.database))
    stop(running.process)
    hand.leave()
    server.end()
    return f"{len(hand.accepted)} actions, and no true row denied"


def rounds(yard: Yard, _count: int) -> str:
    """Each row is held against the server's once where the plant begins, and again behind a gap."""
    device = yard.format("rounds.device", PLANT)
    server = yard.serve(device)
    act(server, (CLOCK, "CLOCK 1000"))
    running = Watched(device, server.port, every=3600.0)
    running.await_value(COMPARED, 4)
    act(server, (FEED, "VAL 0 800"))
    running.await_value("alarms_archive_last_action", 2)
    check(running.value(COMPARED) == 4, "a round begins early", running.value(COMPARED))
    running.process.send_signal(signal.SIGSTOP)
    act(server, (0, "ACK 0"))
    server.end()
    server = yard.serve(device, server.port)
    running.process.send_signal(signal.SIGCONT)
    running.await_value("alarms_archive_missing_actions_total", 1)
    running.await_value(COMPARED, 8)
    check(running.value(DENIED) == 0 and running.value(COMPARED) == 8, "behind a gap", running.value(COMPARED))
    stop(running.process)
    server.end()
    return "two rounds"


CHECKS = {"archived_rows": archived_rows, "true_rows": true_rows, "rounds": rounds}
