"""A week of a refinery's life goes through server, archive and report in one run, with kills in between. Its device is
archived at each end of a server, so that floods are those of each action.
tests/tools/history.py runs this check.

The life is drawn: 200 alarms of which some come often, some chatter and some stay for days; upsets that bring a flood;
days, nights and weekends; operators who acknowledge, reset and shelve. What the program shows of each action, asked
again at a desk, is counted apart from the archive.
"""
import bisect
import collections
import itertools
import os
import random
import re
import statistics
import subprocess
import sys
import time

from lib.drawn_plants import CONSOLE, module
from lib.places import AT_TOOLS
from alarms.client import CLOCK, FEED, Client, Lost, Refused
from archives import ACTIONS, archive_stopped, python_with, request_of, rows_of, run_tool
from check_reports import is_same, read_csv
from slow_reports import periods
from lib.program import check
from slow_count import SLOTS
from alarms.table_file import Table, load_table
from lib.tools import Yard, started
from drawn_week import BEGIN, DrawnWeek, REFINERY
from hours import HOUR, WEEK


class WeekRun:
    """Asks a drawn week of a server, which is killed; its device is archived then, and the archiver is killed too."""

    def __init__(self, yard: Yard, seconds: int, kills: int):
        self.yard, self.table = yard, load_table(REFINERY)
        self.week = DrawnWeek(self.table, 61, seconds)
        self.device, self.database = yard.format("week.device", REFINERY), yard.path("week.sqlite")
        self.dice = random.Random(62)
        self.kills = sorted(self.dice.sample(range(BEGIN + seconds // 20, BEGIN + seconds), 2 * kills))
        self.accepted: dict[int, str] = {}
        self.moment = BEGIN - 1
        self.server = yard.serve(self.device)
        self.connect()

    def connect(self) -> None:
        self.clients = {slot: Client.connect(self.server.port, slot, patience=60) for slot in (CLOCK, FEED, CONSOLE)}

    def run(self) -> None:
        for moment, asked in self.week.groups():
            self.clock(moment)
            for slot, ones in itertools.groupby(asked, key=lambda one: one[0]):
                self.ask(slot, [request for _, request in ones])
        self.clock(self.week.end)

    def clock(self, until: int) -> None:
        """Each second of the plant's clock, up to a moment."""
        while self.moment < until:
            last = min(until, self.moment + 4000, self.kills[0] if self.kills else until)
            self.ask(CLOCK, [f"CLOCK {moment}" for moment in range(self.moment + 1, last + 1)])
            self.moment = max(self.moment, last)
            if self.kills and self.kills[0] <= self.moment:
                self.kills.pop(0)
                self.kill()

    def ask(self, slot: int, requests: list[str]) -> None:
        """Asks, and asks again what had no reply behind a kill."""
        left = list(requests)
        while left:
            try:
                for reply in self.clients[slot].ask_all(list(left)):
                    request = left.pop(0)
                    if not isinstance(reply, Refused):
                        self.accepted[int(reply[1])] = request
            except Lost:
                self.restart()

    def kill(self) -> None:
        """Ends the server amid requests, or between two and then the archiver amid its work, in turn."""
        is_amid = len(self.kills) % 2 == 1
        if is_amid:
            requests = [f"CLOCK {moment}" for moment in range(self.moment + 1, self.moment + 200)]
            self.clients[CLOCK].send("".join(f"{number} {request}\n" for number, request in enumerate(requests)))
            self.server.process.kill()
            self.moment += 200
        self.restart(not is_amid)

    def restart(self, is_archiver_killed: bool = False) -> None:
        """Ends the server, archives its device, and begins another one."""
        self.end(is_archiver_killed)
        self.server = self.yard.serve(self.device, self.server.port)
        self.connect()

    def end(self, is_archiver_killed: bool = False) -> None:
        """Ends the server, and archives its device; before that maybe with an archiver that is killed."""
        for client in self.clients.values():
            client.close()
        self.server.end()
        if is_archiver_killed:
            command = module("archive", "run", self.device, self.database, "--stopped", "--name", "refinery")
            archiver = started(subprocess.Popen(command, env=AT_TOOLS, stdout=subprocess.DEVNULL))
            time.sleep(self.dice.uniform(0.2, 1.5))
            archiver.kill()
            archiver.wait()
        archive_stopped(self.device, self.database, name="refinery")


class Counted:
    """What the program shows of the archived actions, asked again at a desk: the annunciations, the acknowledgements,
    and the last states."""

    def __init__(self, yard: Yard, table: Table, requests: list[str]):
        self.table, self.priorities = table, [alarm.priority for alarm in table.alarms]
        self.annunciations: list[tuple[int, int, int]] = []
        self.delays: dict[int, list[int]] = collections.defaultdict(list)
        self.states = ["NORM"] * len(table.alarms)
        self.last: dict[int, int] = {}
        deadlines: dict[int, int] = {}
        lines, asked = [], []
        moment = 0
        for number, request in enumerate(requests, 1):
            word, *rest = request.split()
            alarm = int(rest[0])
            moment = alarm if word == "CLOCK" else moment
            alarms = [one for one, deadline in deadlines.items() if deadline <= moment] if word == "CLOCK" else [alarm]
            if word == "SHELVE":
                deadlines[alarm] = moment + int(rest[1])
            for one in alarms if word in ("CLOCK", "UNSHELVE") else ():
                deadlines.pop(one, None)
            lines += [f"{SLOTS.get(word, 0)} {number % 2**32} {request}", *(f"0 0 STATE {one}" for one in alarms)]
            asked.append((request, moment, alarms))
        self.moments = sorted({moment for _, moment, _ in asked})
        device = yard.format("counted.device", REFINERY)
        replies = iter(
            subprocess.run(
                [yard.program, "desk", device],
                input="\n".join(lines) + "\n",
                capture_output=True,
                text=True,
                timeout=1200,
            ).stdout.splitlines()
        )
        for number, (request, moment, alarms) in enumerate(asked, 1):
            check(next(replies).split()[2:] == ["OK", str(number)], "action", number, request, "isn't accepted")
            self.take(request, moment, [(one, next(replies).split()[4]) for one in alarms])

    def take(self, request: str, moment: int, shown: list[tuple[int, str]]) -> None:
        word, *rest = request.split()
        if word == "PRIO":
            self.priorities[int(rest[0])] = int(rest[1])
        for alarm, state in shown:
            if word == "ACK":
                self.delays[self.priorities[alarm]].append(moment - self.last[alarm])
            if state == "UNACK" != self.states[alarm]:
                self.annunciations.append((moment, alarm, self.priorities[alarm]))
                self.last[alarm] = moment
            self.states[alarm] = state

    def floods(self, begin: int, end: int) -> list[tuple]:
        """The floods, at each moment that the plant's clock had: behind a kill some seconds have none."""
        rows = []
        for area in range(self.table.areas):
            moments = [moment for moment, alarm, _ in self.annunciations if self.table.alarms[alarm].area == area]
            since, peak = None, 0
            for second in self.moments:
                last = bisect.bisect_right(moments, second)
                window = last - bisect.bisect_right(moments, second - 600)
                peak = max(peak, window)
                if since is None and window > 10:
                    since, peak = second, window
                elif since is not None and window < 5:
                    rows.append(
                        (
                            area,
                            since,
                            second,
                            second - since,
                            peak,
                            bisect.bisect_left(moments, second) - bisect.bisect_right(moments, since - 600),
                        )
                    )
                    since = None
            if since is not None:
                rows.append(
                    (
                        area,
                        since,
                        None,
                        end - since,
                        peak,
                        bisect.bisect_left(moments, end) - bisect.bisect_right(moments, since - 600),
                    )
                )
        return sorted(rows, key=lambda row: (row[1], row[0]))

    def bins(self, begin: int, end: int, seconds: int, bound: int) -> list[tuple]:
        moments = [moment for moment, _, _ in self.annunciations]
        rows = [
            (one, until - one, bisect.bisect_left(moments, until) - bisect.bisect_left(moments, one))
            for one, until in periods(begin, end, seconds)
        ]
        return [(*row, int(row[2] > bound)) for row in rows]


def judge(folder: str, counted: Counted, begin: int, end: int) -> None:
    """The report's tables of the week are those that were counted."""
    total = len(counted.annunciations)
    tags = collections.Counter(counted.table.alarms[alarm].tag for _, alarm, _ in counted.annunciations)
    priorities = collections.Counter(priority for _, _, priority in counted.annunciations)
    wanted = {
        "hours": counted.bins(begin, end, 3600, 30),
        "ten_minutes": counted.bins(begin, end, 600, 10),
        "floods": counted.floods(begin, end),
        "frequent": [
            (tag, count, count / total) for tag, count in sorted(tags.items(), key=lambda one: (-one[1], one[0]))[:10]
        ],
        "priorities": [
            (one, priorities[one], priorities[one] / total, {1: 0.01, 2: 0.05, 3: 0.15, 4: 0.8}[one])
            for one in (1, 2, 3, 4)
        ],
    }
    for name, rows in wanted.items():
        found = read_csv(folder, name)
        check(
            len(found) == len(rows) and all(map(is_same, found, rows)),
            name,
            "of the week has",
            [one for one in zip(found, rows) if not is_same(*one)][:2],
            len(found),
            len(rows),
        )
    waiting = collections.Counter(
        counted.priorities[alarm] for alarm, state in enumerate(counted.states) if state in ("UNACK", "RTNUN", "LATUN")
    )
    for row in read_csv(folder, "acknowledgements"):
        taken = sorted(counted.delays[int(row[0])])
        check(
            is_same(
                (row[1], row[2], row[4], row[6]),
                (len(taken), statistics.median(taken), taken[-1], waiting[int(row[0])]),
            ),
            "acknowledgements",
            row,
        )
    standing = {row[0]: row[3] for row in read_csv(folder, "standing")}
    check(
        standing
        == {
            counted.table.alarms[alarm].tag: state
            for alarm, state in enumerate(counted.states)
            if state in ("UNACK", "ACKED", "RTNUN", "LATUN", "LATAK")
        },
        "standing alarms",
        standing,
    )


def week(yard: Yard, count: int) -> str:
    """A week, or some hours of it in a short run; the pages are kept where WEEK_PAGES names a folder."""
    is_whole = count >= 10_000
    seconds, kills = (WEEK, 10) if is_whole else (2 * HOUR, 2)
    run = WeekRun(yard, seconds, kills)
    began = time.monotonic()
    run.run()
    asked = time.monotonic() - began
    last = max(run.accepted)
    run.end()
    actions = rows_of(run.database, ACTIONS, 1)
    check(
        [row[0] for row in actions] == list(range(1, last + 1)) and not rows_of(run.database, "SELECT * FROM gap"),
        "not each action once",
        len(actions),
        last,
    )
    numbers = {alarm.tag: number for number, alarm in enumerate(run.table.alarms)}
    requests = [request_of(word, numbers.get(tag, -1), value) for _, _, word, tag, value, _ in actions]
    check(all(requests[number - 1] == request for number, request in run.accepted.items()), "other actions")
    folder, python = os.environ.get("WEEK_PAGES") or yard.path("report"), python_with("matplotlib") or sys.executable
    pages = ["--png", folder, "--pdf", os.path.join(folder, "week.pdf")] if python_with("matplotlib") else []
    began = time.monotonic()
    report = run_tool("reports", run.database, "--csv", folder, *pages, python=python)
    check(report.returncode == 0, report.stderr)
    took = time.monotonic() - began
    counted = Counted(yard, run.table, requests)
    judge(folder, counted, BEGIN, actions[-1][1] + 1)
    if pages:
        judge_pages(folder)
    size = os.path.getsize(run.database) // 2**20
    return (
        f"{last} actions of {seconds // 3600} hours in {asked:.0f} s over {2 * kills} kills,"
        f" {len(counted.annunciations)} annunciations, {len(counted.floods(BEGIN, actions[-1][1] + 1))} floods, report"
        f" in {took:.0f} s{'' if pages else ' without pages'}, {size} MB"
    )


def judge_pages(folder: str) -> None:
    """Five images, and a PDF of as many pages."""
    for number in range(1, 6):
        with open(os.path.join(folder, f"page{number}.png"), "rb") as file:
            text = file.read()
        check(text.startswith(b"\x89PNG\r\n") and len(text) > 20_000, "page", number, "has", len(text), "bytes")
    with open(os.path.join(folder, "week.pdf"), "rb") as file:
        text = file.read()
    check(text.startswith(b"%PDF") and len(re.findall(rb"/Type /Page\b", text)) == 5, "the PDF hasn't five pages")


CHECKS = {"week": week}
