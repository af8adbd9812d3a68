"""The figures of reports against a slow count over what the program shows. tests/tools/history.py runs these checks."""
import collections
import csv
import os
import random

from lib.drawn_plants import Hand, draw_plant, draw_request, new_device
from alarms.client import FEED
from archives import FLOODS, archive_stopped, rows_of, run_tool
from lib.program import check
from slow_count import Shown, flood_rows, is_annunciation, replay
from lib.tools import Yard
from slow_reports import SlowCount

SEGMENT = 400_000


def read_csv(folder: str, name: str) -> list[tuple]:
    """The rows of a file behind its first, their numbers as numbers."""

    def read(cell: str) -> object:
        try:
            return None if cell == "" else float(cell)
        except ValueError:
            return cell

    with open(os.path.join(folder, f"{name}.csv"), encoding="utf-8", newline="") as file:
        return [tuple(map(read, row)) for row in list(csv.reader(file))[1:]]


def is_same(row: tuple, wanted: tuple) -> bool:
    """Whether two rows are the same, but for what adding in another order makes of a fraction."""
    return len(row) == len(wanted) and all(
        (
            abs(one - other) < 1e-9 * max(1, abs(other))
            if isinstance(one, float) and isinstance(other, (int, float))
            else one == other
        )
        for one, other in zip(row, wanted)
    )


def compare(folder: str, slow: SlowCount) -> int:
    """Holds the files of a report against a slow count; how many rows there were."""
    rows = 0
    for name, wanted in slow.tables().items():
        found = read_csv(folder, name)
        different = [(one, other) for one, other in zip(found, wanted) if not is_same(one, other)]
        check(
            len(found) == len(wanted) and not different,
            f"{name}.csv of {slow.begin} to {slow.end} has",
            len(found),
            "rows,",
            different[:2],
            "wanted are",
            len(wanted),
            wanted[-2:],
            found[-2:],
        )
        rows += len(wanted)
    found, wanted = [row[1] for row in read_csv(folder, "summary")], slow.summary()
    check(
        is_same(tuple(found), tuple(wanted)),
        "the summary of",
        slow.begin,
        "to",
        slow.end,
        "says",
        found,
        "wanted is",
        wanted,
    )
    return rows + len(wanted)


class Lively(Hand):
    """Asks in bursts, with pauses of hours between: so there are floods, chattering and stale alarms."""

    def ask(self, count: int) -> None:
        step = self.dice.choice([1, 1, 2, 5, 20, 60])
        area = self.dice.randrange(self.table.areas)
        few = (
            [number for number, alarm in enumerate(self.table.alarms) if alarm.area == area][:4]
            if self.dice.random() < 0.5
            else []
        )
        for place in range(count):
            self.moment += self.dice.choice([0, step, step])
            slot, request = draw_request(self.dice, self.table, self.moment)
            if few and self.dice.random() < 0.8:
                alarm = self.table.alarms[few[place % len(few)]]
                slot, request = (
                    FEED,
                    f"VAL {few[place % len(few)]} {alarm.coming if place // len(few) % 2 else alarm.going}",
                )
            self.ask_at(slot, [request])
        self.moment += self.dice.choice([60, 900, 7000, 40_000, 100_000])


def draw_span(dice: random.Random, shown: list[Shown], first: int) -> tuple[int, int]:
    """A span that begins at an annunciation or some seconds behind it, and ends with the moment of an action."""
    moments = [
        after.moment
        for before, after in zip(shown, shown[1:])
        if after.moment >= first and any(is_annunciation(before, after, alarm) for alarm in range(len(after.states)))
    ]
    begin = dice.choice(moments[: len(moments) // 2]) + dice.choice([0, 1, 30, 300])
    return begin, dice.choice([moment for moment in moments if moment > begin])


def figures(yard: Yard, count: int) -> str:
    """Each table of a report, over drawn spans and areas, is that of a slow count."""
    dice, rows, seen = random.Random(21), 0, collections.Counter()
    plants = max(1, count // 3000)
    for number in range(plants):
        table = draw_plant(dice, 14, 3, SEGMENT)
        device, database = new_device(yard, f"figures{number}", table), yard.path(f"figures{number}.sqlite")
        server, hand = yard.serve(device), Lively(dice, table, 1_790_000_000)
        hand.connect(server)
        while len(hand.accepted) < min(count, 2500):
            hand.ask(dice.choice([10, 60, 120]))
        hand.leave()
        server.end()
        archive_stopped(device, database)
        shown = replay(yard, table, [hand.accepted[one] for one in sorted(hand.accepted)])
        floods = [row for row in rows_of(database, FLOODS, 1) if row[0]]
        check(floods == flood_rows(shown), "the floods are", floods[:3])
        first = next(one.moment for one in shown if one.moment)
        for turn in range(5):
            begin, end = draw_span(dice, shown, first) if turn else (first, shown[-1].moment + 1)
            areas = set(dice.sample(range(3), dice.randint(1, 2))) if turn > 1 else {0, 1, 2}
            folder = yard.path(f"csv{number}.{turn}")
            asked = [word for area in areas for word in ("--area", area)] if turn > 1 else []
            run = run_tool("reports", database, "--from", begin, "--to", end, "--csv", folder, *asked)
            slow = SlowCount(table, shown, begin, end, areas)
            check(
                ("at most 150, or 300" in run.stdout) == bool(asked),
                "areas",
                asked or "all",
                "have the bounds of",
                run.stdout,
            )
            if not slow.counted:
                continue
            check(run.returncode == 0, run.stderr)
            rows += compare(folder, slow)
            seen.update(name for name, found in slow.tables().items() for _ in found)
    wanted = {"floods", "chattering", "fleeting", "attributes", "stale", "suppressions", "standing"}
    check(wanted <= set(seen), "never drawn:", wanted - set(seen))
    return (
        f"{rows} rows of reports over {plants} plants, {seen['floods']} floods, {seen['chattering']} chattering,"
        f" {seen['fleeting']} fleeting, {seen['stale']} stale"
    )


CHECKS = {"figures": figures}
