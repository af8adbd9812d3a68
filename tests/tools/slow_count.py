"""What the program itself shows after each of some actions, for the scripts over the archive: nothing here plays an
alarm's states.

The actions are asked again at `desk`, over a new device of the same table. Behind each all alarms and areas are asked.
"""
import subprocess
from dataclasses import dataclass
from typing import Iterator

from lib.tools import Yard, toml

from lib.program import check
from alarms.table_file import Table

SLOTS = {"CLOCK": 17, "VAL": 16, "DESIGN": 16}


@dataclass(frozen=True)
class Shown:
    """The plant behind an action: of each alarm what STATE shows, of each area what FLOOD does, and the priorities in
    force."""

    number: int
    moment: int
    request: str
    states: list[tuple[str, str, str, str]]
    floods: list[tuple[int, int]]
    priorities: list[int]

    @property
    def alarm(self) -> int:
        """The alarm that the action names; none of CLOCK."""
        return -1 if self.request.startswith("CLOCK") else int(self.request.split()[1])


def replay(yard: Yard, table: Table, requests: list[str]) -> list[Shown]:
    """The plant before the first action, and behind each of them."""
    device = yard.format("replayed.device", yard.write("replayed.toml", toml(table)))
    asks = [f"STATE {alarm}" for alarm in range(len(table.alarms))] + [f"FLOOD {area}" for area in range(table.areas)]
    lines = [f"0 0 {ask}" for ask in asks]
    for number, request in enumerate(requests, 1):
        lines += [f"{SLOTS.get(request.split()[0], 0)} {number % 2**32} {request}", *(f"0 0 {ask}" for ask in asks)]
    run = subprocess.run(
        [yard.program, "desk", device], input="\n".join(lines) + "\n", capture_output=True, text=True, timeout=900
    )
    check(run.returncode == 0, "desk:", run.stderr)
    replies = iter(run.stdout.splitlines())
    moment, priorities = 0, [alarm.priority for alarm in table.alarms]
    shown = [read_shown(replies, table, 0, 0, "", priorities)]
    for number, request in enumerate(requests, 1):
        reply = next(replies).split()
        check(reply[2:] == ["OK", str(number)], "action", number, request, "was answered", reply)
        word, *rest = request.split()
        moment = int(rest[0]) if word == "CLOCK" else moment
        if word == "PRIO":
            priorities = list(priorities)
            priorities[int(rest[0])] = int(rest[1])
        shown.append(read_shown(replies, table, number, moment, request, priorities))
    return shown


def read_shown(
    replies: Iterator[str], table: Table, number: int, moment: int, request: str, priorities: list[int]
) -> Shown:
    states = [tuple(next(replies).split()[4:]) for _ in table.alarms]
    floods = [tuple(map(int, next(replies).split()[4:])) for _ in range(table.areas)]
    return Shown(number, moment, request, states, floods, priorities)


def is_annunciation(before: Shown, after: Shown, alarm: int) -> bool:
    """Each time that it becomes UNACK an alarm is annunciated."""
    return after.states[alarm][0] == "UNACK" != before.states[alarm][0]


def changed(before: Shown, after: Shown) -> list[int]:
    """The alarms that an action touched: the one that it names, or those whose shelving ended by CLOCK."""
    if after.alarm >= 0:
        return [after.alarm]
    return [alarm for alarm, state in enumerate(after.states) if state != before.states[alarm]]


def change_rows(shown: list[Shown], table: Table) -> list[tuple]:
    """What an archive has to say of each action and each alarm that it touched: number, moment, tag, priority, area,
    before, after, flags, annunciated, since."""
    since: dict[int, int] = {}
    rows = []
    for before, after in zip(shown, shown[1:]):
        for alarm in changed(before, after):
            annunciated = is_annunciation(before, after, alarm)
            if annunciated:
                since[alarm] = after.moment
            rows.append(
                (
                    after.number,
                    after.moment,
                    table.alarms[alarm].tag,
                    after.priorities[alarm],
                    table.alarms[alarm].area,
                    before.states[alarm][0],
                    after.states[alarm][0],
                    after.states[alarm][2],
                    int(annunciated),
                    since.get(alarm),
                )
            )
    return rows


def flood_rows(shown: list[Shown]) -> list[tuple]:
    """The floods that began or ended: number, moment, area, flooded, annunciations in the window."""
    return [
        (after.number, after.moment, area, flooded, window)
        for before, after in zip(shown, shown[1:])
        for area, (window, flooded) in enumerate(after.floods)
        if flooded != before.floods[area][1]
    ]
