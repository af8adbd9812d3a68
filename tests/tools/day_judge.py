"""What an archive has of a drawn day, held against what the clients wrote down. A part of day.py."""
from dataclasses import dataclass

from archives import ACTIONS, CHANGES, request_of, rows_of
from day_clients import CLOCK, FEED, Asked, Era
from lib.program import check
from lib.tools import Yard
from slow_count import Shown, change_rows, replay

GAPS = "SELECT first, last FROM gap WHERE plant = ? ORDER BY first"
OWNED = {"CLOCK": CLOCK, "VAL": FEED, "DESIGN": FEED}


@dataclass
class Ended:
    """A plant of the day at its end: how many actions it had, and which those were, as far as anybody knows."""

    era: Era
    last: int
    requests: list[str]
    shown: list[Shown]


def archived(database: str, plant: int, era: Era) -> dict[int, tuple[Asked, bool]]:
    """The archived actions of a plant by their numbers, and whether it is known who asked."""
    numbers = {alarm.tag: number for number, alarm in enumerate(era.table.alarms)}
    found = {}
    for number, _moment, word, tag, value, slot in rows_of(database, ACTIONS, plant):
        request = request_of(word, numbers.get(tag, -1), value)
        found[number] = (OWNED.get(word, slot), request), slot is not None
    return found


def told_missing(database: str, plant: int, last: int) -> list[int]:
    """The numbers that lie in gaps."""
    return [
        number
        for first, end in rows_of(database, GAPS, plant)
        for number in range(first, (last if end is None else end) + 1)
    ]


def judge_numbers(database: str, plant: int, ended: Ended) -> None:
    """Each action is archived once or lies in one gap. What is archived was accepted under that number, or was asked
    and had no reply; and who asked is so."""
    era, there = ended.era, archived(database, plant, ended.era)
    missing = told_missing(database, plant, ended.last)
    check(
        sorted([*there, *missing]) == list(range(1, ended.last + 1)),
        f"{database}, plant {plant}: not each action once, archived or in a gap:",
        sorted(set(range(1, ended.last + 1)).symmetric_difference({*there, *missing}))[:5],
        "of",
        ended.last,
    )
    unanswered = era.unanswered.copy()
    for number, ((slot, request), is_known) in there.items():
        if number in era.accepted:
            asked = era.accepted[number]
            check(request == asked[1], database, "action", number, "is", request, "and was", asked)
            check(slot == asked[0] or not is_known, database, "action", number, request, "of", slot, "not", asked[0])
            continue
        made = next(
            (one for one in unanswered if one[1] == request and unanswered[one] and (one[0] == slot or not is_known)),
            None,
        )
        check(made is not None, database, "action", number, request, "of slot", slot, "nobody asked for")
        unanswered[made] -= 1


def judge_changes(database: str, plant: int, ended: Ended) -> None:
    """What archived actions did is what the program shows of them."""
    missing = set(told_missing(database, plant, ended.last))
    wanted = [row for row in change_rows(ended.shown, ended.era.table) if row[0] not in missing]
    there = rows_of(database, CHANGES, plant)
    check(
        there == wanted,
        f"{database}, plant {plant}: what actions did is archived as",
        [one for one in zip(there, wanted) if one[0] != one[1]][:2],
        len(there),
        len(wanted),
    )


def end_of_plant(yard: Yard, plant: int, era: Era, last: int, databases: list[str]) -> Ended:
    """A plant at its end. An action without a reply that is stored is known by the archives alone."""
    known = {number: request for number, (_, request) in era.accepted.items()}
    for database in databases:
        for number, ((_, request), _) in archived(database, plant, era).items():
            known.setdefault(number, request)
    check(sorted(known) == list(range(1, last + 1)), "plant", plant, "has", last, "actions, and known are", len(known))
    requests = [known[number] for number in sorted(known)]
    return Ended(era, last, requests, replay(yard, era.table, requests))
