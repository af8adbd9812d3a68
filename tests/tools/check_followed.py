"""A plant that is followed by its server's lines alone. tests/tools/history.py runs this."""
import random
import threading
from dataclasses import replace
from typing import Callable

from alarms.client import Client
from alarms.followed import FollowedPlant
from alarms.replies import Row
from lib.drawn_plants import Hand, draw_plant, new_device
from lib.program import check
from lib.tools import Yard

ALARMS = 12


def rows_of(client: Client) -> list[Row]:
    """The server's rows, whatever the count."""
    return without_counts(client.rows(range(ALARMS)))


def without_counts(rows: list[Row]) -> list[Row]:
    return [replace(row, count=0) for row in rows]


def looks(plant: FollowedPlant, client: Client) -> list[int]:
    """One look; the numbers of the actions that it told. What changed was named, as it was before."""
    before = list(plant.rows)
    news = plant.look(client)
    for alarm, (old, new) in enumerate(zip(before, plant.rows)):
        check(news.before.get(alarm, new) in (old, new), "alarm", alarm, "was", old, "and is told as", news.before)
        check(alarm in news.before or old == new, "alarm", alarm, "became", new, "and nothing named it")
    return [entry.action.number for entry, _ in news.entries]


def followed(yard: Yard, count: int) -> str:
    """The rows are the server's behind each look, also where much happens at once and while it looks, and each action
    is told once."""
    dice = random.Random(7)
    table = draw_plant(dice, ALARMS, 3, 400_000)
    server, hand = yard.serve(new_device(yard, "followed", table)), Hand(dice, table)
    hand.connect(server)
    with Client.connect(server.port, 9) as client:
        seen = client.table()
        plant, told = FollowedPlant(seen.alarms, seen.areas), list[int]()
        hand.ask(40)
        plant.begin(client)
        begun = plant.count
        for _ in range(max(20, count // 20)):
            hand.ask(dice.choice([1, 2, 7, 60]))
            told += looks(plant, client)
            check(without_counts(plant.rows) == rows_of(client), "it has", plant.rows, "of", rows_of(client))
        asking = threading.Thread(target=lambda: [hand.ask(5) for _ in range(40)])
        asking.start()
        while asking.is_alive():
            told += looks(plant, client)
        told += looks(plant, client)
        check(without_counts(plant.rows) == rows_of(client), "behind a stream", plant.rows, rows_of(client))
        check(told == list(range(begun + 1, hand.count() + 1)), "it told", told)
        mixes(plant, client, hand)
    hand.leave()
    server.end()
    return f"{len(told)} actions followed"


def mixes(plant: FollowedPlant, client: Client, hand: Hand) -> None:
    """A look says whether something that it has is newer than its count: where actions come between its rows, at each
    turn, or between its floods; and no longer once they stop."""
    for name in ("rows", "floods"):
        true = getattr(client, name)

        def hurried(asked: object, true: Callable = true) -> object:
            acts(hand)
            return true(asked)

        setattr(client, name, hurried)
        acts(hand)
        looks(plant, client)
        check(plant.is_mixed and newest(plant) > plant.count, "with actions between its", name, "it is of one count")
        delattr(client, name)
        looks(plant, client)
        check(not plant.is_mixed and newest(plant) <= plant.count, "behind its", name, "it isn't of one count")


def acts(hand: Hand) -> None:
    """Asks until something more is accepted."""
    before = len(hand.accepted)
    while len(hand.accepted) == before:
        hand.ask(5)


def newest(plant: FollowedPlant) -> int:
    """The greatest count of its rows and floods."""
    return max(asked.count for asked in [*plant.rows, *plant.floods])


CHECKS = {"followed": followed}
