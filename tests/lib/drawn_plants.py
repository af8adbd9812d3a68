"""Plants and requests that are drawn, for the scripts over the tools: each word of an action is accepted often."""
import random
import sys
from typing import Iterable


from alarms.client import CLOCK, FEED, Client, Refused
from .server import Server
from .tools import Yard, toml
from alarms.table_file import LEAST_SEGMENT, Alarm, Table, device_size

CONSOLE = 5
WORDS = ("CLOCK", "VAL", "ACK", "RESET", "SHELVE", "UNSHELVE", "OOS", "DESIGN", "PRIO", "SETP")


def module(name: str, *words: object, python: str = sys.executable) -> list[str]:
    """The command of a module of the tools."""
    return [python, "-m", f"alarms.{name}", *map(str, words)]


def draw_plant(dice: random.Random, alarms: int, areas: int, segment: int = LEAST_SEGMENT) -> Table:
    """A table whose alarms latch or not, can be shelved or not, and have any kind, priority and area."""
    rows = []
    for number in range(alarms):
        kind = dice.choice(("high", "low", "discrete"))
        rows.append(
            Alarm(
                kind,
                dice.randint(-500, 500),
                dice.randint(1, 4),
                dice.randrange(areas),
                f"T-{number}",
                0 if kind == "discrete" else dice.randint(0, 20),
                dice.choice([0, 60, 3600, 604_800]),
                dice.random() < 0.4,
                dice.choice(["", f"Text of {number}"]),
            )
        )
    return Table(device_size(alarms, areas, segment), areas, rows)


def draw_request(dice: random.Random, table: Table, moment: int, first: int = 0) -> tuple[int, str]:
    """A slot and what is asked there, of the alarms from a number on."""
    number = dice.randrange(first, len(table.alarms))
    alarm = table.alarms[number]
    draws = dice.random()
    if draws < 0.12:
        return CLOCK, f"CLOCK {moment}"
    if draws < 0.50:
        return FEED, f"VAL {number} {dice.choice([alarm.coming, alarm.going])}"
    if draws < 0.55:
        return FEED, f"DESIGN {number} {dice.choice(['ON', 'OFF', 'OFF'])}"
    word = dice.choice(
        ["ACK"] * 10 + ["RESET"] * 9 + ["SHELVE"] * 4 + ["UNSHELVE"] * 3 + ["OOS"] * 3 + ["PRIO", "SETP"]
    )
    if word == "SHELVE":
        # those of one moment have deadlines in one list of the wheel
        return (
            CONSOLE,
            f"SHELVE {number} {dice.choice([30, 286, 542, dice.randint(1, max(1, min(alarm.max_shelve, 900)))])}",
        )
    if word == "OOS":
        return CONSOLE, f"OOS {number} {dice.choice(['ON', 'OFF', 'OFF'])}"
    if word == "PRIO":
        return CONSOLE, f"PRIO {number} {dice.randint(1, 4)}"
    return CONSOLE, f"SETP {number} {alarm.setpoint + dice.randint(-5, 5)}" if word == "SETP" else f"{word} {number}"


class Hand:
    """Asks a server at three slots, and keeps which action each number is."""

    def __init__(self, dice: random.Random, table: Table, moment: int = 1000):
        self.dice, self.table, self.moment = dice, table, moment
        self.accepted: dict[int, str] = {}

    def connect(self, server: Server) -> None:
        self.clients = {slot: Client.connect(server.port, slot, patience=60) for slot in (CLOCK, FEED, CONSOLE)}

    def leave(self) -> None:
        for client in self.clients.values():
            client.close()

    def ask(self, count: int, first: int = 0) -> None:
        """Asks so many drawn requests of the alarms from a number on, those of a slot together."""
        drawn: dict[int, list[str]] = {CLOCK: [], FEED: [], CONSOLE: []}
        steps = self.dice.choice([(0, 0, 1), (0, 1, 1), (1, 1, 5, 30, 120), (60, 300, 599)])
        for _ in range(count):
            self.moment += self.dice.choice(steps)
            slot, request = draw_request(self.dice, self.table, self.moment, first)
            drawn[slot].append(request)
        for slot, requests in drawn.items():
            self.ask_at(slot, requests)

    def ask_at(self, slot: int, requests: Iterable[str]) -> None:
        asked = list(requests)
        for request, reply in zip(asked, self.clients[slot].ask_all(asked)):
            if not isinstance(reply, Refused):
                self.accepted[int(reply[1])] = request

    def count(self) -> int:
        """How many actions the server shows."""
        return self.clients[CONSOLE].action_count()


def new_device(yard: Yard, name: str, table: Table) -> str:
    return yard.format(f"{name}.device", yard.write(f"{name}.toml", toml(table)))
