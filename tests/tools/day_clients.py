"""Clients of a drawn day: each writes down what it asked, and each reply as it came. A part of day.py. It asks by no
code of the tools."""
import collections
import random
import socket
import threading
from dataclasses import dataclass, field
from typing import Optional

from alarms.table_file import Table
from lib.drawn_plants import draw_request
from lib.program import Wrong, check

CONSOLES, FEED, CLOCK = range(16), 16, 17
# At most so many lines go out in one write.
LINES = 8
# A slot, and what was asked there.
Asked = tuple[int, str]


@dataclass
class Era:
    """What clients wrote down of one plant: each accepted action by its number, and how often what was asked without a
    reply."""

    table: Table
    accepted: dict[int, Asked] = field(default_factory=dict)
    unanswered: collections.Counter[Asked] = field(default_factory=collections.Counter)

    def copy(self, last: int) -> "Era":
        """The same up to an action, as a copy of the device has it."""
        kept = {number: asked for number, asked in self.accepted.items() if number <= last}
        return Era(self.table, kept, self.unanswered.copy())

    def take(self, slot: int, request: str, reply: Optional[str]) -> None:
        """Writes down a reply, or that none came."""
        if reply is None:
            self.unanswered[slot, request] += 1
            return
        words = reply.split()
        if words[1] == "OK":
            number = int(words[2])
            check(number not in self.accepted, "action", number, "was answered twice", self.accepted.get(number))
            self.accepted[number] = (slot, request)


class Time:
    """The moment that the clock's client sends next; the day goes by it."""

    def __init__(self, moment: int):
        self.moment = moment

    def next(self, dice: random.Random) -> int:
        self.moment += dice.choice([1, 1, 1, 5, 30, 120, 599])
        return self.moment


class Writer:
    """A client of a slot."""

    def __init__(self, slot: int, seed: int, time: Time):
        self.slot, self.dice, self.time = slot, random.Random(seed), time
        self.told: list[tuple[str, Optional[str]]] = []
        self.wrong: Optional[Wrong] = None

    def draw(self, table: Table) -> str:
        """What it asks next."""
        if self.slot == CLOCK:
            return f"CLOCK {self.time.next(self.dice)}"
        while True:
            slot, request = draw_request(self.dice, table, 0)
            if slot == self.slot if self.slot == FEED else slot in CONSOLES:
                return request

    def ask(self, table: Table, port: int, count: int) -> None:
        """Asks so often, or until the server ends."""
        try:
            with socket.create_connection(("127.0.0.1", port + self.slot), timeout=60) as one, one.makefile(
                "rb"
            ) as said:
                while count > 0:
                    requests = [self.draw(table) for _ in range(min(count, self.dice.randint(1, LINES)))]
                    count -= len(requests)
                    if not self.ask_some(one, said, requests):
                        return
        except OSError:
            pass
        except Wrong as wrong:
            self.wrong = wrong

    def ask_some(self, one: socket.socket, said, requests: list[str]) -> bool:
        """Asks in one write; whether each was answered."""
        replies: list[str] = []
        try:
            one.sendall("".join(f"{number} {request}\n" for number, request in enumerate(requests)).encode())
            while len(replies) < len(requests):
                line = said.readline().decode()
                if not line.endswith("\n"):
                    break
                check(line.split()[0] == str(len(replies)), "another id in", line)
                replies.append(line)
        except OSError:
            pass
        self.told += [(request, replies[at] if at < len(replies) else None) for at, request in enumerate(requests)]
        return len(replies) == len(requests)


class Crowd:
    """The clients of all slots but some, and what they write down of a plant."""

    def __init__(self, seed: int, without: set[int], moment: int):
        self.time = Time(moment)
        self.writers = [Writer(slot, seed + slot, self.time) for slot in range(18) if slot not in without]
        self.threads: list[threading.Thread] = []

    def begin(self, era: Era, port: int, count: int) -> None:
        """All ask, beside each other, each so often."""
        self.threads = [
            threading.Thread(target=writer.ask, args=(era.table, port, count), daemon=True) for writer in self.writers
        ]
        for one in self.threads:
            one.start()

    def end(self, era: Era) -> None:
        """Waits for all, and takes what they wrote down."""
        for one in self.threads:
            one.join()
        for writer in self.writers:
            check(writer.wrong is None, "slot", writer.slot, writer.wrong)
            for request, reply in writer.told:
                era.take(writer.slot, request, reply)
            writer.told = []
