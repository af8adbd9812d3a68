"""A drawn week of a refinery: values, consoles and kills."""
import heapq
import itertools
import random
from typing import Iterator
from hours import DAY, HOUR
from lib.drawn_plants import CONSOLE
from alarms.client import FEED
from lib.places import EXAMPLES
from alarms.table_file import Table


REFINERY = str(EXAMPLES / "refinery.toml")


BEGIN = 1_794_182_400  # a Monday, 00:00 UTC


# Seconds in which half of a priority's alarms are acknowledged.
MEDIAN = {1: 20, 2: 45, 3: 120, 4: 300}


class DrawnWeek:
    """Requests by their moments."""

    def __init__(self, table: Table, seed: int, seconds: int):
        self.table, self.dice, self.end = table, random.Random(seed), BEGIN + seconds
        self.queue: list[tuple[int, int, int, str]] = []
        self.numbers = itertools.count()
        numbers = list(range(len(table.alarms)))
        self.dice.shuffle(numbers)
        self.often, self.chattering, self.lasting = numbers[:12], numbers[12:16], numbers[16:24]
        for number in numbers:
            self.draw_alarm(number)
        self.draw_upsets()
        self.draw_work()

    def put(self, moment: float, slot: int, request: str) -> None:
        if moment < self.end:
            heapq.heappush(self.queue, (int(moment), next(self.numbers), slot, request))

    def activity(self, moment: float) -> float:
        """How much goes on: nights and the weekend are quiet."""
        hour, day = (moment - BEGIN) % DAY / HOUR, (moment - BEGIN) // DAY
        return (1.0 if 6 <= hour < 18 else 0.35) * (0.5 if day >= 5 else 1.0)

    def come(self, number: int, moment: float, lasts: float) -> None:
        """The condition comes and goes, and an operator does what is to be done."""
        alarm = self.table.alarms[number]
        delay = self.dice.lognormvariate(0, 1) * MEDIAN[alarm.priority] * (1 if self.activity(moment) > 0.4 else 2)
        self.put(moment, FEED, f"VAL {number} {alarm.coming}")
        self.put(moment + lasts, FEED, f"VAL {number} {alarm.going}")
        self.put(moment + delay, CONSOLE, f"ACK {number}")
        self.put(moment + lasts + delay, CONSOLE, f"ACK {number}")
        if alarm.latching:
            self.put(moment + lasts + delay + self.dice.uniform(30, 600), CONSOLE, f"RESET {number}")

    def draw_alarm(self, number: int) -> None:
        """How an alarm comes by itself."""
        mean = 2400 if number in self.often else 6 * HOUR if number in self.chattering else 40 * HOUR
        moment = BEGIN + self.dice.expovariate(1 / mean)
        while moment < self.end:
            if self.dice.random() < self.activity(moment):
                self.one_time(number, moment)
            moment += max(60, self.dice.expovariate(1 / mean))

    def one_time(self, number: int, moment: float) -> None:
        if number in self.chattering:
            for _ in range(self.dice.randint(8, 50)):
                self.come(number, moment, self.dice.uniform(2, 6))
                moment += self.dice.uniform(8, 20)
        elif number in self.lasting:
            self.come(number, moment, self.dice.uniform(1, 4) * DAY)
        else:
            self.come(number, moment, self.dice.expovariate(1 / 700))

    def draw_upsets(self) -> None:
        """An upset brings most alarms of an area within minutes, and some of them again."""
        moment = BEGIN + self.dice.expovariate(1 / (14 * HOUR))
        while moment < self.end:
            area = self.dice.randrange(self.table.areas)
            of_area = [number for number, alarm in enumerate(self.table.alarms) if alarm.area == area]
            for number in of_area:
                for _ in range(self.dice.choice([0, 1, 1, 2, 3])):
                    self.come(number, moment + self.dice.triangular(0, 2400, 200), self.dice.expovariate(1 / 400))
            moment += self.dice.expovariate(1 / (14 * HOUR))

    def draw_work(self) -> None:
        """Shelving, maintenance, units that are shut down, other priorities and setpoints."""
        for moment in range(BEGIN, self.end, HOUR):
            if self.dice.random() < self.activity(moment):
                number = self.dice.choice(self.often + self.chattering)
                seconds = int(
                    min(self.table.alarms[number].max_shelve, self.dice.choice([900, HOUR, 4 * HOUR, 8 * HOUR]))
                )
                self.put(moment + 100, CONSOLE, f"SHELVE {number} {max(1, seconds)}")
                if self.dice.random() < 0.4:
                    self.put(moment + 100 + seconds * 0.6, CONSOLE, f"UNSHELVE {number}")
            if self.dice.random() < 0.3 * self.activity(moment):
                number = self.dice.randrange(len(self.table.alarms))
                self.put(moment + 900, CONSOLE, f"OOS {number} ON")
                self.put(moment + 900 + self.dice.uniform(1, 6) * HOUR, CONSOLE, f"OOS {number} OFF")
                alarm = self.table.alarms[number]
                self.put(moment + 1200, CONSOLE, f"PRIO {number} {self.dice.randint(1, 4)}")
                self.put(moment + 5 * HOUR, CONSOLE, f"PRIO {number} {alarm.priority}")
                self.put(moment + 1300, CONSOLE, f"SETP {number} {alarm.setpoint + 1}")
                self.put(moment + 1400, CONSOLE, f"SETP {number} {alarm.setpoint}")
        for day in (1, 4):
            for number in self.dice.sample(range(len(self.table.alarms)), 12):
                self.put(BEGIN + day * DAY + 8 * HOUR, FEED, f"DESIGN {number} ON")
                self.put(BEGIN + day * DAY + 18 * HOUR, FEED, f"DESIGN {number} OFF")

    def groups(self) -> Iterator[tuple[int, list[tuple[int, str]]]]:
        """The moments at which something is asked, and what."""
        while self.queue:
            moment = self.queue[0][0]
            asked = []
            while self.queue and self.queue[0][0] == moment:
                asked.append(heapq.heappop(self.queue)[2:])
            yield moment, asked
