"""The plant of a shift: what comes and goes in it by a draw, and a count of its own of what stands then.

The count is the plain model of tests/lib/plain_plant.py, which is told what the feed is told, each moment of the clock,
and each action that an operator did. Nothing of it is read from the server or from a page.
"""
import os
import random
import subprocess
import time
from dataclasses import dataclass, field, replace
from typing import Callable, Iterator, Optional

from alarms.client import CLOCK, Client
from alarms.details_file import NONE, load_details
from alarms.table_file import Alarm, Table, load_table
from lib.drawn_plants import module
from lib.places import AT_TOOLS, EXAMPLES
from lib.plain_plant import Alarm as PlainAlarm
from lib.plain_plant import Plant as PlainPlant
from lib.program import check
from lib.server import Server
from lib.tools import Yard, await_true, started, toml

REFINERY, DETAILS = str(EXAMPLES / "refinery.toml"), str(EXAMPLES / "refinery.details.csv")
# The slot of the test's own looks, and seconds that the server may take for what the feed was told.
OWN, PATIENCE = 3, 30
# What alarms do beside floods, as likelihoods in a second: one changes; it goes, where it holds.
RESTLESS, GOES = 0.12, 0.6
# Seconds in which a flood comes, and behind which its alarms begin to go.
FLOOD, STANDS = 15, 70
# The alarm that the changed table has, and the first one hasn't.
NEW = Alarm("high", 500, 2, 0, "TI-199", 5, 3600, False, "Temperature behind the new heater, 0.1 degC")
# Seconds between two changes of an alarm that chatters.
CHATTERS = 5


def plain_rows(table: Table) -> list[tuple]:
    """The rows of a table as the plain model has them."""
    return [
        (
            one.kind.upper(),
            one.setpoint,
            one.deadband,
            one.priority,
            one.area,
            one.max_shelve,
            "ON" if one.latching else "OFF",
            one.tag,
        )
        for one in table.alarms
    ]


def told_value(tag: str, value: int, details: dict) -> str:
    """A value of the plant as the operator's unit has it, with all its digits."""
    one = details.get(tag, NONE)
    return format(value / one.scale, "f") if isinstance(value, int) else str(value)


@dataclass(order=True)
class Due:
    """What happens at a second of the shift."""

    second: int
    what: str = field(compare=False)
    tag: str = field(compare=False, default="")


class World:
    """A served plant, a feed that runs, and the count."""

    def __init__(self, yard: Yard, seed: int, seconds: int):
        self.yard, self.dice, self.seconds = yard, random.Random(seed), seconds
        self.table = load_table(REFINERY)
        self.details = load_details(DETAILS)
        self.device = yard.format("plant.device", REFINERY)
        self.server: Server = yard.serve(self.device)
        self.port = self.server.port
        self.is_away = self.is_calm = False
        self.count = PlainPlant(plain_rows(self.table), self.table.areas)
        self.values: dict[str, int] = {}
        self.designs: dict[str, bool] = {}
        self.restless: dict[str, int] = {}
        self.floods = 0
        # when each value that comes was told to the feed, in milliseconds, and the plant's moment then, by its tag
        self.told: dict[str, tuple[float, int]] = {}
        # what the operator's hand is at just now, and the world leaves alone
        self.busy: set[str] = set()
        self.waiting: list[tuple[str, Optional[int], Optional[bool]]] = []
        self.begin()

    def begin(self) -> None:
        """The feed, the clock, and what is drawn. The feed's map has the new table's rows too, as an alarm may come as
        soon as the plant has it."""
        tags = [one.tag for one in (*self.table.alarms, NEW)]
        rows = "".join(f"{tag},{tag},\n{tag}/design,{tag},design\n" for tag in tags)
        words = ("--map", self.yard.write("map.csv", f"name,tag,as\n{rows}"), "--details", DETAILS)
        self.log = open(self.yard.path("feed.log"), "w", encoding="utf-8")
        self.feed = started(
            subprocess.Popen(
                module("feed", "--port", self.port, *words),
                env=AT_TOOLS,
                stdin=subprocess.PIPE,
                stdout=self.log,
                stderr=self.log,
            )
        )
        self.connect()
        self.start = int(time.time())
        self.clock_to(self.start)
        self.due = sorted(self.drawn())
        self.began, self.second = time.monotonic(), 0

    def connect(self) -> None:
        self.clock = Client.connect(self.port, CLOCK, patience=60)
        self.console = Client.connect(self.port, OWN, patience=60)

    @property
    def numbers(self) -> dict[str, int]:
        return self.table.numbers()

    def drawn(self) -> Iterator[Due]:
        """What a draw says of the shift beside single alarms: floods of two areas, alarms that chatter, suppressions by
        design."""
        for part in (0.06, 0.4, 0.75):
            yield Due(int(part * self.seconds), "flood")
        quiet = [one.tag for one in self.table.alarms if one.max_shelve >= 900 and one.priority == 3]
        for part, tag in zip((0.15, 0.55, 0.85), self.dice.sample(quiet, 3)):
            yield Due(int(part * self.seconds), "chatter", tag)
        for tag in self.dice.sample([one.tag for one in self.table.alarms if one.priority > 2], 3):
            first = self.dice.uniform(0.1, 0.4)
            yield Due(int(first * self.seconds), "design on", tag)
            yield Due(int((first + 0.3) * self.seconds), "design off", tag)

    def passed(self) -> float:
        """Which part of the shift is over."""
        return (time.monotonic() - self.began) / self.seconds

    def tick(self) -> None:
        """What is due by now happens, and the clock goes on. While the server is away the feed alone is told."""
        now = int(time.monotonic() - self.began)
        if not self.is_calm:
            self.happen(now)
        if not self.is_away and self.start + now > self.count.now:
            self.clock_to(self.start + now)

    def happen(self, now: int) -> None:
        """What is due by a second of the shift happens."""
        for second in range(self.second + 1, now + 1):
            self.happens(second)
        self.second = max(self.second, now)

    def happens(self, second: int) -> None:
        """What a second of the shift brings."""
        while self.due and self.due[0].second <= second:
            one = self.due.pop(0)
            if one.what == "flood":
                self.flood(second)
            elif one.tag not in self.numbers:
                continue  # the changed table hasn't it any more
            elif one.what == "chatter":
                self.restless[one.tag] = second
            elif one.what in ("comes", "goes"):
                self.turn(one.tag, one.what == "comes")
            else:
                self.says(one.tag, design=one.what == "design on")
        for tag, first in self.restless.items():
            if (second - first) % CHATTERS == 0:
                self.turn(tag, not self.holds(tag))
        if self.dice.random() < RESTLESS:
            tag = self.dice.choice(self.table.alarms).tag
            if not self.holds(tag) or self.dice.random() < GOES:
                self.turn(tag, not self.holds(tag))
        if self.dice.random() < RESTLESS:
            holding = [one.tag for one in self.count.alarms if one.active and one.tag not in self.restless]
            if holding and self.dice.random() < GOES:
                self.turn(self.dice.choice(holding), False)

    def flood(self, second: int) -> None:
        """Most alarms of two areas come within seconds; a minute later they begin to go."""
        self.floods += 1
        for area in self.dice.sample(range(self.table.areas), 2):
            tags = [one.tag for one in self.table.alarms if one.area == area]
            for tag in self.dice.sample(tags, min(len(tags), self.dice.randint(13, 18))):
                self.due.append(Due(second + self.dice.randint(1, FLOOD), "comes", tag))
                self.due.append(Due(second + STANDS + self.dice.randint(1, 4 * FLOOD), "goes", tag))
        self.due.sort()

    def holds(self, tag: str) -> bool:
        return self.count.alarms[self.numbers[tag]].active

    def turn(self, tag: str, comes: bool) -> None:
        """An alarm's condition comes or goes, unless somebody's hand is at it."""
        alarm = self.count.alarms[self.numbers[tag]]
        if tag in self.busy or alarm.active == comes:
            return
        now = replace(self.table.alarms[self.numbers[tag]], setpoint=alarm.setpoint)
        self.says(tag, value=now.coming if comes else now.going)

    def says(self, tag: str, value: Optional[int] = None, design: Optional[bool] = None) -> None:
        """A line to the feed, and what it brings to the count."""
        name = tag if design is None else f"{tag}/design"
        text = told_value(tag, value, self.details) if value is not None else "on" if design else "off"
        if value is not None:
            self.values[tag] = value
            self.told[tag] = time.time() * 1000, self.count.now
        self.feed.stdin.write(f"{name},{text}\n".encode())
        self.feed.stdin.flush()
        if self.is_away:
            self.waiting = [one for one in self.waiting if (one[0], one[1] is None) != (tag, value is None)]
            self.waiting.append((tag, value, design))
        else:
            self.counts(tag, value, design)
            self.await_count()

    def counts(self, tag: str, value: Optional[int], design: Optional[bool]) -> None:
        """What a line of the feed brings to the count."""
        word = ["VAL", str(self.numbers[tag]), str(value)]
        self.count.answer(word if design is None else ["DESIGN", word[1], "ON" if design else "OFF"], 16)

    def clock_to(self, moment: int) -> None:
        self.clock.clock(moment)
        check(self.count.answer(["CLOCK", str(moment)], CLOCK).startswith("OK"), "the count takes no clock")

    def await_count(self) -> None:
        """Waits until the server has as many actions as are counted here."""
        wanted = self.count.count
        await_true("what the feed was told", lambda: self.console.plant().count >= wanted, PATIENCE)
        found = self.console.plant().count
        check(found == wanted, "the server has", found, "actions, and the count", wanted)

    def does(self, word: str, tag: str, value: Optional[object] = None) -> None:
        """An operator did that: it is counted, and was possible."""
        said = self.count.answer([word, str(self.numbers[tag]), *([] if value is None else [str(value)])], 12)
        check(said.startswith("OK"), "by the count", word, tag, value, "is answered", said)

    def kill(self) -> None:
        """The server is killed. What the feed is told from now on comes as it is back."""
        self.clock.close()
        self.console.close()
        self.is_away = True
        self.server.process.kill()
        self.server.process.wait()
        self.server.end()

    def back(self) -> None:
        """The server is started again at its place, and the feed has told it what came meanwhile: suppressions, values
        in any order, and ends of suppressions."""
        self.server = self.yard.serve(self.device, self.port)
        self.connect()
        self.is_away = False
        before = self.count.orders
        for one in sorted(self.waiting, key=lambda one: 1 if one[2] is None else 2 * (not one[2])):
            self.counts(*one)
        self.waiting = []
        self.await_count()
        self.take_order(before)

    def take_order(self, before: int) -> None:
        """Which of several alarms of one moment came first says the server: the feed has sent them in its own order.
        Each has a stamp of its own, above all those of before."""
        asking = [one for one in self.count.alarms if one.asks]
        stamps = {one.tag: self.console.row(self.numbers[one.tag]).stamp for one in asking}
        fresh = sorted((one for one in asking if one.order > before), key=lambda one: stamps[one.tag])
        old = [stamps[one.tag] for one in asking if one.order <= before]
        check(not fresh or stamps[fresh[0].tag] > max(old, default=0), "what came meanwhile isn't the newest:", stamps)
        check(len(set(stamps.values())) == len(stamps), "stamps stand twice:", stamps)
        for order, one in zip(sorted(one.order for one in fresh), fresh):
            one.order = order

    def change_table(self) -> tuple[str, str]:
        """Another table by docs/OPERATING.md: an alarm less, one more, another text. The tags that went and came."""
        gone = next(one.tag for one in self.count.alarms if one.word() == "NORM" and one.tag not in self.values)
        self.kill()
        program, path = self.yard.program, self.yard.path
        exported = load_table(self.yard.write("old.toml", self.yard.run("export", self.device)))
        kept = [one for one in exported.alarms if one.tag != gone]
        kept[3] = replace(kept[3], text="Another text")
        self.table = Table((exported.size or 0) + 364, exported.areas, [*kept, NEW])
        other = self.yard.format("new.device", self.yard.write("new.toml", toml(self.table)))
        words = module("change_table", self.device, path("new.toml"), "--program", program)
        run = subprocess.run(words, env=AT_TOOLS, capture_output=True, text=True, timeout=60)
        check(run.returncode == 0, "alm_change_table ends with", run.returncode, run.stderr)
        replies = self.yard.run("desk", other, lines=run.stdout)
        check(all(" OK " in line for line in replies.splitlines()), "the new device answers", replies)
        os.replace(other, self.device)
        self.carry(gone, replies.count("\n"))
        self.back()
        return gone, NEW.tag

    def carry(self, gone: str, actions: int) -> None:
        """The count of the new table: what both have keeps its state. Annunciations are of before the windows, in their
        order; then shelvings have their stamps."""
        old, fresh = self.count, PlainPlant(plain_rows(self.table), self.table.areas)
        fresh.now, fresh.count, fresh.opened = old.now, actions, actions
        kept = {one.tag: one for one in old.alarms if one.tag != gone}
        for number, one in enumerate(fresh.alarms):
            fresh.alarms[number] = kept.get(one.tag, one)
        asking = sorted((one for one in fresh.alarms if one.asks), key=lambda one: one.order)
        for one in fresh.alarms:
            one.moments = []
        for one in asking:
            one.order, one.moments = fresh.next_order(), [fresh.now - 601]
            fresh.annunciated[one.area].append(fresh.now - 601)
        for one in fresh.alarms:
            if one.until is not None:
                one.order = fresh.next_order()
        fresh.settle()
        self.count = fresh

    def calm(self) -> None:
        """Each condition that holds goes, and nothing else comes."""
        self.is_calm, self.due, self.restless = True, [], {}
        for one in self.count.alarms:
            self.turn(one.tag, False)

    def expected(self) -> list[PlainAlarm]:
        """The annunciated alarms as the first view has them: unacknowledged first, then by priority, then the
        newest."""
        asking = [one for one in self.count.alarms if one.asks and not one.suppressed()]
        return sorted(asking, key=lambda one: (not one.unacknowledged, one.priority, -one.moments[-1], -one.order))

    def suppressed(self, has: Callable[[PlainAlarm], bool]) -> set[str]:
        return {one.tag for one in self.count.alarms if has(one)}

    def latched(self) -> list[str]:
        return [one.tag for one in self.count.alarms if one.word() == "LATAK"]

    def agrees(self) -> None:
        """The server's states are those of the count."""
        self.await_count()
        states = self.console.states(range(len(self.count.alarms)))
        wrong = [
            (one.tag, one.word(), state.shown)
            for one, state in zip(self.count.alarms, states)
            if (one.word(), int(one.active), one.until) != (state.shown, int(state.condition), state.deadline)
        ]
        check(not wrong, "the server and the count differ:", wrong)

    def end(self) -> str:
        """Ends the feed and the server; what the feed said."""
        self.feed.stdin.close()
        self.feed.wait(timeout=30)
        self.clock.close()
        self.console.close()
        self.server.end()
        self.log.close()
        return self.yard.read("feed.log")
