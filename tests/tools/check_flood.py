"""The alarm list in browsers side by side, in a flood and at its largest. tests/tools/browser.py runs these checks."""
import asyncio
import json
import random
import statistics
import time
from typing import Any

from lib.browsers import AREAS, List, Page, Plant, engineer, shot
from check_doors import key_of
from lib.program import check
from alarms.table_file import Alarm, Table, device_size
from lib.tools import Yard, slowness, toml

# Milliseconds from an acknowledgement in one browser to another: of the refinery, and of 16,384 alarms with 1,000
# annunciated.
QUICK, LARGE_QUICK = 300, 1000
LARGEST, ANNUNCIATED = 16_384, 1000
OPERATORS = 15
# Notes when each row is first drawn in each state.
WATCH = """window.at = {}; const note = () => { for (const row of document.querySelectorAll('#rows tr'))
{ const key = row.children[4].textContent + ' ' + row.children[3].textContent; window.at[key] ??= Date.now(); } };
new MutationObserver(note).observe(document.getElementById('rows'), {childList: true, subtree: true}); note()"""

# Milliseconds that a drawing takes.
DRAWS = """{ const began = performance.now(); for (let i = 0; i < 10; i++) page.draw();
return (performance.now() - began) / 10; }"""


def delays(one: Page, other: Page, tags: list[str]) -> list[int]:
    """Acknowledges alarms in one browser; the milliseconds until the other one shows each."""
    other.js(WATCH)
    took = []
    for tag in tags:
        one.choose(tag)
        began = one.js("const now = Date.now(); document.querySelector('[data-act=ACK]').click(); return now")
        other.until(f"{tag} in the other", lambda: other.js("return window.at[arguments[0]]", f"{tag} Acked"))
        took.append(other.js("return window.at[arguments[0]]", f"{tag} Acked") - began)
    return took


def judge(took: list[int], most: int) -> str:
    """Each within the bound, by as much longer as the machine is busy."""
    middle, longest = statistics.median(took), max(took)
    check(longest <= most * slowness(), "an acknowledgement came to the other browser after", took)
    return f"{middle:.0f} ms, {longest} at most"


def two(yard: Yard, count: int) -> str:
    """Two browsers side by side over the refinery's 200 alarms."""
    plant = Plant(yard)
    tags = list(plant.numbers)[:14]
    plant.comes(*tags)
    listed = engineer(yard, plant)
    one, other = Page(yard, listed.url), Page(yard, listed.url)
    for page in (one, other):
        page.until("all", lambda: len(page.rows()) == len(tags))
        page.click("#columns [data-sort='tag']")
        page.rest()
    took = delays(one, other, [row["cells"]["tag"] for row in one.rows()][: min(count, 13)])
    said = judge(took, QUICK)
    check(one.of("#who") == "anna (engineer)", "who", one.of("#who"))
    for page in (one, other):
        page.end()
    listed.end()
    plant.end()
    return f"to the other browser {said}"


def large_plant(yard: Yard) -> Plant:
    alarms = [
        Alarm(
            "high",
            100,
            number % 4 + 1,
            number % 64,
            f"TI-{number:05}",
            2,
            3600,
            number % 16 == 0,
            f"Temperature of vessel {number} high",
        )
        for number in range(LARGEST)
    ]
    table = yard.write("large.toml", toml(Table(device_size(LARGEST, 64), 64, alarms)))
    plant = Plant(yard, table)
    replies = list(plant.feed.ask_all(f"VAL {number * 16} 120" for number in range(ANNUNCIATED)))
    check(len(replies) == ANNUNCIATED and all(reply[0] == "OK" for reply in replies), "not all came")
    return plant


def large(yard: Yard, count: int) -> str:
    """16,384 alarms with 1,000 annunciated: the same, and how long the page takes to be there."""
    plant = large_plant(yard)
    listed = engineer(yard, plant)
    began = time.monotonic()
    one, other = Page(yard, listed.url), Page(yard, listed.url)
    for page in (one, other):
        page.until("all", lambda: page.find("#list").get_attribute("aria-rowcount") == str(ANNUNCIATED + 1))
        page.click("#columns [data-sort='tag']")
        page.rest()
    there = time.monotonic() - began
    said = judge(delays(one, other, [row["cells"]["tag"] for row in one.rows()][: min(count, 13)]), LARGE_QUICK)
    one.turn("all")
    one.until("all 16,384", lambda: one.find("#list").get_attribute("aria-rowcount") == str(LARGEST + 1))
    check(one.js("return document.querySelectorAll('#rows tr').length") < 60, "all rows are drawn")
    one.js("document.getElementById('list').scrollTop = 1e9")
    one.until("the last", lambda: "TI-16383" in one.tags())
    one.find("#text").send_keys("vessel 12345 ")
    one.until("one of them", lambda: one.tags() == ["TI-12345"])
    took = one.of_module("draw", DRAWS)
    acknowledges_all(plant, other)
    for page in (one, other):
        page.end()
    listed.end()
    plant.end()
    return f"of 16,384 alarms {said}; both pages there after {there:.1f} s, {took:.0f} ms a drawing"


def acknowledges_all(plant: Plant, page: Page) -> None:
    """A thousand at once: selected, and acknowledged as far as they were on the screen."""
    page.click("#columns [data-sort='tag']")
    shown = 0
    for _ in range(4):
        page.rest()
        page.press("A")
        page.until("said", lambda: "acknowledged" in page.of("#said") and "shown" not in page.of("#said"))
        page.js("document.getElementById('list').scrollTop += document.getElementById('list').clientHeight - 60")
        shown += 1
    left = [number for priority in range(1, 5) for number in plant.console.priority_list(priority).alarms]
    unacknowledged = sum(state.is_unacknowledged for state in plant.console.states(left))
    check(0 < unacknowledged < ANNUNCIATED - 30, "still unacknowledged are", unacknowledged)


class Operator:
    """An operator without a screen: a stream, and orders."""

    def __init__(self, session: Any, place: str, key: str):
        self.session, self.place, self.key = session, place, key
        self.seen: dict[tuple[int, str], float] = {}
        self.stamps: dict[int, int] = {}
        self.era = ""

    async def listen(self) -> None:
        async with self.session.get(self.place + "stream", headers={"X-Alarms-Key": self.key}) as stream:
            async for line in stream.content:
                if line.startswith(b"data: "):
                    self.take(json.loads(line[6:]))

    def take(self, news: dict[str, Any]) -> None:
        self.era = news.get("era", self.era)
        for row in news.get("rows", ()):
            self.seen.setdefault((row[0], row[3]), time.monotonic())
            self.stamps[row[0]] = row[9]

    async def acknowledge(self, alarm: int) -> float:
        body = {"era": self.era, "word": "ACK", "alarms": [[alarm, self.stamps[alarm]]]}
        began = time.monotonic()
        headers = {"Origin": self.place[:-1], "X-Alarms-Key": self.key}
        async with self.session.post(self.place + "do", json=body, headers=headers) as reply:
            answers = (await reply.json())["answers"]
            check(answers[0][1] == "done", "it was answered", answers)
        return began


async def fifteen_operators(listed: List, alarms: int) -> list[float]:
    """Fifteen operators who acknowledge beside each other; the seconds until all of them have been told each."""
    import aiohttp

    took: list[float] = []
    operators, tasks = [], []
    for _ in range(OPERATORS):
        session = aiohttp.ClientSession(
            cookie_jar=aiohttp.CookieJar(unsafe=True), timeout=aiohttp.ClientTimeout(total=None), read_bufsize=2**23
        )
        async with session.get(listed.url) as page:
            check(page.status == 200, page.status)
            operators.append(Operator(session, listed.place, key_of(await page.text())))
        tasks.append(asyncio.create_task(operators[-1].listen()))
    while not all(len(one.stamps) >= alarms for one in operators):
        await asyncio.sleep(0.05)
    for turn in range(alarms // OPERATORS):
        numbers = range(turn * OPERATORS, (turn + 1) * OPERATORS)
        began = await asyncio.gather(*(one.acknowledge(number) for one, number in zip(operators, numbers)))
        keys = [(number, "ACKED") for number in numbers]
        deadline = time.monotonic() + 20
        while not all(key in one.seen for one in operators for key in keys):
            check(time.monotonic() < deadline, "an acknowledgement didn't come to all")
            await asyncio.sleep(0.01)
        took += [max(one.seen[key] for one in operators) - at for key, at in zip(keys, began)]
    for one, task in zip(operators, tasks):
        task.cancel()
        await one.session.close()
    return took


def fifteen(yard: Yard, _count: int) -> str:
    """Fifteen operators at once, over the refinery."""
    plant = Plant(yard)
    tags = list(plant.numbers)
    plant.comes(*tags)
    listed = engineer(yard, plant)
    took = asyncio.run(fifteen_operators(listed, len(tags)))
    middle, longest = statistics.median(took), max(took)
    check(len(took) == 195 and longest <= QUICK / 1000 * slowness(), "fifteen operators took", middle, longest)
    listed.end()
    plant.end()
    return f"to fifteen operators {middle * 1000:.0f} ms, {longest * 1000:.0f} at most"


class Drawn:
    """A flood that is drawn: alarms of two areas come, go and chatter, while the plant's clock goes on."""

    def __init__(self, plant: Plant, seed: int):
        self.plant, self.dice = plant, random.Random(seed)
        alarms = plant.table.alarms
        self.tags = [alarm.tag for alarm in alarms if alarm.area in (0, 3)] + self.dice.sample(
            [alarm.tag for alarm in alarms if alarm.area not in (0, 3)], 8
        )
        self.holding: set[str] = set()
        self.restless = next(
            alarm.tag for alarm in alarms if alarm.area == 3 and alarm.max_shelve and alarm.priority == 3
        )

    def turn(self, comes: int) -> None:
        """A second of the plant: some come, few go, and one chatters."""
        for _ in range(comes):
            tag = self.dice.choice(self.tags)
            if tag in self.holding and self.dice.random() < 0.4:
                self.goes(tag)
            elif tag not in self.holding:
                self.comes(tag)
        (self.goes if self.restless in self.holding else self.comes)(self.restless)
        self.plant.passes(1)

    def comes(self, tag: str) -> None:
        self.plant.comes(tag)
        self.holding.add(tag)

    def goes(self, tag: str) -> None:
        self.plant.goes(tag)
        self.holding.discard(tag)

    def all_go(self) -> None:
        for tag in sorted(self.holding):
            self.goes(tag)


def flood(yard: Yard, count: int) -> str:
    """A drawn flood over the refinery, and an operator who has the page alone; amid it the server is killed."""
    plant = Plant(yard)
    drawn = Drawn(plant, seed=70)
    listed = engineer(yard, plant, "--notes", yard.path("notes.sqlite"))
    page = Page(yard, listed.url)
    page.until("the page", lambda: page.of("#clock") != "")
    page.js("window.same = 1")
    for second in range(12):
        drawn.turn(4)
    floods = {area for area, one in enumerate(plant.console.floods()) if one.flooded}
    check(floods, "there is no flood")
    page.until(
        "the floods",
        lambda: all(AREAS[area] in page.of("#floods") for area in floods)
        and len(page.js("return [...document.querySelectorAll('#flooded button')]")) == len(floods),
    )
    shot(page, "flood")
    operator_works(plant, page, drawn, count)
    settles(plant, page, drawn)
    check(page.js("return window.same") == 1, "the page was loaded again")
    page.end()
    listed.end()
    plant.end()
    return "a drawn flood by the page alone"


def operator_works(plant: Plant, page: Page, drawn: Drawn, count: int) -> None:
    """One area after the other is acknowledged, the alarm that chatters is shelved; then the server is gone for a
    while, and the flood goes on."""
    page.js("document.querySelector('#floods button').click()")
    page.rest()
    page.press("A")
    page.says("acknowledged")
    page.click("#clear")
    page.turn("chatter")
    page.shows(drawn.restless, page.state(drawn.restless))
    page.choose(drawn.restless)
    page.act("SHELVE")
    page.answer("chatters, work order 4711", duration="15 min")
    page.until("it is shelved", lambda: plant.shown(drawn.restless) == "SHLVD")
    page.turn("alarms")
    for second in range(count):
        drawn.turn(2)
        if second == count // 2:
            plant.leave()
            plant.server.end()
            page.until("no server", lambda: "NO SERVER" in page.of("#trouble"))
            shot(page, "no-server")
            plant.again()
            page.until("the server again", lambda: "NO SERVER" not in page.of("#trouble"))
        page.rest()
        page.press("A")
        page.rest()


def settles(plant: Plant, page: Page, drawn: Drawn) -> None:
    """The plant settles. What is left the operator acknowledges and resets, to the last alarm; and the list is that of
    the server all the way."""
    drawn.all_go()
    for _ in range(30):
        page.rest()
        page.press("A")
        page.rest()
        latched = [row["cells"]["tag"] for row in page.rows() if row["cells"]["state"] == "Latched"]
        if latched:
            page.choose(*latched[:6])
            page.act("RESET")
        if not any(plant.console.priority_list(priority).alarms for priority in range(1, 5)):
            break
    page.until("an empty list", lambda: not page.rows() and page.of("#empty") == "None.")
    plant.passes(601)
    page.until("no flood", lambda: page.of("#floods") == "")
    check(plant.shown(drawn.restless) == "SHLVD", "the alarm that chattered isn't shelved")
    plant.passes(900)
    page.turn("shelved")
    page.until("no shelving", lambda: not page.rows())
    left = [tag for tag, shown in plant.all_shown().items() if shown != "NORM"]
    check(not left, "the server still shows", left)


CHECKS = {"two": two, "large": large, "fifteen": fifteen, "flood": flood}
