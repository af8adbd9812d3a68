"""An operator who works a shift by the page alone, and holds what the page shows against the count of the plant.

Each action is done by clicks and keys. What it is to bring about is worked out from the rows that are on the screen and
from the count (shift_world.py), before it is done.
"""
import collections
import os
import random
import time
from typing import Callable, Iterable, Optional

from alarms.details_file import NONE
from check_screen import screen
from lib.browsers import AREAS, Page
from lib.program import Wrong, check
from lib.tools import await_true
from selenium.common.exceptions import ElementClickInterceptedException, ElementNotInteractableException
from selenium.webdriver import ActionChains, Keys
from shift_world import World

WORDS = {
    "NORM": "Normal",
    "UNACK": "Unack",
    "ACKED": "Acked",
    "RTNUN": "RTN unack",
    "LATUN": "Latch unack",
    "LATAK": "Latched",
    "SHLVD": "Shelved",
    "DSUPR": "By design",
    "OOSRV": "Out of service",
}
SCREENS = ((1280, 720, False), (1920, 1080, False), (820, 1180, True))
# The tags of the whole rows on the screen that nobody has acknowledged, in their order; and of all whole rows.
SHOWN = """const list = document.getElementById('list').getBoundingClientRect(),
top = document.getElementById('columns').getBoundingClientRect().bottom;
return [...document.querySelectorAll('#rows tr' + arguments[0])]
.filter(row => row.getBoundingClientRect().top >= top - 2 && row.getBoundingClientRect().bottom <= list.bottom + 2)
.map(row => row.querySelector('td.tag').textContent)"""
# Notes when each annunciation is first drawn, in milliseconds: by its tag and its time of the day.
WATCH = """window.at = {}; const note = () => { const now = Date.now(); for (const row of document.querySelectorAll(
'#rows tr.unacknowledged')) { const cells = row.children; if (cells[2]?.classList.contains('time'))
window.at[cells[4].textContent + ' ' + cells[2].textContent] ??= now; } };
new MutationObserver(() => requestAnimationFrame(note)).observe(document.getElementById('rows'), {childList: true,
subtree: true}); note()"""
# Milliseconds beyond which an annunciation wasn't on the screen as it came.
BESIDE = 5000
# Seconds for which a shelving is asked.
SHELVED = 900


class Operator:
    """A hand at a page, the eye on it, and what it has done."""

    def __init__(self, page: Page, world: World, dice: random.Random, folder: Optional[str]):
        self.page, self.world, self.dice, self.folder = page, world, dice, folder
        self.user, self.role = "", ""
        # by presses of a button or key: each action with the number that the server has to have given it. And the
        # changes of positions
        self.done: list[list[tuple]] = []
        self.shifts: list[tuple] = []
        self.reasons: dict[tuple[str, str], tuple[str, str]] = {}
        self.counts: collections.Counter[str] = collections.Counter()
        self.delays: list[float] = []
        self.differs = ""

    def watch(self, seconds: float) -> None:
        """Looks on, while the plant goes on; then takes note of how soon what came was drawn."""
        ends = time.monotonic() + seconds
        while time.monotonic() < ends:
            self.world.tick()
            time.sleep(0.1)
        self.note_delays()

    def note_delays(self) -> None:
        """How long each annunciation took from the feed's line to its row, where that was on the screen."""
        told, self.world.told = self.world.told, {}
        times = {tag: time.strftime("%H:%M:%S", time.localtime(moment)) for tag, (_, moment) in told.items()}
        keys = {tag: f"{tag} {text}" for tag, text in times.items()}
        drawn = self.page.js("return arguments[0].map(key => window.at?.[key] ?? 0)", list(keys.values()))
        for tag, at in zip(keys, drawn):
            if 0 < at - told[tag][0] < BESIDE:
                self.delays.append(at - told[tag][0])

    def does(self, word: str, *tags: str, value: Optional[int] = None, reason: str = "") -> None:
        """Counts the actions of one press, which are done now."""
        given, press = {"OOS": ["OFF", "ON"][bool(value)]}.get(word, value), []
        for tag in tags:
            self.world.does(word, tag, given)
            press.append((self.world.count.count, self.user, self.role, word, tag, value, reason))
            self.counts[word] += 1
            if reason:
                self.reasons[word, tag] = self.user, reason
        self.done.append(press)

    def answered(self, does: Callable[[], None]) -> str:
        """What is said of an action, once it is answered. While the list may be old nothing is offered: on a busy
        machine that is so for a moment."""
        self.page.until("a list of now", lambda: not self.page.js("return document.body.classList.contains('old')"))
        self.page.js("document.getElementById('said').textContent = ''")
        does()
        self.page.until("an answer", lambda: self.page.of("#said") not in ("", ".."))
        return self.page.of("#said")

    def acknowledge_shown(self) -> None:
        """What is whole on the screen, once it has been there for a second."""
        page = self.page
        page.leave()
        page.rest()
        tags = page.js(SHOWN, ".unacknowledged")
        if not tags:
            return
        offered = f"Acknowledge {len(tags)} shown"
        page.until(offered, lambda: page.of("[data-act=SHOWN] span") == offered)
        said = self.answered(lambda: page.press("A"))
        check(said == f"{tags[0] if len(tags) == 1 else len(tags)} acknowledged", "of", tags, "it says", said)
        self.does("ACK", *tags)

    def aim(self) -> None:
        """One row, while the plant goes on."""
        self.reach()
        tags = self.page.js(SHOWN, ".unacknowledged")
        if not tags:
            return self.page.leave()
        tag = self.dice.choice(tags)
        self.world.busy = {tag}
        self.choose(tag)
        self.watch(self.dice.uniform(0.4, 0.9))
        said = self.answered(lambda: self.page.press("a"))
        check(said == f"{tag} acknowledged", "aimed at", tag, "it says", said)
        self.does("ACK", tag)
        self.world.busy = set()
        self.page.press(Keys.ESCAPE)

    def reach(self) -> None:
        """The pointer is over the list, which holds still from then on: what is seen now is there for a click, however
        late that comes."""
        ActionChains(self.page.driver).move_to_element(self.page.find("#list")).perform()

    def choose(self, *tags: str) -> None:
        """Selects rows by clicks; they have stood at their places for a second by then."""
        self.page.press(Keys.ESCAPE)
        self.page.choose(*tags)

    def reset(self) -> None:
        """What is latched and was acknowledged."""
        if not self.world.latched():
            return
        self.reach()
        tags = [tag for tag in self.page.js(SHOWN, "") if tag in self.world.latched()][:5]
        if not tags:
            return self.page.leave()
        self.choose(*tags)
        said = self.answered(lambda: self.page.act("RESET"))
        check(said == f"{tags[0] if len(tags) == 1 else len(tags)} reset", "of", tags, "it says", said)
        self.does("RESET", *tags)
        self.page.press(Keys.ESCAPE)

    def dialog(self, word: str, act: str, tag: str, value: Optional[int], reason: str, **fields: str) -> None:
        """An action of one alarm that wants a reason."""
        self.choose(tag)

        def opens() -> bool:
            """Presses the button where it is offered and has opened no dialog yet."""
            is_open = self.page.find("#reason").is_displayed()
            if not is_open and self.page.find(f"#actions [data-act='{act}']").is_enabled():
                self.page.act(act)
                self.counts["pressed"] += 1
            return is_open

        def does() -> None:
            self.page.until("the dialog", opens)
            self.page.answer(reason, **fields)

        said = self.answered(does)
        check(said.startswith(f"{tag} "), act, tag, "is answered", said)
        self.does(word, tag, value=value, reason=reason)
        self.page.press(Keys.ESCAPE)

    def find(self, tag: str) -> None:
        """One alarm in the view of all."""
        self.page.turn("all")
        self.page.find("#text").send_keys(tag)
        self.page.until(f"{tag} alone", lambda: self.page.tags() == [tag])
        self.page.rest()

    def leave_views(self) -> None:
        self.page.click("#clear")
        self.page.turn("alarms")
        self.page.leave()

    def shelve_chattering(self) -> None:
        """What chatters, by its view; then it is mended."""
        for tag in list(self.world.restless):
            alarm = self.world.count.alarms[self.world.numbers[tag]]
            if alarm.suppressed() or sum(self.world.count.now < one + 60 for one in alarm.moments) < 3:
                continue
            self.page.turn("chatter")
            self.page.until(f"{tag} chatters", lambda: tag in self.page.tags())
            reason = f"chatters, work order {self.dice.randrange(1000, 9999)}"
            self.dialog("SHELVE", "SHELVE", tag, SHELVED, reason, duration="15 min")
            self.world.restless.pop(tag)
            self.leave_views()

    def take_out(self, areas: Iterable[int]) -> None:
        """An alarm whose condition holds, out of service."""
        alarms = [one for one in self.world.expected() if one.area in areas and one.active and not one.unacknowledged]
        if alarms:
            tag = self.dice.choice(alarms).tag
            self.find(tag)
            self.dialog("OOS", "OOS ON", tag, 1, f"transmitter removed, permit {self.dice.randrange(1000, 9999)}")
            self.leave_views()

    def put_back(self) -> None:
        """What is out of service, by its view."""
        tags = sorted(one.tag for one in self.world.count.alarms if one.out_of_service)
        if tags:
            self.page.turn("service")
            self.page.until("what is out of service", lambda: sorted(self.page.tags()) == tags)
            self.dialog("OOS", "OOS OFF", tags[0], 0, "transmitter back, tested")
            self.leave_views()

    def give_values(self) -> None:
        """An engineer's: another priority, and a setpoint in the operator's unit, of alarms that stand still."""
        quiet = [one for one in self.world.count.alarms if one.word() == "NORM" and one.tag not in self.world.values]
        one = self.dice.choice([alarm for alarm in quiet if alarm.kind == "HIGH"])
        told = self.world.details.get(one.tag, NONE)
        self.find(one.tag)
        value = one.setpoint + int(told.scale)
        self.dialog("SETP", "SETP", one.tag, value, "reviewed", setpoint=told.told(value))
        limit = told.with_unit(value)
        self.page.until(f"{one.tag} at {limit}", lambda: self.page.row(one.tag)["cells"]["limit"] == limit)
        priority = one.priority % 4 + 1
        self.dialog("PRIO", "PRIO", one.tag, priority, "reviewed too", priority=str(priority))
        self.leave_views()

    def works_flood(self) -> None:
        """An area in flood alone, screen by screen."""
        if not self.page.js("return document.querySelectorAll('#flooded button:not([hidden])').length"):
            return
        self.page.js("document.querySelector('#flooded button').click()")
        for _ in range(2):
            self.acknowledge_shown()
            self.watch(1)
        self.page.click("#clear")

    def follows_newcomers(self) -> None:
        """What came above the screen while the list held still."""
        if "new above" in self.page.of("#new-above"):
            try:
                self.page.click("#new-above")
                self.counts["newcomers"] += 1
            except (ElementNotInteractableException, ElementClickInterceptedException):
                gone = self.page.js("return document.getElementById('new-above').className === 'none'")
                check(gone, "what is new is offered, and can't be pressed")  # else the list came free just before
            self.page.leave()

    def turn(self) -> None:
        """What an operator does next."""
        draws = self.dice.random()
        self.follows_newcomers()
        if self.world.restless:
            self.shelve_chattering()
        if any(self.world.count.flooded) and draws < 0.4:
            self.works_flood()
        elif draws < 0.7:
            self.acknowledge_shown()
        elif draws < 0.85:
            self.aim()
        elif draws < 0.9:
            self.take_out((2, 3, 4, 5))
        elif draws < 0.94:
            self.put_back()
        self.reset()
        if draws > 0.85:
            self.compare()
        if draws > 0.97:
            self.who_and_why()

    def compare(self) -> None:
        """Server, page and count say the same, once the list is free."""
        self.page.press(Keys.ESCAPE)
        self.page.leave()
        self.world.agrees()
        try:
            await_true("the list of the count", self.list_agrees)
        except Wrong:
            raise Wrong(f"page and count differ: {self.differs}") from None
        self.counts["looks"] += 1

    def list_agrees(self) -> bool:
        """Whether the first view is the count's: each row in its order, with its state, priority, text and limit; and
        what stands over it."""
        world, page = self.world, self.page
        page.js("document.getElementById('list').scrollTop = 0")
        wanted = [self.cells(one) for one in world.expected()]
        found = [
            tuple(row["cells"][name] for name in ("tag", "state", "mark-cell", "text", "limit")) for row in page.rows()
        ]
        rows = int(page.find("#list").get_attribute("aria-rowcount")) - 1
        if rows != len(wanted) or found != wanted[: len(found)] or len(found) < min(len(wanted), 10):
            self.differs = f"{rows} rows, and {len(wanted)} by the count; {found[:30]} and {wanted[:30]}"
            return False
        heads = [page.of(f"#priorities [data-priority='{priority}'] span") for priority in range(1, 5)]
        asking = [[one.unacknowledged for one in world.expected() if one.priority == each] for each in range(1, 5)]
        floods = page.js("return [...document.querySelectorAll('#flooded button')].map(one => one.textContent)")
        silent = page.of("#holding-all")
        holding = sum(one.suppressed() and one.active for one in world.count.alarms)
        self.differs = f"the head says {heads}, {floods}, {silent}"
        areas = [AREAS[area] for area, flooded in enumerate(world.count.flooded) if flooded]
        return (
            heads == [f"{sum(some)} / {len(some)}" for some in asking]
            and len(floods) == len(areas)
            and all(name in text for name, text in zip(areas, floods))
            and silent == (f"{holding} suppressed while the condition holds:" if holding else "")
        )

    def cells(self, one: object) -> tuple[str, ...]:
        """What a row has to show of an alarm of the count."""
        told = self.world.details.get(one.tag, NONE)
        text = told.text or self.world.table.alarms[self.world.numbers[one.tag]].text
        return one.tag, WORDS[one.word()], str(one.priority), text, told.with_unit(one.setpoint)

    def who_and_why(self) -> None:
        """The views of what is suppressed have each alarm, and who and why of what this shift's users asked."""
        for view, word, has in (
            ("shelved", "SHELVE", lambda one: one.until is not None),
            ("service", "OOS", lambda one: one.out_of_service),
            ("design", "DESIGN", lambda one: one.by_design),
        ):
            self.page.turn(view)
            tags = self.world.suppressed(has)
            self.page.until(f"the view {view}", lambda: set(self.page.tags()) == tags)
            for tag in tags:
                cells = self.page.row(tag)["cells"]
                wanted = self.reasons.get((word, tag), ("", ""))
                check((cells["user"], cells["reason"]) == wanted, view, tag, "is told as", cells, "and not", wanted)
            self.counts["views"] += 1
        self.page.turn("alarms")

    def picture(self, name: str) -> None:
        """What the page looks like on three screens, while the plant's clock goes on."""
        for width, height, is_touched in SCREENS if self.folder else ():
            self.world.tick()
            screen(self.page, width, height, is_touched)
            self.page.driver.save_screenshot(os.path.join(self.folder or "", f"{name}-{width}.png"))
        if self.folder:
            screen(self.page, *SCREENS[0])

    def ends(self) -> None:
        """The plant settles; what is left is acknowledged and reset, to the last alarm."""
        self.world.calm()
        for _ in range(60):
            if not self.world.expected():
                break
            self.acknowledge_shown()
            self.watch(1)
            self.reset()
        self.compare()
        check(self.page.of("#empty") == "None.", "the list isn't empty:", self.page.tags())
