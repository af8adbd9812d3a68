"""The list holds still while an operator works on it, so a click is for the row at which it was aimed; and what is
looked at outlasts a reload. tests/tools/browser.py runs these checks."""
import random
import time

from lib.browsers import AREAS, CLICKS, List, Page, Plant, engineer
from check_looks import SCREENS
from check_screen import NAMES, largest_table, screen
from lib.program import check
from lib.tools import Yard
from selenium.webdriver import Keys
from selenium.webdriver.common.actions.action_builder import ActionBuilder
from selenium.webdriver.common.actions.pointer_input import PointerInput

# Seconds that an operator hesitates between the look and the click, and for which the list holds still after a key.
HESITATES, PAUSE = (0.2, 0.6), 2.0
# Milliseconds between a look and its click, beyond which a click isn't one of that look.
LATEST = 900
# Takes note of each click's moment; the middle of the button that acknowledges.
WATCH = "document.addEventListener('pointerdown', () => { window.clicked = performance.now(); }, true)"
MIDDLE = """const one = document.querySelector('[data-act=ACK]').getBoundingClientRect();
return [one.x + one.width / 2, one.y + one.height / 2]"""
# The rows that are whole on the screen: the tag, and how far below the screen's top its middle is.
PLACES = """window.looked = performance.now(); const list = document.getElementById('list').getBoundingClientRect(),
head = document.querySelector('#columns th').getBoundingClientRect().bottom;
return [...document.querySelectorAll('#rows tr')].map(row => [row, row.getBoundingClientRect()])
.filter(([, box]) => box.top >= head - 1 && box.bottom <= list.bottom + 1)
.map(([row, box]) => [row.querySelector('td.tag').textContent, (box.top + box.bottom) / 2, row.className])"""


def places(page: Page) -> dict[str, float]:
    """Where each whole row of the screen stands, in pixels, by its tag."""
    return {tag: middle for tag, middle, _ in page.js(PLACES)}


def move_to(page: Page, x: float, y: float) -> None:
    """The pointer goes to a place of the page."""
    mouse = ActionBuilder(page.driver, mouse=PointerInput("mouse", "hand"), duration=0)
    mouse.pointer_action.move_to_location(int(x), int(y))
    mouse.perform()


def begin(yard: Yard, urgent: int = 0) -> tuple[Plant, List, Page]:
    """The refinery with 40 alarms of priorities 2 to 4, and a page that shows them; `urgent` more of priority 1."""
    plant = Plant(yard)
    alarms = plant.table.alarms
    quiet = [alarm.tag for alarm in alarms if alarm.priority > 1][:40]
    plant.comes(*quiet, *[alarm.tag for alarm in alarms if alarm.priority == 1][5 : 5 + urgent])
    listed = engineer(yard, plant)
    page = Page(yard, listed.url)
    count = str(40 + urgent + 1)
    page.until("all", lambda: page.find("#list").get_attribute("aria-rowcount") == count)
    move_to(page, 640, 20)
    time.sleep(PAUSE + 0.5)
    return plant, listed, page


def holds(yard: Yard, _count: int) -> str:
    """Rows keep their places while the pointer is over the list, a row is selected, or a key was pressed within two
    seconds; else what comes stands where it belongs."""
    plant, listed, page = begin(yard)
    urgent = [alarm.tag for alarm in plant.table.alarms if alarm.priority == 1]
    fresh = iter(urgent)

    def comes(what: str) -> str:
        """An alarm of priority 1 comes, while the rows stay; its tag."""
        before, tag = places(page), next(fresh)
        plant.comes(tag)
        page.until(f"{tag} counted, {what}", lambda: "new above, priority 1" in page.of("#new-above"))
        check(places(page) == before, what, "rows moved:", before, places(page))
        return tag

    def is_free(tag: str) -> bool:
        return page.tags()[0] == tag and page.find("#new-above").value_of_css_property("visibility") == "hidden"

    with_nothing = next(fresh)
    plant.comes(with_nothing)
    page.until("a row where it belongs", lambda: page.tags()[0] == with_nothing)
    for what, begins, ends in (
        ("the pointer", lambda: move_to(page, 640, 400), lambda: move_to(page, 640, 20)),
        ("a selection", lambda: page.of_module("selection", "page.select(3)"), lambda: page.press(Keys.ESCAPE)),
        ("a key", lambda: page.press("x"), lambda: None),
    ):
        begins()
        tag = comes(what)
        ends()
        page.until(f"its end, {what}", lambda: is_free(tag), PAUSE + 4)
    keeps_what_goes(plant, page, with_nothing)
    leads_to_them(plant, page, list(fresh))
    page.end()
    listed.end()
    plant.end()
    return "rows that stay"


def keeps_what_goes(plant: Plant, page: Page, tag: str) -> None:
    """A row that is acknowledged elsewhere and returns to normal stays, and says so, until the list is free."""
    move_to(page, 640, 400)
    page.js("document.getElementById('list').scrollTop = 0")
    before = places(page)
    check(tag in before, tag, "isn't on the screen", before)
    plant.console.acknowledge(plant.numbers[tag])
    page.shows(tag, "Acked")
    plant.goes(tag)
    page.until("its state", lambda: page.state(tag) in ("Normal", "Latched"))
    check(places(page) == before, "rows moved:", before, places(page))
    if page.state(tag) == "Latched":
        plant.console.reset(plant.numbers[tag])
    move_to(page, 640, 20)
    page.hides(tag)


def leads_to_them(plant: Plant, page: Page, tags: list[str]) -> None:
    """Of what came off the screen there is a count above it, that leads to it and then counts no more."""
    time.sleep(PAUSE + 0.5)
    page.press(Keys.PAGE_DOWN)
    page.until("a selected row", lambda: page.js("return document.querySelectorAll('#rows tr.chosen').length") == 1)
    before = places(page)
    plant.comes(*tags[:3])
    page.until("three", lambda: page.of("#new-above") == "▲ 3 new above, priority 1")
    check(places(page) == before, "rows moved:", before, places(page))
    page.click("#new-above")
    page.until("them", lambda: set(tags[:3]) <= set(places(page)))
    page.until("no count", lambda: page.of("#new-above") == "")
    page.press(Keys.ESCAPE)
    time.sleep(PAUSE + 0.5)
    page.press("n")


class Storm:
    """A flood in each of 64 areas: alarms come and go at a test's hand."""

    def __init__(self, plant: Plant, seed: int):
        self.plant, self.dice = plant, random.Random(seed)
        self.standing: set[int] = set()
        self.numbers = range(len(plant.table.alarms))

    def begin(self) -> None:
        """Each area has a flood."""
        self.standing = {number for number in self.numbers if number % 12 < 11}
        list(self.plant.feed.ask_all(f"VAL {number} 120" for number in sorted(self.standing)))
        check(all(one.flooded for one in self.plant.console.floods()), "not each area is in flood")

    def blow(self, count: int) -> None:
        """Some alarms go and come again, and so stand above others."""
        requests = []
        for number in self.dice.sample(self.numbers, count):
            if number in self.standing:
                requests.append(f"VAL {number} 0")
            requests.append(f"VAL {number} 120")
            self.standing.add(number)
        list(self.plant.feed.ask_all(requests))


def aims(yard: Yard, count: int) -> str:
    """An operator aims at a row, hesitates, clicks, and acknowledges by a button or a key, in a flood of 64 areas with
    some 20 annunciations a second: nothing but what he aimed at is ever acknowledged."""
    plant = Plant(yard, largest_table(yard))
    storm = Storm(plant, seed=86 + count)
    storm.begin()
    listed = engineer(yard, plant)
    page = Page(yard, listed.url)
    page.until("a list", lambda: len(page.rows()) > 10)
    page.js(WATCH)
    hand = Hand(page, storm)
    turns, began = CLICKS[0] if CLICKS else count * 2, time.monotonic()
    while hand.done < turns and hand.tried < 4 * turns:
        hand.acknowledges()
    said = f"{hand.done} acknowledgements in a flood of 64 areas, none wrong; {hand.refused} clicks refused"
    check(hand.done >= turns, "it came to no more than", said)
    page.end()
    listed.end()
    plant.end()
    return f"{said}, {hand.late} too late, {time.monotonic() - began:.0f} s"


class Hand:
    """An operator's hand and eye."""

    def __init__(self, page: Page, storm: Storm):
        self.page, self.storm, self.plant = page, storm, storm.plant
        self.tags = {alarm.tag: number for number, alarm in enumerate(storm.plant.table.alarms)}
        self.tried = self.done = self.refused = self.late = 0

    def wait(self, least: float, most: float) -> None:
        """For a drawn time, in which the flood goes on."""
        ends = time.monotonic() + self.storm.dice.uniform(least, most)
        while time.monotonic() < ends:
            self.storm.blow(2)
            time.sleep(max(0.0, min(0.08, ends - time.monotonic())))

    def acknowledges(self) -> None:
        """Looks at the screen, aims at a row that nobody has acknowledged, hesitates, clicks, and acknowledges. A click
        that this machine brings about too late for a hand is no aim, and is followed by nothing."""
        page = self.page
        self.tried += 1
        if self.tried % 4 == 0:  # the list isn't held
            self.move(640, 20)
            self.wait(PAUSE + 0.1, PAUSE + 0.5)
        rows = [(tag, middle) for tag, middle, kinds in page.js(PLACES) if "unacknowledged" in kinds]
        if not rows:
            return self.wait(0.2, 0.4)
        tag, middle = self.storm.dice.choice(rows)
        self.wait(*HESITATES)
        self.click(600, middle)
        if page.js("return window.clicked - window.looked") > LATEST:
            self.late += 1
        else:
            self.wait(*HESITATES)
            self.judge(self.tags[tag])
        page.press(Keys.ESCAPE)

    def judge(self, aimed: int) -> None:
        """Acknowledges what is selected: it is the alarm that was aimed at, or nothing."""
        page = self.page
        before = self.states()
        if not page.find("[data-act=ACK]").is_enabled():
            self.refused += 1
            return
        page.js("document.getElementById('said').textContent = ''")
        if self.tried % 2:
            page.press("a")
        else:
            self.click(*page.js(MIDDLE))
        page.until("an answer", lambda: page.of("#said") not in ("", ".."), 20)
        after = self.states()
        taken = {number for number in before if before[number] and not after[number]}
        check(taken <= {aimed}, "aimed at", aimed, "and acknowledged", taken)
        self.done += taken == {aimed}
        self.refused += not taken

    def states(self) -> dict[int, bool]:
        """Of each alarm whether nobody has acknowledged it, by the server."""
        states = self.plant.console.states(self.storm.numbers)
        return {number: state.is_unacknowledged for number, state in zip(self.storm.numbers, states)}

    def mouse(self, kind: str, x: float, y: float) -> None:
        button = "none" if kind == "mouseMoved" else "left"
        self.page.driver.execute_cdp_cmd(
            "Input.dispatchMouseEvent", {"type": kind, "x": x, "y": y, "button": button, "clickCount": 1}
        )

    def move(self, x: float, y: float) -> None:
        self.mouse("mouseMoved", x, y)

    def click(self, x: float, y: float) -> None:
        """The pointer goes to a place, and presses there."""
        for kind in ("mouseMoved", "mousePressed", "mouseReleased"):
            self.mouse(kind, x, y)


def outlasts(yard: Yard, _count: int) -> str:
    """Views, orders and filters survive a reload, of several windows each its own; another plant has none of them."""
    plant = Plant(yard)
    plant.comes("TI-102", "TI-101", "LI-208", "FI-412", "PI-104")
    plant.console.acknowledge(plant.numbers["TI-101"])
    listed = engineer(yard, plant)
    page = Page(yard, listed.url)
    page.until("five", lambda: len(page.rows()) == 5)
    page.set("#area", AREAS[0])
    page.set("#state", "condition holds")
    page.find("#text").send_keys("TI-1")
    page.click("#columns [data-sort='tag']")
    page.click("#columns [data-sort='tag']")
    page.until("two", lambda: page.tags() == ["TI-102", "TI-101"])
    first = page.driver.current_window_handle
    page.driver.switch_to.new_window("tab")
    page.driver.get(listed.place)
    page.until("a window of its own", lambda: len(page.rows()) == 5)
    page.turn("all")
    page.driver.switch_to.window(first)
    page.driver.refresh()
    page.until("two again", lambda: page.tags() == ["TI-102", "TI-101"])
    check(page.of("#hidden") == "3 hidden by filters", "it says", page.of("#hidden"))
    fields = [page.js("return document.getElementById(arguments[0]).value", name) for name in ("area", "state", "text")]
    check(fields == ["0", "standing", "ti-1"], "the fields have", fields)
    page.end()
    listed.end()
    plant.end()
    return "what is looked at"


TOP = "return document.getElementById('list').getBoundingClientRect().top"


def stands(yard: Yard, _count: int) -> str:
    """Nothing over the list moves it: no flood of 64 areas, no alarm that is suppressed, no word of a server that is
    lost, no counts, and no answer."""
    plant = Plant(yard, largest_table(yard))
    names = yard.write("names.txt", "\n".join(NAMES) + "\n")
    listed = List(yard, plant.device, plant.port, "--role", "engineer", "--user", "anna", "--areas", names)
    page = Page(yard, listed.url)
    quiet = tops(page)
    storm = Storm(plant, seed=87)
    storm.begin()
    for number in (5, 6):
        plant.console.oos(number, True)
    plant.console.shelve(7, 600)
    page.until("a flood", lambda: page.of("#more") != "" and page.of("#holding-all") != "")
    check(tops(page) == quiet, "in a flood the list stands at", tops(page), "and not at", quiet)
    page.find("#text").send_keys("zzz")
    page.of_module("messages", "page.say('word '.repeat(60), true)")
    plant.server.process.kill()
    page.until("no server", lambda: page.of("#trouble") != "")
    check(tops(page) == quiet, "without a server it stands at", tops(page), "and not at", quiet)
    page.end()
    listed.end()
    plant.leave()
    plant.server.end()
    return f"a list that stands where it stood on {len(SCREENS)} screens"


def tops(page: Page) -> list[float]:
    """Where the list begins on each screen, in pixels."""
    found = []
    for one in SCREENS:
        screen(page, *one)
        found.append(page.js(TOP))
    return found


CHECKS = {"holds": holds, "aims": aims, "outlasts": outlasts, "stands": stands}
