"""The alarm list by a person's hand and eye: in the dark, enlarged, in few colours, and read aloud.
tests/tools/browser.py runs these checks."""
import time

from lib.browsers import Page, Plant, engineer
from check_looks import CONTRASTS, TEXT_CONTRAST, stages
from check_screen import screen
from lib.program import check
from lib.tools import Yard

# What of the page is beyond its right side, and which marks of priorities and states have no room on the screen.
ENLARGED = """const list = document.getElementById('list'); list.scrollIntoView();
const box = list.getBoundingClientRect(), head = document.getElementById('columns').offsetHeight;
return {wide: document.documentElement.scrollWidth - document.documentElement.clientWidth,
rows: Math.floor((Math.min(box.bottom, innerHeight) - Math.max(box.top, 0) - head) / 30),
out: [...document.querySelectorAll('header *, #tabs button, #filters *:not(option), #actions button, footer *')]
.filter(one => one.getClientRects().length && one.getBoundingClientRect().right > innerWidth + 1)
.map(one => one.id || one.textContent),
marks: [...document.querySelectorAll('#rows tr')].slice(0, 5).map(row => [row.querySelector('.mark') !== null,
row.querySelector('td.state').textContent !== '', row.querySelector('td.state').scrollWidth
<= row.querySelector('td.state').clientWidth + 1])}"""
# How a row looks: its frame, its ground, and the colour of its mark.
LOOK = """const of = selector => { const row = document.querySelector(selector), style = part => getComputedStyle(
row.querySelector(part)); return [style('td.mark-cell').borderLeftWidth, style('td.text').backgroundColor,
style('.mark :is(path, circle)').fill]; };
return [of('#rows tr.unacknowledged:not(.chosen)'), of('#rows tr:not(.unacknowledged):not(.chosen)'),
of('#rows tr.chosen')]"""


def media(page: Page, **features: str) -> None:
    """What the system asks for."""
    given = [{"name": name.replace("_", "-"), "value": value} for name, value in features.items()]
    page.driver.execute_cdp_cmd("Emulation.setEmulatedMedia", {"features": given})


def hand(yard: Yard, _count: int) -> str:
    """A dark form of enough contrast that outlasts a reload; twice as large; few colours. Each mark is there."""
    plant = Plant(yard)
    listed = engineer(yard, plant)
    page = Page(yard, listed.url)
    stages(plant)
    page.until("alarms", lambda: len(page.rows()) > 12)
    texts = is_dark(page)
    enlarged(page)
    few_colours(page)
    page.end()
    listed.end()
    plant.end()
    return f"{texts} texts in the dark, a page twice as large, few colours"


def is_dark(page: Page) -> int:
    """Each text has its contrast in the dark too, in both halves of a flash; the form is kept, and follows the system
    where nobody chose one. How many texts there were."""
    form = lambda: page.js("return document.documentElement.dataset.form")
    check(form() == "light", "it begins as", form())
    media(page, prefers_color_scheme="dark")
    page.until("the system's form", lambda: form() == "dark")
    media(page)
    page.until("the other one", lambda: form() == "light")
    page.click("#form")
    page.driver.refresh()
    page.until("alarms in the dark", lambda: len(page.rows()) > 12 and form() == "dark")
    page.choose(page.tags()[0], page.tags()[8])
    page.click("#priorities [data-priority='2']")
    texts = 0
    for half in ("true", "false"):
        found = page.js(f"document.getElementById('list').classList.toggle('flash', {half});" + CONTRASTS)
        wrong = [one for one in found if one[0] < TEXT_CONTRAST]
        check(found and not wrong, "in the dark there is too little contrast:", wrong)
        texts += len(found)
    page.click("#clear")
    page.click("#form")
    return texts


def enlarged(page: Page) -> None:
    """At 200 % a screen of 1280 x 720 has room for 640 x 360: all of it is reached by scrolling down alone, and the
    list has rows with each mark."""
    screen(page, 640, 360, False)
    page.free()
    found = page.js(ENLARGED)
    check(found["wide"] <= 0 and not found["out"], "it is too wide:", found)
    check(found["rows"] >= 5 and all(all(row) for row in found["marks"]), "of the list there is", found)
    screen(page, 1280, 720, False)
    page.js("scrollTo(0, 0)")


def few_colours(page: Page) -> None:
    """In the colours of the system an unacknowledged row has its frame, a chosen one its ground, and a mark its
    colour."""
    page.free()
    tags = [row["cells"]["tag"] for row in page.rows() if "unacknowledged" in row["kinds"]]
    page.choose(tags[0])
    page.click("#columns [data-sort='state']")
    page.until("both kinds", lambda: len({"unacknowledged" in row["kinds"] for row in page.rows()}) == 2)
    media(page, forced_colors="active")
    page.until("few colours", lambda: page.js("return matchMedia('(forced-colors: active)').matches"))
    page.js("document.getElementById('list').classList.remove('flash')")
    fresh, quiet, chosen = page.js(LOOK)
    check(fresh[0] == "5px" and quiet[0] == "0px", "frames are", fresh, quiet)
    check(chosen[1] != quiet[1], "a chosen row has the ground", chosen[1], "and another one", quiet[1])
    check(quiet[2] not in ("rgb(0, 0, 0)", "rgb(255, 255, 255)"), "a mark is", quiet[2])
    media(page)


def voice(yard: Yard, _count: int) -> str:
    """A screen reader is told of annunciations, of priorities 1 and 2 at once, of the others in their turn; not of what
    stood before. The list has the roles of a grid."""
    plant = Plant(yard)
    plant.comes("XS-320")
    listed = engineer(yard, plant)
    page = Page(yard, listed.url)
    page.shows("XS-320", "Unack")
    time.sleep(1.5)
    check(page.of("#voice-now") == page.of("#voice-soon") == "", "it tells what stood before", page.of("#voice-now"))
    plant.comes("TI-102", "TI-203")
    page.until("priority 1", lambda: page.of("#voice-now").startswith("Priority 1, TI-102, "))
    page.until("priority 3", lambda: page.of("#voice-soon").startswith("Priority 3, TI-203, "))
    urgent = next(alarm.tag for alarm in plant.table.alarms if alarm.priority == 2)
    plant.comes(urgent)
    page.until("priority 2", lambda: page.of("#voice-now").startswith(f"Priority 2, {urgent}, "))
    plant.comes(*[alarm.tag for alarm in plant.table.alarms if alarm.priority == 4][:5])
    page.until("five", lambda: page.of("#voice-soon").startswith("5 new alarms. Priority 4, "))
    lives = page.js("return ['now', 'soon'].map(one => document.getElementById('voice-' + one).ariaLive)")
    check(lives == ["assertive", "polite"], "they are", lives)
    roles = """return [document.getElementById('list').getAttribute('role'), ...['#columns', '#columns th', '#rows tr',
    '#rows td'].map(one => document.querySelector(one).getAttribute('role'))]"""
    found = page.js(roles)
    check(found == ["grid", "row", "columnheader", "row", "gridcell"], "the roles are", found)
    page.end()
    listed.end()
    plant.end()
    return "what is read aloud"


CHECKS = {"hand": hand, "voice": voice}
