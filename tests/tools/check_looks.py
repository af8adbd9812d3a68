"""How the alarm list looks and sounds: contrast, motion, sizes, a touched screen, sound. tests/tools/browser.py runs
these checks."""
import re
import time

from lib.browsers import Page, Plant, engineer, shot
from lib.places import DOCS
from lib.program import check
from selenium.webdriver import ActionChains, Keys
from selenium.webdriver.common.actions.action_builder import ActionBuilder
from selenium.webdriver.common.actions.pointer_input import PointerInput
from selenium.webdriver.common.by import By
from lib.tools import Yard

# Each text that is seen, with its contrast to what is behind it, after WCAG 2: an opaque ground of an element around
# it, or the shape that it is written on.
CONTRASTS = """
const light = ([r, g, b]) => [r, g, b].map(one => one / 255).map(one => one <= 0.03928 ? one / 12.92 : ((one + 0.055) / 1.055) ** 2.4).reduce((sum, one, place) => sum + one * [0.2126, 0.7152, 0.0722][place], 0);
const numbers = colour => colour.match(/[0-9.]+/g).map(Number);
const ground = element => { for (let one = element; one; one = one.parentElement) { const found = numbers(getComputedStyle(one).backgroundColor); if (found.length < 4 || found[3] === 1) return found; } return [255, 255, 255]; };
const ratio = (one, other) => { const [a, b] = [light(one), light(other)].sort((x, y) => y - x); return (a + 0.05) / (b + 0.05); };
const found = [];
for (const element of document.querySelectorAll('body *')) {
    const text = [...element.childNodes].filter(node => node.nodeType === 3 && node.textContent.trim()).map(node => node.textContent.trim()).join(' ');
    if (!text || !element.getClientRects().length || element.closest(':disabled, option, template')) continue;
    const isShape = element.namespaceURI.endsWith('svg');
    const fore = numbers(isShape ? getComputedStyle(element).fill : getComputedStyle(element).color);
    found.push([Math.round(ratio(fore, isShape ? numbers(getComputedStyle(element.previousElementSibling).fill) : ground(element)) * 100) / 100, text.slice(0, 40), element.className?.baseVal ?? element.className]);
}
for (const shape of document.querySelectorAll('svg.mark :is(path, circle)')) {
    if (!shape.getClientRects().length) continue;
    const style = getComputedStyle(shape), behind = ground(shape.closest('svg').parentElement);
    found.push([Math.round(Math.max(ratio(numbers(style.fill), behind), ratio(numbers(style.stroke), behind)) * 150) / 100, 'the shape of ' + shape.className.baseVal, '']);
}
return found"""
TEXT_CONTRAST = 4.5  # of shapes it is 3, which is why theirs are given half as much again
# What isn't whole on the screen, or is too small for a finger.
CUT = """const wide = document.documentElement.scrollWidth - document.documentElement.clientWidth, list = document.getElementById('list');
const cells = [...document.querySelectorAll('#rows td:not(.text):not(.area), #columns button, header *, #tabs button, #actions button:not([hidden]), #filters button')];
return {page: wide, list: list.scrollWidth - list.clientWidth, cells: cells.filter(one => one.scrollWidth > one.clientWidth + 1 && getComputedStyle(one).display !== 'inline').map(one => one.className + ' ' + one.textContent),
out: [...document.querySelectorAll('header *, #tabs button, #actions button:not([hidden]), #filters *:not(option)')].filter(one => one.getBoundingClientRect().right > innerWidth + 1).map(one => one.textContent),
small: [...document.querySelectorAll('button:not([hidden]), select, input')].filter(one => one.getClientRects().length && one.getBoundingClientRect().height < 43.5).map(one => one.textContent || one.id),
row: document.querySelector('#rows tr').getBoundingClientRect().height, room: list.clientHeight,
heights: [...new Set([...document.querySelectorAll('#rows tr')].map(row => row.getBoundingClientRect().height))]}"""
# How many whole rows a look finds on the screen, of those that nobody has acknowledged.
WHOLE = """const list = document.getElementById('list').getBoundingClientRect(), top = document.getElementById('columns').getBoundingClientRect().bottom;
return [...document.querySelectorAll('#rows tr.unacknowledged')].filter(row => row.getBoundingClientRect().top >= top - 2.5 && row.getBoundingClientRect().bottom <= list.bottom + 2.5).length"""
SCREENS = ((1280, 720, False), (1920, 1080, False), (1024, 768, True), (820, 1180, True), (768, 1024, True))


def looks(yard: Yard, _count: int) -> str:
    """Contrast in each state and view; one flash a second, and none where the system asks for less motion; each screen
    holds what it has to."""
    plant = Plant(yard)
    listed = engineer(yard, plant)
    page = Page(yard, listed.url)
    stages(plant)
    page.until("alarms", lambda: len(page.rows()) > 12)
    texts = contrasts(page)
    page.click("#columns [data-sort='state']")
    motion(page)
    page.click("#columns [data-sort='order']")
    for width, height, is_touched in SCREENS:
        screen(page, width, height, is_touched)
    touches(plant, page)
    page.end()
    listed.end()
    plant.end()
    return f"{texts} texts of enough contrast, {len(SCREENS)} screens"


def stages(plant: Plant) -> None:
    """Alarms in each state and of each priority, and a flood in two areas."""
    alarms = plant.table.alarms
    tags = [alarm.tag for alarm in alarms if alarm.area in (0, 1)][:30]
    plant.comes(*tags)
    number = plant.numbers
    for tag in tags[3:12]:
        plant.console.acknowledge(number[tag])
    plant.goes(*tags[1:2], *tags[4:6], *tags[12:14], "AI-118", "AI-119")
    plant.console.shelve(number["TI-101"], 1700)
    plant.console.oos(number["LI-208"], True)
    plant.feed.design(number["FI-314"], True)
    for _ in range(3):
        plant.comes("PI-404")
        plant.goes("PI-404")
    plant.comes("PI-404", "FI-414", "YS-424")
    check({alarm.priority for alarm in alarms if alarm.tag in tags} == {1, 2, 3, 4}, "not each priority")


def contrasts(page: Page) -> int:
    """Of each text in each view, in both halves of a flash, in dialogs, and where the list is old."""
    texts = 0

    def judge(what: str, first: str = "") -> None:
        nonlocal texts
        found = page.js(first + CONTRASTS)
        wrong = [one for one in found if one[0] < TEXT_CONTRAST]
        check(found and not wrong, what, "has too little contrast:", wrong)
        texts += len(found)

    for view in ("alarms", "shelved", "design", "service", "chatter", "all", "journal"):
        page.turn(view)
        page.until(f"rows of {view}", lambda: page.rows())
        judge(view)
    page.turn("alarms")
    page.choose(page.tags()[0], page.tags()[8])
    page.click("#priorities [data-priority='2']")
    for half in ("true", "false"):
        flash = f"document.getElementById('list').classList.toggle('flash', {half});"
        judge(f"a half of a flash, {half}", flash)
        judge(
            "an old list",
            flash
            + "document.body.classList.add('old'); const trouble = document.getElementById('trouble'); trouble.hidden ="
            " false; trouble.textContent = 'NO SERVER';",
        )
        page.js("document.body.classList.remove('old')")
    page.click("#clear")
    page.press("?")
    judge("help")
    page.press(Keys.ESCAPE)
    return texts


def motion(page: Page) -> None:
    count = """const done = arguments[arguments.length - 1], cell = () => getComputedStyle(document.querySelector('#rows tr.unacknowledged td.mark-cell')).backgroundColor;
        let last = cell(), changes = 0; const watched = setInterval(() => { if (cell() !== last) { changes++; last = cell(); } }, 20); setTimeout(() => { clearInterval(watched); done(changes); }, 3000)"""
    found = page.driver.execute_async_script(count)
    check(3 <= found <= 7, "in three seconds it changes", found, "times")
    page.driver.execute_cdp_cmd(
        "Emulation.setEmulatedMedia", {"features": [{"name": "prefers-reduced-motion", "value": "reduce"}]}
    )
    found = page.driver.execute_async_script(count)
    width = lambda kind: page.js(
        f"return parseFloat(getComputedStyle(document.querySelector('#rows tr{kind} .mark :is(path,"
        " circle)')).strokeWidth)"
    )
    check(
        found == 0 and width(".unacknowledged") > 2 * width(":not(.unacknowledged)"),
        "with less motion it changes",
        found,
        "times",
    )
    page.driver.execute_cdp_cmd("Emulation.setEmulatedMedia", {"features": []})


def screen(page: Page, width: int, height: int, is_touched: bool) -> None:
    """Nothing is cut or beside the screen, and on one that is touched each control is as large as a finger."""
    page.driver.execute_cdp_cmd(
        "Emulation.setDeviceMetricsOverride",
        {"width": width, "height": height, "deviceScaleFactor": 1, "mobile": is_touched},
    )
    page.driver.execute_cdp_cmd(
        "Emulation.setTouchEmulationEnabled", {"enabled": is_touched, "maxTouchPoints": 5 if is_touched else 1}
    )
    page.until("its size", lambda: page.js("return innerWidth") == width)
    time.sleep(0.4)
    for view in ("alarms", "shelved", "journal"):
        page.turn(view)
        page.until(f"rows of {view}", lambda: page.rows())
        page.rest()
        found = page.js(CUT)
        check(
            found["page"] <= 0 and found["list"] <= 1 and not found["out"], width, height, view, "is too wide:", found
        )
        check(view == "journal" or not found["cells"], width, height, view, "cuts", found["cells"])
        check(
            not is_touched or (found["row"] >= 44 and not found["small"]),
            width,
            height,
            "is too small for a finger:",
            found["small"],
            found["row"],
        )
        check(
            found["heights"] == [44 if is_touched else 30], width, height, view, "has rows as high as", found["heights"]
        )
        check(
            view != "alarms" or page.of("[data-act=SHOWN]").startswith(f"Acknowledge {page.js(WHOLE)} shown"),
            "on the screen are",
            page.js(WHOLE),
            "and it offers",
            page.of("[data-act=SHOWN]"),
        )
        least = 7 if is_touched else 11  # one of them for the heads
        check(
            found["room"] >= least * found["row"], width, height, "has room for", found["room"] / found["row"], "rows"
        )
        if (width, view) == (820, "alarms"):
            shot(page, "tablet")


def touches(plant: Plant, page: Page) -> None:
    """Fingers choose two by their boxes, and acknowledge them."""
    page.turn("alarms")
    page.until("alarms", lambda: len(page.rows()) > 6)
    page.rest()
    tags = [row["cells"]["tag"] for row in page.rows() if "unacknowledged" in row["kinds"]][:2]
    for tag in tags:
        touch(
            page,
            page.driver.find_element(
                By.XPATH, f"//tbody[@id='rows']//tr[td[contains(@class, 'tag') and .='{tag}']]/td[1]"
            ),
        )
    page.until("two chosen", lambda: [row["cells"]["tag"] for row in page.rows() if row["selected"] == "true"] == tags)
    touch(page, page.find("[data-act=ACK]"))
    page.says("2 acknowledged")
    check(all(plant.shown(tag) in ("ACKED", "NORM", "LATAK") for tag in tags), "they aren't acknowledged")


def touch(page: Page, element: object) -> None:
    finger = PointerInput("touch", "finger")
    actions = ActionBuilder(page.driver, mouse=finger)
    actions.pointer_action.move_to(element).pointer_down().pointer_up()
    actions.perform()


def sounds(yard: Yard, _count: int) -> str:
    """A sound for what nobody has acknowledged, by the most urgent priority; silenced, until another one comes; and
    off."""
    plant = Plant(yard)
    plant.comes("TI-203")
    listed = engineer(yard, plant)
    page = Page(yard, listed.url)
    page.shows("TI-203", "Unack")
    sounding = lambda: page.js("return document.body.dataset.sounding")
    played = lambda: page.js("return document.body.dataset.played || '0'")
    check(
        page.of("#sound") == "Allow sound" and sounding() == "3" and played() == "0",
        "before a touch",
        page.of("#sound"),
        sounding(),
        played(),
    )
    ActionChains(page.driver).click(page.find("h1")).perform()
    page.until("a sound", lambda: page.of("#sound") == "Sound on" and played().endswith(" 3"))
    plant.comes("TI-102")
    page.until("a sound of priority 1", lambda: played().endswith(" 1"))
    page.press("m")
    page.until("silence", lambda: sounding() == "0" and not page.find("#silence").is_enabled())
    before = played()
    time.sleep(2.5)
    check(played() == before, "it isn't silent")
    plant.comes("LI-208")
    page.until("another sound", lambda: played().endswith(" 2") and sounding() == "2")
    plant.console.acknowledge(plant.numbers["LI-208"])
    page.until("an end", lambda: sounding() == "0")
    plant.goes("TI-102")
    plant.comes("TI-102")
    page.until("an alarm that came again", lambda: sounding() == "1" and played().endswith(" 1"))
    page.click("#sound")
    page.until("sound off", lambda: page.of("#sound") == "Sound off")
    before = played()
    time.sleep(2.5)
    check(played() == before, "it sounds though it is off")
    page.click("#silence")
    page.until("silenced", lambda: sounding() == "0")
    page.end()
    untouched(yard, listed.url)
    listed.end()
    plant.end()
    return "sounds"


def untouched(yard: Yard, address: str) -> None:
    """A screen that nobody touches, of a browser that is started as the page says."""
    option = re.search(r"--autoplay-policy=\S+(?=`)", (DOCS / "CONTROL_ROOM.md").read_text(encoding="utf-8"))[0]
    page = Page(yard, address, 1280, 720, option)
    page.until(
        "a sound without a touch",
        lambda: page.of("#sound") == "Sound on" and page.js("return document.body.dataset.played || '0'") != "0",
    )
    page.end()


CHECKS = {"looks": looks, "sounds": sounds}
