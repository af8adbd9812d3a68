"""What is whole on a tablet: buttons and rows, the words of areas, and reasons, which are whole on each screen.
tests/tools/browser.py runs these checks."""
import time

from lib.browsers import List, Page, Plant, engineer
from check_looks import SCREENS, WHOLE
from check_screen import FLOOD, LEAST_TOUCHED, NAMES, OF_AREA, largest_table, longest_files, screen
from lib.program import check
from selenium.webdriver import Keys
from lib.tools import Yard

TABLETS = ((1024, 768), (768, 1024))
# Longer names of positions and users end by three points; they are whole where the pointer rests.
POSITIONS = '[[position]]\nname = "Conversion desk"\nmay = ["out of service", "priority", "setpoint"]\n'
VIEWS = ("alarms", "shelved", "design", "service", "chatter", "stale", "all", "journal")
# Each button that is seen and isn't whole: its text takes several lines, or has no room in it, or the button hasn't in
# what stands around it.
BUTTONS = """
const linesOf = one => {
    const range = document.createRange();
    range.selectNodeContents(one);
    let lines = 0, bottom = -Infinity;
    const parts = [...range.getClientRects()].filter(part => part.width > 1 && part.height > 1);
    for (const part of parts.sort((a, b) => a.top - b.top)) {
        if (part.top > bottom - 4) lines++;
        bottom = Math.max(bottom, part.bottom);
    }
    return lines;
};
const isSeen = one => one.getClientRects().length && getComputedStyle(one).visibility !== 'hidden';
const isOver = one => one.scrollWidth > one.clientWidth + 1 || one.scrollHeight > one.clientHeight + 1;
const isOut = one => {
    const box = one.getBoundingClientRect();
    for (let around = one.parentElement; around && around.id !== 'list'; around = around.parentElement) {
        const room = around.getBoundingClientRect();
        if (box.right > room.right + 1 || box.bottom > room.bottom + 1) return true;
    }
    return box.right > innerWidth + 1;
};
const faultOf = one => {
    if (linesOf(one) > 1) return 'wraps';
    if (isOver(one) || [...one.children].some(isOver)) return 'is cut';
    return isOut(one) ? 'is outside' : '';
};
return [...document.querySelectorAll('button')].filter(isSeen)
    .map(one => [faultOf(one), one.textContent, one.id || one.parentElement.id]).filter(one => one[0])"""


# As long as a reason with a permit's number is; whether all of it is seen; and the words that have two lines each.
REASON = "transmitter removed, permit 4711"
ALL_SEEN = """const one = document.querySelector('#rows td.reason .two');
return one.scrollHeight <= one.clientHeight + 1 && one.scrollWidth <= one.clientWidth + 1
  && one.parentElement.scrollWidth <= one.parentElement.clientWidth + 1"""
BROKEN = """const range = document.createRange();
const isBroken = (node, {0: word, index}) => {
    range.setStart(node, index);
    range.setEnd(node, index + word.length);
    return new Set([...range.getClientRects()].map(part => part.top)).size > 1;
};
const nodes = [...document.querySelectorAll('#rows td.area .two')].map(one => one.firstChild);
return nodes.flatMap(node => [...node.data.matchAll(/[^ ]+/g)].filter(word => isBroken(node, word))).map(String)"""


def tablet(yard: Yard, _count: int) -> str:
    """On a tablet no button's text wraps or is cut, in a flood of 64 areas and with counts of three digits, in each
    view and language; the first view keeps its rows."""
    plant = Plant(yard, largest_table(yard))
    standing = [number for number in range(len(plant.numbers)) if number % OF_AREA < FLOOD]
    for _ in plant.feed.ask_all(f"VAL {number} 120" for number in standing):
        pass
    for number in standing:
        if number % OF_AREA > 7:
            plant.console.oos(number, True)
        elif number % OF_AREA > 5:
            plant.console.shelve(number, 600)
            plant.feed.design(number, True)
    details, path, *_ = longest_files(yard, plant)
    files = (details, path, "--positions", yard.write("positions.toml", POSITIONS))
    areas = yard.write("names.txt", "\n".join(NAMES) + "\n")
    least = 99
    for language in ("en", "de"):
        words = ("--role", "engineer", "--user", "anna", "--areas", areas, "--language", language)
        listed = List(yard, plant.device, plant.port, *words, *files)
        page = Page(yard, listed.url)
        page.until("rows", lambda page=page: page.rows())
        page.click("#position")
        page.find("#shifts button").click()
        page.press(Keys.ESCAPE)
        page.until("a position", lambda page=page: page.of("#position") == "Conversion desk")
        least = min(least, *(whole(page, width, height, language) for width, height in TABLETS))
        page.end()
        listed.end()
    plant.end()
    return f"{least} rows on a tablet"


def whole(page: Page, width: int, height: int, language: str) -> int:
    """The rows of a screen whose buttons are whole in each view."""
    screen(page, width, height, True)
    for view in VIEWS[::-1]:
        page.turn(view)
        page.press(Keys.HOME)
        page.until(view, lambda: page.of_module("state", "page.look.view") == view)
        time.sleep(0.3)
        found = page.js(BUTTONS)
        check(not found, language, width, height, view, "has buttons that aren't whole:", found)
    page.until("a response", lambda: "word word" in page.of("#detail"))
    rows = page.js(WHOLE)
    check(rows >= LEAST_TOUCHED, language, width, height, "has", rows, "whole rows")
    return rows


def reasons(yard: Yard, _count: int) -> str:
    """On each screen a reason is whole in the view of what is out of service, and no area's name ends its line within a
    word."""
    plant = Plant(yard)
    plant.comes("TI-301", "TI-601")
    listed = engineer(yard, plant)
    page = Page(yard, listed.url)
    page.shows("TI-301", "Unack")
    page.rest()
    page.choose("TI-301")
    page.act("OOS ON")
    page.answer(REASON)
    page.hides("TI-301")
    plant.comes("TI-302")
    for width, height, is_touched in SCREENS:
        screen(page, width, height, is_touched)
        page.turn("service")
        page.until("a reason", lambda: page.tags() == ["TI-301"])
        check(page.row("TI-301")["cells"]["reason"] == REASON, "the reason is", page.row("TI-301")["cells"])
        check(page.js(ALL_SEEN), width, height, "cuts the reason")
        page.turn("alarms")
        page.until("two alarms", lambda: {row["cells"]["area"] for row in page.rows()} >= {"Hydrotreater"})
        broken = page.js(BROKEN)
        check(not broken, width, height, "breaks areas within a word:", broken)
    page.end()
    listed.end()
    plant.end()
    return f"reasons and areas on {len(SCREENS)} screens"


CHECKS = {"tablet": tablet, "reasons": reasons}
