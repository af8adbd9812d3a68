"""What an operator's screen holds in the largest flood, and what is done by keys and by nothing else.
tests/tools/browser.py runs these checks."""
import re
import signal
import time

from lib.browsers import List, Page, Plant, engineer
from check_looks import CUT, SCREENS, WHOLE
from lib.program import Wrong, check
from selenium.webdriver import ActionChains, Keys
from alarms.table_file import Alarm, Table, device_size
from lib.tools import Yard, toml

MOST_AREAS, OF_AREA = 64, 12
NAMES = [f"Hydrocracker, second section, No {area:02}"[-32:] for area in range(MOST_AREAS)]
# A flood is more than ten annunciations of an area in ten minutes, by ISA-18.2; a list that is worked off needs this
# many rows, and on a screen that is touched this many.
FLOOD, LEAST_ROWS, LEAST_TOUCHED = 11, 10, 6
LONGEST = "10-CDU-0100A.TEMPERATURE.TI-0101"  # of 32 letters, as many as a table takes
# Whether each tag that is drawn is whole, and says itself where the pointer rests.
TAGS = """return [...document.querySelectorAll('#rows td.tag')].filter(cell => { const name = cell.firstElementChild ?? cell, inner = name.getBoundingClientRect(), outer = cell.getBoundingClientRect();
return cell.scrollWidth > cell.clientWidth + 1 || name.scrollHeight > name.clientHeight + 1 && name.clientHeight || inner.bottom > outer.bottom + 1 || name.title !== cell.textContent; }).map(cell => cell.textContent)"""


def largest_table(yard: Yard) -> str:
    """64 areas whose alarms have tags of 18 letters, and one of 32."""
    alarms = [
        Alarm(
            "high",
            100,
            number % 4 + 1,
            area,
            f"10-CDU-{100 + area}A.TI-{101 + number}",
            2,
            3600,
            False,
            f"Temperature of reactor {number} high",
        )
        for area in range(MOST_AREAS)
        for number in range(OF_AREA)
    ]
    alarms[1] = Alarm("high", 100, 1, 0, LONGEST, 2, 3600, False, "Temperature of the first reactor high")
    return yard.write("largest.toml", toml(Table(device_size(len(alarms), MOST_AREAS, 400_000), MOST_AREAS, alarms)))


def screen(page: Page, width: int, height: int, is_touched: bool) -> None:
    page.driver.execute_cdp_cmd(
        "Emulation.setDeviceMetricsOverride",
        {"width": width, "height": height, "deviceScaleFactor": 1, "mobile": is_touched},
    )
    page.driver.execute_cdp_cmd(
        "Emulation.setTouchEmulationEnabled", {"enabled": is_touched, "maxTouchPoints": 5 if is_touched else 1}
    )
    page.until("its size", lambda: page.js("return innerWidth") == width)
    time.sleep(0.4)


def largest(yard: Yard, _count: int) -> str:
    """A flood in all of 64 areas with long names and tags leaves the list its rows, and each tag is whole; what is
    suppressed while it holds is said in red."""
    plant = Plant(yard, largest_table(yard))
    first = range(MOST_AREAS * OF_AREA)
    standing = [number for number in first if number % OF_AREA < FLOOD]
    replies = list(plant.feed.ask_all(f"VAL {number} 120" for number in standing))
    check(
        len(replies) == len(standing) and all(flood.flooded for flood in plant.console.floods()),
        "not each area is in flood",
    )
    words = ("--role", "engineer", "--user", "anna", "--areas", yard.write("names.txt", "\n".join(NAMES) + "\n"))
    listed = List(yard, plant.device, plant.port, *words, *longest_files(yard, plant))
    page = Page(yard, listed.url)
    page.until("all", lambda: page.find("#list").get_attribute("aria-rowcount") == str(len(standing) + 1))
    takes_all(page)
    for number in (5, 6):
        plant.console.oos(number, True)
    plant.console.shelve(7, 600)
    page.until("what is suppressed", lambda: page.of("#holding-all") == "3 suppressed while the condition holds:")
    rows = [rows_of(page, *one) for one in SCREENS]
    opens_the_others(page)
    page.end()
    listed.end()
    plant.end()
    return f"{', '.join(map(str, rows))} rows on {len(SCREENS)} screens in a flood of {MOST_AREAS} areas"


def longest_files(yard: Yard, plant: Plant) -> tuple[str, ...]:
    """Details and positions as long as they may be: responses of 1,000 letters, and 64 positions."""
    told = "unit,scale,decimals,text,cause,consequence,response,respond"
    cells = ",".join(["mol/m³/s", "10", "1", "t" * 80, *["word " * 190] * 3, "600"])
    details = "\n".join([f"tag,{told}", *(f"{alarm.tag},{cells}" for alarm in plant.table.alarms)])
    names = [f"Position of the control room, No {number:02}"[-40:] for number in range(64)]
    positions = "".join(f'[[position]]\nname = "{name}"\n' for name in names)
    return "--details", yard.write("long.csv", details + "\n"), "--positions", yard.write("long.toml", positions)


def takes_all(page: Page) -> None:
    """One of 64 positions is taken: at the others is nobody, which is said."""
    page.click("#position")
    page.find("#shifts button").click()
    page.says("taken: ")
    page.leave()
    page.until("63 others", lambda: "Nobody is at Position of the control room, No 01," in page.of("#trouble"))


def rows_of(page: Page, width: int, height: int, is_touched: bool) -> int:
    """How many whole rows a screen has, none of them with a tag that is cut."""
    screen(page, width, height, is_touched)
    page.press(Keys.HOME)  # a row is selected, whose response is told
    page.until("its response", lambda: "Response within 10 min: word word" in page.of("#detail"))
    page.leave()
    rows, cut, found = page.js(WHOLE), page.js(TAGS), page.js(CUT)
    check(
        rows >= (LEAST_TOUCHED if is_touched else LEAST_ROWS),
        width,
        height,
        "has",
        rows,
        "whole rows in a flood of all areas",
    )
    check(
        found["page"] <= 0 and found["heights"] == [found["row"]],
        width,
        height,
        "is too wide, or has rows of other heights:",
        found,
    )
    check(
        not cut and page.js("return document.querySelectorAll('#rows td.tag').length") >= rows,
        width,
        height,
        "cuts the tags",
        cut[:4],
    )
    shown = page.js(
        "return [...document.querySelectorAll('#flooded button')].filter(button =>"
        " button.getClientRects().length).length"
    )
    more = int(re.fullmatch(r"\+ (\d+) areas", page.of("#more"))[1])
    # a tablet has no room for a name of 32 letters beside what is suppressed: one that isn't whole isn't there
    check(
        (shown or is_touched) and shown + more == MOST_AREAS,
        width,
        height,
        "shows",
        shown,
        "areas and counts",
        more,
        "more",
    )
    return rows


def opens_the_others(page: Page) -> None:
    """The areas that have no room are a press away; each is shown alone by one more."""
    screen(page, *SCREENS[0])
    page.click("#more")
    page.until(
        "all areas",
        lambda: page.js(
            "return [...document.querySelectorAll('#flooded-all button')].filter(one =>"
            " one.getClientRects().length).length"
        )
        == MOST_AREAS,
    )
    page.js("document.querySelector('#flooded-all button:last-child').click()")
    page.until(
        "the last area",
        lambda: {row["cells"]["area"] for row in page.rows()} == {NAMES[-1]} and not page.find("#areas").is_displayed(),
    )
    page.click("#clear")


def holding(yard: Yard, _count: int) -> str:
    """What is suppressed while its condition holds is counted in red over the first view, by how it is suppressed; what
    doesn't hold isn't."""
    plant = Plant(yard)
    number = plant.numbers
    plant.comes("TI-101", "LI-208", "FI-412")
    listed = engineer(yard, plant)
    page = Page(yard, listed.url)
    page.shows("TI-101", "Unack")
    check(page.of("#holding") == "", "of nothing it says", page.of("#holding"))
    plant.console.oos(number["TI-101"], True)
    plant.console.oos(number["PI-104"], True)  # its condition doesn't hold
    plant.feed.design(number["LI-208"], True)
    plant.console.oos(number["LI-208"], True)  # counted once, as what its state says
    plant.console.shelve(number["FI-412"], 600)
    words = lambda: [
        page.of("#holding-all"),
        *page.js("return [...document.querySelectorAll('#holding button:not([hidden])')].map(one => one.textContent)"),
    ]
    page.until(
        "three of four", lambda: words() == ["3 suppressed while the condition holds:", "2 out of service", "1 shelved"]
    )
    red = page.js("const one = getComputedStyle(document.getElementById('holding')); return one.color")
    check(
        red
        == page.js(
            "const one = document.createElement('p'); one.style.color = 'var(--bad)'; document.body.append(one); const"
            " found = getComputedStyle(one).color; one.remove(); return found"
        ),
        "it is",
        red,
    )
    page.click("#holding [data-state='OOSRV']")
    page.until("that view", lambda: set(page.tags()) == {"TI-101", "PI-104", "LI-208"} and page.of("#holding") == "")
    page.turn("alarms")
    plant.goes("TI-101", "LI-208")
    page.until("one", lambda: words() == ["1 suppressed while the condition holds:", "1 shelved"])
    plant.goes("FI-412")
    page.until("none", lambda: page.of("#holding") == "")
    page.end()
    listed.end()
    plant.end()
    return "what is suppressed and holds"


def dispatch(page: Page, key: str, times: int) -> None:
    """A letter that is held, as a keyboard repeats it."""
    for time_ in range(times):
        page.driver.execute_cdp_cmd(
            "Input.dispatchKeyEvent",
            {
                "type": "keyDown",
                "key": key,
                "text": key,
                "code": f"Key{key.upper()}",
                "modifiers": 8 if key.isupper() else 0,
                "autoRepeat": time_ > 0,
            },
        )
        time.sleep(0.03)
    page.driver.execute_cdp_cmd("Input.dispatchKeyEvent", {"type": "keyUp", "key": key, "code": f"Key{key.upper()}"})


def held_keys(yard: Yard, _count: int) -> str:
    """A key that is held does once what it does, wherever the focus is: all but one screen of a plant stays
    unacknowledged. What is typed in a field stays there."""
    plant = Plant(yard)
    tags = list(plant.numbers)
    plant.comes(*tags)
    listed = engineer(yard, plant)
    page = Page(yard, listed.url)
    page.until("all", lambda: page.find("#list").get_attribute("aria-rowcount") == str(len(tags) + 1))
    left = lambda: sum(state == "UNACK" for state in plant.all_shown().values())
    page.rest()
    moves_on(page)
    page.find("#text").send_keys("A")
    page.rest()
    check(left() == len(tags), "a letter in the search acknowledged", len(tags) - left())
    page.click("#clear")
    page.js("document.activeElement.blur()")
    page.rest()
    shown = page.js(WHOLE)
    dispatch(page, "A", 80)
    page.until("one screen", lambda: left() == len(tags) - shown, 10)
    time.sleep(1)
    check(left() == len(tags) - shown, "of", len(tags), "are left", left(), "and the screen had", shown)
    page.turn("all")  # by a click, so that the focus is on a button
    page.turn("alarms")
    page.rest()
    ActionChains(page.driver).send_keys(Keys.ARROW_DOWN, "a").perform()
    page.until("one by a key", lambda: left() == len(tags) - shown - 1)
    ActionChains(page.driver).send_keys(Keys.HOME, "o").perform()
    page.until("a dialog", lambda: page.find("#asking").is_displayed())
    ActionChains(page.driver).send_keys("aA1").perform()
    check(
        left() == len(tags) - shown - 1 and page.js("return document.getElementById('reason').value") == "aA1",
        "what was typed as a reason did something",
    )
    page.end()
    listed.end()
    plant.end()
    return f"a held key takes {shown} of {len(tags)}"


def moves_on(page: Page) -> None:
    """The tab key and the arrows go on while they are held."""
    page.js(
        "document.activeElement.blur(); window.passed = new Set(); document.addEventListener('focusin', event =>"
        " window.passed.add(event.target))"
    )
    for key, code in (("Tab", 9), ("ArrowDown", 40)):
        for time_ in range(5):
            page.driver.execute_cdp_cmd(
                "Input.dispatchKeyEvent",
                {"type": "rawKeyDown", "key": key, "code": key, "windowsVirtualKeyCode": code, "autoRepeat": time_ > 0},
            )
        page.driver.execute_cdp_cmd(
            "Input.dispatchKeyEvent", {"type": "keyUp", "key": key, "code": key, "windowsVirtualKeyCode": code}
        )
    page.until(
        "a focus that moves, and a row",
        lambda: page.js("return window.passed.size") == 5 and page.of_module("state", "page.screen.cursor") == 4,
        5,
    )
    ActionChains(page.driver).send_keys(Keys.ESCAPE).perform()


def first_out(yard: Yard, count: int) -> str:
    """By time the alarms of one second stand as they came, whatever their priorities."""
    plant = Plant(yard)
    tags = [tag for tag in plant.numbers if not tag.startswith("XS")][::-7][: max(12, count)][:20]
    plant.comes(*tags)
    check(len({plant.table.alarms[plant.numbers[tag]].priority for tag in tags}) > 2, "not enough priorities")
    listed = engineer(yard, plant)
    page = Page(yard, listed.url)
    page.driver.execute_cdp_cmd(
        "Emulation.setDeviceMetricsOverride", {"width": 1920, "height": 1080, "deviceScaleFactor": 1, "mobile": False}
    )
    page.until("all", lambda: len(page.rows()) == len(tags))
    for wanted in (tags[::-1], tags):
        page.click("#columns [data-sort='time']")
        page.until("another order", lambda: page.of_module("state", "page.look.sort") == "time")
        check(page.tags() == wanted, "by time it shows", page.tags(), "and they came as", tags)
    page.end()
    listed.end()
    plant.end()
    return f"{len(tags)} alarms of one second in their order"


def unanswered(yard: Yard, _count: int) -> str:
    """An action that gets no reply is said to be lost, and not waited for without end."""
    plant = Plant(yard)
    plant.comes("TI-101")
    listed = engineer(yard, plant)
    page = Page(yard, listed.url)
    page.shows("TI-101", "Unack")
    page.rest()
    page.choose("TI-101")
    listed.process.send_signal(signal.SIGSTOP)
    began = time.monotonic()
    try:
        page.js("document.querySelector('[data-act=ACK]').click()")
        page.until("a loss", lambda: "no reply came within 5 s: look whether it was done" in page.of("#said"), 15)
    except Wrong:
        raise Wrong(f"after {time.monotonic() - began:.0f} s it says {page.of('#said')!r}") from None
    finally:
        listed.process.send_signal(signal.SIGCONT)
    took = time.monotonic() - began
    page.end()
    listed.end()
    plant.end()
    return f"a loss is said after {took:.0f} s"


CHECKS = {
    "largest": largest,
    "holding": holding,
    "held_keys": held_keys,
    "first_out": first_out,
    "unanswered": unanswered,
}
