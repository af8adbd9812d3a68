"""The controls of the alarm list in a browser, one after the other. tests/tools/browser.py runs these checks."""
import time

from lib.browsers import AREAS, Page, Plant, engineer
from lib.program import check
from selenium.webdriver import ActionChains, Keys
from lib.tools import Yard

# Alarms of the refinery: by priority 1, 1, 2, 2, 3, 4, in other areas and of each kind.
COMING = ("TI-102", "XS-320", "TI-101", "LI-208", "TI-203", "FI-412")


def controls(yard: Yard, _count: int) -> str:
    """Each action of an operator, by a click; and what the server says of it."""
    plant = Plant(yard)
    listed = engineer(yard, plant)
    page = Page(yard, listed.url)
    comes_in_order(plant, page)
    acknowledges(plant, page)
    resets(plant, page)
    shelves(plant, page)
    takes_out_of_service(plant, page)
    gives_priority_and_setpoint(plant, page)
    follows_the_feed(plant, page)
    tells_the_journal(page)
    page.end()
    listed.end()
    plant.end()
    return "each control"


def comes_in_order(plant: Plant, page: Page) -> None:
    """Unacknowledged ones by priority, the newest first; each cell is the table's, the feed's or the clock's."""
    for tag in COMING:
        plant.passes(1)
        plant.comes(tag)
    page.until("six alarms", lambda: len(page.rows()) == len(COMING))
    check(page.tags() == ["XS-320", "TI-102", "LI-208", "TI-101", "TI-203", "FI-412"], "in the order", page.tags())
    row = page.row("LI-208")
    number = plant.numbers["LI-208"]
    alarm = plant.table.alarms[number]
    moment = time.strftime("%H:%M:%S", time.localtime(plant.moment - 2))
    expected = {
        "mark-cell": "2",
        "time": moment,
        "state": "Unack",
        "text": "Column bottom level low, 0.1 %",
        "value": str(alarm.setpoint),
        "limit": str(alarm.setpoint),
        "area": AREAS[1],
    }
    found = {name: row["cells"][name] for name in expected}
    check(found == expected, "a row has", found, "and not", expected)
    check("unacknowledged" in row["kinds"], "it doesn't flash")
    check(page.of("#priorities [data-priority='1'] span") == "2 / 2", "the head counts", page.of("#priorities"))


def acknowledges(plant: Plant, page: Page) -> None:
    """One, several, and what is shown."""
    page.rest()
    page.choose("TI-101")
    page.act("ACK")
    page.shows("TI-101", "Acked")
    page.says("TI-101 acknowledged")
    check(plant.shown("TI-101") == "ACKED" and plant.shown("LI-208") == "UNACK", "another was acknowledged")
    check("unacknowledged" not in page.row("TI-101")["kinds"], "it still flashes")
    page.until("the list in its order", lambda: page.tags()[-1] == "TI-101")
    page.choose("XS-320", "TI-203")
    page.act("ACK")
    page.shows("TI-203", "Acked")
    page.says("2 acknowledged")
    check(
        [plant.shown(tag) for tag in COMING] == ["UNACK", "ACKED", "ACKED", "UNACK", "ACKED", "UNACK"],
        "others were acknowledged",
    )
    page.act("SHOWN")
    page.says("3 acknowledged")
    check([plant.shown(tag) for tag in COMING] == ["ACKED"] * 6, "not all that was shown is acknowledged")


def resets(plant: Plant, page: Page) -> None:
    """A latched alarm stays until it is reset; one that isn't gone can't be."""
    page.choose("TI-102")
    check(not page.find("[data-act=RESET]").is_enabled(), "a reset is offered while the condition holds")
    plant.goes("TI-102")
    page.shows("TI-102", "Latched")
    page.act("RESET")
    page.hides("TI-102")
    check(plant.shown("TI-102") == "NORM", "it isn't reset")


def shelves(plant: Plant, page: Page) -> None:
    """With a duration and a reason; what is left is shown; unshelved, it is annunciated again."""
    page.choose("TI-101")
    page.act("SHELVE")
    page.click("#asking-do")
    check(page.find("#asking").is_displayed() and plant.shown("TI-101") == "ACKED", "it is shelved without a reason")
    page.answer("transmitter in test", duration="30 min")
    page.hides("TI-101")
    state = plant.console.state(plant.numbers["TI-101"])
    check(state.shown == "SHLVD" and state.deadline == plant.moment + 1800, "the server shows", state)
    page.turn("shelved")
    page.shows("TI-101", "Shelved")
    check(page.row("TI-101")["cells"]["left"] == "30:00", "left is", page.row("TI-101"))
    plant.passes(61)
    page.until("what is left", lambda: page.row("TI-101")["cells"]["left"] == "28:59")
    page.choose("TI-101")
    page.act("UNSHELVE")
    page.hides("TI-101")
    check(plant.shown("TI-101") == "UNACK", "it isn't annunciated again")
    page.turn("alarms")
    page.choose("TI-101")
    page.act("SHELVE")
    page.answer("calibration", duration="minutes..", minutes="7")
    page.hides("TI-101")
    check(plant.console.state(plant.numbers["TI-101"]).deadline == plant.moment + 420, "seven minutes are others")
    plant.passes(420)
    page.shows("TI-101", "Unack")


def takes_out_of_service(plant: Plant, page: Page) -> None:
    page.choose("LI-208")
    page.act("OOS ON")
    page.answer("replaced by instrument workshop")
    page.hides("LI-208")
    check(plant.shown("LI-208") == "OOSRV", "it is in service")
    page.turn("service")
    page.shows("LI-208", "Out of service")
    page.choose("LI-208")
    page.act("OOS OFF")
    page.answer("replaced, tested")
    page.hides("LI-208")
    check(plant.shown("LI-208") == "UNACK", "it is out of service")
    page.turn("alarms")


def gives_priority_and_setpoint(plant: Plant, page: Page) -> None:
    page.choose("FI-412")
    page.act("PRIO")
    page.answer("reviewed", priority="2")
    page.until("its priority", lambda: page.row("FI-412")["cells"]["mark-cell"] == "2")
    page.act("SETP")
    page.answer("reviewed again", setpoint="1260")
    page.until("its limit", lambda: page.row("FI-412")["cells"]["limit"] == "1260")
    found = plant.console.attributes(plant.numbers["FI-412"])
    check((found.priority, found.setpoint) == (2, 1260), "the server has", found)


def follows_the_feed(plant: Plant, page: Page) -> None:
    """Returned, by design, chattering and stale alarms, each in its view."""
    plant.comes("PI-104")
    page.shows("PI-104", "Unack")
    plant.goes("PI-104")
    page.shows("PI-104", "RTN unack")
    plant.comes("PI-104")
    plant.goes("PI-104")
    plant.comes("PI-104")
    page.until("a mark", lambda: "Chatter" in page.row("PI-104")["cells"]["marks"])
    page.turn("chatter")
    page.until("it alone", lambda: page.tags() == ["PI-104"])
    plant.feed.design(plant.numbers["LI-208"], True)
    page.turn("design")
    page.shows("LI-208", "By design")
    plant.passes(86_400)
    page.turn("stale")
    stale = {plant.table.alarms[number].tag for number in plant.console.stale().alarms}
    page.until("stale alarms", lambda: set(page.tags()) == stale and "PI-104" in stale)
    check(all("Stale" in row["cells"]["marks"] for row in page.rows()), "a stale one has no mark")
    page.turn("all")
    page.until("all 200", lambda: page.find("#list").get_attribute("aria-rowcount") == "201")
    page.turn("alarms")


def tells_the_journal(page: Page) -> None:
    """What was done, by whom, and why."""
    page.turn("journal")
    lines = {}
    for _ in range(60):
        for row in page.rows():
            cells = row["cells"]
            lines[(int(cells["number"]), cells["tag"], cells["text"])] = (
                cells["state"],
                cells["user"],
                cells["reason"],
            )
        page.press(Keys.PAGE_DOWN)
    told = {(tag, text): rest for (_, tag, text), rest in lines.items()}
    for tag, text, became, user, reason in (
        ("TI-101", "came at 3800", "Unack", "", ""),
        ("XS-320", "acknowledged", "Acked", "anna", ""),
        ("TI-102", "returned at 4079", "Latched", "", ""),
        ("TI-102", "reset", "Normal", "anna", ""),
        ("TI-101", "shelved for 30 min", "Shelved", "anna", "transmitter in test"),
        ("TI-101", "its shelving ended", "Unack", "", ""),
        ("LI-208", "out of service", "Out of service", "anna", "replaced by instrument workshop"),
        ("FI-412", "given priority 2", "Acked", "anna", "reviewed"),
        ("FI-412", "given setpoint 1260", "Acked", "anna", "reviewed again"),
        ("LI-208", "suppressed by design", "By design", "", ""),
    ):
        check(
            told.get((tag, text)) == (became, user, reason),
            tag,
            text,
            "is told as",
            told.get((tag, text)),
            "of",
            sorted(told),
        )


def filters(yard: Yard, _count: int) -> str:
    """Filters by area, priority, state and text, and what they hide; each column sorts both ways."""
    plant = Plant(yard)
    plant.comes(*COMING, "PI-104", "AI-117")
    plant.console.acknowledge(plant.numbers["TI-101"])
    plant.goes("PI-104")
    listed = engineer(yard, plant)
    page = Page(yard, listed.url)
    page.until("eight alarms", lambda: len(page.rows()) == 8)
    for what, does, tags in (
        ("area", lambda: page.set("#area", AREAS[0]), {"TI-101", "TI-102", "PI-104", "AI-117"}),
        ("state", lambda: page.set("#state", "acknowledged"), {"TI-101"}),
        ("returned", lambda: page.set("#state", "returned"), {"PI-104"}),
        ("holds", lambda: page.set("#state", "condition holds"), {*COMING, "AI-117"}),
        ("unacknowledged", lambda: page.set("#state", "unacknowledged"), {*COMING, "PI-104", "AI-117"} - {"TI-101"}),
        ("priority", lambda: page.click("#priorities [data-priority='1']"), {"TI-102", "XS-320"}),
        ("text", lambda: page.find("#text").send_keys("oxygen"), {"AI-117"}),
        ("tag", lambda: page.find("#text").send_keys("ti-1"), {"TI-101", "TI-102"}),
    ):
        does()
        page.until(f"filter {what}", lambda: set(page.tags()) == tags)
        check(page.of("#hidden") == f"{8 - len(tags)} hidden by filters", "it says", page.of("#hidden"))
        page.click("#clear")
        page.until("all again", lambda: len(page.rows()) == 8 and page.of("#hidden") == "")
    sorts(plant, page)
    page.end()
    listed.end()
    plant.end()
    return "filters and sorts"


def sorts(plant: Plant, page: Page) -> None:
    """The columns sort the list, and the sorting is kept."""
    alarms = {tag: plant.table.alarms[number] for tag, number in plant.numbers.items()}
    for column, key in (
        ("tag", lambda tag: tag),
        ("text", lambda tag: alarms[tag].text),
        ("limit", lambda tag: alarms[tag].setpoint),
        ("area", lambda tag: alarms[tag].area),
    ):
        keys = []
        for _ in range(2):
            page.click(f"#columns [data-sort='{column}']")
            keys.append([key(tag) for tag in page.tags()])
        check(
            keys[0] == sorted(keys[0]) and keys[1] == sorted(keys[1], reverse=True) and len(keys[0]) == 8,
            "by",
            column,
            keys,
        )
    page.click("#columns [data-sort='time']")
    times = [row["cells"]["time"] for row in page.rows()]
    check(times == sorted(times, reverse=True), "by time", times)
    page.click("#columns [data-sort='order']")
    check(page.tags()[0] in ("TI-102", "XS-320") and page.tags()[-1] == "TI-101", "by urgency", page.tags())


def keys(yard: Yard, _count: int) -> str:
    """An operator without a mouse: selects, acknowledges, shelves, turns the views, and comes to each control by the
    tab key."""
    plant = Plant(yard)
    plant.comes("TI-102", "TI-101", "LI-208")
    listed = engineer(yard, plant)
    page = Page(yard, listed.url)
    page.until("three alarms", lambda: len(page.rows()) == 3)
    works_by_keys(plant, page)
    page.press("/")
    check(page.js("return document.activeElement.id") == "text", "/ doesn't lead to the search")
    page.press("?")
    page.until("help", lambda: page.find("#page").is_displayed())
    page.press(Keys.ESCAPE)
    reached = reach(page)
    wanted = {"sound", "help", "area", "state", "text", "clear", "list", "tab", "priority", "sort"}
    check(wanted <= reached, "the tab key doesn't come to", wanted - reached)
    page.end()
    listed.end()
    plant.end()
    return "the keyboard alone"


def works_by_keys(plant: Plant, page: Page) -> None:
    """Acknowledges, tries to shelve what may not be, shelves, unshelves, and acknowledges all that is shown."""
    page.rest()
    page.press(Keys.ARROW_DOWN, Keys.ARROW_DOWN)
    page.until(
        "the second",
        lambda: [row["cells"]["tag"] for row in page.rows() if row["selected"] == "true"] == [page.tags()[1]],
    )
    second = page.tags()[1]
    page.press("a")
    page.shows(second, "Acked")
    page.press(Keys.HOME, "s")
    page.until("a dialog", lambda: page.find("#asking").is_displayed())
    check(
        not page.find("#asking-do").is_enabled() and "doesn't let" in page.of("#asking-said"),
        "TI-102 may be shelved, and the table says no",
    )
    page.press(Keys.ESCAPE)
    page.press(Keys.END)
    last = page.tags()[-1]
    page.press("s")
    ActionChains(page.driver).send_keys(Keys.TAB, "sensor drifts", Keys.ENTER).perform()
    page.hides(last)
    check(plant.shown(last) == "SHLVD", "it isn't shelved")
    page.press("2")
    page.shows(last, "Shelved")
    page.press(Keys.HOME, "u")
    page.hides(last)
    page.press("1", Keys.ESCAPE)
    page.shows(last, "Unack")
    page.rest()
    page.press("A")
    page.until(
        "all acknowledged", lambda: [plant.shown(tag) for tag in ("TI-102", "TI-101", "LI-208")] == ["ACKED"] * 3
    )


def reach(page: Page) -> set[str]:
    """What the tab key comes to."""
    page.js("document.activeElement.blur()")
    reached = set()
    for _ in range(60):
        ActionChains(page.driver).send_keys(Keys.TAB).perform()
        reached.add(
            page.js(
                """const one = document.activeElement, of = one.dataset;
                return one.id || (of.view && 'tab') || (of.priority && 'priority') || (of.sort && 'sort') || of.act || ''"""
            )
        )
    return reached


CHECKS = {"controls": controls, "filters": filters, "keys": keys}
