"""The alarm list in a browser where a server ends, hangs, comes back or has another table, and where an alarm comes
again unseen. tests/tools/browser.py runs these checks."""
import os
import re
import shutil
import signal
import sqlite3
import subprocess
import time

from lib.browsers import List, Page, Plant, engineer
from alarms.client import FEED, Client
from archives import archive_stopped
from check_journal import SLOW, SYNC, held_actions, syncs
from lib.drawn_plants import new_device
from lib.places import DOCS
from lib.program import PLANT, check
from alarms.table_file import Alarm, Table, device_size
from lib.tools import Yard, slowness
from check_relay import between

# Seconds after which the page has to say that the list may be old.
WITHIN = 2.0
MARK = """window.oldAt = 0; new MutationObserver(() => { if (!window.oldAt && document.getElementById('trouble').textContent.includes('NO SERVER')) window.oldAt = Date.now(); })
.observe(document.getElementById('trouble'), {childList: true, characterData: true, subtree: true, attributes: true})"""


def lost(yard: Yard, _count: int) -> str:
    """A server that is killed, one that hangs, and the list's own process that hangs: the page says so within two
    seconds, and goes on without a reload."""
    plant = Plant(yard)
    plant.comes("TI-102", "TI-101")
    listed = engineer(yard, plant, "--notes", yard.path("notes.sqlite"))
    page = Page(yard, listed.url)
    page.shows("TI-101", "Unack")
    page.js("window.same = 1")
    took = [
        killed(plant, page),
        held(plant.server.process, page, "the server", plant.numbers["TI-102"]),
        held(listed.process, page, "alm_browser"),
    ]
    page.rest()
    page.choose("TI-101")
    page.act("ACK")
    page.shows("TI-101", "Acked")
    page.until("the clock", lambda: "clock has stood still" in page.of("#trouble"))
    plant.passes(30)
    page.until("a clock that moves", lambda: page.of("#trouble") == "")
    check(page.js("return window.same") == 1, "the page was loaded again")
    page.end()
    listed.end()
    plant.end()
    return f"no server is said after {max(took):.1f} s at most"


def killed(plant: Plant, page: Page) -> float:
    """Kills the server and starts it again; how long the page took to say so."""
    page.js(MARK)
    plant.leave()
    began = time.time()
    plant.server.process.kill()
    plant.server.process.wait()
    page.until("no server", lambda: page.js("return window.oldAt"))
    took = page.js("return window.oldAt") / 1000 - began
    check(took <= WITHIN * slowness(), "it says so after", took)
    check(
        "NO SERVER, the list may be old" in page.of("#trouble") and len(page.rows()) == 2,
        "it says",
        page.of("#trouble"),
    )
    page.choose("TI-101")
    check(not page.find("[data-act=ACK]").is_enabled(), "an acknowledgement is offered without a server")
    plant.server.end()
    plant.again()
    page.until("the server again", lambda: "NO SERVER" not in page.of("#trouble"))
    return took


def held(process: object, page: Page, what: str, number: int = -1) -> float:
    """Stops a process and lets it go on, with an order under way where an alarm is named."""
    page.js(MARK)
    began = time.time()
    process.send_signal(signal.SIGSTOP)
    if number >= 0:
        page.of_module("orders", "void page.ask('ACK', [arguments[0]])", number)
    try:
        page.until(f"{what} that hangs", lambda: page.js("return window.oldAt"))
        took = page.js("return window.oldAt") / 1000 - began
        check(took <= WITHIN * slowness(), "it says that", what, "hangs after", took)
        time.sleep(3)
    finally:
        process.send_signal(signal.SIGCONT)
    page.until(f"{what} again", lambda: "NO SERVER" not in page.of("#trouble"))
    return took


def changed(yard: Yard, _count: int) -> str:
    """Another table behind the same path: the page shows the other plant by itself. What was asked of the old one is
    refused, and goes to no alarm of the new one."""
    plant = Plant(yard)
    plant.comes("TI-101", "TI-102")
    listed = engineer(yard, plant)
    page = Page(yard, listed.url)
    page.shows("TI-101", "Unack")
    page.rest()
    page.choose("TI-101")
    page.act("SHELVE")
    page.find("#reason").send_keys("of the old plant")
    page.js("window.same = 1")
    plant.leave()
    plant.server.end()
    other = [Alarm("high", 10, 1, 0, f"N-{number}", max_shelve=3600, text="Of the new table") for number in range(5)]
    os.replace(new_device(yard, "new", Table(device_size(5, 1), 1, other)), plant.device)
    plant.again()
    plant.clock.clock(plant.moment)
    plant.feed.value(0, 20)
    page.shows("N-0", "Unack")
    check(
        page.tags() == ["N-0"] and not page.find("#asking").is_displayed() and page.js("return window.same") == 1,
        "it shows",
        page.tags(),
    )
    check(
        plant.console.state(0).shown == "UNACK" and plant.console.plant().count == 2,
        "something was done to the new plant",
    )
    page.rest()
    page.choose("N-0")
    page.act("ACK")
    page.shows("N-0", "Acked")
    asks_of_another_era(page)
    page.end()
    listed.end()
    plant.end()
    return "another table"


def asks_of_another_era(page: Page) -> None:
    """The same request with the name of another plant does nothing."""
    answer = page.driver.execute_async_script(
        """const done = arguments[arguments.length - 1];
        import('/state.js').then(page => fetch('/do', {method: 'POST', headers: {'Content-Type': 'application/json', 'X-Alarms-Key': page.me.key},
            body: JSON.stringify({era: 'feedfeedfeedfeed', word: 'SHELVE', alarms: [[1, 0]], value: 60, reason: 'of another'})})).then(reply => reply.json()).then(done)"""
    )
    check(answer["answers"][0][1] == "refused" and "another" in answer["answers"][0][3], "it was answered", answer)


def seen(yard: Yard, _count: int) -> str:
    """An acknowledgement is bound to the annunciation that was on the screen: one that came since, or just then,
    stays."""
    plant = Plant(yard)
    plant.comes("TI-101", "PI-104")
    listed = engineer(yard, plant)
    page = Page(yard, listed.url)
    page.shows("PI-104", "Unack")
    page.rest()
    page.choose("TI-101")
    number = plant.numbers["TI-101"]
    was_seen = stamp_of(page, number)
    plant.goes("TI-101")
    plant.comes("TI-101")
    page.until("another annunciation", lambda: stamp_of(page, number) != was_seen)
    # the screen had the older annunciation as it was pressed; then the newer one, for less than a glance
    for stamp, ago, before in ((was_seen, 10_000, 0), (stamp_of(page, number), 100, was_seen)):
        asks_having_seen(page, number, stamp, ago, before)
        page.says("TI-101: it has come again since it was seen")
        check(plant.shown("TI-101") == "UNACK", "an annunciation that nobody saw was acknowledged")
    page.rest()
    page.act("ACK")
    page.shows("TI-101", "Acked")
    check(plant.shown("PI-104") == "UNACK", "another one was acknowledged")
    shown_for_half_a_second(plant, page)
    hidden_by_scrolling(plant, page)
    page.end()
    listed.end()
    plant.end()
    return "what was seen"


def stamp_of(page: Page, number: int) -> int:
    """The stamp of the annunciation that the page shows of an alarm."""
    return page.of_module("state", "page.plants[0].rows[arguments[0]].stamp", number)


def has_seen(page: Page, number: int, stamp: int, ago: int, before: int) -> None:
    """The screen has had an annunciation since some milliseconds ago, and another one before."""
    sight = "{stamp: arguments[1], at: performance.now() - arguments[2], before: arguments[3]}"
    page.of_module("seen", f"void page.sights.set(arguments[0], {sight})", number, stamp, ago, before)


def asks_having_seen(page: Page, number: int, stamp: int, ago: int, before: int) -> None:
    """An acknowledgement of an alarm of which the screen has had that."""
    page.js("document.getElementById('said').textContent = ''")
    has_seen(page, number, stamp, ago, before)
    page.of_module("orders", "void page.ask('ACK', [arguments[0]])", number)


def hidden_by_scrolling(plant: Plant, page: Page) -> None:
    """What is acknowledged as shown are the whole rows on the screen, and none beneath its end."""
    plant.comes(
        *[
            tag
            for tag, shown in plant.all_shown().items()
            if tag[-2:] in ("01", "02", "05", "08", "11", "14") and shown == "NORM"
        ]
    )
    page.free()
    count = sum(len(plant.console.priority_list(priority).alarms) for priority in range(1, 5))
    page.until("many", lambda: page.find("#list").get_attribute("aria-rowcount") == str(count + 1))
    page.rest()
    top, bottom = page.js(
        "const list = document.getElementById('list').getBoundingClientRect(); return [list.top +"
        " document.getElementById('columns').offsetHeight, list.bottom]"
    )
    whole = [row["cells"]["tag"] for row in page.rows() if row["top"] >= top - 2 and row["bottom"] <= bottom + 2]
    beneath = [row["cells"]["tag"] for row in page.rows() if row["bottom"] > bottom + 2]
    check(len(whole) > 8 and beneath, "on the screen are", whole, "and beneath it", beneath)
    before = {tag for tag, shown in plant.all_shown().items() if shown == "UNACK"}
    page.press("A")
    page.says(f"{len(whole)} acknowledged")
    gone = before - {tag for tag, shown in plant.all_shown().items() if shown == "UNACK"}
    check(gone == set(whole), "acknowledged were", gone, "and on the screen stood", whole)


def shown_for_half_a_second(plant: Plant, page: Page) -> None:
    """Enough to acknowledge an alarm that was selected, and too little for one of those shown."""
    number = plant.numbers["TI-101"]
    for key, said, state in (("A", "PI-104 acknowledged", "UNACK"), ("a", "TI-101 acknowledged", "ACKED")):
        plant.goes("TI-101")
        before = stamp_of(page, number)
        plant.comes("TI-101")
        page.until("another annunciation", lambda: stamp_of(page, number) not in (0, before))
        page.choose("TI-101")
        page.js("document.getElementById('said').textContent = ''")
        has_seen(page, number, stamp_of(page, number), 500, before)
        page.press(key)
        page.says(said)
        check(plant.shown("TI-101") == state, key, "of half a second made it", plant.shown("TI-101"))
    check(plant.shown("PI-104") == "ACKED", "what was shown for long isn't acknowledged")


def notes(yard: Yard, _count: int) -> str:
    """Who asked and why outlasts alm_browser, and fits the action's number on the device; a note of another plant's
    action isn't taken."""
    plant = Plant(yard)
    plant.comes("TI-101", "LI-208")
    words = ("--notes", yard.path("notes.sqlite"))
    listed = engineer(yard, plant, *words)
    page = Page(yard, listed.url)
    page.shows("LI-208", "Unack")
    page.rest()
    page.choose("LI-208")
    page.act("SHELVE")
    page.answer("level bridle <b>blocked</b>", duration="15 min")
    page.hides("LI-208")
    page.choose("TI-101")
    page.act("ACK")
    page.shows("TI-101", "Acked")
    page.quit()
    listed.process.kill()
    listed.process.wait()
    listed = engineer(yard, plant, *words)
    page = Page(yard, listed.url)
    page.turn("journal")
    page.until(
        "the reason",
        lambda: any(
            row["cells"]["reason"] == "level bridle <b>blocked</b>" and row["cells"]["user"] == "anna"
            for row in page.rows()
        ),
    )
    page.end()
    listed.end()
    plant.end()
    joined(yard, plant)
    return "who and why"


def joined(yard: Yard, plant: Plant) -> None:
    """The notes beside an archive's actions, as the page says."""
    archive_stopped(plant.device, yard.path("archive.sqlite"))
    text = (DOCS / "CONTROL_ROOM.md").read_text(encoding="utf-8")
    query = re.search(r"```sql\n(.*?)```", text, re.DOTALL)[1]
    query = query.replace("/var/lib/alarms-browser/plant.sqlite", yard.path("notes.sqlite"))
    with sqlite3.connect(yard.path("archive.sqlite")) as archive:
        attach, select = query.split(";", 1)
        archive.execute(attach)
        rows = {(row[2], row[3]): row[4:] for row in archive.execute(select)}
    check(
        rows == {("SHELVE", "LI-208"): ("anna", "level bridle <b>blocked</b>"), ("ACK", "TI-101"): ("anna", "")},
        "the archive has",
        rows,
    )


def reply(yard: Yard, _count: int) -> str:
    """An action is shown once it is synced, and not before, though it stands in the file by then."""
    if not shutil.which("cc"):
        return "no compiler: an action before its reply left out"
    library, device = yard.path("slow.so"), yard.format("slow.device", PLANT)
    subprocess.run(["cc", "-O2", "-shared", "-fPIC", "-o", library, SLOW], check=True)
    server = yard.serve(
        device, loaded={"LD_PRELOAD": library, "SYNC_US": str(int(SYNC * 10**6)), "SYNC_COUNT": yard.path("syncs")}
    )
    listed = List(yard, device, server.port)
    page = Page(yard, listed.url)
    page.until("the list", lambda: page.of("#empty") == "None." and "NO SERVER" not in page.of("#trouble"))
    early = []
    with Client.connect(server.port, FEED, patience=60) as feed:
        needed = syncs(yard) + 2
        feed.send("1 VAL 0 800\n")

        def is_there() -> bool:
            shown, in_file = page.tags() == ["TI-101"], held_actions(device) == 1
            synced = syncs(yard) >= needed
            check(synced or not shown, "it shows an action before its reply")
            early.append(in_file and not synced)
            return shown

        page.until("the alarm", is_there)
        check(feed.receive() == "1 OK 1\n" and any(early), "the action wasn't in the file before its last sync")
    page.end()
    listed.end()
    server.end()
    return "no action before its reply"


def slots(yard: Yard, _count: int) -> str:
    """Where another client has the first slot, the next one is taken."""
    plant = Plant(yard)
    plant.comes("TI-101")
    with Client.connect(plant.port, 12) as other:
        other.plant()
        listed = List(yard, plant.device, plant.port, "--slots", "12", "11")
        page = Page(yard, listed.url)
        page.shows("TI-101", "Unack")
        page.rest()
        page.choose("TI-101")
        page.act("ACK")
        page.shows("TI-101", "Acked")
        page.end()
        listed.end()
    plant.end()
    return "another slot"


CHECKS = {
    "between": between,
    "reply": reply,
    "slots": slots,
    "lost": lost,
    "changed": changed,
    "seen": seen,
    "notes": notes,
}
