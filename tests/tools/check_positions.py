"""The positions of a control room on the page and behind it: who has each, what it may, what sounds there, and the
change of a shift. tests/tools/browser.py runs this check."""
import json
import shutil
import sqlite3
import subprocess
from typing import Any

from alarms.browser.positions import area_lines, position_of, read_positions
from alarms.ending import Fault
from lib.browsers import AREAS, List, Page, Plant, areas_file
from lib.drawn_plants import module
from lib.places import AT_TOOLS
from lib.program import check
from lib.tools import Yard, await_true, started
from check_hold import TOP
from check_proxy import nginx_of, proxied
from selenium.webdriver.support.ui import Select

HEAD = '[[position]]\nname = "Crude desk"\n'
OWN = """
[[position]]
name = "Crude desk"
areas = [0, 1]
most = 2
sound = [0, 1, 2]
[[position]]
name = "Tank desk"
areas = [6]
may = ["out of service"]
[[position]]
name = "Engineer"
role = "engineer"
areas = [2, 3, 4, 40]
sound = []
"""
# Files that are none, each with what is said of it.
WRONG = (
    ("", "it has 1 to 64 tables [[position]], and nothing else"),
    ("size = 1\n" + HEAD, "it has 1 to 64 tables [[position]], and nothing else"),
    ("[[position]]\n", "position 1, name: it is missing"),
    ('[[position]]\nname = ""\n', "position 1, name: it has 1 to 40 letters that print"),
    (HEAD + HEAD, "position 2, name: Crude desk stands twice"),
    (HEAD + "area = [1]\n", "position 1, area: there is no such key"),
    (HEAD + "areas = 1\n", "position 1, areas: it is no list of areas"),
    (HEAD + "areas = [64]\n", "position 1, areas: an area is a number from 0 to 63"),
    (HEAD + "areas = [true]\n", "position 1, areas: an area is a number from 0 to 63"),
    (HEAD + "areas = {north = [1]}\n", "position 1, areas: there is no plant north"),
    (HEAD + 'role = "viewer"\n', "position 1, role: it is operator or engineer"),
    (HEAD + 'may = ["everything"]\n', "position 1, may: it is a list of out of service, priority, setpoint"),
    (HEAD + "most = 0\n", "position 1, most: it is a number from 1 to 1000"),
    (HEAD + "sound = [1.5]\n", "position 1, sound: an area is a number from 0 to 63"),
    ("position = [1]\n", "position 1, it is no table"),
    (HEAD + "areas = [1\n", "Unclosed array"),
)
# What the page of a user asks at the server, whatever it offers: the status and the text.
DO = """const [more] = arguments; return import('/state.js').then(async page => {
const body = JSON.stringify({plant: 0, era: page.plants[0].era, ...more});
const headers = {'Content-Type': 'application/json', 'X-Alarms-Key': page.me.key};
const reply = await fetch('/do', {method: 'POST', headers, body}); return [reply.status, await reply.text()]; })"""
# An alarm of each area, by its number: of 0 two more.
TAGS = {0: "TI-101", 1: "TI-201", 6: "TI-701"}
FILE = OWN.replace("40", "7")


def asks(page: Page, status: int, said: str, word: str, tags: tuple[str, ...] = (), **more: Any) -> None:
    """The server answers an order of the page's user so, whatever its page offers."""
    rows = page.js("return import('/state.js').then(page => page.plants[0].rows.map(row => row.stamp))")
    table = page.of_module("state", "page.plants[0].table.map(alarm => alarm.tag)")
    alarms = [[table.index(tag), rows[table.index(tag)]] for tag in tags]
    found = page.js(DO, {"word": word, "alarms": alarms, **more})
    check(found[0] == status and said in found[1], word, tags, "is answered", found)


def takes(page: Page, name: str, remark: str = "", change: str = "Take") -> None:
    """Takes a position by the page, or leaves it."""
    page.click("#position")
    page.find("#remark").send_keys(remark)
    card = next(one for one in page.driver.find_elements("css selector", "#shifts li") if name in one.text)
    button = card.find_element("css selector", "button")
    check(button.text == change, name, "offers", button.text)
    button.click()
    page.says(f"{name} {'taken' if change == 'Take' else 'left'}: ")
    page.leave()


def sounding(page: Page) -> str:
    return page.js("return document.body.dataset.sounding")


def positions(yard: Yard, _count: int) -> str:
    """Each position sees, hears and does its own; what nobody has is everybody's; a shift changes, and is noted."""
    refused = are_refused(yard) + of_two_plants()
    if not shutil.which("nginx") or not shutil.which("openssl"):
        return f"{refused} files that are none; no nginx: positions weren't tried (Debian: nginx, openssl)"
    plant = Plant(yard)
    path, port = yard.write("positions.toml", OWN), plant.port + 17 + 500
    words = ("--positions", path, "--notes", yard.path("notes.sqlite"), "--areas", areas_file(yard))
    behind = ("--socket", yard.path("socket"), "--proxy", f"https://alarms.example:{port}")
    listed = List(yard, plant.device, plant.port, *behind, *words, listen=False)
    proxy = nginx_of(yard, yard.path("socket"), port)
    ben, anna = (proxied(yard, port, user) for user in ("ben", "anna"))
    check(positions_are_told(listed, path), "it says", listed.said())
    listed.end()
    yard.write("positions.toml", FILE)
    listed.start()
    has_none(plant, ben)
    see_their_own(plant, ben, anna)
    do_their_own(plant, ben, anna)
    goes_home(ben, anna)
    changes_shift(yard, ben, anna)
    listed.end()
    for page in (ben, anna):
        page.until("no server", lambda: "NO SERVER" in page.of("#trouble"))
    in_two_parts(yard, plant, ben, anna, behind, words)
    for page in (ben, anna):
        page.end()
    proxy.terminate()
    plant.end()
    return f"three positions of two users, {refused} files that are none"


def positions_are_told(listed: List, path: str) -> bool:
    """What the file has too many and too few of the plant's areas is said."""
    await_true("the file's areas", lambda: "areas that" in listed.said())
    return all(
        f"{path}: areas that {what}\n" in listed.said() for what in ("the plant hasn't: 40", "no position has: 5, 7")
    )


def has_none(plant: Plant, ben: Page) -> None:
    """Who has no position looks at all, and does nothing."""
    plant.comes("TI-101", "TI-701")
    ben.shows("TI-701", "Unack")
    ben.shows("TI-101", "Unack")
    ben.until("no position", lambda: ben.of("#position") == "No position")
    ben.until("what nobody has", lambda: "Nobody is at Crude desk, Tank desk, Engineer" in ben.of("#trouble"))
    buttons = ben.driver.find_elements("css selector", "#actions button")
    check(not any(one.is_displayed() for one in buttons), "ben is offered something")
    asks(ben, 403, "take a position first", "ACK", ("TI-101",))
    for word, number, status, said in (
        ("TAKE", 2, 403, "it wants the role engineer"),
        ("LEAVE", 0, 403, "it isn't yours"),
        ("TAKE", 3, 400, "no such position"),
        ("TAKE", True, 400, "no such position"),
    ):
        asks(ben, status, said, word, value=number)


def see_their_own(plant: Plant, ben: Page, anna: Page) -> None:
    """Rows, counts and the sound are of the own areas, and of those that nobody has; one silence isn't the other's."""
    takes(ben, "Crude desk", "night shift")
    ben.until("its buttons", lambda: ben.find("[data-act=SHELVE]").is_displayed())
    ben.until("what is left", lambda: "Nobody is at Tank desk, Engineer" in ben.of("#trouble"))
    ben.shows("TI-701", "Unack")  # nobody has that area yet
    takes(anna, "Tank desk")
    takes(anna, "Engineer")
    ben.hides("TI-701")
    ben.until("no trouble", lambda: "Nobody" not in ben.of("#trouble"))
    check(ben.of("#others") == "1 of others' areas", "of others it says", ben.of("#others"))
    check(ben.of("#tabs [data-view=alarms]") == "Alarms 1", "the view says", ben.of("#tabs [data-view=alarms]"))
    check(anna.of("#position") == "Tank desk, Engineer", "anna has", anna.of("#position"))
    anna.hides("TI-101")
    Select(ben.find("#area")).select_by_visible_text("all")
    ben.shows("TI-701", "Unack")
    Select(ben.find("#area")).select_by_visible_text("my areas")
    for page in (ben, anna):
        page.until("a sound", lambda: sounding(page) != "0")
    ben.click("#silence")
    ben.until("silence", lambda: sounding(ben) == "0")
    plant.comes("TI-702")
    anna.shows("TI-702", "Unack")
    check(sounding(anna) != "0", "anna's position was silenced by ben's")
    anna.click("#silence")
    anna.until("silence", lambda: sounding(anna) == "0")
    plant.comes("TI-301")  # of anna's area, that sounds at ben's position alone
    anna.shows("TI-301", "Unack")
    ben.until("a sound", lambda: sounding(ben) != "0")
    check((sounding(anna), ben.row("TI-301")) == ("0", None), "it sounds", sounding(anna), ben.rows())
    plant.comes("TI-601")  # an area that no position has sounds at each
    for page in (anna, ben):
        page.shows("TI-601", "Unack")
        page.until("a sound", lambda: sounding(page) != "0")


def do_their_own(plant: Plant, ben: Page, anna: Page) -> None:
    """What a position may, of how many, and of which alarms, is judged behind the page."""
    other = "its area is another position's"
    asks(ben, 200, other, "ACK", ("TI-701",))
    asks(ben, 403, "Crude desk doesn't have OOS", "OOS", ("TI-101",), value=1, reason="x")
    asks(ben, 403, "SHELVE is for 2 alarms", "SHELVE", ("TI-101", "TI-102", "TI-103"), value=60, reason="x")
    asks(anna, 200, other, "OOS", ("TI-101",), value=1, reason="x")
    asks(anna, 200, other, "SETP", ("TI-701",), value=5, reason="x")
    asks(anna, 200, "done", "OOS", ("TI-701",), value=1, reason="x")
    asks(anna, 200, "done", "PRIO", ("TI-301",), value=4, reason="x")
    asks(ben, 200, "done", "SHELVE", ("TI-101",), value=600, reason="x")
    found = [plant.shown(tag) for tag in ("TI-101", "TI-701", "TI-301")]
    check(found == ["SHLVD", "OOSRV", "UNACK"], "the server has", found)
    ben.until("what is silent", lambda: ben.of("#holding-all") == "1 suppressed while the condition holds:")
    ben.click("#holding [data-state=SHLVD]")
    ben.shows("TI-101", "Shelved")
    ben.turn("alarms")
    anna.until("hers", lambda: anna.of("#holding [data-state=OOSRV]") == "1 out of service")


def goes_home(ben: Page, anna: Page) -> None:
    """Of who has a position and no list open the areas are everybody's, until he is back."""
    at = anna.driver.current_url
    anna.driver.get("about:blank")
    ben.until("who has left", lambda: "Nobody is at Tank desk, Engineer" in ben.of("#trouble"), 40)
    ben.shows("TI-702", "Unack")
    ben.until("a sound", lambda: sounding(ben) != "0")
    anna.driver.get(at)
    ben.until("who is back", lambda: "Nobody" not in ben.of("#trouble"))
    ben.hides("TI-702")
    anna.until("her positions", lambda: anna.of("#position") == "Tank desk, Engineer")


def changes_shift(yard: Yard, ben: Page, anna: Page) -> None:
    """Ben leaves, anna takes his position from nobody; then each is noted, with what stands."""
    top = ben.js(TOP)
    takes(ben, "Crude desk", "TI-101 is calibrated", "Leave")
    ben.until("none", lambda: ben.of("#position") == "No position")
    check(ben.js(TOP) == top, "without a position the list stands at", ben.js(TOP), "and not at", top)
    anna.until("it is free", lambda: "Nobody is at Crude desk" in anna.of("#trouble"))
    anna.click("#position")
    anna.until("what ben said", lambda: ": TI-101 is calibrated" in anna.of("#shifts"))
    check(
        f"1 alarm, 0 unacknowledged, 1 suppressed. {AREAS[0]}, {AREAS[1]}" in anna.of("#shifts"),
        "it says",
        anna.of("#shifts"),
    )
    anna.click("#shift form button")
    takes(anna, "Crude desk")
    asks(anna, 403, "you have it", "TAKE", value=0)
    with sqlite3.connect(yard.path("notes.sqlite")) as kept:
        rows = list(kept.execute("SELECT position, word, user, remark, stands FROM shift ORDER BY id"))
    check(
        [row[:4] for row in rows]
        == [
            ("Crude desk", "TAKE", "ben", "night shift"),
            ("Tank desk", "TAKE", "anna", ""),
            ("Engineer", "TAKE", "anna", ""),
            ("Crude desk", "LEAVE", "ben", "TI-101 is calibrated"),
            ("Crude desk", "TAKE", "anna", ""),
        ],
        "the notes are",
        rows,
    )
    stands = [json.loads(row[4]) for row in rows]
    check(stands[0] == [["TI-101", "UNACK"]] and stands[3] == [["TI-101", "SHLVD"]], "there stood", stands)


def in_two_parts(yard: Yard, plant: Plant, ben: Page, anna: Page, behind: tuple, words: tuple) -> None:
    """The same where one process follows and another is reached: who has a position outlasts a restart."""
    socket = yard.path("list")
    errors = open(yard.path("errors"), "w", encoding="utf-8")
    begin = lambda *given: started(
        subprocess.Popen(module("browser", *given), env=AT_TOOLS, stdout=subprocess.PIPE, stderr=errors, text=True)
    )
    parts = [begin("--port", plant.port, "--name", "plant", "--tell", socket, *words)]
    check(parts[0].stdout.readline() == f"alm_browser: {socket}\n", "it says", yard.read("errors"))
    parts.append(begin("--from", socket, *behind))
    check(parts[1].stdout.readline().startswith("alm_browser: https:"), "it says", yard.read("errors"))
    for page in (ben, anna):
        page.until("the list again", lambda: "NO SERVER" not in page.of("#trouble"))
    anna.until("her positions", lambda: anna.of("#position") == "Crude desk, Tank desk, Engineer")
    asks(ben, 403, "take a position first", "UNSHELVE", ("TI-101",))
    takes(ben, "Crude desk", "takes it of anna")
    anna.until("what is left", lambda: anna.of("#position") == "Tank desk, Engineer")
    asks(anna, 200, "its area is another position's", "UNSHELVE", ("TI-101",))
    asks(ben, 200, "done", "UNSHELVE", ("TI-101",))
    check(plant.shown("TI-101") == "UNACK", "it is", plant.shown("TI-101"))
    for part in parts:
        part.terminate()
        part.wait(timeout=30)
    errors.close()


def are_refused(yard: Yard) -> int:
    """A file that is none, or isn't there: status 1 and a line, before anything else is looked at."""
    files = [(yard.write(f"wrong{at}.toml", text), said) for at, (text, said) in enumerate(WRONG)]
    files.append((yard.path("none.toml"), "No such file"))
    for path, said in files:
        words = module("browser", "--port", 5000, "--listen", "0", "--positions", path)
        run = subprocess.run(words, env=AT_TOOLS, capture_output=True, text=True, timeout=60)
        check(run.returncode == 1 and f"{path}: {said}" in run.stderr and run.stderr.count("\n") == 1, path, run.stderr)
    return len(files)


def of_two_plants() -> int:
    """Of several plants each has a list of areas by its name."""
    plants = ["north", "south"]
    one = read_positions(HEAD + "areas = {south = [1, 2], north = [0]}\n", plants, 1000, 20)[0]
    check(one.areas == one.sound == {(0, 0), (1, 1), (1, 2)} and (one.role, one.most) == ("operator", 20), "it is", one)
    check(position_of(one.told()) == one, "it is told as", one.told())
    check(area_lines([one], 1, 2) == ["areas that the plant hasn't: 2", "areas that no position has: 0"], "of areas")
    check(read_positions(HEAD, plants, 1000, 20)[0].areas is None, "without areas it hasn't all")
    wrong = ((HEAD + "areas = [1]\n", "each has a list of its own"), (HEAD + "sound = {west = [1]}\n", "no plant west"))
    for text, said in wrong:
        try:
            check(False, "it was read as", read_positions(text, plants, 1000, 20))
        except Fault as fault:
            check(said in str(fault), "of", text, "it says", fault)
    return len(wrong)


CHECKS = {"positions": positions}
