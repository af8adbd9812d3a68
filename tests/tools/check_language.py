"""The language of the page: each word is in the files of words and told by them, and who suppressed an alarm, why and
since when. tests/tools/browser.py runs these checks."""
import json
import os
import re
import subprocess
import time

import page_words
from alarms.browser.language import WORDS, load_file
from lib.browsers import AREAS, List, Page, Plant, engineer
from check_positions import DO
from lib.drawn_plants import module
from lib.places import AT_TOOLS, EXAMPLES
from lib.program import check
from alarms.table_file import Alarm, Table, device_size
from lib.tools import Yard, await_true, toml
from selenium.webdriver import Keys

HEAD = 'language = "xx"\n[words]\n'
# Files that are none, each with what is said of it.
WRONG = (
    ("", "it has the key language and the table [words], and nothing else"),
    (HEAD + "[more]\n", "it has the key language and the table [words], and nothing else"),
    (HEAD.replace("xx", "german!"), "language: it is no code as de or pt-BR"),
    (HEAD + '"Alarms" = ""\n', "'Alarms': it has 1 to 600 letters that print"),
    (HEAD + '"Alarms" = 3\n', "'Alarms': it has 1 to 600 letters that print"),
    (HEAD + '"Alarms" = "a\\nb"\n', "'Alarms': it has 1 to 600 letters that print"),
    (HEAD + '"{count} new alarms" = "neue"\n', "'{count} new alarms': it has other values in braces"),
    (HEAD + '"Alarms" = "{count}"\n', "'Alarms': it has other values in braces"),
    (HEAD + '"Alarms" = "x"\n"Alarms" = "y"\n', "Cannot overwrite a value"),
)
# What stands on the page and can be read, hidden or not, or is read aloud.
TEXTS = """const found = []; const walk = document.createTreeWalker(document.body, NodeFilter.SHOW_TEXT);
while (walk.nextNode()) if (!walk.currentNode.parentElement.closest('[hidden]')) found.push(walk.currentNode.data);
for (const one of document.querySelectorAll('*')) for (const name of ['aria-label', 'title', 'placeholder'])
if (one.hasAttribute(name) && !one.closest('[hidden]')) found.push(one.getAttribute(name));
return [document.title, ...found]"""
TOLD, LETTERS = re.compile("⟦[^⟦⟧]*⟧"), re.compile(r"[^\W\d_]{2,}")
# Numbers of seconds and the letters of keys aren't words, nor is the name of the protocol's action.
DATA = ["anna", "plant", "pump in test", "permit 4711", *AREAS]


def files(_yard: Yard, _count: int) -> str:
    """Both files have each word that the page uses, and no other; each as it is in English. The script says nothing
    that isn't told by them."""
    untold = list(page_words.untold())
    check(not untold, "the script says what no file tells:", untold)
    used, english, german = page_words.used(), *(load_file(WORDS / f"{code}.toml").words for code in ("en", "de"))
    for name, words in (("en", english), ("de", german)):
        missing, more = [word for word in used if word not in words], [word for word in words if word not in used]
        check(not missing and not more, f"{name}.toml lacks", missing, "and has", more)
    check(all(word == said for word, said in english.items()), "en.toml has other words")
    same = [word for word in used if german[word] == word and LETTERS.search(re.sub(r"\{.*?\}", "", word))]
    check(len(same) < 8, "de.toml has the English words", same)
    return f"{len(used)} words in two languages"


class Walk:
    """A page in a language of which each word is marked, so that what isn't told by the file is seen."""

    def __init__(self, page: Page, data: list[str]):
        self.page, self.data, self.seen = page, sorted(data, key=len, reverse=True), set()

    def look(self, where: str) -> None:
        """Each text on the page now is of the file, or of the plant."""
        for text in self.page.js(TEXTS):
            rest = text
            for one in self.data:
                rest = rest.replace(one, " ")
            while TOLD.search(rest):
                self.seen.update(TOLD.findall(rest))
                rest = TOLD.sub(" ", rest)
            check(not LETTERS.search(rest), where, "has words that are in no file:", repr(text))


def told(yard: Yard, _count: int) -> str:
    """Each view, dialog and answer of the page has no word that isn't of the file."""
    english = load_file(WORDS / "en.toml").words
    lines = "".join(f"{json.dumps(word)} = {json.dumps(f'⟦{word}⟧', ensure_ascii=False)}\n" for word in english)
    plant = Plant(yard)
    rows = (EXAMPLES / "refinery.details.csv").read_text(encoding="utf-8").splitlines()
    shown = [rows[0] + ",display", *(row + ",https://displays.example" for row in rows[1:])]
    details = ("--details", yard.write("shown.csv", "\n".join(shown) + "\n"))
    details += ("--positions", EXAMPLES / "refinery.positions.toml")
    listed = engineer(yard, plant, "--language", yard.write("marked.toml", HEAD + lines), *details)
    cells = [cell for row in rows[1:] for cell in re.findall(r'"[^"]*"|[^,]+', row)]
    names = re.findall('name = "([^"]*)"', (EXAMPLES / "refinery.positions.toml").read_text(encoding="utf-8"))
    table = [word for alarm in plant.table.alarms for word in (alarm.tag, alarm.text)]
    page = Page(yard, listed.url)
    walk = Walk(page, [*DATA, *table, *names, *(cell.strip('"') for cell in cells if len(cell) > 1)])
    page.until("a page", lambda: "⟦Server answers⟧" in page.of("#connection"))
    walk.look("an empty list")
    walks_positions(page, walk)
    walks_actions(plant, page, walk)
    for view in ("alarms", "shelved", "design", "service", "chatter", "stale", "all", "journal"):
        page.turn(view)
        walk.look(view)
    page.find("#text").send_keys("nothing has this")
    page.until("none", lambda: page.of("#empty") != "")
    walk.look("filters")
    plant.leave()
    plant.server.end()
    page.until("no server", lambda: "⟦no answer" in page.of("#trouble"))
    walk.data += re.findall(r"\((.*)\)", page.of("#trouble"))  # what the log says, for the administrator
    walk.look("no server")
    page.end()
    listed.end()
    return f"{len(walk.seen)} texts of the page told by the file"


def walks_positions(page: Page, walk: Walk) -> None:
    """The dialog of the positions, and all of them taken; the help."""
    page.click("#position")
    walk.look("positions")
    for number in range(4):
        if number:
            page.click("#position")
        page.find(f"#shifts [data-place='{number}']").click()
        page.until("taken", lambda: "⟦" in page.of("#said") and not page.find("#shift").is_displayed())
        walk.look("a position that is taken")
    page.click("#help")
    walk.look("help")
    page.click("#page form button")
    page.click("#sound")
    walk.look("sound")


def walks_actions(plant: Plant, page: Page, walk: Walk) -> None:
    """A flood; each action with its dialog and its answer; a selected alarm; what comes off the screen."""
    plant.comes(*[alarm.tag for alarm in plant.table.alarms[:14] if alarm.tag != "TI-103"])
    plant.feed.design(plant.numbers["LI-208"], True)
    page.shows("TI-101", "⟦Unack⟧")
    page.until("a flood", lambda: page.of("#flooded") != "")
    page.rest()
    walk.look("a flood")
    page.press("A")
    page.until("an answer", lambda: "acknowledged⟧" in page.of("#said"))
    for act, tag, more in (
        ("SHELVE", "TI-101", {}),
        ("OOS ON", "PI-105", {}),
        ("PRIO", "TI-102", {"priority": "3"}),
        ("SETP", "LI-110", {"setpoint": "9"}),
    ):
        page.press(Keys.ESCAPE)
        page.choose(tag)
        walk.look(f"what is known before {act}")
        page.act(act)
        walk.look(act)
        page.answer("pump in test", **more)
        page.until("an answer", lambda: "⟦" in page.of("#said") and page.of("#said") != "..")
        walk.look(f"the answer to {act}")
    page.press(Keys.ESCAPE)
    page.choose("TI-102", "LI-110")
    page.act("SHELVE")
    walk.look("a dialog of two alarms")
    page.click("#asking-leave")
    page.of_module("orders", "void page.ask('RESET', [arguments[0]])", plant.numbers["TI-102"])
    page.until("why it isn't done", lambda: "TI-102: " in page.of("#said"))
    walk.look("a refusal")
    plant.comes("TI-103")
    walk.look("what is new")


def language(yard: Yard, _count: int) -> str:
    """The page in German, its sign-in and what its server says; a file that lacks words is told, and one that is none
    ends with a line."""
    plant = Plant(yard)
    plant.comes("TI-101")
    listed = List(yard, plant.device, plant.port, "--user", "anna", "--language", "de")
    page = Page(yard, listed.place)
    check(
        page.js("return document.documentElement.lang") == "de" and "Merkwort" in page.text(), "it shows", page.text()
    )
    page.find("#token").send_keys(listed.url.partition("token=")[2])
    page.click("button")
    page.shows("TI-101", "Unquitt.")
    found = (page.driver.title, page.of("h1"), page.find("#silence").text, page.of("#tabs [data-view=design]"))
    check(found == ("(1) Alarmliste", "Alarme", "Ton aus", "Durch Auslegung 0"), "it shows", found)
    label = page.find("#list").get_attribute("aria-label")
    check(label == "Alarme" and page.of("#page-head") == "Die Zeichen und die Tasten", "it shows", label)
    page.choose("TI-101")
    page.act("SHELVE")
    page.answer("probe\u200c")
    page.says("nicht geschehen: ein Grund hat kein Zeilenende")
    found = page.js(DO, {"word": "SHELVE", "alarms": [[0, 0]], "value": 60, "reason": "x" * 201})
    check(found == [400, "ein Grund hat höchstens 200 Zeichen\n"], "the server says", found)
    page.end()
    listed.end()
    listed = List(
        yard, plant.device, plant.port, "--language", yard.write("few.toml", HEAD + '"Alarms" = "A"\n"x" = "y"\n')
    )
    await_true("what it lacks", lambda: "words are missing, and are told in English" in listed.said())
    check("few.toml: 1 are no words of the page: x" in listed.said(), "it says", listed.said())
    listed.end()
    paths = [(yard.write(f"wrong{at}.toml", text), said) for at, (text, said) in enumerate(WRONG)]
    paths.append((yard.path("none.toml"), "No such file"))
    for path, said in paths:
        words = module("browser", "--port", plant.port, "--listen", "0", "--language", path)
        run = subprocess.run(words, env=AT_TOOLS, capture_output=True, text=True, timeout=60)
        check(run.returncode == 1 and f"{path}: {said}" in run.stderr and run.stderr.count("\n") == 1, path, run.stderr)
    plant.end()
    return f"German, {len(paths)} files that are none"


def small_table(yard: Yard) -> str:
    """Alarms on a device that soon forgets what led to its image."""
    alarms = [
        Alarm("high", 100, 2, 0, tag, 2, 86_400, text=f"Text of {tag}") for tag in ("A-1", "A-2", "A-3", "A-4", "A-5")
    ]
    return yard.write("small.toml", toml(Table(device_size(len(alarms), 1, 4116), 1, alarms)))


def why(yard: Yard, _count: int) -> str:
    """Who suppressed an alarm, why and since when is there when journal and device have dropped it, also after a
    restart and on another table's device; what somebody else did has its moment alone."""
    plant = Plant(yard, small_table(yard))
    listed = engineer(yard, plant, "--notes", yard.path("notes.sqlite"))
    page = Page(yard, listed.url)
    plant.comes("A-1", "A-2", "A-3")
    for tag, act, reason in (("A-1", "SHELVE", "pump in test"), ("A-2", "OOS ON", "transmitter removed, permit 4711")):
        page.choose(tag)
        page.act(act)
        page.answer(reason)
        page.hides(tag)
    plant.feed.design(plant.numbers["A-3"], True)
    plant.console.oos(plant.numbers["A-4"], True)
    begun = plant.moment
    plant.passes(7)
    wanted = {
        "shelved": {"A-1": ("anna", "pump in test")},
        "service": {"A-2": ("anna", "transmitter removed, permit 4711"), "A-4": ("", "")},
        "design": {"A-3": ("", "")},
    }
    tells_why(page, wanted, begun)
    forgets(plant, listed, page)
    tells_why(page, wanted, begun)
    changes_table(yard, plant)
    page.until("another plant", lambda: page.of_module("state", "page.plants[0].table[4]?.text") == "Another text")
    tells_why(page, wanted, begun)
    page.end()
    listed.end()
    plant.end()
    return "who, why and since when"


def tells_why(page: Page, wanted: dict[str, dict[str, tuple[str, str]]], begun: int) -> None:
    """Each view has its alarms, with who, why and since when; so has what is known of the selected alarm."""
    time_ = page.js("return new Date(arguments[0] * 1000).toLocaleTimeString('en-GB')", begun)
    for view, rows in wanted.items():
        page.turn(view)
        page.until("its rows", lambda: sorted(page.tags()) == sorted(rows))
        for tag, who in rows.items():
            cells = page.row(tag)["cells"]
            found = (cells["user"], cells["reason"], cells["time"])
            check(found == (*who, time_), view, tag, "is told as", found)
    page.turn("shelved")
    page.choose("A-1")
    text = f"Shelved: since {time_}, anna, pump in test"
    check(text in page.of("#detail"), "of the selected alarm it says", page.of("#detail"))
    page.press(Keys.ESCAPE)


def changes_table(yard: Yard, plant: Plant) -> None:
    """The states are brought onto a device of a table with another text, on which actions are counted anew."""
    plant.leave()
    plant.server.end()
    table = yard.write("other.toml", yard.run("export", plant.device).replace("Text of A-5", "Another text"))
    other = yard.format("other.device", table)
    words = module("change_table", plant.device, table, "--program", yard.program)
    lines = subprocess.run(words, env=AT_TOOLS, capture_output=True, text=True, timeout=60, check=True).stdout
    check(" NO " not in yard.run("desk", other, lines=lines), "not all is brought")
    os.replace(other, plant.device)
    plant.again()


def forgets(plant: Plant, listed: List, page: Page) -> None:
    """Neither the journal nor the device has it any more, and the list is started again."""
    number, kept = plant.numbers["A-5"], "page.plants[0].events.map(event => event.word)"
    page.turn("journal")
    for _ in range(30):  # a look may find a device that has dropped what came since the last one
        replies = list(plant.feed.ask_all(f"VAL {number} {value}" for _ in range(100) for value in (120, 0)))
        check(all(reply[0] == "OK" for reply in replies), "not all came")
        time.sleep(0.3)
        if not {"OOS", "SHELVE"} & set(page.of_module("state", kept)):
            break
    page.until("its end there", lambda: not {"OOS", "SHELVE"} & set(page.of_module("state", kept)))
    page.driver.get("about:blank")
    listed.end()
    listed.start()
    page.driver.get(listed.url)
    page.until("the list again", lambda: page.of("#connection") == "Server answers")
    check(not {"OOS", "SHELVE"} & set(page.of_module("state", kept)), "the device still has it")


CHECKS = {"files": files, "told": told, "language": language, "why": why}
