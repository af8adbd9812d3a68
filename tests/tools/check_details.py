"""What operators are told of each alarm beside its table, on the page: units, texts, responses, setpoints.
tests/tools/browser.py runs these checks."""
import subprocess

from lib.browsers import List, Page, Plant
from lib.drawn_plants import module
from lib.places import AT_TOOLS, EXAMPLES
from lib.program import check
from lib.tools import Yard, await_true
from selenium.webdriver import Keys

HEAD = "tag,unit,scale,decimals,text,cause,consequence,response,respond,display\n"
OWN = (
    HEAD
    + "TI-101,°C,10,1,Austrittstemperatur Ofen hoch,Zu viel Brennstoff,Koks im Rohr,Brennstoff drosseln,600,"
    + "https://displays.example/heater?unit=1\n"
    + "TI-102,°C,10,1,Rohrwandtemperatur hoch,,,Brennstoff sofort schließen,60,\n"
    + "XX-999,,,,gibt es nicht,,,,,\n"
)
# Files that are none, each with what is said of it.
WRONG = (
    (HEAD.replace("unit", "units"), "row 1: the columns are tag and any of"),
    (HEAD + "TI-101,,1,1,,,,,,\n", "row 2, decimals: a scale of 1 drops what stands at 1 behind the point"),
    (HEAD + "TI-101,,0,,,,,,,\n", "row 2, scale: 0 is no decimal number above 0"),
    (HEAD + "TI-101,,1e3,,,,,,,\n", "row 2, scale: 1e3 is no decimal number"),
    (HEAD + "TI-101,,10,x,,,,,,\n", "row 2, decimals: x is no whole number up to 9"),
    (HEAD + "TI-101,,,,,,,,,javascript:alert(1)\n", "row 2, display: javascript:alert(1) is no address"),
    (HEAD + "TI-101,,,,,,,,,\nTI-101,,,,,,,,,\n", "row 3, tag: TI-101 stands twice"),
    (HEAD + ",,,,,,,,,\n", "row 2, tag: it is missing"),
    (HEAD + "TI-101,,\n", "row 2, it has more or fewer cells"),
    (HEAD + "TI-101,,,,a\x07b,,,,,\n", "row 2, text: it has more than 1000 letters, or one that doesn't print"),
)


def details(yard: Yard, _count: int) -> str:
    """Values, limits, texts and setpoints go by the file; the response stands beside the selected alarm; what the file
    has too many and too few is said; a file that is none ends with a line."""
    plant = Plant(yard)
    path = yard.write("own.csv", OWN)
    listed = List(yard, plant.device, plant.port, "--role", "engineer", "--user", "anna", "--details", path)
    page = Page(yard, listed.url)
    plant.comes("TI-101", "LI-208")
    page.shows("TI-101", "Unack")
    await_true("what it has too many", lambda: f"{path}: 1 tags that the plant hasn't: XX-999" in listed.said())
    await_true("and too few", lambda: "198 tags that the plant has, and the file hasn't: " in listed.said())
    number = plant.numbers["TI-101"]
    cells = page.row("TI-101")["cells"]
    check(cells["text"] == "Austrittstemperatur Ofen hoch", "its text is", cells)
    check((cells["value"], cells["limit"]) == ("380.0", "380.0 °C"), "its value and limit are", cells)
    check(page.row("LI-208")["cells"]["limit"] == str(plant.table.alarms[plant.numbers["LI-208"]].setpoint), "another")
    tells_what_to_do(page)
    gives_setpoint(plant, page, number)
    page.end()
    listed.end()
    refused = are_refused(yard, plant)
    plant.end()
    return f"values by their scale, responses, {refused} files that are none"


def tells_what_to_do(page: Page) -> None:
    """The selected alarm has what to do, why, what follows and its display."""
    page.choose("TI-101")
    said = page.of("#detail")
    for words in (
        "high 380.0 °C, deadband 2.0",
        "Response within 10 min: Brennstoff drosseln",
        "Cause: Zu viel Brennstoff",
        "Consequence: Koks im Rohr",
    ):
        check(words in said, "of the selected alarm it says", said)
    link = page.find("#detail a").get_attribute("href")
    check(link == "https://displays.example/heater?unit=1", "its display is", link)


def gives_setpoint(plant: Plant, page: Page, number: int) -> None:
    """A setpoint is typed in the operator's unit; a fraction that the plant can't hold isn't taken."""
    page.act("SETP")
    field = page.find("#setpoint")
    check((field.get_attribute("value"), page.of("#asking-unit")) == ("380.0", "°C"), "the field has", page.text())
    for text, said in (("385.55", "finer than the plant's values"), ("385,5", "")):
        field.clear()
        field.send_keys(text)
        page.js("document.getElementById('reason').value = 'reviewed'")
        page.click("#asking-do")
        check(page.find("#asking").is_displayed() and said in page.of("#asking-said"), text, page.of("#asking-said"))
    field.clear()
    page.find("#reason").clear()
    page.answer("reviewed", setpoint="385.5")
    page.until("its limit", lambda: page.row("TI-101")["cells"]["limit"] == "385.5 °C")
    found = plant.console.attributes(number).setpoint
    check(found == 3855, "the server has", found)
    page.turn("journal")
    page.until("its line", lambda: any("given setpoint 385.5 °C" in row["cells"]["text"] for row in page.rows()))
    check(any("came at 380.0 °C" in row["cells"]["text"] for row in page.rows()), "the journal has", page.rows())


def are_refused(yard: Yard, plant: Plant) -> int:
    """A file that is none, or isn't there: status 1 and a line."""
    files = [(yard.write(f"wrong{at}.csv", text), said) for at, (text, said) in enumerate(WRONG)]
    files.append((yard.path("none.csv"), "No such file"))
    for path, said in files:
        words = module("browser", "--port", plant.port, "--listen", "0", "--details", path)
        run = subprocess.run(words, env=AT_TOOLS, capture_output=True, text=True, timeout=60)
        check(run.returncode == 1 and f"{path}: {said}" in run.stderr and run.stderr.count("\n") == 1, path, run.stderr)
    return len(files)


def whole(yard: Yard, _count: int) -> str:
    """The refinery's file has each of its alarms, and nothing else: nothing is said of it."""
    plant = Plant(yard)
    path = str(EXAMPLES / "refinery.details.csv")
    listed = List(yard, plant.device, plant.port, "--role", "engineer", "--user", "anna", "--details", path)
    page = Page(yard, listed.url)
    plant.comes(*[alarm.tag for alarm in plant.table.alarms if alarm.area == 0])
    page.shows("AI-118", "Unack")
    check(page.row("AI-118")["cells"]["limit"] == "10.0 ppm", "10 ppm are", page.row("AI-118"))
    page.turn("all")
    page.press(Keys.HOME)
    told = page.of_module("state", "page.plants[0].table.filter(one => one.response && one.cause).length")
    check(told == len(plant.numbers), "of", len(plant.numbers), "alarms there are told", told)
    check("tags that" not in listed.said(), "it says", listed.said())
    page.end()
    listed.end()
    plant.end()
    return f"what to do of {told} alarms"


CHECKS = {"details": details, "whole": whole}
