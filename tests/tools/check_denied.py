"""What a page draws, held against the server's own rows. tests/tools/browser.py runs these checks."""
import re
import subprocess
import sys
import time
import urllib.request

from check_listen import Web
from check_metrics import lint
from lib.browsers import List, Page, Plant, engineer
from lib.places import AT_TOOLS
from lib.program import check
from lib.tools import Yard, await_true, slowness

# Seconds in which a row that the server denies has to be found: those of a round and some.
WITHIN = 30
COMPARED, DENIED = "rows_compared_total", "rows_denied"
# A page's server that draws one field of one alarm's row otherwise than it was told, and one that misses what was
# acknowledged.
FALSIFIED = """
from alarms.browser import batch, watch
true = batch.row_of
def row_of(number, alarm, *told):
    row = true(number, alarm, *told)
    if alarm.tag == "TI-101":
        row[{place}] = {wrong}
    return row
batch.row_of = watch.row_of = row_of
"""
MISSING = """
from alarms.followed import FollowedPlant
true = FollowedPlant.named
FollowedPlant.named = lambda self, entry: [] if entry.action.word == "ACK" else true(self, entry)
"""
MAIN = """
from alarms.browser.__main__ import main
main()
"""
# The places of a row that the server tells too: the name in a message, and a value that isn't so.
FIELDS = {
    1: ("priority", 4),
    3: ("state", "ACKED"),
    4: ("flags", 4),
    5: ("condition", 0),
    6: ("last annunciation", 5),
    7: ("last but two", 7),
    8: ("deadline", 9),
    9: ("stamp", 3),
    11: ("setpoint", 11),
}


class Falsified(List):
    """alm_browser behind a change of its code."""

    def __init__(self, yard: Yard, plant: Plant, change: str):
        self.wrong = [sys.executable, "-c", change + MAIN]
        super().__init__(yard, plant.device, plant.port, "--role", "engineer", "--metrics", "0")

    def start(self) -> None:
        at = self.words.index("alarms.browser")
        self.words = [*self.wrong, *self.words[at + 1 :]]
        super().start()


def await_said(listed: List, text: str) -> None:
    """Waits until a page's server has said this."""
    deadline = time.monotonic() + WITHIN * slowness()
    while text not in listed.said():
        check(time.monotonic() < deadline, "it never said", repr(text), "but", listed.said())
        time.sleep(0.1)


def address(listed: List) -> str:
    """Where its page of metrics is."""
    await_said(listed, "/metrics")
    return re.findall(r"http://\S+/metrics", listed.said())[0]


def counted(listed: List) -> dict[str, dict[str, int]]:
    """The metrics of a list, of each plant by its name."""
    page = urllib.request.urlopen(address(listed), timeout=60).read().decode()
    found: dict[str, dict[str, int]] = {}
    for name, plant, value in re.findall(r'^alarms_list_(\w+)\{plant="(.*)"\} (\d+)$', page, re.M):
        found.setdefault(plant, {})[name] = int(value)
    return found


def missed(yard: Yard, plant: Plant) -> None:
    """A change that the page's server misses is found too."""
    listed = Falsified(yard, plant, MISSING)
    page = Page(yard, listed.url)
    page.shows("TI-102", "Unack")
    plant.console.acknowledge(plant.numbers["TI-102"])
    await_said(listed, "the server denies 1 of the rows. TI-102: its state is UNACK here, and ACKED there")
    check(counted(listed)["plant"][DENIED] == 1, "it counts", counted(listed))
    page.end()
    listed.end()


def denied(yard: Yard, _count: int) -> str:
    """Each field of a drawn row that isn't the server's is found, and said on the page, in the log and by the page of
    metrics. Rows that are the server's are denied by nobody, while the plant moves on."""
    plant = Plant(yard)
    plant.comes("TI-101", "TI-102")
    for place, (name, wrong) in FIELDS.items():
        listed = Falsified(yard, plant, FALSIFIED.format(place=place, wrong=repr(wrong)))
        await_said(listed, f"the server denies 1 of the rows. TI-101: its {name} is")
        check(counted(listed)["plant"][DENIED] == 1, "of a wrong", name, "it counts", counted(listed))
        if place == 3:
            page = Page(yard, listed.url)
            page.until("the warning", lambda page=page: "NOT AS THE SERVER SAYS" in page.of("#trouble"))
            check("first TI-101" in page.of("#trouble"), "it says", page.of("#trouble"))
            page.end()
        listed.end()
    missed(yard, plant)
    moves(yard, plant)
    plant.end()
    return f"{len(FIELDS)} wrong fields and a missed change, each found"


def moves(yard: Yard, plant: Plant) -> None:
    """Rows that are the server's, of a plant that moves on."""
    listed = engineer(yard, plant, "--metrics", "0")
    page = Page(yard, listed.url)
    page.shows("TI-101", "Unack")
    for step in range(200):
        (plant.goes if step % 2 else plant.comes)("PI-101" if "PI-101" in plant.numbers else "TI-103")
        plant.passes(1)
        time.sleep(0.02)
    check("denies" not in listed.said() and page.of("#trouble") == "", listed.said(), page.of("#trouble"))
    found = counted(listed)["plant"]
    check(found["connected"] == 1 and found[DENIED] == 0 and found[COMPARED] > 0, "of true rows it counts", found)
    lint(address(listed))
    page.end()
    listed.end()


def by_plant(yard: Yard, _count: int) -> str:
    """The metrics of two plants stand by their names, also of one whose server has gone; of two processes the one that
    follows has them."""
    plants = [Plant(yard, name=name) for name in ("north", "south")]
    names, place = ('north "1"', "süd"), yard.path("list")
    words = [word for name in names for word in ("--name", name)]
    words += ["--port", plants[1].port, "--metrics", "0", "--tell", place]
    listed = List(yard, "", plants[0].port, *words, listen=False)
    web = Web(yard, place, "--metrics", "1024")
    raw = [name.replace('"', '\\"') for name in names]
    await_true("both", lambda: [counted(listed).get(name, {}).get("connected") for name in raw] == [1, 1])
    plants[1].end()
    await_true("one", lambda: [counted(listed)[name]["connected"] for name in raw] == [1, 0])
    lint(address(listed))
    check("metrics" not in web.said(), "the other process says", web.said())
    for one in (web, listed):
        one.end()
    plants[0].end()
    return "two plants by their names"


def by_lines(_yard: Yard, _count: int) -> str:
    """What follows a plant for the page has no device's file and no model of the alarms; nor have the other tools that
    go by lines."""
    for module in ("browser.serving", "console", "clock", "feed", "export"):
        code = f"import alarms.{module}, sys; print(*{{'alarms.device_file', 'alarms.model'}} & set(sys.modules))"
        run = subprocess.run([sys.executable, "-c", code], env=AT_TOOLS, capture_output=True, text=True, timeout=60)
        check(run.returncode == 0 and not run.stdout.strip(), module, "has", run.stdout, run.stderr)
    return "rows by lines alone"


CHECKS = {"denied": denied, "denied_by_plant": by_plant, "by_lines": by_lines}
