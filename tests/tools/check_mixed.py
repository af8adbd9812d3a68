"""A look of which not all is of one count: the page says so. tests/tools/browser.py runs this check."""
import time
from pathlib import Path

from check_denied import Falsified, counted
from check_screen import screen
from lib.browsers import Page, Plant
from lib.program import check
from lib.tools import Yard

LOOKS, WORDS = "mixed_looks_total", "Not all of this is of one moment"
# A page's server whose plant changes, while a file is there, between the rows that it asks for: before each row an
# operator at slot 5 puts another alarm out of service, or back. So no turn of a look finds all rows at its count, and
# each turn leaves an old row to the next one.
MOVING = """
import os
from alarms.client import Client
from alarms.followed import FollowedPlant
true, hand, out = FollowedPlant.ask, Client.connect({port}, 5, patience=60), set()
def move(other):
    if os.path.exists({file!r}):
        hand.oos(other, other not in out)
        out.symmetric_difference_update([other])
def ask(self, client, alarms, news):
    for alarm in alarms:
        move(0 if alarm else 1)
        true(self, client, [alarm], news)
    true(self, client, [], news)
FollowedPlant.ask = ask
"""
# Whether the words can be read: nothing is over them, and none is cut. The screens: width and height.
READABLE = """const one = document.getElementById('mixed'), at = one.getBoundingClientRect();
return document.elementFromPoint((at.left + at.right) / 2, (at.top + at.bottom) / 2) === one
  && one.scrollWidth <= one.clientWidth + 1
  && at.bottom <= document.getElementById('list').getBoundingClientRect().top"""
SCREENS = ((1280, 720), (1024, 768), (768, 1024))


def mixed(yard: Yard, _count: int) -> str:
    """Of a plant that changes between rows on each turn the page says that not all is of one moment, and a metric
    counts such looks; of one that doesn't, neither."""
    plant = Plant(yard)
    file = Path(yard.path("moving"))
    listed = Falsified(yard, plant, MOVING.format(port=plant.port, file=str(file)))
    page = Page(yard, listed.url)
    page.until("a page", lambda: page.of("#connection") == "Server answers")
    begun = counted(listed)["plant"][LOOKS]
    plant.comes("TI-101", "TI-102")
    page.shows("TI-102", "Unack")
    time.sleep(1)
    found = (page.of("#mixed"), counted(listed)["plant"][LOOKS] - begun)
    check(found == ("", 0), "of a plant that stands still it says", found)
    file.touch()
    plant.comes("PI-105", "LI-110")
    page.until("its words", lambda: page.of("#mixed") == WORDS)
    for width, height in SCREENS:
        screen(page, width, height, False)
        page.until("words that can be read", lambda: page.js(READABLE))
    page.until("a clock that stands still", lambda: "stood still" in page.of("#trouble"))
    check(page.js(READABLE), "what is wrong is over the words")
    before = counted(listed)["plant"][LOOKS]
    page.until("more such looks", lambda: counted(listed)["plant"][LOOKS] > before)
    file.unlink()
    page.until("one moment", lambda: page.of("#mixed") == "")
    after = counted(listed)["plant"][LOOKS]
    plant.goes("PI-105")
    time.sleep(1)
    check(counted(listed)["plant"][LOOKS] == after, "of one moment it counts", counted(listed))
    page.end()
    listed.end()
    plant.end()
    return "looks of several counts"


CHECKS = {"mixed": mixed}
