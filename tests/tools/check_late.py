"""A stream that takes its time to begin. tests/tools/browser.py runs this check."""
import time

from check_denied import Falsified
from lib.browsers import Page, Plant
from lib.program import check
from lib.tools import Yard, slowness

# Seconds behind which a stream tells its first word: more than those for which one that was heard may be silent.
LATE = 8
SLOW = """
import asyncio
from alarms.browser.web import Site
true = Site.tell
async def tell(self, response, reader, session):
    await asyncio.sleep({late})
    await true(self, response, reader, session)
Site.tell = tell
"""


def late(yard: Yard, _count: int) -> str:
    """A list whose streams begin late is shown all the same, in each window of a browser."""
    plant = Plant(yard)
    plant.comes("TI-101")
    listed = Falsified(yard, plant, SLOW.format(late=LATE))
    began = time.monotonic()
    page = Page(yard, listed.url)
    page.until("the list", lambda: page.state("TI-101") == "Unack", 5 * LATE)
    took = time.monotonic() - began
    check(LATE <= took <= 4 * LATE * slowness(), "a list that begins late is there after", took)
    page.driver.switch_to.new_window("tab")
    page.driver.get(listed.place)
    page.shows("TI-101", "Unack")
    page.of_module("link", "void page.link.again()")
    page.until("silence", lambda: "NO SERVER" in page.of("#trouble"))
    page.until("the list again", lambda: "NO SERVER" not in page.of("#trouble"), 5 * LATE)
    page.end()
    listed.end()
    plant.end()
    return f"a stream that begins {LATE} s late, after {took:.0f} s"


CHECKS = {"late": late}
