"""The alarm list in a browser in a quarter of a minute: two browsers, a killed server, requests without what they need.
tests/tools/browser.py --short runs this."""
from lib.browsers import Page, Plant, engineer
from check_doors import raw_requests
from check_flood import QUICK, delays, judge
from check_lost import killed
from lib.program import check
from lib.tools import Yard

TAGS = ("TI-101", "TI-102", "LI-208", "XS-320", "TI-203")


def brief(yard: Yard, _count: int) -> str:
    """Two browsers, a killed server, and requests without what they need."""
    plant = Plant(yard)
    plant.comes("TI-101", "TI-102")
    listed = engineer(yard, plant)
    one, other = Page(yard, listed.url), Page(yard, listed.url)
    for page in (one, other):
        page.shows("TI-101", "Unack")
    took = killed(plant, other)
    plant.comes(*TAGS[2:])
    for page in (one, other):
        page.until("five alarms", lambda: len(page.rows()) == 5)
        page.click("#columns [data-sort='tag']")
        page.rest()
    said = judge(delays(one, other, list(TAGS)), QUICK)
    check(all(plant.shown(tag) == "ACKED" for tag in TAGS), "not all are acknowledged")
    for page in (one, other):
        page.end()
    refused = raw_requests(plant, listed)
    listed.end()
    plant.end()
    return f"to the other browser {said}; no server after {took:.1f} s; {refused} requests"


CHECKS = {"brief": brief}
