"""Positions over two plants: each has areas of both, which are judged by the plant and not by the area's number alone.
tests/tools/browser.py runs this check."""
import json

from lib.browsers import List, Page, Plant
from check_doors import Raw
from check_positions import takes
from check_site import NORTH, SOUTH, table_of
from lib.program import check
from lib.tools import Yard, toml

# North's area 1 and south's area 0 are one position's, the others another's, which nobody takes.
TEXT = """
[[position]]
name = "River desk"
areas = {north = [1], south = [0]}
most = 1
[[position]]
name = "Hill desk"
areas = {north = [0], south = [1]}
sound = {north = [0]}
"""


def two_desks(yard: Yard, _count: int) -> str:
    """What a position may is of its own plants' areas, on the page and behind it."""
    north, south = (
        Plant(yard, yard.write(f"{name}.toml", toml(table_of(name[0].upper(), priorities))), name)
        for name, priorities in (("north", NORTH), ("south", SOUTH))
    )
    words = ("--user", "anna", "--notes", yard.path("notes.sqlite"), "--positions", yard.write("two.toml", TEXT))
    listed = List(yard, north.device, north.port, "--name", "north", "--name", "south", "--port", south.port, *words)
    page = Page(yard, listed.url)
    for plant in (north, south):
        plant.comes(*[alarm.tag for alarm in plant.table.alarms])
    page.until("both plants", lambda: page.find("#list").get_attribute("aria-rowcount") == "12")
    takes(page, "River desk")
    its = {tag: area for plant in (north, south) for tag, area in areas_of(plant).items()}
    own = sorted(tag for tag, area in its.items() if area == (1 if tag[0] == "N" else 0))
    page.rest()
    for tag in sorted(its):
        page.choose(tag)
        offered = page.find("[data-act=ACK]").is_enabled()
        check(offered == (tag in own), tag, "is offered an acknowledgement:", offered)
    answers = {tag: asks(listed, page, (north, south), tag) for tag in sorted(its)}
    done = sorted(tag for tag, said in answers.items() if said == "")
    check(done == own, "by River desk were done", answers, "and its own are", own)
    check(set(answers.values()) == {"", "its area is another position's"}, "it is answered", answers)
    for plant in (north, south):
        found = sorted(tag for tag, shown in plant.all_shown().items() if shown == "ACKED")
        check(found == [tag for tag in own if tag in plant.numbers], "acknowledged are", found)
    page.end()
    listed.end()
    north.end()
    south.end()
    return f"{len(own)} of {len(its)} alarms of two plants are a position's"


def areas_of(plant: Plant) -> dict[str, int]:
    """The area of each tag."""
    return {alarm.tag: alarm.area for alarm in plant.table.alarms}


def asks(listed: List, page: Page, plants: tuple[Plant, Plant], tag: str) -> str:
    """Why an acknowledgement isn't done, whatever the page offers; empty where it is."""
    place = 0 if tag in plants[0].numbers else 1
    number = plants[place].numbers[tag]
    raw = Raw.__new__(Raw)
    cookie = page.driver.get_cookies()[0]
    raw.host, raw.origin = listed.place.split("/")[2], listed.place[:-1]
    raw.cookie, raw.key = f"{cookie['name']}={cookie['value']}", page.of_module("state", "page.me.key")
    raw.era, stamp = page.js(
        "return import('/state.js').then(page => { const plant = page.plants[arguments[0]];"
        " return [plant.era, plant.rows[arguments[1]].stamp]; })",
        place,
        number,
    )
    said = raw.ask("POST", "/do", raw.order(plant=place, alarms=[[number, stamp]]))[2]
    return json.loads(said)["answers"][0][3]


CHECKS = {"two_desks": two_desks}
