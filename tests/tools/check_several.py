"""The alarm list in a browser over several servers: whose each row is, where an action goes, what is shown of one that
is lost.

tests/tools/browser.py runs these checks.
"""
import json
import os
import time
from typing import Any

from lib.browsers import List, Page, Plant
from check_doors import Raw
from check_looks import CONTRASTS, CUT, SCREENS, TEXT_CONTRAST
from lib.drawn_plants import new_device
from lib.program import check
from alarms.table_file import Alarm, Table, device_size
from lib.tools import Yard, toml
from check_site import NORTH, SOUTH, site, table_of, who_asked

# The plant of a row, its tag and its state.
WORDS = ("plant", "tag", "state")


def several(yard: Yard, _count: int) -> str:
    """Two servers of other tables on one page: each row says whose it is, and what is done goes there alone. One is
    killed and comes back."""
    moment = int(time.time())
    north, south = (
        Plant(yard, yard.write(f"{name}.toml", toml(table_of(name[0].upper(), priorities))), name, moment)
        for name, priorities in (("north", NORTH), ("south", SOUTH))
    )
    areas = [
        word
        for name in ("north", "south")
        for word in ("--areas", yard.write(f"{name}.txt", f"{name} one\n{name} two\n"))
    ]
    words = ("--role", "engineer", "--user", "anna", *areas, "--notes", yard.path("notes.sqlite"))
    listed = List(yard, north.device, north.port, "--name", "north", "--name", "south", "--port", south.port, *words)
    page = Page(yard, listed.url)
    comes_in_one_order(page, north, south)
    goes_to_its_own(page, north, south)
    filters(page)
    refuses_a_wrong_plant(listed, page)
    fits(page)
    is_lost(page, north, south)
    comes_back(page, north, south)
    page.turn("journal")
    page.until(
        "both in the journal",
        lambda: {(row["cells"]["plant"], row["cells"]["tag"]) for row in page.rows()}
        >= {("north", "N-1"), ("south", "S-1")},
    )
    page.turn("alarms")
    is_another(page, north, south)
    who_asked(yard)
    page.end()
    listed.end()
    north.end()
    south.end()
    return "two servers on a page"


def has_rows(page: Page, *rows: str) -> None:
    """Waits until the rows are these, in this order: plant, tag and state."""
    found: list[str] = []

    def are_these() -> bool:
        found[:] = [" ".join(row["cells"][word] for word in WORDS) for row in page.rows()]
        return found == list(rows)

    page.until(f"the rows {rows}", are_these)


def settle(page: Page, *plants: Plant) -> None:
    """Lets the clocks of plants move, and what was said of them go: what comes above the list moves the rows, also from
    below a click."""
    for plant in plants:
        plant.passes(1)
    page.until("clocks that move", lambda: "clock" not in page.of("#trouble"))


def comes_in_one_order(page: Page, north: Plant, south: Plant) -> None:
    """Unacknowledged ones by priority, the newest first whosever they are; each plant has its counts and its areas'
    names."""
    for plant, tag in ((north, "N-2"), (south, "S-2"), (north, "N-0"), (south, "S-1"), (south, "S-0"), (north, "N-1")):
        for one in (north, south):
            one.passes(1)
        plant.comes(tag)
    has_rows(
        page,
        "north N-1 Unack",
        "south S-0 Unack",
        "south S-1 Unack",
        "north N-0 Unack",
        "south S-2 Unack",
        "north N-2 Unack",
    )
    check(
        page.row("S-1")["cells"]["area"] == "south two" and page.row("N-1")["cells"]["area"] == "north two",
        "the areas are",
        page.rows(),
    )
    check(page.of("#priorities [data-priority='2'] span") == "4 / 4", "the head counts", page.of("#priorities"))
    for number, name in enumerate(("north", "south")):
        page.until(
            "a plant's counts", lambda: page.of(f"#plants [data-plant='{number}']").startswith(f"{name}  3 / 3  ")
        )
    check(
        page.of("#clock") == "" and page.of("#connection") == "2 of 2 servers answer",
        "the head says",
        page.of("#clock"),
        page.of("#connection"),
    )


def goes_to_its_own(page: Page, north: Plant, south: Plant) -> None:
    """An action goes to the row's server, and to the alarm of the same number at the other one not. What is chosen of
    both goes to both."""
    settle(page, north, south)
    page.rest()
    page.choose("S-1")
    page.act("ACK")
    page.says("S-1 (south) acknowledged")
    page.shows("S-1", "Acked")
    check(
        south.shown("S-1") == "ACKED" and north.shown("N-1") == "UNACK",
        "the servers show",
        south.shown("S-1"),
        north.shown("N-1"),
    )
    settle(page, north, south)
    page.choose("N-2", "S-2")
    page.act("ACK")
    page.says("2 acknowledged")
    found = (north.shown("N-2"), south.shown("S-2"), north.shown("N-0"), south.shown("S-0"))
    check(found == ("ACKED", "ACKED", "UNACK", "UNACK"), "of four the servers show", found)
    settle(page, north, south)
    page.choose("S-2")
    page.act("SHELVE")
    page.answer("pump in test", duration="30 min")
    page.hides("S-2")
    check(
        south.shown("S-2") == "SHLVD" and north.shown("N-2") == "ACKED",
        "the servers show",
        south.shown("S-2"),
        north.shown("N-2"),
    )
    page.rest()
    page.act("SHOWN")
    page.says("3 acknowledged")
    has_rows(page, "north N-1 Acked", "south S-0 Acked", "south S-1 Acked", "north N-0 Acked", "north N-2 Acked")


def filters(page: Page) -> None:
    """One plant alone, and one area of one plant."""
    page.click("#plants [data-plant='1']")
    has_rows(page, "south S-0 Acked", "south S-1 Acked")
    check(page.of("#hidden") == "3 hidden by filters", "it says", page.of("#hidden"))
    page.click("#clear")
    has_rows(page, "north N-1 Acked", "south S-0 Acked", "south S-1 Acked", "north N-0 Acked", "north N-2 Acked")
    page.set("#area", "south: south two")
    has_rows(page, "south S-1 Acked")
    page.set("#area", "north: north two")
    has_rows(page, "north N-1 Acked")
    page.click("#clear")


def refuses_a_wrong_plant(listed: List, page: Page) -> None:
    """An order to no plant is a bad one, and one with another plant's name does nothing."""
    raw = Raw(listed)
    raw.enter()
    raw.era = page.era
    for plant in (2, -1, "1", 0.5, True):
        check(raw.ask("POST", "/do", raw.order(plant=plant))[0] == 400, "an order goes to plant", plant)
    answers = json.loads(raw.ask("POST", "/do", raw.order(plant=1, word="SHELVE", value=60, reason="x"))[2])["answers"]
    check(
        answers[0][1] == "refused" and "another" in answers[0][3], "with the other plant's era it was answered", answers
    )


def fits(page: Page) -> None:
    """Nothing is cut or beside a screen, with the plants' names and clocks on it."""
    for width, height, is_touched in (*SCREENS, (1280, 720, False)):
        page.driver.execute_cdp_cmd(
            "Emulation.setDeviceMetricsOverride",
            {"width": width, "height": height, "deviceScaleFactor": 1, "mobile": is_touched},
        )
        page.driver.execute_cdp_cmd(
            "Emulation.setTouchEmulationEnabled", {"enabled": is_touched, "maxTouchPoints": 5 if is_touched else 1}
        )
        page.until("its size", lambda: page.js("return innerWidth") == width)
        time.sleep(0.4)
        found = page.js(CUT)
        check(
            found["page"] <= 0 and found["list"] <= 1 and not found["out"] and not found["cells"],
            width,
            height,
            "cuts",
            found,
        )
        check(not is_touched or not found["small"], width, height, "is too small for a finger:", found["small"])


def is_lost(page: Page, north: Plant, south: Plant) -> None:
    """One server is killed: its rows are marked and nothing is asked of it, while the other one goes on."""
    south.comes("S-3")
    page.shows("S-3", "Unack")
    south.leave()
    south.server.end()
    page.until("no server", lambda: "south: NO SERVER, its rows may be old" in page.of("#trouble"))
    check("north: NO SERVER" not in page.of("#trouble"), "it says", page.of("#trouble"))
    page.until("one of two", lambda: page.of("#connection") == "1 of 2 servers answer")
    page.until("marks", lambda: all(marks_of(row) == (row["cells"]["plant"] == "south",) * 2 for row in page.rows()))
    page.until("its button", lambda: page.of("#plants [data-plant='1']") == "south  1 / 3  no server")
    wrong = [one for one in page.js(CONTRASTS) if one[0] < TEXT_CONTRAST]
    check(not wrong, "an old row has too little contrast:", wrong)
    settle(page, north)
    page.choose("S-3")
    check(not page.find("[data-act=ACK]").is_enabled(), "an acknowledgement is offered without a server")
    settle(page, north)
    north.comes("N-4")
    page.shows("N-4", "Unack")
    page.rest()
    check(page.of("[data-act=SHOWN]").startswith("Acknowledge 1 shown"), "it offers", page.of("[data-act=SHOWN]"))
    page.choose("N-4", "S-3")
    page.act("ACK")
    page.says("N-4 (north) acknowledged")
    page.shows("N-4", "Acked")
    check(north.shown("N-4") == "ACKED" and page.state("S-3") == "Unack", "the other one doesn't go on")


def marks_of(row: dict[str, Any]) -> tuple[bool, bool]:
    """Whether a row has the mark of a lost server, and whether it has its look."""
    return "No server" in row["cells"]["marks"], "old" in row["kinds"].split()


def comes_back(page: Page, north: Plant, south: Plant) -> None:
    """It comes back with what came meanwhile, and without a reload. Only its own clock stands still, by its name."""
    page.js("window.same = 1")
    south.again()
    south.comes("S-4")
    page.shows("S-4", "Unack")
    page.until(
        "the server again",
        lambda: "NO SERVER" not in page.of("#trouble") and page.of("#connection") == "2 of 2 servers answer",
    )
    page.until("no marks", lambda: not any(any(marks_of(row)) for row in page.rows()))
    check((south.shown("S-3"), south.shown("S-4")) == ("UNACK", "UNACK"), "something was asked of the lost server")
    page.rest()
    page.act("SHOWN")
    page.says("2 acknowledged")
    check((south.shown("S-3"), south.shown("S-4")) == ("ACKED", "ACKED"), "nothing goes to it")

    def south_alone() -> bool:
        north.passes(1)
        return page.of("#trouble").startswith(
            "south: The plant's clock has stood still for "
        ) and "north" not in page.of("#trouble")

    page.until("one clock that stands", south_alone)
    south.passes(60)
    check(page.js("return window.same") == 1, "the page was loaded again")


def is_another(page: Page, north: Plant, south: Plant) -> None:
    """Another table behind one of the two: it is said of that one, and what is chosen of the other stays chosen."""
    settle(page, north, south)
    page.choose("N-1", "S-0")
    south.leave()
    south.server.end()
    other = Table(
        device_size(3, 1), 1, [Alarm("high", 10, 2, 0, f"W-{number}", text="Of the new table") for number in range(3)]
    )
    os.replace(new_device(south.yard, "west", other), south.device)
    south.again()
    south.clock.clock(south.moment)
    south.feed.value(1, 20)
    page.shows("W-1", "Unack")
    check("south: the plant is another one than before" in page.of("#said"), "it says", page.of("#said"))
    chosen = [row["cells"]["tag"] for row in page.rows() if row["selected"] == "true"]
    check(
        chosen == ["N-1"] and not [tag for tag in page.tags() if tag.startswith("S-")],
        "it shows",
        page.tags(),
        "and chosen are",
        chosen,
    )
    settle(page, north, south)
    page.rest()
    page.choose("W-1")
    page.act("ACK")
    page.says("W-1 (south) acknowledged")
    check(
        south.console.state(1).shown == "ACKED" and north.shown("N-1") == "ACKED",
        "the servers show",
        south.console.state(1),
    )


CHECKS = {"several": several, "site": site}
