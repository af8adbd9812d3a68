"""alm_console in tmux at 80 by 24, over one server and over several, and tools that run through a change of the table.
tests/tools/clients.py runs these checks."""
import os
import re
import time
from dataclasses import replace

from alarms.client import CLOCK, FEED, Client, Refused
from lib.places import EXAMPLES
from lib.program import check
from alarms.table_file import Alarm, Table, device_size, load_table, read_table
from lib.tools import Terminal, Yard, await_true, ended, slowness, start, tool, toml
from check_consoles import is_free
from consoles import COLOURS, REVERSE

REFINERY = str(EXAMPLES / "refinery.toml")
DAY = 86_400


def console(yard: Yard) -> str:
    """The list at a terminal: keys do what they say."""
    device = yard.format("console.device", REFINERY)
    server = yard.serve(device)
    with Client.connect(server.port, CLOCK) as clock, Client.connect(server.port, FEED) as feed, Terminal(
        server.port
    ) as terminal:
        moment = int(time.time())
        clock.clock(moment)
        acknowledge(terminal, feed)
        terminal.shows("CLOCK STANDS STILL for ")
        moment += 1
        clock.clock(moment)
        terminal.hides("CLOCK STANDS STILL")
        shelve(terminal, moment)
        suppress(terminal, feed)
        settings(terminal)
        latched(terminal, feed)
        flooded(terminal, feed)
        pages(terminal)
        old(terminal, clock, feed, moment)
        server.end()
        terminal.shows("no connection, trying again")
        server = yard.serve(device, server.port)
        terminal.shows("stale, all areas", "stale 14 ")
        terminal.press("q")
    server.end()
    given = read_table(yard.run("export", device)).alarms[26]
    check((given.priority, given.setpoint) == (3, -12), "TI-202 was given", given)
    return "alm_console"


def acknowledge(terminal: Terminal, feed: Client) -> None:
    """The order of the list, colours, one acknowledgement and one of all that is shown."""
    for alarm in (1, 26, 0):
        feed.value(alarm, load_table(REFINERY).alarms[alarm].setpoint)
    terminal.shows(">* 1 TI-202", " * 1 TI-102", " * 2 TI-101", "P1 2  P2 1  P3 0  P4 0", "annunciated, all areas")
    terminal.in_order("TI-202", "TI-102", "TI-101")
    for tag, priority in (("TI-202", 1), ("TI-102", 1), ("TI-101", 2)):
        check(terminal.styles(tag) >= {REVERSE, COLOURS[priority - 1]}, tag, "is shown in", terminal.styles(tag))
    terminal.press("a")
    terminal.shows(">  1 TI-202         ACKED  1", "TI-202 acknowledged as action 5")
    check(
        REVERSE not in terminal.styles("TI-202") and COLOURS[0] in terminal.styles("TI-202"),
        "TI-202 is shown in",
        terminal.styles("TI-202"),
    )
    terminal.press("a")
    terminal.shows("TI-202 not acknowledged: there is nothing to acknowledge")
    terminal.press("A")
    terminal.shows("2 acknowledged", "   1 TI-102         ACKED", "   2 TI-101         ACKED")


def shelve(terminal: Terminal, moment: int) -> None:
    terminal.press("Down", "Down", "s")
    terminal.shows("TI-101: shelve for seconds:")
    terminal.type("90")
    terminal.shows("TI-101 shelved for 90 s as action 9", "shelved 1")
    terminal.press("2")
    terminal.shows("TI-101         SHLVD", time.strftime("%H:%M:%S", time.localtime(moment + 90)), "shelved, all areas")
    terminal.press("u")
    terminal.shows("TI-101 unshelved as action 10")


def suppress(terminal: Terminal, feed: Client) -> None:
    """Views of what is out of service and of what is suppressed by design."""
    terminal.press("7", "End", "o")
    terminal.shows("VI-825: out of service? y or n:")
    terminal.type("n")
    terminal.shows("a A ack  r reset")
    terminal.press("o")
    terminal.type("y")
    terminal.shows("VI-825 out of service as action 11")
    feed.design(150, True)
    terminal.press("4")
    terminal.shows("out of service, all areas", "VI-825         OOSRV")
    check(terminal.text().count("OOSRV") == 1, "others are shown as out of service", terminal.text())
    terminal.press("3")
    terminal.shows("suppressed by design, all areas", "TI-701         DSUPR")
    check("VI-825" not in terminal.text(), "an alarm out of service is shown as suppressed by design", terminal.text())
    feed.design(151, True)
    terminal.shows("TI-702         DSUPR")
    terminal.press("4", "o")
    terminal.shows("VI-825 back in service as action 14")
    terminal.hides("VI-825         OOSRV")


def settings(terminal: Terminal) -> None:
    """Another priority and another setpoint."""
    terminal.press("1", "f")
    terminal.type("1")
    terminal.shows("annunciated, area 1", ">  1 TI-202")
    check("TI-102" not in terminal.text(), "an alarm of another area is shown")
    terminal.press("p")
    terminal.shows("TI-202: priority, 1 to 4:")
    terminal.type("3")
    terminal.shows("TI-202 given priority 3 as action 15", ">  3 TI-202")
    terminal.press("p")
    terminal.type("7")
    terminal.shows("TI-202 not given priority 7: a priority is 1 to 4")
    terminal.press("t")
    terminal.shows("TI-202: setpoint:")
    terminal.type("-12")
    terminal.shows("TI-202 given setpoint -12 as action 16")
    terminal.press("f", "Enter")
    terminal.shows("all areas")


def latched(terminal: Terminal, feed: Client) -> None:
    """A latched alarm stays until it is reset."""
    feed.value(1, 0)
    terminal.shows("  1 TI-102         LATAK")
    terminal.press("Home", "r")
    terminal.shows("TI-102 reset as action 18", "P1 0")
    terminal.press("r")
    terminal.shows("TI-101 not reset: it is no latched alarm")


def flooded(terminal: Terminal, feed: Client) -> None:
    for alarm in range(2, 14):
        feed.design(alarm, True)
        feed.value(alarm, load_table(REFINERY).alarms[alarm].setpoint)
        feed.design(alarm, False)
    terminal.shows("FLOOD in areas 0", "F   ")


def pages(terminal: Terminal) -> None:
    """Keys that move by a page and to the ends, over more rows than a screen has."""
    terminal.press("7", "Home")
    terminal.until("the first row", lambda: selected(terminal) == "TI-101")
    terminal.press("NPage")
    terminal.until("the row a page below", lambda: selected(terminal) == "XS-121")
    terminal.press("PPage", "Down")
    terminal.until("the second row", lambda: selected(terminal) == "TI-102")
    terminal.press("End")
    terminal.until("the last row", lambda: selected(terminal) == "VI-825")
    terminal.press("Home")
    terminal.until("the first row", lambda: selected(terminal) == "TI-101")


def selected(terminal: Terminal) -> str:
    """The tag of the selected row."""
    return next((line[5:].split()[0] for line in terminal.text().splitlines() if line.startswith(">")), "")


def old(terminal: Terminal, clock: Client, feed: Client, moment: int) -> None:
    """What chatters and what is stale has its mark and its view."""
    for value in (-50, 5000, -50, 5000, -50, 5000):
        feed.value(26, value)
    terminal.press("5")
    terminal.shows("chattering, all areas", "TI-202", "chatter 1")
    clock.clock(moment + DAY)
    feed.value(27, 0)
    terminal.press("v")
    terminal.shows("stale, all areas", "stale 14 ", "chatter 0")
    check(re.search(r"TI-103 .* 0  S  ", terminal.text()), "an alarm of yesterday has no mark", terminal.text())
    check("TI-203" not in terminal.text(), "an alarm of today is stale", terminal.text())
    terminal.press("A")
    terminal.shows("14 acknowledged")


def largest(yard: Yard) -> str:
    """16,384 alarms don't delay it: seconds from a key to the screen that it asks for."""
    text = "A text as long as it may be, which no terminal shows whole"
    alarms = [Alarm("high", 1, 1, number % 64, f"T-{number}", text=text) for number in range(16_384)]
    table = yard.write("console.toml", toml(Table(device_size(len(alarms), 64), 64, alarms)))
    server = yard.serve(yard.format("console.device", table))
    with Client.connect(server.port, FEED) as feed, Terminal(server.port) as terminal:
        began = time.monotonic()
        check(feed.table().alarms == alarms, "the server tells other attributes than the table's")
        asked = time.monotonic() - began
        for reply in feed.ask_all(f"VAL {alarm} 1" for alarm in range(len(alarms))):
            check(not isinstance(reply, Refused), reply)
        terminal.shows("P1 16384", "T-16383 ")
        waits = []
        for key, there in (("End", " T-0 "), ("3", "suppressed by design, all areas"), ("1", " T-16383 ")):
            began = time.monotonic()
            terminal.press(key)
            terminal.shows(there)
            waits.append(time.monotonic() - began)
        terminal.press("q")
    server.end()
    check(waits[0] < 2 * slowness(), "the last alarm was shown after", waits[0])
    return f"{waits[0]:.2f} s to the last of 16384 alarms, {asked:.2f} s to ask what each is"


def swapped() -> tuple[Table, Table]:
    """A table, and one with an alarm added, one left out and two swapped."""
    alarms = [
        Alarm("high", 800, 1 + number % 4, number % 2, f"T-{number}", 10, 3600, text=f"text {number}")
        for number in range(6)
    ]
    changed = [
        replace(alarms[3], text="another text"),
        alarms[1],
        alarms[2],
        alarms[0],
        alarms[5],
        Alarm("high", 800, 1, 0, "N-9", text="new"),
    ]
    return Table(device_size(6, 2), 2, alarms), Table(device_size(6, 2), 2, changed)


def change(yard: Yard, table: str, new: Table) -> str:
    """Brings the plant of table.device onto a new table, and puts both files in the old ones' places, as the page
    says."""
    device, path = yard.path("table.device"), yard.write("new.toml", toml(new))
    new_device = yard.format("new.device", path)
    run = tool("alm_change_table", device, path, "--program", yard.program)
    check(run.returncode == 0 and " NO " not in yard.run("desk", new_device, lines=run.stdout), run.stderr)
    os.replace(new_device, device)
    os.replace(path, table)
    return device


def tables(yard: Yard) -> str:
    """A console and a feed that know a port alone run through a change of the table, and show and do nothing by the old
    one."""
    old, new = swapped()
    table = yard.write("plant.toml", toml(old))
    server = yard.serve(yard.format("table.device", table))
    feed = start("alm_feed", "--port", server.port)
    with Terminal(server.port) as terminal:
        feed.stdin.write("T-0,801\nT-4,802\nT-3,803\nT-5,1\n")
        feed.stdin.flush()
        terminal.shows("1 T-0 ", "1 T-4 ", "4 T-3 ", "P1 2  P2 0  P3 0  P4 1")
        server.end()
        server = yard.serve(change(yard, table, new), server.port)
        terminal.shows("P1 1  P2 0  P3 0  P4 1", "another text", "the server has another device than before")
        terminal.in_order(">* 1 T-0 ", "text 0", "4 T-3 ", "another text")
        check("T-4" not in terminal.text(), "an alarm that the plant no longer has is shown", terminal.text())
        terminal.press("a")
        terminal.shows("T-0 acknowledged as action")
        feed.stdin.write("N-9,900\nT-5,850\nT-4,1\n")
        feed.stdin.flush()
        terminal.shows("1 N-9 ", "new", "2 T-5 ", "text 5")
        terminal.press("q")
    printed, said = feed.communicate(timeout=60)
    server.end()
    check(
        "T-4,802: the table no longer has this tag" in said and "T-4,1: the table has no such tag" in said,
        printed,
        said,
    )
    shown = {tag: words[0] for tag, words in yard.shown(yard.path("table.device"))[1].items()}
    check(
        shown == {"T-0": "ACKED", "T-1": "NORM", "T-2": "NORM", "T-3": "UNACK", "T-5": "UNACK", "N-9": "UNACK"}, shown
    )
    others(yard, table, new)
    return "a table changed under a console and a feed"


def others(yard: Yard, table: str, old: Table) -> None:
    """Another number of alarms or areas than a given table's, an alarm that isn't the table's, and another device, end
    both with one line."""
    alarm = Alarm("high", 800, 1, 1, "N-10")
    swap = [old.alarms[1], old.alarms[0], *old.alarms[2:]]
    late = [*old.alarms[:5], replace(old.alarms[5], text="other")]
    more = Table(device_size(7, 2), 2, [*old.alarms, alarm])
    cases = [
        (more, f"{table}: the plant has more alarms than the table's 6"),
        (Table(device_size(5, 2), 2, old.alarms[:5]), f"{table}: the plant has fewer alarms than the table's 6"),
        (Table(device_size(6, 3), 3, old.alarms), f"{table}: the plant has more areas than the table's 2"),
        (
            Table(device_size(6, 1), 1, [replace(one, area=0) for one in old.alarms]),
            f"{table}: the plant has fewer areas than the table's 2",
        ),
        (Table(device_size(6, 2), 2, swap), f"{table}: alarm 0, T-3, is another one in the plant: T-1"),
        (Table(device_size(6, 2), 2, late), f"{table}: alarm 5, N-9, is another one in the plant: N-9"),
        (old, "the server has another device than before: its count of actions is 0, and it was 1"),
    ]
    for plant, why in cases:
        server = yard.serve(yard.format("table.device", table))
        with Client.connect(server.port, CLOCK) as clock:
            clock.clock(1)
        feed = start("alm_feed", "--port", server.port, "--table", table)
        with Terminal(server.port, "--table", table) as terminal:
            terminal.shows("annunciated, all areas", "P1 0")
            await_true("the feed's connection", lambda: not is_free(server.port))
            server.end()
            other = yard.format("other.device", yard.write("other.toml", toml(plant)))
            if plant != old:
                yard.run("desk", other, lines="17 1 CLOCK 1\n")
            server = yard.serve(other, server.port)
            terminal.shows("status 1")
            check(f"console: {why}\nstatus 1\n" in terminal.said(), why, "isn't in", terminal.said())
        status, _, said = ended(feed)
        server.end()
        check(status == 1 and said.splitlines()[-1] == f"feed: {why}", said)
