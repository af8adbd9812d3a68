"""alm_console over several servers. tests/tools/clients.py runs these checks."""
import os
import re
import signal
from typing import Iterable
from alarms.client import CLOCK, FEED, Client
from consoles import COLOURS, REVERSE
from lib.program import check
from lib.server import Server
from alarms.table_file import Alarm, Table, device_size
from lib.tools import Terminal, Yard, tool, toml


def is_free(port: int) -> bool:
    """Whether the feed's slot answers, which it does to one client alone."""
    try:
        with Client.connect(port, FEED, patience=0.3) as client:
            client.stale()
        return True
    except Exception:
        return False


class Hands:
    """A served plant with the hands of a test at its feed, its clock and a console of its own."""

    def __init__(self, yard: Yard, name: str, priorities: Iterable[int]):
        self.yard, self.alarms = yard, [
            Alarm(
                "high",
                100,
                priority,
                number % 2,
                f"{name[0].upper()}-{number}",
                10,
                3600,
                text=f"text {number} of {name}",
            )
            for number, priority in enumerate(priorities)
        ]
        table = Table(device_size(len(self.alarms), 2), 2, self.alarms)
        self.device = yard.format(f"{name}.device", yard.write(f"{name}.toml", toml(table)))
        self.server: Server = yard.serve(self.device)
        self.port, self.moment = self.server.port, 1000
        self.connect()

    def connect(self) -> None:
        self.feed, self.clock, self.console = (
            Client.connect(self.port, slot, patience=60) for slot in (FEED, CLOCK, 5)
        )

    def again(self) -> None:
        """The server is started again, at its place."""
        self.server = self.yard.serve(self.device, self.port)
        self.connect()

    def end(self) -> None:
        for client in (self.feed, self.clock, self.console):
            client.close()
        self.server.end()

    def comes(self, *alarms: int) -> None:
        for alarm in alarms:
            self.feed.value(alarm, 100)

    def passes(self) -> None:
        self.moment += 1
        self.clock.clock(self.moment)

    def shown(self, *alarms: int) -> list[str]:
        """The words of the alarms' states, as the server answers them."""
        return [state.shown for state in self.console.states(alarms)]


def rows_of(terminal: Terminal) -> list[str]:
    """Each row of a list of several servers: its mark, priority, plant, tag and state."""
    _, _, below = terminal.text().partition("P PLANT")
    return [
        " ".join([line[1].strip() or "-", *line[2:].split()[:4]])
        for line in below.splitlines()[1:]
        if re.match(r"[ >][ *?] [1-4-] ", line)
    ]


def has_rows(terminal: Terminal, *rows: str) -> None:
    terminal.until(f"the rows {rows}", lambda: rows_of(terminal) == list(rows))


def plants(yard: Yard) -> str:
    """Two servers of other tables on one console: each row says whose it is, and what is done goes there alone. One is
    lost and comes back."""
    north, south = Hands(yard, "north", (2, 1, 2, 3)), Hands(yard, "south", (1, 2, 2, 2, 4))
    north.comes(2)
    south.comes(2)
    with Terminal(north.port, "--port", south.port, "--name", "north", "--name", "south") as terminal:
        in_one_order(terminal, north, south)
        at_its_own(terminal, north, south)
        one_plant(terminal, north, south)
        lost_and_back(terminal, north, south)
        hangs(terminal, north, south)
        another_plant(terminal, north, south)
        terminal.press("q")
        terminal.shows("status 0")
    named(yard, north, south)
    north.end()
    south.end()
    return "two servers on a console"


def in_one_order(terminal: Terminal, north: Hands, south: Hands) -> None:
    """By priority, then the newest; what stood there before is the oldest, server by server. Each server has its
    counts."""
    has_rows(terminal, "* 2 north N-2 UNACK", "* 2 south S-2 UNACK")
    for plant, alarm, tag in ((north, 0, "N-0"), (south, 1, "S-1"), (south, 0, "S-0"), (north, 1, "N-1")):
        plant.comes(alarm)
        terminal.shows(f" {tag} ")
    has_rows(
        terminal,
        "* 1 north N-1 UNACK",
        "* 1 south S-0 UNACK",
        "* 2 south S-1 UNACK",
        "* 2 north N-0 UNACK",
        "* 2 north N-2 UNACK",
        "* 2 south S-2 UNACK",
    )
    north.feed.value(2, 0)
    north.comes(2)
    has_rows(
        terminal,
        "* 1 north N-1 UNACK",
        "* 1 south S-0 UNACK",
        "* 2 north N-2 UNACK",
        "* 2 south S-1 UNACK",
        "* 2 north N-0 UNACK",
        "* 2 south S-2 UNACK",
    )
    terminal.shows("north  P1 1  P2 2  P3 0  P4 0", "south  P1 1  P2 2  P3 0  P4 0")
    check(
        terminal.styles("S-0") >= {REVERSE, COLOURS[0]} and terminal.styles("N-2") >= {REVERSE, COLOURS[1]},
        "they are shown in",
        terminal.styles("S-0"),
    )


def at_its_own(terminal: Terminal, north: Hands, south: Hands) -> None:
    """An action goes to the row's server, and to the alarm of the same number at the other one not."""
    terminal.press("Home", "Down", "a")
    terminal.shows("S-0 of south acknowledged as action")
    has_rows(
        terminal,
        "* 1 north N-1 UNACK",
        "- 1 south S-0 ACKED",
        "* 2 north N-2 UNACK",
        "* 2 south S-1 UNACK",
        "* 2 north N-0 UNACK",
        "* 2 south S-2 UNACK",
    )
    check(
        south.shown(0) == ["ACKED"] and north.shown(0, 1, 2) == ["UNACK"] * 3,
        "the servers show",
        south.shown(0),
        north.shown(0, 1, 2),
    )
    terminal.press("Down", "Down", "s")
    terminal.shows("S-1 of south: shelve for seconds:")
    terminal.type("60")
    terminal.shows("S-1 of south shelved for 60 s", "shelved 1")
    check(
        south.shown(1) == ["SHLVD"] and north.shown(1) == ["UNACK"], "the servers show", south.shown(1), north.shown(1)
    )
    terminal.press("2")
    has_rows(terminal, "- - south S-1 SHLVD")
    terminal.press("u")
    terminal.shows("S-1 of south unshelved")
    terminal.press("1", "A")
    terminal.shows("5 acknowledged")
    check(
        north.shown(0, 1, 2) == ["ACKED"] * 3 and south.shown(0, 1, 2) == ["ACKED"] * 3,
        "not all that was shown is acknowledged",
    )


def one_plant(terminal: Terminal, north: Hands, south: Hands) -> None:
    """A filter by plant, by area, and by both. The clock of one stands still, and that one is named."""
    terminal.press("f")
    terminal.shows("plant, area, or both (none for all):")
    terminal.type("south")
    terminal.shows("annunciated, all areas of south")
    has_rows(terminal, "- 1 south S-0 ACKED", "- 2 south S-1 ACKED", "- 2 south S-2 ACKED")
    of_north, of_south = "- 1 north N-1 ACKED", "- 2 south S-1 ACKED"
    for typed, title, rows in (
        ("north 1", "area 1 of north", (of_north,)),
        ("1", "annunciated, area 1", (of_north, of_south)),
    ):
        terminal.press("f")
        terminal.type(typed)
        terminal.shows(title)
        has_rows(terminal, *rows)
    terminal.press("f")
    terminal.type("west")
    terminal.shows("there is neither a plant west nor such an area", "annunciated, all areas")
    terminal.press("f", "Enter", "7")
    tags = [alarm.tag for plant in (north, south) for alarm in plant.alarms]
    terminal.until("all alarms of both", lambda: [row.split()[3] for row in rows_of(terminal)] == tags)
    terminal.press("1")

    def south_alone() -> bool:
        north.passes()
        return "south  CLOCK STANDS STILL for" in terminal.text() and "north  CLOCK" not in terminal.text()

    terminal.until("one clock that stands", south_alone)


def lost_and_back(terminal: Terminal, north: Hands, south: Hands) -> None:
    """One server is killed. Its rows are marked, and nothing is asked of it; the other goes on. It comes back, with
    what came meanwhile."""
    south.comes(3)
    fresh = (
        "- 1 north N-1 ACKED",
        "- 1 south S-0 ACKED",
        "* 2 south S-3 UNACK",
        "- 2 south S-1 ACKED",
        "- 2 north N-2 ACKED",
        "- 2 north N-0 ACKED",
        "- 2 south S-2 ACKED",
    )
    has_rows(terminal, *fresh)
    south.end()
    terminal.shows("south  NO SERVER for ", "the rows are of then", f"port {south.port}: Connection refused")
    old = ("? 1 south S-0 ACKED", "? 2 south S-3 UNACK", "? 2 south S-1 ACKED", "? 2 south S-2 ACKED")
    has_rows(
        terminal, "- 1 north N-1 ACKED", old[0], old[1], old[2], "- 2 north N-2 ACKED", "- 2 north N-0 ACKED", old[3]
    )
    check(
        REVERSE not in terminal.styles("S-3") and not terminal.styles("S-3") & set(COLOURS),
        "an old row is shown in",
        terminal.styles("S-3"),
    )
    terminal.press("Home", "Down", "Down", "a")
    terminal.shows("south gives no answer: nothing was asked")
    north.comes(3)
    terminal.shows("* 3 north N-3            UNACK", "north  P1 1  P2 2  P3 1  P4 0")
    terminal.press("A")
    terminal.shows("1 acknowledged")
    check(north.shown(3) == ["ACKED"] and "NO SERVER" in terminal.text(), "the other one doesn't go on", north.shown(3))
    south.again()
    check(south.shown(3) == ["UNACK"], "something was asked of the lost server", south.shown(3))
    south.comes(4)
    terminal.hides("NO SERVER")
    terminal.shows("* 4 south S-4            UNACK", "south  P1 1  P2 3  P3 0  P4 1")
    has_rows(terminal, *fresh, "- 3 north N-3 ACKED", "* 4 south S-4 UNACK")
    terminal.press("A")
    terminal.shows("2 acknowledged")


def hangs(terminal: Terminal, north: Hands, south: Hands) -> None:
    """A server that gives no answer holds up nothing of the other one: the screen goes on each second, and what is
    asked is done."""
    south.server.process.send_signal(signal.SIGSTOP)
    seen: set[str] = set()

    def goes_on() -> bool:
        seen.update(re.findall(r"south  NO SERVER for (\d+) s", terminal.text()))
        return any({str(int(second) + more) for more in range(3)} <= seen for second in seen)

    try:
        terminal.shows("south  NO SERVER for ", "gives no answer")
        terminal.until("a screen of each of three seconds", goes_on)
        north.feed.value(0, 0)
        north.comes(0)
        terminal.shows("* 2 north N-0 ")
        terminal.press("A")
        terminal.until("an acknowledgement", lambda: north.shown(0) == ["ACKED"])
        check("NO SERVER" in terminal.text(), "it answers though it is held", terminal.text())
    finally:
        south.server.process.send_signal(signal.SIGCONT)
    terminal.hides("NO SERVER")


def another_plant(terminal: Terminal, north: Hands, south: Hands) -> None:
    """Another device behind one of the two is said of that one, and nothing is shown of what it was."""
    south.end()
    other = [Alarm("high", 100, 3, 0, f"W-{number}", 10, 3600, text="of another table") for number in range(5)]
    os.replace(
        south.yard.format("west.device", south.yard.write("west.toml", toml(Table(device_size(5, 1), 1, other)))),
        south.device,
    )
    south.again()
    terminal.shows("south: the server has another device than before")
    south.comes(1)
    terminal.shows("* 3 south W-1            UNACK", "of another table")
    check(
        not [row for row in rows_of(terminal) if " S-" in row] and " 1 north N-1 " in terminal.text(),
        "it shows",
        terminal.text(),
    )


def named(yard: Yard, north: Hands, south: Hands) -> None:
    """Without names a server is called by its port, or by the last part of its folder. Two of one name are refused, and
    so is a word too many."""
    with Terminal(north.port, "--sockets", yard.path("run/west")) as terminal:
        terminal.shows("west   NO SERVER for ", f"{north.port}  P1 1", f" 1 {north.port} N-1")
        terminal.press("q")
    with Terminal(north.port, "--host", "127.0.0.2,127.0.0.1", "--port", south.port) as terminal:
        terminal.shows(f"{north.port}  P1 1", f"{south.port}  P1 0", f" 1 {north.port} N-1", f" 3 {south.port} W-1")
        terminal.press("q")
    for words, why in (
        ((north.port, "--port", north.port), f"2 servers are called {north.port}: give each a --name"),
        ((north.port, "--port", south.port, "--name", "north"), "--name is given 1 times, and there are 2 servers"),
        (
            (north.port, "--slot", 1, "--slot", 2, "--port", south.port, "--slot", 3),
            "--slot is given 3 times, and there are 2 servers",
        ),
        (
            (north.port, "--host", "a", "--host", "b", "--host", "c", "--port", south.port),
            "--host is given 3 times, and there are 2 servers",
        ),
    ):
        run = tool("alm_console", "--port", *words)
        check(run.returncode == 2 and why in run.stderr, words, "gives", run.stderr)
