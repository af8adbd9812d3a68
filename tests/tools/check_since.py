"""What happened, by SINCE, and acknowledgements of the annunciation that was seen: alarms.client, and a client in C,
against the server."""
import os
import signal
import subprocess

from alarms.actions import Action
from alarms.client import CLOCK, FEED, Client, Refusal, Refused
from alarms.replies import Entry
from lib.places import EXAMPLES
from lib.program import PLANT, Wrong, check
from lib.server import Server
from lib.tools import Terminal, Yard, await_true, started

# Each word of an action, by its slot, and what SINCE tells of it: the moment behind it, and the action.
ASKED = [
    (CLOCK, "CLOCK 1000", Entry(1000, CLOCK, Action(1, "CLOCK", 0, 1000))),
    (FEED, "VAL 0 800", Entry(1000, FEED, Action(2, "VAL", 0, 800))),
    (3, "OOS 0 ON", Entry(1000, 3, Action(3, "OOS", 0, 1))),
    (3, "OOS 0 OFF", Entry(1000, 3, Action(4, "OOS", 0, 0))),
    (0, "ACK 0 2", Entry(1000, 0, Action(5, "ACK", 0, 0))),
    (FEED, "DESIGN 1 ON", Entry(1000, FEED, Action(6, "DESIGN", 1, 1))),
    (15, "SHELVE 0 5", Entry(1000, 15, Action(7, "SHELVE", 0, 5))),
    (15, "UNSHELVE 0", Entry(1000, 15, Action(8, "UNSHELVE", 0, 0))),
    (15, "SHELVE 0 5", Entry(1000, 15, Action(9, "SHELVE", 0, 5))),
    (CLOCK, "CLOCK 1005", Entry(1005, CLOCK, Action(10, "CLOCK", 0, 1005))),
    (7, "PRIO 3 4", Entry(1005, 7, Action(11, "PRIO", 3, 4))),
    (7, "SETP 3 -1000000000000", Entry(1005, 7, Action(12, "SETP", 3, -(10**12)))),
    (FEED, "VAL 2 1", Entry(1005, FEED, Action(13, "VAL", 2, 1))),
    (FEED, "VAL 2 0", Entry(1005, FEED, Action(14, "VAL", 2, 0))),
    (0, "ACK 2", Entry(1005, 0, Action(15, "ACK", 2, 0))),
    (0, "RESET 2", Entry(1005, 0, Action(16, "RESET", 2, 0))),
]


def refusal_of(client: Client, request: str) -> Refusal:
    """By which refusal a request is refused."""
    try:
        client.ask(request)
    except Refused as refused:
        return refused.refusal
    raise Wrong(f"{request} isn't refused")


def since(yard: Yard) -> str:
    """Each word of an action is told as it was asked; no more is told at once than the page says, and what came before
    the server isn't told."""
    device = yard.format("since.device", PLANT)
    server = yard.serve(device)
    for slot, request, _ in ASKED:
        with Client.connect(server.port, slot) as client:
            client.act(request)
    entries = [entry for _, _, entry in ASKED]
    with Client.connect(server.port, 9) as console:
        told = console.since()
        check((told.count, told.first, told.entries) == (len(ASKED), 1, entries), told)
        check(console.since(14).entries == entries[14:], console.since(14))
        check(
            console.since(len(ASKED)).entries == [] and console.since(2**48).first == 2**48 + 1, "what is to come"
        )
    with Client.connect(server.port, CLOCK) as clock:
        for moment in range(1006, 1606):
            clock.clock(moment)
        told = clock.since(16)
        check((len(told.entries), told.last, told.are_all) == (256, 272, False), told.first, told.last)
        check([entry.action.number for entry in clock.entries(0)] == list(range(1, 617)), "all of them")
    server.end()
    server = yard.serve(device)
    with Client.connect(server.port, 9) as console:
        check(refusal_of(console, "SINCE 615") == Refusal.FORGOTTEN, "of before the server")
        told = console.since()
        check((told.count, told.first, told.entries, told.are_all) == (616, 617, [], True), told)
    server.end()
    return "SINCE of the tools"


def seen(yard: Yard) -> str:
    """An acknowledgement with a stamp takes the annunciation that was seen, and no newer one."""
    server = yard.serve(yard.format("seen.device", PLANT))
    with Client.connect(server.port, FEED) as feed, Client.connect(server.port, 2) as console:
        check(refusal_of(console, "ACK 0 1") == Refusal.NOT_UNACKNOWLEDGED, "of a normal alarm")
        feed.value(0, 800)
        drawn = console.row(0).stamp
        feed.value(0, 0)
        feed.value(0, 800)
        for stamp in (0, drawn, drawn + 2):
            check(refusal_of(console, f"ACK 0 {stamp}") == Refusal.ANNUNCIATED_AGAIN, "of another annunciation")
        check((console.row(0).shown, console.row(0).stamp) == ("UNACK", drawn + 1), console.row(0))
        check(console.acknowledge(0, drawn + 1) == 4 and console.row(0).shown == "ACKED", console.row(0))
    server.end()
    return "ACK of what was seen"


def compiled(yard: Yard) -> str:
    """The client in C, compiled as its page says."""
    program = yard.path("follow")
    words = ["gcc", "-Wall", "-Wextra", "-Werror", "-o", program, str(EXAMPLES / "follow.c")]
    run = subprocess.run(words, capture_output=True, text=True, timeout=60)
    check(run.returncode == 0 and not run.stderr, run.stderr)
    return program


class Follow:
    """The client in C with some words, and what it prints into a file."""

    def __init__(self, yard: Yard, program: str, *words: object):
        self.yard, self.name = yard, f"said{len(words)}{words[0]}"
        with open(yard.path(self.name), "wb") as file:
            command = [program, *map(str, words)]
            self.process = started(subprocess.Popen(command, stdout=file, stderr=subprocess.PIPE, text=True))

    @property
    def lines(self) -> list[str]:
        return self.yard.read(self.name).splitlines()

    def prints(self, wanted: list[str]) -> None:
        """Waits until these are all that it has printed."""
        await_true(f"{wanted[-1]!r} of {self.name}", lambda: len(self.lines) >= len(wanted))
        check(self.lines == wanted, self.name, "printed", self.lines)

    def shows(self, wanted: dict[str, str]) -> None:
        """Waits until these are the last lines of the alarms."""
        await_true(f"{wanted} of {self.name}", lambda: dict(line.split(" ", 1) for line in self.lines) == wanted)

    def is_lost(self) -> None:
        """It ends with the connection."""
        check((self.process.wait(20), self.process.stderr.read()) == (1, "follow: lost\n"), self.name, "ends otherwise")


def act(server: Server, *asked: tuple[int, str]) -> None:
    """Asks for actions, each at its slot."""
    for slot, request in asked:
        with Client.connect(server.port, slot) as client:
            client.act(request)


def in_c(yard: Yard) -> str:
    """The client in C shows each row as it is, and prints each action once; what is no longer remembered is a gap."""
    program, device = compiled(yard), yard.format("c.device", PLANT)
    server = yard.serve(device)
    act(server, (CLOCK, "CLOCK 1000"), (FEED, "VAL 0 800"), (1, "SHELVE 1 60"))
    rows, history = (Follow(yard, program, word, server.port + slot) for word, slot in (("list", 9), ("history", 8)))
    told = ["1 1000 17 CLOCK 1000", "2 1000 16 VAL 0 800", "3 1000 1 SHELVE 1 60"]
    history.prints(told)
    rows.prints(["0 UNACK 1", "1 SHLVD 2"])
    act(server, (FEED, "VAL 0 700"), (FEED, "VAL 0 810"), (CLOCK, "CLOCK 1060"), (4, "OOS 3 ON"), (0, "ACK 0 3"))
    told += [
        "4 1000 16 VAL 0 700",
        "5 1000 16 VAL 0 810",
        "6 1060 17 CLOCK 1060",
        "7 1060 4 OOS 3 ON",
        "8 1060 0 ACK 0",
    ]
    history.prints(told)
    rows.shows({"0": "ACKED 3", "1": "NORM 0", "3": "OOSRV 0"})
    server.end()
    rows.is_lost()
    history.is_lost()
    server = yard.serve(device)
    with Client.connect(server.port, CLOCK) as clock:
        for moment in range(1061, 1361):
            clock.clock(moment)
    later = [f"{number} {1052 + number} 17 CLOCK {1052 + number}" for number in range(9, 309)]
    Follow(yard, program, "history", server.port + 8, 6).prints(["gap 7 8", *later])
    server.end()
    return "a client in C"


def console_of(terminal: Terminal) -> int:
    """The process of a console: the child of the shell of its window."""
    shell = terminal.tmux("list-panes", "-F", "#{pane_pid}").strip()
    with open(f"/proc/{shell}/task/{shell}/children", encoding="ascii") as file:
        return int(file.read().split()[0])


def came_again(server: Server, terminal: Terminal) -> None:
    """An alarm goes and comes again behind the screen, and the operator acknowledges what he sees: that is refused."""
    console = console_of(terminal)
    for _ in range(20):  # the console may look just as it is stopped, or before the key comes
        os.kill(console, signal.SIGSTOP)
        act(server, (FEED, "VAL 0 0"), (FEED, "VAL 0 800"))
        terminal.press("a")
        os.kill(console, signal.SIGCONT)
        await_true("an answer", lambda: " acknowledged" in terminal.text())
        if "TI-101 not acknowledged: it came again, look" in terminal.text():
            break
        act(server, (FEED, "VAL 0 0"), (FEED, "VAL 0 800"))
        terminal.shows(">* 1 TI-101")
    terminal.shows("TI-101 not acknowledged: it came again, look", ">* 1 TI-101")
    terminal.press("a")
    terminal.shows("TI-101 acknowledged as action", ">  1 TI-101         ACKED")


def at_console(yard: Yard) -> str:
    """alm_console acknowledges what it shows, and shows what happened and who asked."""
    device = yard.format("console.device", PLANT)
    server = yard.serve(device)
    act(server, (CLOCK, "CLOCK 1000"), (FEED, "VAL 0 800"), (5, "PRIO 3 2"))
    with Terminal(server.port) as terminal:
        terminal.shows(">* 1 TI-101")
        came_again(server, terminal)
        terminal.press("8")
        first, second = "2 feed    TI-101         value 800", "3 slot 5  LI-202         given priority 2"
        terminal.shows("what happened, all areas", "ASKED", first, second, "slot 0  TI-101         acknowledged")
        terminal.in_order(second, first)
        check("clock" not in terminal.text(), "the clock is shown", terminal.text())
        terminal.press("End", "a")
        terminal.shows("press 1 for the alarms as they are")
        act(server, (4, "OOS 1 ON"))
        terminal.shows("slot 4  PI-102         out of service")
        server.end()
        terminal.shows("no connection")
        server = yard.serve(device, server.port)
        terminal.hides("feed ")
        act(server, (FEED, "VAL 0 0"))
        terminal.shows("feed    TI-101         value 0")
    server.end()
    return "what happened at a console"
