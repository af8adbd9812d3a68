"""alm_feed and client.py against the built program. tests/tools/clients.py runs these checks."""
import os
import re
import shutil
import socket
import subprocess
import sys
import threading

from dataclasses import replace

from alarms.client import CLOCK, FEED, Client, Overview
from lib.places import AT_TOOLS, EXAMPLES
from lib.program import check, free_ports
from alarms.table_file import Alarm, Table, device_size, load_table
from lib.tools import Yard, await_true, start, tool, toml

PLANT, REFINERY = str(EXAMPLES / "plant.toml"), str(EXAMPLES / "refinery.toml")
LINES = """# a remark
TI-101,3800
TI-101, 3801
NO-999,1
TI-102,hot
TI-102
TI-103,4000
TI-104,design,up
PI-104,design,on
PI-104,Design,ON
PI-104,185
"""
SNIPPET = re.compile(r"```python\n(.*?)```", re.DOTALL)


def demonstration(yard: Yard) -> str:
    """client.py prints what its page says, over a server and over a desk, whose status it prints too."""
    server = yard.serve(yard.format("client.device", PLANT))
    run = tool("client.py", "--port", server.port)
    server.end()
    page = (EXAMPLES / "README.md").read_text(encoding="utf-8")
    check(run.returncode == 0 and run.stdout in page, "client.py printed", run.stdout, run.stderr)
    desk = tool("client.py", "--program", yard.program)
    check(desk.returncode == 0 and desk.stdout == run.stdout + "status 0\n", desk.stdout, desk.stderr)
    failing = yard.write("failing", f'#!/bin/sh\n{yard.program} "$@"\nexit 3\n')
    os.chmod(failing, 0o700)
    desk = tool("client.py", "--program", failing)
    check(
        desk.stdout == run.stdout + "status 3\n", "of a desk with status 3 client.py printed", desk.stdout, desk.stderr
    )
    return "client.py"


def snippets(yard: Yard) -> str:
    """The clients that the page of examples/ shows run as they stand, one after the other at a new plant."""
    server = yard.serve(yard.format("snippets.device", PLANT))
    printed = []
    for code in SNIPPET.findall((EXAMPLES / "README.md").read_text(encoding="utf-8")):
        code = code.replace("(5000,", f"({server.port},")
        run = subprocess.run(
            [sys.executable, "-c", code], cwd=EXAMPLES, capture_output=True, text=True, timeout=60, env=AT_TOOLS
        )
        check(run.returncode == 0 and not run.stderr, code, run.stderr)
        printed.append(run.stdout)
    server.end()
    check(printed == ["0 UNACK\n1 0 16 VAL\n2 0 3 ACK\n", "ACKED\n"], "the clients of the page print", printed)
    return "the page's clients"


def methods(yard: Yard) -> str:
    """Each method of alarms.client asks what its name says: the plant shows it."""
    device = yard.format("methods.device", PLANT)
    server = yard.serve(device)
    with Client.connect(server.port, CLOCK) as clock, Client.connect(server.port, FEED) as feed, Client.connect(
        server.port, 7
    ) as console:
        clock.clock(1000)
        feed.value(1, 100)
        feed.value(3, 50)
        feed.value(0, 800)
        feed.value(2, 1)
        check(
            console.area_list(0).alarms == [1, 0] and console.area_list(1).alarms == [3, 2],
            "the lists of the areas are others",
        )
        check(
            console.priority_list(2).alarms == [1] and console.priority_list(1).alarms == [0, 2],
            "the lists of the priorities are others",
        )
        feed.value(2, 0)
        console.acknowledge(2)
        check((console.state(2).shown, console.reset(2), console.state(2).shown) == ("LATAK", 7 + 1, "NORM"), "RESET")
        console.oos(0, True)
        feed.design(0, True)
        console.shelve(0, 300)
        check(
            (console.state(0).flags, console.state(0).shown, console.state(0).deadline) == ("ODS", "OOSRV", 1300),
            console.state(0),
        )
        check(
            console.wheel_list(1300 % 256).alarms == [0] == console.shelved() and console.wheel_list(0).alarms == [],
            "LIST S",
        )
        console.oos(0, False)
        console.unshelve(0)
        feed.design(0, False)
        check(console.state(0).flags == "", console.state(0))
        console.priority(3, 4)
        console.setpoint(3, -7)
        check(console.priority_list(4).alarms == [3] and console.action_count() == 16, console.action_count())
        check(console.plant() == Overview(16, 1000, 4, 2), console.plant())
        wanted = load_table(PLANT).alarms
        wanted[3] = replace(wanted[3], priority=4, setpoint=-7)
        check(console.attributes(3) == wanted[3] and console.table() == Table(None, 2, wanted), console.table())
        check(console.flood(0).window == 3 and [flood.window for flood in console.floods()] == [3, 2], console.floods())
    server.end()
    exported = yard.run("export", device)
    check("priority = 4\nsetpoint = -7\n" in exported, exported)
    return "client.py of the tools"


def feed(yard: Yard) -> str:
    """Values go by their tags; what is wrong is said; the last of each tag is sent again to a server that comes
    back.
    """
    device = yard.format("feed.device", REFINERY)
    fresh = shutil.copyfile(device, yard.path("fresh.device"))
    server = yard.serve(device)
    run = tool("alm_feed", "--port", server.port, text=LINES)
    check(
        run.returncode == 1 and run.stdout == "3 changed a condition, 3 didn't, 0 refused, 4 bad lines\n",
        run.stdout,
        run.stderr,
    )
    for said in (
        "NO-999,1: the table has no such tag",
        "TI-102,hot: the value is no whole number",
        "TI-104,design,up: the table has no such tag",
    ):
        check(said in run.stderr, said, "isn't in", run.stderr)
    with Client.connect(server.port, 0) as console:
        check(
            (console.state(0).shown, console.state(3).shown) == ("UNACK", "DSUPR"), console.state(0), console.state(3)
        )
    values = yard.write("values", "".join(f"{alarm.tag},{alarm.setpoint}\n" for alarm in load_table(REFINERY).alarms))
    run = tool("alm_feed", "--port", server.port, "--table", REFINERY, values)
    check(
        run.returncode == 0 and run.stdout == "198 changed a condition, 2 didn't, 0 refused, 0 bad lines\n",
        run.stdout,
        run.stderr,
    )
    server.end()
    sends_again(yard, shutil.copyfile(fresh, device))
    one_tag_twice(yard)
    earlier_release()
    return "alm_feed"


class Relay(threading.Thread):
    """Passes the connections at an address to a server at loopback, as a tunnel to another machine does."""

    def __init__(self, address: str, port: int, slot: int, server_port: int):
        super().__init__(daemon=True)
        self.listener = socket.create_server((address, port + slot))
        self.to = ("127.0.0.1", server_port + slot)
        self.streams: list[socket.socket] = []
        self.start()

    def run(self) -> None:
        while True:
            try:
                one, _ = self.listener.accept()
            except OSError:
                return
            try:
                other = socket.create_connection(self.to)
            except OSError:
                one.close()
                continue
            self.streams += [one, other]
            for pair in ((one, other), (other, one)):
                threading.Thread(target=pump, args=pair, daemon=True).start()

    def end(self) -> None:
        self.listener.close()
        for stream in self.streams:
            try:
                stream.shutdown(socket.SHUT_RDWR)
            except OSError:
                pass


def pump(here: socket.socket, there: socket.socket) -> None:
    """Passes what comes at one end to the other, to its end."""
    try:
        while piece := here.recv(65_536):
            there.sendall(piece)
        there.shutdown(socket.SHUT_WR)
    except OSError:
        pass


def two_machines(yard: Yard) -> str:
    """A feed goes on at the second address once the first has gone, and sends its values again; it notices a count that
    fell.
    """
    first, port = yard.serve(yard.format("first.device", REFINERY)), free_ports()
    second = yard.serve(yard.format("second.device", REFINERY))
    relays = [
        Relay(address, port, FEED, server.port) for address, server in (("127.0.0.2", first), ("127.0.0.3", second))
    ]
    feed = start("alm_feed", "--host", "127.0.0.9,127.0.0.2,127.0.0.3", "--port", port)
    feed.stdin.write("TI-101,3800\nTI-102,4100\n")
    feed.stdin.flush()
    await_true("the first machine's values", lambda: yard.annunciated(first.port) == {0, 1})
    relays[0].end()
    first.end()
    await_true("the second machine's values", lambda: yard.annunciated(second.port) == {0, 1})
    printed, said = feed.communicate(timeout=60)
    relays[1].end()
    second.end()
    check(
        feed.returncode == 0
        and "2 values are sent again" in said
        and "its count of actions is 0, and it was 2" in said,
        printed,
        said,
    )
    run = tool("alm_feed", "--host", "127.0.0.2", "--sockets", yard.folder)
    check(run.returncode == 2 and "--host goes with --port" in run.stderr, run.stderr)
    return "two machines"


def takeover(yard: Yard) -> str:
    """A feed goes on with the same device at the second address, while what listens at the first has no server any
    more: it is the same plant.
    """
    first, port = yard.serve(yard.format("taken.device", REFINERY)), free_ports()
    second = free_ports()
    relays = [
        Relay(address, port, FEED, server) for address, server in (("127.0.0.2", first.port), ("127.0.0.3", second))
    ]
    feed = start("alm_feed", "--host", "127.0.0.2,127.0.0.3", "--port", port)
    feed.stdin.write("TI-101,3800\nTI-102,4100\n")
    feed.stdin.flush()
    await_true("the first machine's values", lambda: yard.annunciated(first.port) == {0, 1})
    first.end()
    server = yard.serve(yard.path("taken.device"), second)
    with Client.connect(second, 3) as console:
        console.acknowledge(0)
    feed.stdin.write("TI-103,3300\n")
    feed.stdin.flush()
    await_true("the second machine's values", lambda: len(yard.annunciated(second)) == 3)
    _, said = feed.communicate(timeout=60)
    for relay in relays:
        relay.end()
    server.end()
    check(feed.returncode == 0 and re.search("[23] values are sent again", said) and "another device" not in said, said)
    return "a takeover"


def one_tag_twice(yard: Yard) -> None:
    """A plant in which a tag stands twice can't be fed by tags."""
    alarms = [Alarm("high", 1, 1, 0, tag) for tag in ("T-1", "T-2", "T-1")]
    server = yard.serve(
        yard.format("twice.device", yard.write("twice.toml", toml(Table(device_size(3, 1), 1, alarms))))
    )
    run = tool("alm_feed", "--port", server.port, text="T-2,1\n")
    server.end()
    check(
        run.returncode == 1 and run.stderr == "feed: the plant's tag T-1 stands twice: alarms 0 and 2\n",
        run.stdout,
        run.stderr,
    )


def refuse_lines(listener: socket.socket) -> None:
    """Answers each line as one that is none."""
    one, _ = listener.accept()
    with one, one.makefile("rb") as lines:
        for line in lines:
            one.sendall(line.split()[0] + b" NO 13\n")


def earlier_release() -> None:
    """A server that knows no PLANT ends a tool, with one line."""
    port = free_ports()
    with socket.create_server(("127.0.0.1", port + FEED)) as listener:
        threading.Thread(target=refuse_lines, args=(listener,), daemon=True).start()
        run = tool("alm_feed", "--port", port, text="T-2,1\n")
    wanted = "feed: the server knows no PLANT: it is of an earlier release than this tool\n"
    check(run.returncode == 1 and run.stderr == wanted, run.stdout, run.stderr)


def sends_again(yard: Yard, device: str) -> None:
    """The values that a dead server may have lost are sent again: the last of each tag, and suppressions before
    them.
    """
    lost = shutil.copyfile(device, yard.path("lost.device"))
    server = yard.serve(device)
    running = start("alm_feed", "--port", server.port)
    running.stdin.write("TI-101,3800\nTI-102,4100\n")
    running.stdin.flush()
    await_true("the first values", lambda: yard.annunciated(server.port) == {0, 1})
    # PI-105 had a value before it was suppressed: in the order of first values it would come before its suppression
    running.stdin.write(
        "TI-101,3700\nPI-104,185\nPI-105,100\nPI-105,design,on\nPI-105,210\n"
        "LI-107,design,on\nLI-107,850\nLI-107,design,off\n"
    )
    running.stdin.flush()
    await_true("the last values", lambda: yard.annunciated(server.port) == {0, 1, 3, 6})
    server.end()
    count = int(yard.summary(device)["count"])
    yard.run("desk", lost, lines="".join(f"17 1 CLOCK {moment}\n" for moment in range(1, count + 1)))
    shutil.copyfile(lost, device)
    server = yard.serve(device, server.port)
    await_true("the values that are sent again", lambda: yard.annunciated(server.port) == {1, 3, 6})
    with Client.connect(server.port, 0) as console:
        check(
            console.state(4).shown == "DSUPR" and console.state(4).condition and not console.state(0).condition,
            console.states(range(8)),
        )
        check(console.action_count() == count + 5, "what is sent again are", console.action_count() - count, "actions")
        check(console.flood(0).window == 3, "what is to be suppressed was annunciated before:", console.flood(0))
    printed, said = running.communicate(timeout=60)
    server.end()
    check(running.returncode == 0 and "7 values are sent again" in said, printed, said)
