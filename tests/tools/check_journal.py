"""alm_journal against the built program. tests/tools/clients.py runs these checks."""
import contextlib
import os
import re
import shutil
import signal
import sqlite3
import subprocess
import sys
import time
from dataclasses import replace

from alarms.client import CLOCK, FEED, Client
from alarms.device_file import DeviceFile
from lib.places import EXAMPLES
from lib.program import TESTS, check
from lib.server import Server
from lib.summed_device import SummedDevice
from alarms.table_file import device_size, load_table
from lib.tools import Yard, await_said, await_true, start, stop, tool, toml

PLANT = str(EXAMPLES / "plant.toml")
SLOW = os.path.join(TESTS, "..", "bench", "serve", "sync.c")  # syncs that take their time
SYNC = 1.5
# Bytes of a segment that 3,000 lone actions fill beyond its half once.
SEGMENT = 150_000
# How many actions a server remembers, and what a trail says of one that it doesn't.
REMEMBERED, FORGOTTEN = 65_536, "not remembered by the server"
# So many actions, each a frame of its own, are several checkpoints of the worked plant.
LONG = 230


def journal(yard: Yard, count: int) -> str:
    """The actions of a served plant by its lines, as the server numbered them and with who asked, across a checkpoint;
    and how full the device's journal is meanwhile."""
    device = yard.format(
        "journal.device", yard.write("journal.toml", toml(replace(load_table(PLANT), size=device_size(4, 2, SEGMENT))))
    )
    server = yard.serve(device)
    running, file = followed(yard, "--port", server.port)
    await_said(running, "journal: from action 1 on\n")
    wanted = act(server, count)
    await_true("the last action", lambda: yard.read("followed").endswith(wanted[-1] + "\n"))
    running.send_signal(signal.SIGINT)
    _, said = running.communicate(timeout=60)
    file.close()
    lines = yard.read("followed").splitlines()
    check(lines == wanted and said == "" and running.returncode == 0, "followed", lines[:3], "..", lines[-3:], said)
    for first in (None, 1, 7, len(wanted)):
        run = tool("alm_journal", "--port", server.port, *(("--from", first) if first else ()))
        check(
            (run.stdout.splitlines(), run.stderr)
            == (wanted[(first or 1) - 1 :], f"journal: from action {first or 1} on\n"),
            "from",
            first,
            run.stdout[:200],
            run.stderr,
        )
    follow_on(server, len(wanted))
    summary = yard.summary(device)
    server.end()
    shown = yard.run("show", device).splitlines()[0].split()
    check((summary["clock"], summary["count"], summary["epoch"]) == (shown[1], shown[3], shown[5]), summary, shown)
    check(int(shown[5]) > 1 or count < 1000, "no checkpoint was made")
    return f"alm_journal, {len(wanted)} actions"


def follow_on(server: Server, count: int) -> None:
    """Without --from a follower begins with the next action."""
    run = tool("alm_journal", "--port", server.port, "--follow", "--seconds", 0.5)
    said = f"journal: from action {count + 1} on\n"
    check((run.returncode, run.stdout, run.stderr) == (0, "", said), "follow", run)


def followed(yard: Yard, *words: object) -> tuple[subprocess.Popen, object]:
    """A follower that prints to the file `followed`, from the first action on."""
    file = open(yard.path("followed"), "w", encoding="ascii")
    first = () if "--from" in words else ("--from", 1)
    return start("alm_journal", "--follow", *first, *words, stdout=file), file


def act(server: Server, count: int) -> list[str]:
    """Asks for actions of each kind; what the trail has to have."""
    with Client.connect(server.port, CLOCK) as clock, Client.connect(server.port, FEED) as feed, Client.connect(
        server.port, 3
    ) as console:
        wanted = []
        for moment in range(1, count + 1):
            wanted.append(f"{clock.clock(moment)} CLOCK {moment}  (slot 17)")
            time.sleep(0.001)
        wanted += [
            f"{feed.value(2, 1)} VAL XS-201 1  (slot 16)",
            f"{console.acknowledge(2)} ACK XS-201  (slot 3)",
            f"{feed.value(2, 0)} VAL XS-201 0  (slot 16)",
            f"{console.reset(2)} RESET XS-201  (slot 3)",
            f"{console.oos(2, True)} OOS XS-201 ON  (slot 3)",
            f"{console.oos(2, False)} OOS XS-201 OFF  (slot 3)",
            f"{feed.design(3, True)} DESIGN LI-202 ON  (slot 16)",
            f"{feed.design(3, False)} DESIGN LI-202 OFF  (slot 16)",
            f"{console.shelve(1, 60)} SHELVE PI-102 60  (slot 3)",
            f"{console.unshelve(1)} UNSHELVE PI-102  (slot 3)",
            f"{console.priority(3, 1)} PRIO LI-202 1  (slot 3)",
            f"{console.setpoint(3, -7)} SETP LI-202 -7  (slot 3)",
        ]
    return wanted


def halves(yard: Yard) -> str:
    """--from prints what both halves of a device file still have, and names what they no longer have."""
    device = yard.format("halves.device", PLANT)
    yard.run("desk", device, lines="".join(f"17 {moment} CLOCK {moment}\n" for moment in range(1, LONG + 1)))
    wanted = [f"{moment} CLOCK {moment}" for moment in range(1, LONG + 1)]
    gone = LONG - held_actions(device)
    check(0 < gone < LONG - 60, "the halves hold all but", gone, "actions")
    run = tool("alm_journal", device, "--from", 1)
    check(
        run.stdout.splitlines() == [f"(actions 1 to {gone}: no longer in the file)", *wanted[gone:]],
        "from 1 it printed",
        run.stdout[:200],
    )
    for first in (gone + 1, gone + 2, LONG - 3, LONG):
        run = tool("alm_journal", device, "--from", first)
        check(run.stdout.splitlines() == wanted[first - 1 :], "from", first, "it printed", run.stdout[:200])
    run = tool("alm_journal", device, "--from", LONG + 5)
    check(run.stdout == "" and f"the device has {LONG} actions" in run.stderr, run.stdout, run.stderr)
    return "both halves"


def asked(yard: Yard) -> str:
    """A device of version 03 says which slot asked, across a checkpoint too; the trail is that of the lines."""
    device = yard.format("asked.device", PLANT)
    fresh = SummedDevice(device)
    fresh.spell_03()
    fresh.write(device)
    asked_for = [(17, "CLOCK 1000"), (16, "VAL 0 800"), (15, "ACK 0"), (0, "SHELVE 0 60"), (7, "UNSHELVE 0")]
    asked_for += [(17, f"CLOCK {moment}") for moment in range(1001, 1001 + LONG)] + [(3, "OOS 2 ON"), (16, "VAL 0 1")]
    lines = "".join(f"{slot} {number} {words}\n" for number, (slot, words) in enumerate(asked_for, 1))
    replies = yard.run("desk", device, lines=lines).splitlines()
    check(all(" OK " in reply for reply in replies), "not each line was accepted:", replies[:8], replies[-2:])
    tags = ("TI-101", "PI-102", "XS-201", "LI-202")
    wanted = []
    for number, (slot, words) in enumerate(asked_for, 1):
        word, *fields = words.split()
        named = fields if word == "CLOCK" else [tags[int(fields[0])], *fields[1:]]
        wanted.append(" ".join([str(number), word, *named]) + f"  (slot {slot})")
    run = tool("alm_journal", device, "--from", len(asked_for) - 50)
    check(run.stdout.splitlines() == wanted[-51:], "the trail is", run.stdout[-300:], run.stderr)
    run = tool("alm_archive", "run", device, yard.path("asked.sqlite"), "--stopped")
    check(run.returncode == 0, "the archive:", run.stderr)
    with contextlib.closing(sqlite3.connect(yard.path("asked.sqlite"))) as archive:
        rows = archive.execute("SELECT slot FROM action ORDER BY number DESC LIMIT 51").fetchall()
    slots = [slot for slot, _ in reversed(asked_for)]
    check([slot for slot, in rows] == slots[:51], "the archive has the slots", rows)
    return "who asked"


def forgotten(yard: Yard) -> str:
    """What the server doesn't remember is named: what came before its start, while it was away, and while a follower
    was held up for longer than the server remembers. Else a follower that was held up misses nothing."""
    device = yard.format("forgotten.device", PLANT)
    yard.run("desk", device, lines="17 1 CLOCK 1\n17 2 CLOCK 2\n17 3 CLOCK 3\n")
    server = yard.serve(device)
    trail, file = followed(yard, "--port", server.port)
    await_said(trail, "journal: from action 1 on\n")
    wanted = [f"(actions 1 to 3: {FORGOTTEN})", *clocked(server, 4, 4)]
    await_trail(yard, wanted)
    server.end()
    await_said(trail, "- trying again\n")
    yard.run("desk", device, lines="17 1 CLOCK 5\n")
    server = yard.serve(device, server.port)
    wanted += [f"(action 5: {FORGOTTEN})", *clocked(server, 6, 7)]
    await_trail(yard, wanted)
    for last, first in ((1000, 8), (1001 + REMEMBERED, 1002)):
        trail.send_signal(signal.SIGSTOP)
        lines = clocked(server, len(wanted_numbers(wanted)) + 1, last)
        trail.send_signal(signal.SIGCONT)
        wanted += [f"(action 1001: {FORGOTTEN})"] * (first > 1001) + lines[first - 1 - last :]
        await_trail(yard, wanted)
    run = tool("alm_journal", "--port", server.port, "--slot", 12)
    check(run.stdout.splitlines() == [f"(actions 1 to 1001: {FORGOTTEN})", *wanted[-REMEMBERED:]], run.stdout[:200])
    run = tool("alm_journal", "--port", server.port, "--slot", 12, "--from", last + 5)
    check(run.stdout == "" and f"the server has {last} actions" in run.stderr, run.stdout, run.stderr)
    stop(trail)
    file.close()
    server.end()
    return "what a server doesn't remember"


def clocked(server: Server, first: int, last: int) -> list[str]:
    """Sends CLOCKs whose moments are their numbers; what a trail has to have of them."""
    with Client.connect(server.port, CLOCK) as clock:
        replies = list(clock.ask_all(f"CLOCK {number}" for number in range(first, last + 1)))
    numbers = range(first, last + 1)
    check(replies == [["OK", str(number)] for number in numbers], "CLOCK is answered", replies[:3], "..", replies[-3:])
    return [f"{number} CLOCK {number}  (slot 17)" for number in numbers]


def wanted_numbers(lines: list[str]) -> list[int]:
    """The actions that lines of a trail are about, each once and in order."""
    numbers = list[int]()
    for line in lines:
        gap = re.match(r"\(actions? (\d+)(?: to (\d+))?:", line)
        first = int(gap[1] if gap else line.split()[0])
        numbers += range(first, int((gap and gap[2]) or first) + 1)
    check(numbers == list(range(1, len(numbers) + 1)), "the test's own lines go", numbers[:5])
    return numbers


def await_trail(yard: Yard, wanted: list[str]) -> None:
    """Waits until the follower has printed so many lines; they have to be these."""
    await_true("the trail", lambda: yard.read("followed").count("\n") >= len(wanted))
    lines = yard.read("followed").splitlines()
    different = [pair for pair in zip(lines, wanted) if pair[0] != pair[1]]
    check(lines == wanted, "the trail has", len(lines), "lines for", len(wanted), different[:3])


def held_actions(path: str) -> int:
    """How many actions lie in the frames of both halves, by their first numbers and by the count."""
    device = DeviceFile(path)
    head = device.standing()
    other = device.head_of(1 - head.half)
    count = head.count + sum(len(frame.actions) for frame in device.frames(head))
    device.close()
    return count - (other.count if other and other.epoch + 1 == head.epoch else head.count)


def not_before_its_reply(yard: Yard) -> str:
    """An action is printed once it is synced, though it stands in the file before; of a device file that isn't
    promised, as it says."""
    library, device = yard.path("slow.so"), yard.format("slow.device", PLANT)
    if not shutil.which("cc"):
        return "no compiler: an action before its reply left out"
    subprocess.run(["cc", "-O2", "-shared", "-fPIC", "-o", library, SLOW], check=True)
    server = yard.serve(
        device, loaded={"LD_PRELOAD": library, "SYNC_US": str(int(SYNC * 10**6)), "SYNC_COUNT": yard.path("syncs")}
    )
    with Client.connect(server.port, FEED, patience=60) as feed:
        trail, file = followed(yard, "--port", server.port)
        await_said(trail, "journal: from action 1 on\n")
        needed = syncs(yard) + 2
        feed.send("1 VAL 0 800\n")
        watch(yard, device, needed)
        check(feed.receive() == "1 OK 1\n", "VAL wasn't taken")
    file.close()
    server.end()
    run = tool("alm_journal", device, "--from", 1)
    check("it may be ahead of what was answered" in run.stderr, "it doesn't say that it may be ahead:", run.stderr)
    return "no action before its reply"


def watch(yard: Yard, device: str, needed: int) -> None:
    """Looks until the trail has the action. It has to stand in the file before so many syncs, and in the trail not
    before."""
    early = []

    def is_there() -> bool:
        in_trail, in_file, synced = yard.read("followed"), held_actions(device) == 1, syncs(yard) >= needed
        check(synced or not in_trail, "the trail has an action before its reply:", in_trail)
        early.append(in_file and not synced)
        return in_trail == "1 VAL TI-101 800  (slot 16)\n"

    await_true("the action in the trail", is_there)
    check(any(early), "the action wasn't in the file before its last sync")


def syncs(yard: Yard) -> int:
    """How many syncs the server has made."""
    with open(yard.path("syncs"), "rb") as file:
        return int.from_bytes(file.read(8), sys.byteorder)


def replaced(yard: Yard) -> str:
    """Another plant at the server's place is followed, and that is said: one of fewer actions, and one whose actions
    are others; and lines for people."""
    device = yard.format("replaced.device", PLANT)
    server = yard.serve(device)
    trail, file = followed(yard, "--port", server.port, "--table", PLANT)
    with Client.connect(server.port, CLOCK) as clock, Client.connect(server.port, 0) as console:
        clock.clock(1_795_789_000)
        console.shelve(0, 60)
    await_true("two actions", lambda: yard.read("followed").count("\n") == 2)
    server.end()
    other = yard.format("other.device", PLANT)
    yard.run("desk", other, lines="17 1 CLOCK 5\n")
    os.replace(other, device)
    server = yard.serve(device, server.port)
    await_true("the other device", lambda: yard.read("followed").count("\n") == 4)
    with Client.connect(server.port, FEED) as feed:
        feed.design(1, True)
    await_true("its action", lambda: yard.read("followed").count("\n") == 5)
    trail.send_signal(signal.SIGSTOP)
    server.end()
    yard.format("replaced.device", PLANT)
    server = yard.serve(device, server.port)
    with Client.connect(server.port, 0) as console:
        for value in (9, 8, 7):
            console.setpoint(3, value)
    trail.send_signal(signal.SIGCONT)
    await_true("the device that was formatted again", lambda: yard.read("followed").count("\n") == 9)
    stop(trail)
    file.close()
    server.end()
    moment = time.strftime("%Y-%m-%d %H:%M:%S", time.localtime(1_795_789_000))
    lines = [re.sub(" +", " ", line) for line in yard.read("followed").splitlines()]
    other_said = "(the server has another plant than before)"
    wanted = [f"{moment} 1 - clock (slot 17)", f"{moment} 2 TI-101 shelved for 60 s (slot 0)"]
    wanted += [other_said, f"(action 1: {FORGOTTEN})", "5 2 PI-102 suppressed by design (slot 16)", other_said]
    wanted += [f"0 {at} LI-202 given setpoint {value} (slot 0)" for at, value in enumerate((9, 8, 7), 1)]
    check(lines == wanted, lines)
    return "a replaced device"


def ends(yard: Yard) -> str:
    """How alm_journal ends where it can't do what it is asked, and that a follower waits for a server."""
    device = yard.format("ends.device", PLANT)
    server = yard.serve(device)
    port = server.port
    for words, said in (
        ((device, "--port", port), "leave out DEVICE"),
        ((device, "--sockets", yard.folder, "--from", 1), "leave out DEVICE"),
        ((device, "--follow"), "isn't followed: alm_journal --port P --follow"),
        ((), "one of DEVICE, --port and --sockets is required"),
        (("--follow",), "one of DEVICE, --port and --sockets is required"),
        (("--port", port, "--from", 0), "is no whole number from 1 on"),
        (("--port", port, "--slot", 16), "invalid choice"),
    ):
        check_end(2, said, *words)
    server.end()
    check_end(1, "Connection refused", "--port", port)
    check_end(1, "No such file", "--port", port, "--table", yard.path("none"))
    check_end(0, "Connection refused - trying again", "--port", port, "--follow", "--seconds", 1)
    trail, file = followed(yard, "--port", port, "--from", 2**60)
    await_said(trail, "- trying again\n")
    server = yard.serve(device, port)
    await_said(trail, f"journal: the server has 0 actions, so action {2**60} isn't there\njournal: from action 1 on\n")
    stop(trail)
    file.close()
    server.end()
    return "how alm_journal ends"


def check_end(status: int, said: str, *words: object) -> None:
    """alm_journal ends with this status, and one line that says this."""
    run = tool("alm_journal", *words)
    is_line = run.stderr.count("\n") == 1 and said in run.stderr and "Traceback" not in run.stderr
    check(run.returncode == status and is_line and run.stdout == "", words, run)
