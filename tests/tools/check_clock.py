"""alm_clock and `alm_change_table --now` against the built program. tests/tools/clients.py runs these checks."""
import contextlib
import io
import os
import random
import re
import signal
import subprocess
import time

from alarms.client import CLOCK, Client, Lost, Overview, Refusal, Refused
from check_tables import draw_lines
from alarms.clock import PlantClock
from lib.places import EXAMPLES
from lib.program import check
from lib.server import Server
from alarms.table_file import Alarm, Table, device_size
from lib.tools import Yard, await_said, await_true, start, stop, tool, toml

PLANT = str(EXAMPLES / "plant.toml")
# As the page has them: how far a plant is moved, what is far ahead, and the last moment.
JUMP, DAY, LAST = 60, 86_400, 2**40 - 1
# Seconds of the processor that a waiting clock may take, and how long it is watched.
IDLE, WATCHED = 0.5, 3.0


class Drawn:
    """A plant's clock without a plant: how far each moment moved it. One request loses its connection."""

    def __init__(self, now: int, lost: int):
        self.now, self.asked, self.lost, self.moves = now, 0, lost, []

    def ask(self) -> None:
        self.asked += 1
        if self.asked == self.lost:
            raise Lost("the connection ended")

    def clock(self, moment: int) -> int:
        self.ask()
        if moment <= self.now:
            raise Refused(f"CLOCK {moment}", Refusal.CLOCK_BACK)
        self.moves.append(moment - self.now)
        self.now = moment
        return 1

    def plant(self) -> Overview:
        self.ask()
        return Overview(len(self.moves), self.now, 4, 2)


def set_clock(server: Server, moment: int) -> None:
    with Client.connect(server.port, CLOCK) as client:
        client.clock(moment)


def served(yard: Yard, moment: int | None = None) -> tuple[str, Server]:
    """A new plant at a moment, served."""
    device = yard.format("clock.device", PLANT)
    server = yard.serve(device)
    if moment is not None:
        set_clock(server, moment)
    return device, server


def clock(yard: Yard) -> str:
    """A new plant, one that is behind, and drawn ones."""
    moves_no_farther()
    on_time(yard)
    new_plant(yard)
    behind(yard)
    restarted(yard)
    return "alm_clock"


def early_plants(yard: Yard) -> str:
    """Plants whose clock is ahead of the machine's, near, far and at its end."""
    ahead(yard, 500)
    ahead(yard, DAY - 300)
    ahead(yard, 2 * DAY)
    at_its_end(yard)
    set_back(yard)
    return "plants that are ahead"


def moves_no_farther() -> None:
    """Wherever a plant's clock stands, it is moved to the machine's time or not at all, and by --jump at most."""
    dice = random.Random(7)
    now = 1_800_000_000
    for _ in range(400):
        gap = dice.choice(
            [dice.randrange(1, 100), dice.randrange(10**4), dice.randrange(10**6), dice.randrange(now)]
        )
        plant, jump = Drawn(now - gap, dice.randrange(12)), dice.choice([JUMP, 1000])
        client = PlantClock(jump)
        with contextlib.redirect_stderr(io.StringIO()):
            for second in range(5):
                with contextlib.suppress(Lost):
                    client.tick(plant, now + second)
        check(all(move <= jump for move in plant.moves), "from", gap, "s behind a plant was moved by", plant.moves)
        check(
            jump - 5 < gap <= jump or (plant.now >= now) == (gap <= jump),
            "a plant",
            gap,
            "s behind was brought to",
            now - plant.now,
            "s behind",
        )
        check(plant.asked <= 10, "five seconds took", plant.asked, "lines")


def new_plant(yard: Yard) -> None:
    """A new plant takes the machine's time at once."""
    device, server = served(yard)
    run = tool("alm_clock", "--port", server.port, "--seconds", 2)
    check(
        run.returncode == 0 and re.match(r"[123] moments, reply ", run.stdout) and not run.stderr,
        run.stdout,
        run.stderr,
    )
    check(0 <= time.time() - yard.now(device) < 60, "the plant's clock is at", yard.now(device))
    server.end()


def on_time(yard: Yard) -> None:
    """A plant's clock is the machine's: it is seen within two seconds of it, and never ahead."""
    _, server = served(yard)
    running = start("alm_clock", "--port", server.port)
    for console in (1, 2):
        with Client.connect(server.port, console) as client:
            late: list[float] = []

            def is_close() -> bool:
                moment = client.plant().moment
                late.append(time.time() - moment)
                return moment > 0 and late[-1] < 2

            await_true("a plant's clock within two seconds of the machine's", is_close)
            check(min(late) >= 0, "the plant's clock is ahead by", -min(late))
    stop(running)
    server.end()


def behind(yard: Yard) -> None:
    """A plant that is too far behind stays there, until one run says that it may move."""
    began = int(time.time()) - 5000
    device, server = served(yard, began)
    run = tool("alm_clock", "--port", server.port, "--seconds", 3)
    check(
        run.returncode == 1
        and len(run.stderr.splitlines()) == 2
        and "s ahead of the plant's, and --jump is 60" in run.stderr,
        run.stderr,
    )
    check(yard.now(device) == began, "the plant's clock was moved by", yard.now(device) - began)
    run = tool("alm_clock", "--port", server.port, "--seconds", 2, "--jump", 40_000)
    check(run.returncode == 0 and abs(time.time() - yard.now(device)) < 60, run.stderr, yard.now(device))
    server.end()


def ahead(yard: Yard, seconds: int) -> None:
    """Where the plant's clock is ahead, it goes on from there at half speed."""
    far = int(time.time()) + seconds
    device, server = served(yard, far)
    running, begun = start("alm_clock", "--port", server.port), time.monotonic()
    await_true("the clock above the plant's", lambda: yard.now(device) > far)
    # A clock is read before the plant's first moment and after its last, since reading one may take long on a busy
    # machine.
    began, found = time.monotonic(), yard.now(device)
    check(
        found - far <= (time.monotonic() - begun) / 2 + 2,
        "the plant's clock was moved by",
        found - far,
        "s in",
        time.monotonic() - begun,
    )
    await_true("two moments more", lambda: yard.now(device) > found + 1)
    reached = yard.now(device) - found
    gone = time.monotonic() - began
    _, said = stop(running)
    server.end()
    check(
        said.count("\n") == 1
        and "s ahead; it goes at half speed" in said
        and ("alm_change_table --now" in said) == (seconds > DAY),
        said,
    )
    check(reached <= gone / 2 + 2, "the plant's clock went", reached, "s in", gone)


def processor(process: subprocess.Popen) -> float:
    """Seconds of the processor that a process took."""
    with open(f"/proc/{process.pid}/stat", encoding="ascii") as file:
        words = file.read().rpartition(")")[2].split()
    return (int(words[11]) + int(words[12])) / os.sysconf("SC_CLK_TCK")


def at_its_end(yard: Yard) -> None:
    """At its last moment a plant's clock stands still; that is said once, and takes next to nothing."""
    device, server = served(yard, LAST)
    running = start("alm_clock", "--port", server.port)
    said = await_said(running, "last moment")
    check("alm_change_table --now" in said and said.count("\n") == 1, said)
    before = processor(running)
    time.sleep(WATCHED)
    took = processor(running) - before
    _, said = stop(running)
    server.end()
    check(
        said == "" and took < IDLE and yard.now(device) == LAST,
        "a clock that waits said",
        said,
        "and took",
        took,
        "s of the processor",
    )


def restarted(yard: Yard) -> None:
    """A server that halts and one that restarts are survived. With another device, as after a restore, the plant is
    moved as at a start."""
    device, server = served(yard)
    running = start("alm_clock", "--port", server.port)
    await_true("the machine's time", lambda: yard.now(device) > time.time() - 60)
    server.process.send_signal(signal.SIGSTOP)
    said = await_said(running, "gives no answer")
    server.process.send_signal(signal.SIGCONT)
    before = yard.now(device)
    await_true("the clock after a halt", lambda: yard.now(device) > before)
    server.end()
    server = yard.serve(device, server.port)
    before = yard.now(device)
    await_true("the clock after a restart", lambda: yard.now(device) > before + 1)
    server.end()
    copy, moment = yard.format("copy.device", PLANT), int(time.time()) - 5000
    yard.run("desk", copy, lines=f"17 1 CLOCK {moment}\n")
    server = yard.serve(copy, server.port)
    said += await_said(running, "--jump is 60")
    _, rest = stop(running)
    server.end()
    check("trying again" in said and "another device than before" in said and not rest, said, rest)
    check(yard.now(copy) == moment, "the plant's clock was moved by", yard.now(copy) - moment)


def set_back(yard: Yard) -> None:
    """A plant at its last moment gets the machine's time and keeps its states, as the page says."""
    dice = random.Random(5)
    alarms = [
        Alarm(
            dice.choice(["high", "low"]),
            dice.randrange(-50, 50),
            dice.randint(1, 4),
            dice.randrange(3),
            f"T-{number}",
            max_shelve=5000,
            latching=dice.random() < 0.5,
        )
        for number in range(12)
    ]
    old = yard.format("last.device", yard.write("last.toml", toml(Table(device_size(12, 3), 3, alarms))))
    yard.run(
        "desk",
        old,
        lines="".join(draw_lines(dice, alarms)) + f"17 1 CLOCK {LAST}\n0 2 SHELVE 3 4000\n0 3 SHELVE 4 5000\n",
    )
    exported = yard.write("exported.toml", yard.run("export", old))
    new, moment = yard.format("new.device", exported), int(time.time())
    run = tool("alm_change_table", old, exported, "--program", yard.program, "--now", moment)
    check(run.returncode == 0 and " NO " not in yard.run("desk", new, lines=run.stdout), run.stderr)
    (was, states, lists), (now, brought, same) = yard.shown(old), yard.shown(new)
    check((int(was), int(now)) == (LAST, moment) and lists == same, was, now, lists, same)
    for tag, (*words, deadline) in states.items():
        wanted = deadline if deadline == "-" else str(int(deadline) - LAST + moment)
        check(brought[tag] == [*words, wanted], tag, words, deadline, "was brought as", brought[tag])
    check(sum(words[-1] != "-" for words in brought.values()) >= 2, "nothing is shelved", brought)
    server = yard.serve(new)
    run = tool("alm_clock", "--port", server.port, "--seconds", 3)
    server.end()
    check(run.returncode == 0 and yard.now(new) > moment, run.stdout, run.stderr)
    refused = tool("alm_change_table", old, exported, "--program", yard.program, "--now", LAST + 1)
    check(refused.returncode == 2 and "isn't a moment from 0 to 1099511627775" in refused.stderr, refused.stderr)
