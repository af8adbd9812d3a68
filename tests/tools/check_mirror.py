"""The mirror against `show` of the built program. tests/tools/history.py runs these checks."""
import collections
import random
import re
import shutil
import subprocess
import threading

from lib.drawn_plants import CONSOLE, WORDS, Hand, draw_plant, module, new_device
from alarms.client import CLOCK, Client
from alarms.line_follower import shown_by_lines
from alarms.plant_mirror import Gap, Mirror, Step
from alarms.model import SHELVED, AlarmState
from lib.places import AT_TOOLS, EXAMPLES
from lib.program import check
from lib.tools import Yard
from slow_count import SLOTS

SLOT = 13
EARLIER = str(EXAMPLES / "earlier_release" / "plant.device")
# Requests between two looks, and looks between two comparisons with `show`.
ROUND, ROUNDS = 40, 12


class Watched:
    """A mirror that goes on as its device does, and what it gave: each action once, in order, as the server numbered
    it."""

    def __init__(self, device: str):
        self.mirror = Mirror(device, far=True)
        self.steps: list[Step] = []
        self.gaps: list[Gap] = []
        self.next = self.mirror.count + 1

    def look(self) -> None:
        for one in self.mirror.news():
            first = one.first if isinstance(one, Gap) else one.number
            check(first == self.next, one, "comes where", self.next, "was due")
            self.next = one.last + 1 if isinstance(one, Gap) else one.number + 1
            (self.gaps if isinstance(one, Gap) else self.steps).append(one)

    def end(self) -> None:
        self.mirror.close()


def words_of(step: Step) -> str:
    """The request that an action was."""
    action = step.action
    switch = {1: "ON", 0: "OFF"}[action.argument] if action.word in ("OOS", "DESIGN") else str(action.argument)
    if action.word == "CLOCK":
        return f"CLOCK {action.argument}"
    return f"{action.word} {action.alarm}" + ("" if action.word in ("ACK", "RESET", "UNSHELVE") else f" {switch}")


def drawn(yard: Yard, actions: int) -> str:
    """A mirror that follows a served plant, one that begins now and one that begins far back are what `show` prints, at
    each stop of a server."""
    dice, words, compared, asked, checkpoints, plants = random.Random(7), collections.Counter(), 0, 0, 0, 0
    while sum(words.values()) < actions:
        table = draw_plant(dice, dice.randint(3, 40), dice.randint(1, 6))
        device = new_device(yard, f"drawn{plants}", table)
        plants += 1
        hand, told = Hand(dice, table), None
        server = yard.serve(device)
        watched = Watched(device)
        for _ in range(4):
            hand.connect(server)
            for _ in range(ROUNDS):
                hand.ask(ROUND)
                watched.look()
                asked += compare_answers(hand.clients[CONSOLE], watched.mirror)
            check(watched.mirror.count == hand.count(), "the mirror isn't where the server is")
            hand.leave()
            server.end()
            told = compare(yard, device, watched.mirror)
            compared += 1
            server = yard.serve(device, server.port)
        server.end()
        watched.end()
        check(
            [words_of(step) for step in watched.steps] == [hand.accepted[step.number] for step in watched.steps]
            and not watched.gaps,
            "the actions are others than those that were accepted",
        )
        check(len(watched.steps) == len(hand.accepted), "actions are missing")
        words.update(request.split()[0] for request in hand.accepted.values())
        checkpoints += int(told.split()[5]) - 1
    check(set(words) == set(WORDS) and checkpoints * 500 >= actions, words, checkpoints, "checkpoints")
    return (
        f"mirror: {sum(words.values())} actions of {len(words)} words in {plants} plants, {checkpoints} checkpoints,"
        f" {compared} times what `show` prints, {asked} answers"
    )


def row_rest(alarm: AlarmState) -> list[int]:
    """What ROW tells of an alarm beside what STATE does."""
    stamp = alarm.stamp if alarm.core != "NORM" or alarm.flags & SHELVED else 0
    limits = alarm.attributes.priority, alarm.attributes.setpoint
    return [stamp, *limits, len(alarm.moments), *alarm.moments]


def compare_answers(client: Client, mirror: Mirror) -> int:
    """Holds a mirror against what an idle server answers: states, rows, floods, and lists in their order, those of the
    shelved too. How many answers."""
    plant, asked = mirror.plant, {}
    for line in mirror.show().splitlines()[1:]:
        kind, *words = line.split(" ")
        if kind == "ALARM":
            asked[f"STATE {words[0]}"] = ["STATE", *words[2:]]
            asked[f"ROW {words[0]}"] = ["ROW", *words[2:], *map(str, row_rest(plant.alarms[int(words[0])]))]
        elif kind == "P":
            asked[f"LIST P {words[0]}"] = ["LIST", *words[1:]]
        else:
            *listed, _flood, window, flooded = words
            asked[f"LIST A {listed[0]}"], asked[f"FLOOD {listed[0]}"] = ["LIST", *listed[1:]], [
                "FLOOD",
                window,
                flooded,
            ]
    shelved = sorted((alarm for alarm in plant.alarms if alarm.flags & SHELVED), key=lambda alarm: alarm.stamp)
    for slot in {alarm.deadline % 256 for alarm in shelved}:
        numbers = [str(alarm.number) for alarm in shelved if alarm.deadline % 256 == slot]
        asked[f"LIST S {slot}"] = ["LIST", str(len(numbers)), *numbers]
    for (request, wanted), reply in zip(asked.items(), client.ask_all(list(asked))):
        check(
            reply[:1] + reply[2:] == wanted and int(reply[1]) == mirror.count,
            request,
            "is answered",
            reply,
            "and the mirror has",
            wanted,
            mirror.count,
        )
    return len(asked)


def compare(yard: Yard, device: str, followed: Mirror) -> str:
    """Holds mirrors against the program over a stopped device; what it shows."""
    shown = yard.run("show", device)
    for what, far in (("begun now", False), ("begun far back", True)):
        mirror = Mirror(device, far)
        for _ in mirror.news():
            pass
        check(mirror.show() == shown, "a mirror", what, "shows", mirror.show(), "and the program", shown)
        mirror.close()
    check(followed.show() == shown, "a mirror that followed shows", followed.show(), "and the program", shown)
    return shown


def run_mirror(*words: object) -> subprocess.CompletedProcess:
    """alm_mirror, to its end."""
    return subprocess.run(module("mirror", *words), env=AT_TOOLS, capture_output=True, text=True, timeout=60)


def without_epoch(shown: str) -> str:
    """What the program shows of a device, as far as a line tells it."""
    return re.sub(r" EPOCH \d+\n", " EPOCH -\n", shown, count=1)


def tool_shows(yard: Yard, _count: int) -> str:
    """alm_mirror prints what the program does, of a served plant by its lines and of a device file; and ends by one
    line if it can't."""
    table = draw_plant(random.Random(8), 12, 3)
    device = new_device(yard, "tool", table)
    server = yard.serve(device)
    hand = Hand(random.Random(9), table)
    hand.connect(server)
    hand.ask(300)
    hand.leave()
    served = run_mirror("--port", server.port)
    server.end()
    wanted = without_epoch(yard.run("show", device))
    check((served.returncode, served.stderr, served.stdout) == (0, "", wanted), "of a served plant it shows", served)
    for old in (shutil.copyfile(EARLIER, yard.path("earlier")), shutil.copyfile(EARLIER, yard.path("went_on"))):
        if old.endswith("went_on"):
            yard.run("desk", old, lines="0 1 PRIO 0 2\n")
        run = run_mirror(old)
        check(run.stdout == yard.run("show", old), "of a device that an earlier release wrote it shows", run)
    for words, status, said in (
        (("--port", server.port), 1, "Connection refused"),
        ((device, "--slot", 99), 2, "invalid choice"),
        ((device, "--port", server.port), 2, "is shown without its DEVICE"),
        ((), 2, "is required"),
        ((device,), 0, "may be ahead"),
        ((yard.path("none"),), 1, "No such file"),
        ((yard.write("text", "no device" * 9),), 1, "isn't formatted"),
        ((yard.folder,), 1, "directory"),
    ):
        run = run_mirror(*words)
        is_line = run.stderr.count("\n") == 1 and said in run.stderr and "Traceback" not in run.stderr
        check(run.returncode == status and is_line and bool(run.stdout) == (status == 0), words, run)
    return "alm_mirror"


def moving(yard: Yard, count: int) -> str:
    """What alm_mirror prints of a plant that moves is what the program shows of a device with the actions up to that
    count, and no others."""
    dice = random.Random(16)
    table = draw_plant(dice, 12, 3, 400_000)
    server, hand = yard.serve(new_device(yard, "moving", table)), Hand(dice, table)
    hand.connect(server)
    asking = threading.Thread(target=lambda: [hand.ask(5) for _ in range(max(120, count // 20))])
    asking.start()
    printed = list[str]()
    while asking.is_alive():
        printed.append(shown_by_lines(server.port, SLOT))
    hand.leave()
    server.end()
    counts = {int(text.split()[3]): text for text in printed}
    for number in dice.sample(sorted(counts), min(100, len(counts))):
        fresh = new_device(yard, f"fresh{number}", table)
        requests = [hand.accepted[one] for one in range(1, number + 1)]
        lines = [f"{SLOTS.get(request.split()[0], 0)} {at} {request}\n" for at, request in enumerate(requests, 1)]
        yard.run("desk", fresh, lines="".join(lines))
        wanted = without_epoch(yard.run("show", fresh))
        check(counts[number] == wanted, "at", number, "it shows", counts[number], "and the program", wanted)
    check(len(counts) > 3, "the plant didn't move", len(counts))
    return f"a plant at {len(counts)} of {len(hand.accepted)} counts"


def held_up(yard: Yard, count: int) -> str:
    """A mirror that sleeps over checkpoints tells a gap, goes on behind it, and is what `show` prints."""
    dice, gaps = random.Random(10), 0
    for number in range(max(1, count // 3000)):
        table = draw_plant(dice, 8, 2)
        device = new_device(yard, f"held{number}", table)
        server, hand = yard.serve(device), Hand(dice, table)
        watched = Watched(device)
        hand.connect(server)
        for _ in range(8):
            hand.ask(20)
            watched.look()
            hand.ask(dice.choice([100, 500, 900]))
            watched.look()
        hand.leave()
        server.end()
        compare(yard, device, watched.mirror)
        watched.end()
        covered = [step.number for step in watched.steps] + [
            one for gap in watched.gaps for one in range(gap.first, gap.last + 1)
        ]
        check(sorted(covered) == sorted(hand.accepted), "steps and gaps aren't each action once")
        check(
            [words_of(step) for step in watched.steps] == [hand.accepted[step.number] for step in watched.steps],
            "other actions",
        )
        gaps += len(watched.gaps)
    check(gaps, "no gap came")
    return f"{gaps} gaps"


def crowded(yard: Yard, count: int) -> str:
    """A mirror that looks while a server writes as fast as it can misses nothing, over checkpoints that are made in
    pieces."""
    dice = random.Random(11)
    table = draw_plant(dice, 30, 30, segment=200_000)
    device = new_device(yard, "crowded", table)
    server, hand = yard.serve(device), Hand(dice, table)
    watched = Watched(device)
    watched.look()
    hand.connect(server)
    moments = iter(range(10_000, 10**9))
    while len(watched.steps) < count * 4:
        hand.ask_at(CLOCK, [f"CLOCK {next(moments)}" for _ in range(2000)])
        hand.moment = next(moments)
        hand.ask(400)
        hand.moment = max(hand.moment, next(moments))
        moments = iter(range(hand.moment + 1, 10**9))
        watched.look()
    hand.leave()
    server.end()
    shown = compare(yard, device, watched.mirror)
    watched.end()
    check(count < 2000 or reaches_far(device), "no action was committed while a checkpoint was made")
    check(
        not watched.gaps
        and [words_of(step) for step in watched.steps] == [hand.accepted[number] for number in sorted(hand.accepted)],
        "missed some",
    )
    return f"{len(watched.steps)} actions in {shown.split()[5]} epochs at full speed"


def reaches_far(path: str) -> bool:
    """A mirror begins with the half before, also where that has actions which were committed while the checkpoint was
    made; whether it has."""
    mirror = Mirror(path, far=True)
    newest, older = mirror.device.standing(), mirror.device.head_of(1 - mirror.device.standing().half)
    held = [action.number for frame in mirror.device.frames(older) for action in frame.actions]
    check(mirror.head == older and mirror.count == older.count, "a mirror doesn't begin with the half before")
    mirror.close()
    return held[-1] > newest.count


CHECKS = {"drawn": drawn, "mirror_tool": tool_shows, "moving": moving, "held": held_up, "crowded": crowded}
