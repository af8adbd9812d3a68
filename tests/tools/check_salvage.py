"""alm_salvage, and what tools do with a served device that is damaged, against the built program. tests/tools/flips.py
runs these checks.

The states that are expected are those that `show` has of a device which was given the same lines, up to the action
before the damage.
"""
import contextlib
import os
import re
import shutil
import sqlite3
import subprocess
from dataclasses import dataclass

from lib.tools import Yard, tool

from alarms.client import CLOCK, Client
from archives import archive_stopped
from damaged_devices import Place, content_of, gates, standing, written
from alarms.store import Store
from lib.places import DOCS
from lib.program import PLANT, Desk, check, draw_lines, run_words

PAGE = DOCS / "DAMAGE.md"
ALARM_TAG = 25
# Places in a frame: its epoch, its number, its count, and the kind of its first action.
EPOCH, NUMBER, COUNT, KIND = 1, 9, 17, 19
# What the metrics of a whole device say.
WHOLE = 'alarms_device_damaged{plant="watched"} 0\n'


@dataclass(frozen=True)
class Damage:
    """A byte that is changed, the words for alm_salvage, and how many actions the salvaged plant has."""

    name: str
    at: int
    words: list[object]
    count: int
    refusal: bool = False


class Plant:
    """A device whose journal has frames of one action, with the half before it whole; and the lines that were
    accepted."""

    def __init__(self, yard: Yard, seed: int):
        self.yard, self.accepted = yard, list[bytes]()
        self.device = yard.format(f"whole{seed}.device", PLANT)
        with Desk(yard.program, self.device) as desk:
            for line in draw_lines(seed, 240):
                if b" OK " in desk.ask(line):
                    self.accepted.append(line)
        self.content = content_of(self.device)
        self.gates, self.half = gates(self.content), standing(self.content)
        self.image = Place.of(self.content).frames(self.half) - Place.of(self.content).image
        check(
            len(self.gates) > 12 and self.gates[-1][1] == len(self.accepted) + 1 > self.gates[0][1],
            "the journal has",
            len(self.gates),
            "gates",
        )

    def damages(self) -> list[Damage]:
        """What is changed, and what can be salvaged."""
        (at, number), first, last = self.gates[5], self.gates[0][1] - 1, len(self.accepted)
        fields = (("epoch", EPOCH), ("number", NUMBER), ("n", COUNT), ("kind", KIND), ("gate", 0))
        tag, half = self.image + 16 + 4801 * 2 + 182 + ALARM_TAG, Place.of(self.content).half(self.half)
        return [
            *(Damage(name, at + place, [], number - 1) for name, place in fields),
            Damage("gate", at, ["--behind"], last),
            Damage("image", tag, [], 0, True),
            Damage("image", tag, ["--half", 1 - self.half], last),
            Damage("half", half, [], first),
            Damage("half", half, ["--half", self.half], last),
        ]

    def damaged(self, damage: Damage) -> str:
        changed = bytearray(self.content)
        changed[damage.at] ^= 0x40
        return written(self.yard, "damaged.device", bytes(changed))

    def shown(self, count: int) -> list[str]:
        """What `show` has behind so many actions."""
        device = self.yard.format("expected.device", PLANT)
        run_words(self.yard.program, ["desk", device], lines=b"".join(self.accepted[:count]))
        return states(self.yard.run("show", device))


def states(shown: str) -> list[str]:
    """The clock, the alarms and the lists, which are brought; not the count, nor the annunciations of an area."""
    return [line.partition(" COUNT ")[0].partition(" FLOOD ")[0] for line in shown.splitlines()]


def salvages(yard: Yard, step: int) -> str:
    """What is brought onto a new device is what `show` showed at that action, and what is left out is named."""
    done = 0
    for seed in range(1, 2 + 20 // step):
        plant = Plant(yard, seed)
        for damage in plant.damages():
            salvage(plant, damage)
            done += 1
    return f"{done} damaged devices salvaged"


def salvage(plant: Plant, damage: Damage) -> None:
    """Salvages a device by the block of the page."""
    copy, yard = plant.damaged(damage), plant.yard
    run = tool("alm_salvage", copy, "--table", *damage.words)
    if damage.refusal:
        check((run.returncode, run.stdout) == (1, "") and "--half " in run.stderr, damage, "gave", run)
        return
    check(run.returncode == 0 and f"brought: the plant after {damage.count} actions" in run.stderr, damage, "gave", run)
    left = [line.split() for line in run.stderr.splitlines() if line.startswith("salvage: left out: ")]
    check_left(plant, damage, [words[3] for words in left if words[4] != "actions"])
    new = yard.format("new.device", yard.write("same.toml", run.stdout))
    run = tool("alm_salvage", copy, yard.path("same.toml"), *damage.words)
    replies = yard.run("desk", new, lines=run.stdout).splitlines()
    check(run.returncode == 0 and all(" OK " in reply for reply in replies), damage, "a line was refused", replies)
    check(states(yard.run("show", new)) == plant.shown(damage.count), damage, "is salvaged as", yard.run("show", new))


def check_left(plant: Plant, damage: Damage, numbers: list[str]) -> None:
    """What is left out is named by its numbers: all that stands behind the damage and can be read. That of a damaged
    frame can't be."""
    first = damage.count + (1 if damage.name in ("gate", "image") else 2)
    wanted = (
        ["nothing"]
        if damage.name == "half" or first > len(plant.accepted)
        else [str(number) for number in range(first, len(plant.accepted) + 1)]
    )
    check(numbers == wanted, damage, "leaves out", numbers[:3], "..", numbers[-3:], "and not", wanted[:3])


class Watched:
    """A served device."""

    def __init__(self, yard: Yard):
        self.yard, self.device, self.moment = yard, yard.format("watched.device", PLANT), 0
        self.server = yard.serve(self.device)
        self.act(20)

    def act(self, count: int) -> None:
        with Client.connect(self.server.port, CLOCK) as clock:
            for _ in range(count):
                self.moment += 1
                clock.clock(self.moment)

    def page(self) -> str:
        """The metrics of the device."""
        return tool("alm_check", self.device, "--metrics").stdout

    def flip(self, at: int, bit: int) -> None:
        """Changes a byte below the server."""
        with open(self.device, "r+b") as file:
            file.seek(at)
            old = file.read(1)[0]
            file.seek(at)
            file.write(bytes([old ^ bit]))


def watched(yard: Yard, _step: int) -> str:
    """Bytes change below a running server: alm_check says so, also as metrics, and no longer once they are put back."""
    plant = Watched(yard)
    check(WHOLE in plant.page(), "of a whole device its metrics are", plant.page())
    at = gates(content_of(plant.device))[-1][0]
    plant.act(3)
    for place, field, bit in ((at + 35 + KIND, "text of an action", 0x40), (at + 35, "gate of a frame", 1)):
        judge_watched(plant, place, field, bit)
    plant.server.end()
    return "damage below a running server"


def judge_watched(plant: Watched, at: int, field: str, bit: int) -> None:
    """Changes a byte, sees that it is told, and puts it back."""
    plant.flip(at, bit)
    page, told = plant.page(), f'alarms_device_damaged{{plant="watched",half="0",at="{at}"}} 1\n'
    check(told in page and "\nalarms_journal_bytes{" in page, "of", field, "the metrics are", page)
    run = tool("alm_check", plant.device)
    check(run.returncode == 1 and f"at byte {at}: {field}" in run.stdout, "of", field, "alm_check says", run)
    plant.flip(at, bit)
    check(WHOLE in plant.page(), "behind", field, "the metrics are", plant.page())


def healed(yard: Yard, _step: int) -> str:
    """What changed behind the last action that was archived is told, is archived as a gap, and the rest behind it as it
    was."""
    plant = Watched(yard)
    archive_stopped(shutil.copyfile(plant.device, yard.path("copy.device")), yard.path("watched.sqlite"))
    at = gates(content_of(plant.device))[-1][0]
    plant.act(3)
    plant.flip(at + 35 + KIND, 0x40)
    run = tool("alm_journal", plant.device, "--from", 1)
    check(f"is damaged in half 0 at byte {at + 35 + KIND}: text of an action" in run.stderr, "it says", run.stderr)
    check(run.stdout.endswith("\n21 CLOCK 21\n"), "before the damage stands", run.stdout[-60:])
    plant.act(80)
    trail = tool("alm_journal", plant.device, "--from", 1).stdout
    check(trail.endswith("\n103 CLOCK 103\n"), "behind a checkpoint stands", trail[-60:])
    plant.server.end()
    archive_stopped(plant.device, yard.path("watched.sqlite"))
    with contextlib.closing(sqlite3.connect(yard.path("watched.sqlite"))) as store:
        missing = sorted(set(range(1, 104)) - {number for number, in store.execute("SELECT number FROM action")})
        gaps = store.execute("SELECT first, last, why FROM gap").fetchall()
    check(
        missing == list(range(22, missing[-1] + 1)) and gaps == [(22, missing[-1], "no longer in the file")],
        "the archive lacks",
        missing,
        "and has the gaps",
        gaps,
    )
    check(f"\n(actions 22 to {missing[-1]}: no longer in the file)\n" in trail, "the trail has", trail[-200:])
    return f"{len(missing)} actions of a damaged journal named as missing"


def header(yard: Yard, _step: int) -> str:
    """A damaged header is named, and nothing is taken of it; the first bytes of a backup mend it."""
    plant = Plant(yard, 4)
    damaged = Damage("rows", 9, [], 0, True)
    for name, words in (("alm_check", []), ("alm_salvage", ["--table"]), ("alm_journal", [])):
        run = tool(name, plant.damaged(damaged), *words)
        said = run.stdout + run.stderr
        check(
            run.returncode == 1 and "is damaged in its header at byte 9: rows\n" in said and said.count("\n") == 1,
            name,
            "says of a damaged header",
            run,
        )
    backup = yard.format("backup.device", PLANT)
    subprocess.run(
        ["dd", f"if={backup}", f"of={yard.path('damaged.device')}", "bs=23", "count=1", "conv=notrunc"],
        check=True,
        capture_output=True,
    )
    check(
        content_of(yard.path("damaged.device")) == plant.content
        and tool("alm_check", yard.path("damaged.device")).returncode == 0,
        "a header of a backup doesn't mend it",
    )
    return "a damaged header"


def block(yard: Yard, _step: int) -> str:
    """The page's block, as it stands there but for its paths, over a damaged frame; and with an option, over a damaged
    checkpoint."""
    text = PAGE.read_text(encoding="utf-8")
    found = re.search(r"<<'END'\n(.*?salvage.*?)^END$", text, re.MULTILINE | re.DOTALL)
    check(found, "the page has no block")
    steps = found[1].replace("/var/lib/alarms-archive/plant.sqlite", yard.path("plant.sqlite"))
    plant = Plant(yard, 3)
    for damage in plant.damages():
        if damage.refusal or "--behind" in damage.words:
            continue
        os.replace(plant.damaged(damage), yard.path("plant.device"))
        written(yard, "damaged.device", content_of(yard.path("plant.device")))
        Store.open(yard.path("plant.sqlite"), make=True).close()
        with_options = steps.replace("OPTIONS=\n", f"OPTIONS='{' '.join(map(str, damage.words))}'\n")
        run = subprocess.run(
            ["bash", "-eu"],
            input=with_options,
            cwd=yard.folder,
            capture_output=True,
            text=True,
            env=yard.with_commands(),
        )
        check(
            run.returncode == 0 and states(yard.run("show", yard.path("plant.device"))) == plant.shown(damage.count),
            "the block over",
            damage,
            "gave",
            run,
        )
        judge_archive(yard, plant, damage)
        os.remove(yard.path("plant.sqlite"))
    return "the page's block"


def judge_archive(yard: Yard, plant: Plant, damage: Damage) -> None:
    """The archive has what stood before the damage, and a gap at its place; nothing of it is made up."""
    with contextlib.closing(sqlite3.connect(yard.path("plant.sqlite"))) as store:
        actions = dict(store.execute("SELECT number, word FROM action"))
        gaps = store.execute("SELECT first, last, why FROM gap WHERE last IS NULL").fetchall()
    wanted = {number: line.split()[2].decode() for number, line in enumerate(plant.accepted, 1) if number in actions}
    check(
        actions == wanted and max(actions) <= max(damage.count, plant.gates[0][1] - 1),
        "of",
        damage,
        "the archive has",
        max(actions),
    )
    last = len(plant.accepted) if damage.name == "image" else max(actions)
    check(
        gaps == ([] if damage.name == "image" else [(last + 1, None, f"the device is damaged at byte {damage.at}")]),
        "of",
        damage,
        "the archive has the gaps",
        gaps,
    )


CHECKS = (salvages, header, block, watched, healed)
