#!/usr/bin/env python3
"""From an installed package to a register that raises an alarm, by docs/FIELD.md alone.

    tests/machines/fieldbus.py PROGRAM --root FOLDER [--short]

The package is built of PROGRAM, and FOLDER is started in a container: container.py says how it is made. It needs
python3-pymodbus and python3-serial-asyncio too. The plant is formatted and started by START's blocks; then the
blocks of "A register, step by step" are pasted in their order, word for word, as by one who knows no field bus and
reads the file in a pager. The device is the page's own, at the page's address. It is judged that the page's own line
comes from --show, that the alarm comes with the level and goes with it, and by another setpoint, and that the watching
alarm comes as the device's cable is pulled, and as the feed is stopped, or hangs.

It needs root, systemd-nspawn and dpkg-deb. It ends with status 77 where one isn't there, no FOLDER is given or FOLDER
lacks a package.
"""
import os
import re
import shutil
import subprocess
import sys
import time
from typing import Callable, Iterator

import container
import systemd
from alarms.client import Client, Lost
from alarms.replies import State
from alarms.table_file import Alarm
from lib.places import TOP
from lib.program import Wrong, begin, check, finish
from lib.tools import PATIENCE, await_true, end_all, started
from quarter import PAGES, SOCKETS, Terminal

SECTION, ADDRESS = "A register, step by step", "192.0.2.7"
INSTALLED = {"python3-pymodbus": "pymodbus", "python3-serial-asyncio": "serial_asyncio"}


# The page's device: each line of standard input is the level; at its end it is gone.
DEVICE = "/usr/lib/alarms/examples/level_device.py"


class Newcomer:
    """Who has the package and the pages, a device, and knows no field bus."""

    def __init__(self, there: container.Booted):
        self.there = there
        self.level = ""
        self.run("ip", "address", "add", f"{ADDRESS}/32", "dev", "lo")

    def run(self, *words: str) -> str:
        """What a command prints in the container; it ends with status 0."""
        run = subprocess.run(
            [*self.there.words, *words],
            capture_output=True,
            text=True,
            timeout=300,
            check=False,
            stdin=subprocess.DEVNULL,
        )
        check(run.returncode == 0, words, run.stdout, run.stderr)
        return run.stdout

    def blocks(self, page: str, heading: str) -> Iterator[str]:
        """The blocks of a section of the installed pages, in order; also those of a list, as they stand in the file."""
        with open(os.path.join(self.there.root, PAGES, page), encoding="utf-8") as file:
            section = re.search(rf"(?ms)^## {re.escape(heading)}\n(.*?)(?=^## |\Z)", file.read())
        check(section, page, "has no section", heading)
        for _, block in re.findall(r"(?ms)^( *)```sh\n(.*?)^\1```", section[1]):
            yield block

    def finds(self, page: str, pattern: str) -> str:
        """What a pattern finds on an installed page."""
        with open(os.path.join(self.there.root, PAGES, page), encoding="utf-8") as file:
            found = re.search(pattern, file.read())
        check(found, page, "has no", pattern)
        return found[1]

    def paste(self, block: str) -> str:
        """Runs a block at a terminal; what it printed."""
        return systemd.run(f"cd\n{block}", "/", b"", (*self.there.words, "bash", "-ec"))

    def start_device(self) -> None:
        """The device's cable is put in."""
        words = [*self.there.words, "python3", DEVICE, ADDRESS]
        self.device = started(
            subprocess.Popen(words, stdin=subprocess.PIPE, stderr=subprocess.DEVNULL, text=True, bufsize=1)
        )
        self.rise(self.level)
        await_true("a device", lambda: f"{ADDRESS}:502" in self.run("ss", "-Hltn"))

    def stop_device(self) -> None:
        """The device's cable is pulled."""
        self.device.stdin.close()
        self.device.wait(60)

    def rise(self, level: str) -> None:
        """The device has another level, in %."""
        self.level = level
        self.device.stdin.write(f"{level}\n")
        self.device.stdin.flush()

    def alarms(self) -> dict[str, tuple[Alarm, State]]:
        """Each alarm by its tag, and its state."""
        try:
            with Client.connect(os.path.join(self.there.root, SOCKETS), 3) as console:
                alarms = console.table().alarms
                states = console.states(range(len(alarms)))
                return {alarm.tag: (alarm, state) for alarm, state in zip(alarms, states)}
        except (Lost, OSError):
            return {}

    def at_console(self, tag: str, asks: Callable[[Client, int], object]) -> None:
        """Asks something of an alarm at a console."""
        with Client.connect(os.path.join(self.there.root, SOCKETS), 3) as console:
            numbers = {alarm.tag: number for number, alarm in enumerate(console.table().alarms)}
            asks(console, numbers[tag])

    def are(self, what: str, **wanted: bool) -> None:
        """These alarms' conditions become so; `_` stands for the hyphen of a tag."""

        def is_so() -> bool:
            found = self.alarms()
            return bool(found) and all(
                found[tag.replace("_", "-")][1].condition == holds for tag, holds in wanted.items()
            )

        await_true(what, is_so)


def serve_plant(one: Newcomer) -> None:
    """The package is installed, and a plant served, by the pages."""
    one.paste("apt-get install -y ./alarms_*_amd64.deb")
    for heading in ("Format", "Start, and the clock"):
        one.paste(next(one.blocks("START.md", heading)))
    check(one.alarms()["LI-107"][0].setpoint == 850, "the page says that the setpoint of LI-107 is 850")


def follow_page(one: Newcomer) -> None:
    """Each block of the section, in its order."""
    blocks = list(one.blocks("FIELD.md", SECTION))
    check(len(blocks) == 7, "the section has", len(blocks), "blocks")
    libraries, there, alarm, mapped, show, unit, seen = blocks
    one.paste(libraries)
    check("no answer" in one.paste(there).splitlines(), "the page's second block finds a device where none is")
    one.level = "62.5"
    one.start_device()
    check("there" in one.paste(there).splitlines(), "the page's second block doesn't find the device")
    said = one.paste(alarm)
    check("setpoint = 850" in said and "0.1 %" in said, "alm_export says", said)
    one.paste(mapped)
    looks = Terminal([*one.there.words, "bash", "-c", show])
    looks.says(re.escape(one.finds("FIELD.md", r"`(column/level says [^`]*)`")))
    looks.end()
    one.paste(unit)
    time.sleep(2)
    one.are("a level below the setpoint", LI_107=False, YS_124=False)
    one.rise("90.25")
    one.are("the alarm", LI_107=True, YS_124=False)
    listed = Terminal([*one.there.words, "bash", "-c", f"export TERM=xterm; {seen}"])
    listed.says("LI-107")
    listed.end()


def after_that(one: Newcomer) -> None:
    """What the page says of a cable that is pulled, of a level that goes, and of a feed that ends."""
    one.stop_device()
    one.are("the watching alarm of a device that doesn't answer", LI_107=True, YS_124=True)
    one.start_device()
    one.are("the device again", LI_107=True, YS_124=False)
    one.rise("62.5")
    one.are("the end of the alarm", LI_107=False, YS_124=False)
    for setpoint, holds in ((int(one.finds("FIELD.md", r"the setpoint, which is (\d+) for 60 %")), True), (850, False)):
        one.at_console("LI-107", lambda console, alarm: console.setpoint(alarm, setpoint))
        one.are(f"the alarm by a setpoint of {setpoint}", LI_107=holds, YS_124=False)
    hanging = int(one.finds("FIELD.md", r"feed that hangs is ended by systemd after (\d+) seconds"))
    for signal, patience in (("KILL", PATIENCE), ("STOP", PATIENCE + hanging)):
        one.at_console("YS-124", lambda console, alarm: console.acknowledge(alarm))
        one.run("systemctl", "kill", "--kill-whom=main", f"--signal={signal}", "alm_feed@plant")
        what = f"the watching alarm of a feed after {signal}, and its return"
        await_true(what, lambda: "YS-124" in (found := one.alarms()) and found["YS-124"][1].shown == "RTNUN", patience)
    one.run("systemctl", "stop", "alm_feed@plant")
    one.are("the watching alarm of a feed that is stopped", YS_124=True)


STEPS = (serve_plant, follow_page, after_that)


def lacks(root: str | None) -> str | None:
    """What is missing here."""
    why = container.lacks(root) or (None if shutil.which("dpkg-deb") else "no dpkg-deb")
    libraries = os.path.join(root or "", "usr/lib/python3/dist-packages")
    missing = [name for name, path in INSTALLED.items() if not os.path.exists(os.path.join(libraries, path))]
    return why or (f"FOLDER has no {', '.join(missing)}" if missing else None)


def walked(program: str, root: str, folder: str) -> list[str]:
    """Goes the way; how long each step took."""
    words = [str(TOP / "deploy" / "debian" / "build"), program, folder]
    package = subprocess.run(words, capture_output=True, text=True, check=True).stdout.strip()
    took = []
    bound = f"--bind-ro={package}:/root/{os.path.basename(package)}"
    with container.booted(root, folder, bound, "--private-network") as there:
        one = Newcomer(there)
        for step in STEPS:
            began = time.monotonic()
            step(one)
            took.append(f"{step.__name__} {time.monotonic() - began:.0f} s")
    return took


def main() -> None:
    words = sys.argv[1:]
    root = words[words.index("--root") + 1] if "--root" in words[:-1] else os.environ.get("DEBIAN_ROOT")
    why = lacks(root)
    if why or root is None:
        print("fieldbus: left out:", why)
        sys.exit(77)
    program, _, folder = begin(
        "fieldbus", [sys.argv[0], *(word for word in words if word not in ("--root", root))], 1, 1
    )
    began = time.monotonic()
    try:
        took = walked(program, root, folder)
    except (Wrong, systemd.Wrong, container.NoSystem, subprocess.SubprocessError, OSError) as wrong:
        sys.exit(f"fieldbus: {wrong}; what the container printed is in {folder}/console")
    finally:
        end_all()
    finish("fieldbus", folder, f"{'; '.join(took)}; none wrong, {time.monotonic() - began:.0f} s")


if __name__ == "__main__":
    main()
